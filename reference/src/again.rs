//! Claims cancelled as priced for a block that was none, and sent again, in small days: exchanges 2, 3, 4 bid 110 for
//! 30 customer contracts each, and home trades at 100.

use crate::cancellations::{Records, bytes_of, list_of, refused_last, sheet_of};
use crate::examples::{CLOSE, MORNING, own_sheet};
use crate::refusal::{No, Refusal};
use crate::{journal, sheet};

const INITIATOR: u32 = 4;
const TWICE: Option<No> = Some(No::UnknownOrTwice);

/// The quotes, and the trade at event 3.
fn traded(time: u32, size: u32, initiator: u32, delay: u32) -> Records {
    let quotes = (2..=4).map(|from| vec![1, 0, from, 0, 110, 30, 30, 0, 0, 0]);
    quotes.chain([vec![3, time, 0, 100, size, 0, 0, initiator, delay]]).collect()
}

/// These records after a trade of the morning.
fn after_trade(size: u32, initiator: u32, records: &[&[u32]]) -> Records {
    let mut day = traded(MORNING, size, initiator, 0);
    day.extend(records.iter().map(|record| record.to_vec()));
    day
}

fn lines_of(records: &Records) -> Vec<String> {
    let list = list_of(records);
    list.lines().filter(|line| line.contains('F')).map(|line| line.split_once(" F ").expect("F").1.into()).collect()
}

/// Exchange 2's first order, so long after the report of a trade that ends then; cancelled as no block so long after
/// that, and sent again so long after the cancellation.
fn reasons(report: u32, initiator: u32, waits: [u32; 3]) -> [String; 2] {
    let mut day = traded(report - 1_000, 5, initiator, 1_000);
    day.push(vec![7, 1_000 + waits[0], 0, 2, 100, 5]);
    day.push(vec![11, waits[1], 0]);
    day.push(vec![7, waits[2], 0, 2, 110, 5]);
    let reasons = lines_of(&day).into_iter().map(|line| line.split(' ').next().expect("a reason").to_string());
    reasons.collect::<Vec<_>>().try_into().expect("two lines")
}

#[test]
fn the_second_is_judged_by_15_alone() {
    for report in [MORNING, CLOSE - 300_001, CLOSE - 300_000, CLOSE] {
        for initiator in [0, INITIATOR] {
            for wait in [0, 60_001, 180_000] {
                assert_eq!(reasons(report, initiator, [0, 0, wait]), ["11", "0"]);
                assert_eq!(reasons(report, initiator, [0, 180_000, wait]), ["11", "0"]);
                assert_eq!(reasons(report, initiator, [0, wait, 180_001]), ["11", "15"]);
            }
        }
    }
}

/// Example 8 stays for first claims.
#[test]
fn the_first_keeps_the_reason_it_has() {
    assert_eq!(reasons(MORNING, 0, [180_000, 0, 0]), ["11", "0"]);
    assert_eq!(reasons(MORNING, 0, [180_001, 0, 180_000]), ["8", "0"]);
    assert_eq!(reasons(CLOSE - 300_000, 0, [60_001, 0, 180_000]), ["8", "0"]);
    assert_eq!(reasons(CLOSE - 300_000, INITIATOR, [60_001, 0, 180_000]), ["11", "0"]);
    assert_eq!(reasons(MORNING, INITIATOR, [180_001, 0, 180_001]), ["9", "15"]);
}

/// The reasons of exchange 2's second order, sent in time and late, in a day of this before the trade.
fn second(before: &[&[u32]], complex: u32, initiator: u32, price: u32, held: u32) -> [String; 2] {
    [180_000, 180_001].map(|wait| {
        let mut day: Records = vec![vec![1, MORNING, 2, 0, 110, 30, held, 0, 0, 0]];
        day.extend(before.iter().map(|record| record.to_vec()));
        day.push(vec![3, 20_001, 0, 100, 5, 0, complex, initiator, 0]);
        day.extend([vec![7, 0, 0, 2, 100, 5], vec![11, 0, 0], vec![7, wait, 0, 2, price, 5]]);
        lines_of(&day)[1].split(' ').next().expect("a reason").into()
    })
}

#[test]
fn all_other_reasons_judge_the_second_as_ever() {
    for initiator in [0, INITIATOR] {
        assert_eq!(second(&[], 0, initiator, 110, 30), ["0", "15"]);
        assert_eq!(second(&[], 0, initiator, 100, 30), ["11", "15"]);
        assert_eq!(second(&[], 0, initiator, 111, 30), ["12", "15"]);
        assert_eq!(second(&[], 0, initiator, 110, 0), ["13", "15"]);
        for price in [100, 110, 111] {
            assert_eq!(second(&[&[1, 0, 2, 0, 100, 30, 30, 0, 0, 0]], 0, initiator, price, 30), ["10"; 2]);
            assert_eq!(second(&[&[4, 0, 1, 2, 0, 2, 110, 5]], 0, initiator, price, 30), ["2"; 2]);
            assert_eq!(second(&[&[2, 0, 2, 1]], 0, initiator, price, 30), ["3"; 2]);
            assert_eq!(second(&[&[2, 0, 2, 2]], 0, initiator, price, 30), ["5"; 2]);
            assert_eq!(second(&[&[2, 0, 1, 2]], 0, initiator, price, 30), ["6"; 2]);
            assert_eq!(second(&[], 1, initiator, price, 30), ["7"; 2]);
        }
    }
    assert_eq!(second(&[&[2, 0, 1, 1]], 0, 0, 110, 30), ["4"; 2]);
    assert_eq!(second(&[&[2, 0, 1, 1]], 0, INITIATOR, 110, 30), ["0", "15"]);
}

#[test]
fn fifteen_comes_before_fourteen() {
    for (wait, in_time, late) in [(180_000, "14 0 5", "0 5 0"), (180_001, "15 0 5", "15 0 5")] {
        for (named, line) in [(180_000, in_time), (180_001, late)] {
            let asked = [7, 0, 0, 2, 100, 5];
            let again = [7, wait, 0, 2, 110, 5];
            let day = after_trade(5, INITIATOR, &[&asked, &[11, 0, 0], &again, &[8, named, 1, INITIATOR]]);
            assert_eq!(lines_of(&day), ["11 0 5", line]);
        }
    }
}

#[test]
fn what_is_sent_again_is_shared_out_with_the_others() {
    let first = [[7, 0, 0, 2, 100, 30], [7, 0, 0, 3, 100, 30], [7, 0, 0, 4, 110, 30]];
    let again: [&[u32]; 4] = [&[11, 0, 0], &[11, 0, 1], &[7, 0, 0, 3, 110, 30], &[7, 180_001, 0, 2, 110, 30]];
    let records = |count: usize| {
        let asked: Vec<&[u32]> = first.iter().map(|record| &record[..]).chain(again[..count].iter().copied()).collect();
        bytes_of(&after_trade(20, 0, &asked))
    };
    let before = [[11, 0, 30], [11, 0, 30], [0, 20, 10]];
    assert_eq!(own_sheet(&records(0)), sheet_of(&before));
    assert_eq!(own_sheet(&records(2)), sheet_of(&before));
    let shared = [[11, 0, 30], [11, 0, 30], [0, 10, 20], [0, 10, 20], [15, 0, 30]];
    assert_eq!(own_sheet(&records(3)), sheet_of(&shared[..4]));
    assert_eq!(own_sheet(&records(4)), sheet_of(&shared));
    let refused = |at: usize, line, no, place| {
        let mut lines = shared;
        lines[at] = line;
        assert_eq!(sheet::check(&records(4), &sheet_of(&lines)), Err(Refusal { no, place }));
    };
    refused(0, [0, 0, 30], No::WrongReason, 0);
    refused(0, [11, 1, 29], No::AboveClaim, 0);
    refused(3, [8, 0, 30], No::WrongReason, 3);
    refused(3, [0, 9, 21], No::NotDueTotal, 0);
    refused(4, [0, 0, 30], No::WrongReason, 4);
    refused(4, [8, 0, 30], No::WrongReason, 4);
    refused(4, [15, 1, 29], No::AboveClaim, 4);
}

#[test]
fn at_the_close_too() {
    let again: [&[u32]; 3] = [&[7, 0, 0, 2, 100, 30], &[11, 0, 0], &[7, 0, 0, 2, 110, 30]];
    for (closing, line) in [(3, "0 10 20"), (4, "0 25 5"), (5, "0 25 5"), (6, "0 25 5"), (7, "0 25 5")] {
        let mut day = after_trade(25, 0, &again);
        day.insert(closing, vec![9, 0]);
        assert_eq!(lines_of(&day), ["11 0 30", line]);
    }
}

#[test]
fn a_trade_has_up_to_14_lines() {
    let mut numbers = vec![1, 8, CLOSE];
    numbers.extend([10; 16]);
    for from in 2..=8 {
        numbers.extend([1, 0, from, 0, 110, 30, 30, 0, 0, 0]);
    }
    numbers.extend([3, MORNING, 0, 100, 17, 0, 0, 0, 0]);
    for (claims, price) in [(0..7, 100), (7..14, 110)] {
        for from in 2..=8 {
            numbers.extend([7, 0, 0, from, price, 30]);
        }
        for claim in claims.filter(|_| price == 100) {
            numbers.extend([11, 0, claim]);
        }
    }
    let mut bytes = Vec::new();
    for number in numbers {
        crate::fuzz::activity::put_number(&mut bytes, number);
    }
    let shares = [3, 3, 3, 2, 2, 2, 2].map(|filled| [0, filled, 30 - filled]);
    let lines = [[[11, 0, 30]; 7], shares].concat();
    assert_eq!(own_sheet(&bytes), sheet_of(&lines));
    assert_eq!(sheet::check(&bytes, &sheet_of(&lines)), Ok(()));
}

#[test]
fn an_event_that_prints_nothing() {
    let again: [&[u32]; 4] = [&[7, 0, 0, 2, 100, 30], &[11, 5, 0], &[7, 0, 0, 2, 110, 30], &[4, 0, 1, 2, 0, 2, 110, 5]];
    let day = after_trade(10, 0, &again);
    assert_eq!(list_of(&day), "event what a b c\n3 T 0 3 0\n4 F 11 0 30\n6 F 0 10 20\n7 S 0 0 0\n");
    let journal = bytes_of(&day);
    let mut again = vec![0; journal.len()];
    assert_eq!(journal::rewrite(&journal, &mut again), Ok(journal.len()));
    assert_eq!(again, journal);
}

#[test]
fn what_may_not_be_cancelled() {
    let asked = [7, 0, 0, 2, 100, 30];
    let refused = |records: &[&[u32]]| refused_last(&after_trade(20, INITIATOR, records));
    for wait in [0, 60_001, 180_000] {
        assert_eq!(refused(&[&asked, &[11, wait, 0]]), None);
    }
    assert_eq!(refused(&[&asked, &[11, 180_001, 0]]), TWICE);
    for unknown in [1, 511, 512, 268_435_455] {
        assert_eq!(refused(&[&asked, &[11, 0, unknown]]), TWICE);
    }
    assert_eq!(refused_last(&vec![vec![11, 0, 0]]), TWICE);
    for price in [99, 101, 110] {
        assert_eq!(refused(&[&[7, 0, 0, 2, price, 30], &[11, 0, 0]]), TWICE);
    }
    assert_eq!(refused(&[&[7, 86_399_999 - MORNING, 0, 2, 100, 30], &[11, 0, 0]]), None);
    assert_eq!(refused(&[&[7, 86_399_999 - MORNING, 0, 2, 100, 30], &[11, 1, 0]]), Some(No::Field));
}

/// The only exchange that shows a price bids this at the trade and that later.
fn said_of_a_block(shower: u32, at_trade: u32, later: u32, form: u32, size: u32) -> Option<No> {
    let quote = |bid: u32| match bid {
        0 => vec![1, 0, shower, 0, 0, 0, 0, 0, 0, 0],
        _ => vec![1, 0, shower, 0, bid, 9, 9, 0, 0, 0],
    };
    refused_last(&vec![
        quote(at_trade),
        vec![3, MORNING, 0, 300, size, form, 0, 0, 0],
        vec![7, 0, 0, 2, 300, 30],
        quote(later),
        vec![11, 0, 0],
    ])
}

#[test]
fn a_block_is_one_by_the_prices_at_the_trade() {
    for shower in [1, 2, 3] {
        for later in [0, 300, 301] {
            for form in [1, 2] {
                assert_eq!(said_of_a_block(shower, 301, later, form, 500), TWICE);
                assert_eq!(said_of_a_block(shower, 300, later, form, 500), None);
                assert_eq!(said_of_a_block(shower, 0, later, form, 500), None);
                assert_eq!(said_of_a_block(shower, 301, later, form, 499), None);
            }
            assert_eq!(said_of_a_block(shower, 301, later, 0, 500), None);
        }
    }
}

#[test]
fn a_claim_is_cancelled_once_by_either_kind() {
    let asked = [7, 0, 0, 2, 100, 30];
    let again = [7, 0, 0, 2, 100, 30];
    let (no_block, named) = ([11, 0, 0], [8, 0, 0, INITIATOR]);
    let refused = |records: &[&[u32]]| refused_last(&after_trade(20, INITIATOR, records));
    for second in [&no_block[..], &named] {
        assert_eq!(refused(&[&asked, &no_block, second]), TWICE);
        assert_eq!(refused(&[&asked, &named, second]), TWICE);
        assert_eq!(refused(&[&asked, &no_block, &again, second]), TWICE);
    }
    // Late by its own measure, a cancellation that names the initiator has cancelled the claim all the same.
    let near_close = CLOSE - 300_000 - MORNING;
    let asked_then = [7, near_close, 0, 2, 100, 30];
    assert_eq!(refused(&[&asked_then, &[8, 60_001, 0, INITIATOR], &no_block]), TWICE);
    // The second may be cancelled naming the initiator, but not as no block.
    assert_eq!(refused(&[&asked, &no_block, &again, &[8, 0, 1, INITIATOR]]), None);
    assert_eq!(refused(&[&asked, &no_block, &again, &[11, 0, 1]]), TWICE);
    assert_eq!(refused(&[&asked, &no_block, &again, &[8, 0, 1, INITIATOR], &[11, 0, 1]]), TWICE);
}

#[test]
fn one_claim_that_is_not_so_cancelled() {
    let asked = [7, 0, 0, 2, 100, 30];
    let again = [7, 0, 0, 2, 110, 30];
    let refused = |records: &[&[u32]]| refused_last(&after_trade(20, INITIATOR, records));
    assert_eq!(refused(&[&asked, &again]), TWICE);
    assert_eq!(refused(&[&asked, &[8, 0, 0, INITIATOR], &again]), TWICE);
    assert_eq!(refused(&[&asked, &[11, 0, 0], &again]), None);
    assert_eq!(refused(&[&asked, &[11, 0, 0], &again, &again]), TWICE);
    assert_eq!(refused(&[&asked, &[11, 0, 0], &again, &[8, 0, 1, INITIATOR], &again]), TWICE);
    // It is one of its exchange and its trade.
    let other = [7, 0, 0, 3, 100, 30];
    assert_eq!(refused(&[&asked, &other, &[11, 0, 0], &[11, 0, 1], &again, &[7, 0, 0, 3, 110, 30]]), None);
    assert_eq!(refused(&[&asked, &other, &[11, 0, 0], &[7, 0, 0, 3, 110, 30]]), TWICE);
    let trade = [3, 0, 0, 100, 5, 0, 0, 0, 0];
    assert_eq!(refused(&[&asked, &trade, &[7, 0, 1, 2, 100, 5], &[11, 0, 0], &[7, 0, 1, 2, 110, 5]]), TWICE);
    assert_eq!(refused(&[&asked, &trade, &[7, 0, 1, 2, 100, 5], &[11, 0, 0], &[11, 0, 1]]), None);
}
