//! Cancellations that name the initiator, in small days: exchanges 2, 3, 4 bid 110 for 30 customer contracts each, home
//! trades at 100 on an order of exchange 4, and 2, 3, 4 ask for 30 each in turn.

use crate::examples::{CLOSE, MORNING, day_of, own_sheet, printed};
use crate::fuzz::activity::put_number;
use crate::refusal::{No, Refusal};
use crate::{journal, sheet};

pub type Records = Vec<Vec<u32>>;

const INITIATOR: u32 = 4;

pub fn bytes_of(records: &Records) -> Vec<u8> {
    day_of(&records.iter().map(Vec::as_slice).collect::<Vec<_>>())
}

pub fn list_of(records: &Records) -> String {
    printed(&records.iter().map(Vec::as_slice).collect::<Vec<_>>())
}

/// The quotes, the trade at event 3, the Satisfaction Orders 0, 1, 2 at events 4, 5, 6.
fn claims_on(size: u32, initiator: u32) -> Records {
    let quotes = (2..=4).map(|from| vec![1, 0, from, 0, 110, 30, 30, 0, 0, 0]);
    let trade = [vec![3, MORNING, 0, 100, size, 0, 0, initiator, 0]];
    let asked = (2..=4).map(|from| vec![7, 0, 0, from, 110, 30]);
    quotes.chain(trade).chain(asked).collect()
}

/// The same with these cancellations after it: milliseconds, order, exchange named.
fn cancelled_on(size: u32, cancellations: &[[u32; 3]]) -> Records {
    let mut records = claims_on(size, INITIATOR);
    records.extend(cancellations.iter().map(|fields| [&[8], &fields[..]].concat()));
    records
}

pub fn sheet_of(lines: &[[u32; 3]]) -> Vec<u8> {
    let mut bytes = Vec::new();
    for &number in lines.iter().flatten() {
        put_number(&mut bytes, number);
    }
    bytes
}

/// The line of the only Satisfaction Order, received then for a trade made 70 and reported 50 seconds before, and
/// cancelled so long after.
fn line_after(received: u32, wait: u32) -> String {
    let list = printed(&[
        &[1, received - 70_000, 2, 0, 110, 20, 20, 0, 0, 0],
        &[3, 0, 0, 100, 5, 0, 0, INITIATOR, 20_000],
        &[7, 70_000, 0, 2, 110, 5],
        &[2, 0, 2, 1],
        &[8, wait, 0, INITIATOR],
    ]);
    list.lines().last().expect("a list has lines").into()
}

const IN_TIME: &str = "2 F 14 0 5";
const LATE: &str = "2 F 0 5 0";

#[test]
fn time_runs_from_the_receipt() {
    for received in [MORNING, CLOSE - 300_001] {
        for wait in [0, 60_001, 180_000] {
            assert_eq!(line_after(received, wait), IN_TIME);
        }
        assert_eq!(line_after(received, 180_001), LATE);
    }
    for received in [CLOSE - 300_000, CLOSE - 299_999, CLOSE, CLOSE + 1] {
        for wait in [0, 60_000] {
            assert_eq!(line_after(received, wait), IN_TIME);
        }
        for wait in [60_001, 180_000, 180_001] {
            assert_eq!(line_after(received, wait), LATE);
        }
    }
}

#[test]
fn a_cancelled_claim_is_not_due() {
    let shared = sheet_of(&[[0, 7, 23], [0, 7, 23], [0, 6, 24]]);
    assert_eq!(own_sheet(&bytes_of(&cancelled_on(20, &[]))), shared);
    let cases: [(u32, &[[u32; 3]], [[u32; 3]; 3]); 6] = [
        (20, &[[0, 0, 4]], [[14, 0, 30], [0, 10, 20], [0, 10, 20]]),
        (20, &[[0, 1, 4]], [[0, 10, 20], [14, 0, 30], [0, 10, 20]]),
        (20, &[[9, 2, 4], [9, 0, 4]], [[14, 0, 30], [0, 20, 10], [14, 0, 30]]),
        (20, &[[0, 0, 4], [0, 1, 4], [0, 2, 4]], [[14, 0, 30]; 3]),
        (40, &[[180_000, 2, 4], [1, 1, 4]], [[0, 20, 10], [0, 20, 10], [14, 0, 30]]),
        (10, &[[0, 0, 4]], [[14, 0, 30], [0, 10, 20], [0, 10, 20]]),
    ];
    for (size, cancellations, lines) in cases {
        let journal = bytes_of(&cancelled_on(size, cancellations));
        assert_eq!(own_sheet(&journal), sheet_of(&lines), "{size} {cancellations:?}");
        assert_eq!(sheet::check(&journal, &sheet_of(&lines)), Ok(()));
    }
}

#[test]
fn a_sheet_has_to_take_in_the_cancellation() {
    let refused = |no, place| Err(Refusal { no, place });
    let check = |wait, lines| sheet::check(&bytes_of(&cancelled_on(20, &[[wait, 1, 4]])), &sheet_of(lines));
    let in_time = 180_000;
    let late = 180_001;
    assert_eq!(check(in_time, &[[0, 7, 23], [0, 7, 23], [0, 6, 24]]), refused(No::WrongReason, 1));
    assert_eq!(check(in_time, &[[0, 7, 23], [14, 7, 23], [0, 6, 24]]), refused(No::AboveClaim, 1));
    assert_eq!(check(in_time, &[[0, 7, 23], [14, 0, 30], [0, 6, 24]]), refused(No::NotDueTotal, 0));
    assert_eq!(check(in_time, &[[0, 11, 19], [14, 0, 30], [0, 9, 21]]), refused(No::ShareRule, 0));
    assert_eq!(check(late, &[[0, 7, 23], [0, 7, 23], [0, 6, 24]]), Ok(()));
    assert_eq!(check(late, &[[0, 6, 24], [0, 7, 23], [0, 7, 23]]), Ok(()));
    assert_eq!(check(late, &[[0, 10, 20], [14, 0, 30], [0, 10, 20]]), refused(No::WrongReason, 1));
    assert_eq!(check(late, &[[0, 10, 20], [0, 0, 30], [0, 10, 20]]), refused(No::ShareRule, 0));
}

#[test]
fn at_the_close_too() {
    let mut records = cancelled_on(12, &[[0, 0, 4]]);
    records.insert(3, vec![9, 0]);
    assert_eq!(own_sheet(&bytes_of(&records)), sheet_of(&[[14, 0, 30], [0, 6, 24], [0, 6, 24]]));
    records.push(vec![8, 0, 2, 4]);
    assert_eq!(own_sheet(&bytes_of(&records)), sheet_of(&[[14, 0, 30], [0, 10, 20], [14, 0, 30]]));
}

/// What F says of exchange 2's order in a day of these quotes and this price, with what comes before the trade, so long
/// after the report.
fn reasons(before: &[&[u32]], complex: u32, price: u32, held: u32, wait: u32) -> [String; 3] {
    let quote = vec![1, MORNING, 2, 0, 110, 30, held, 0, 0, 0];
    let trade = vec![3, 20_001, 0, 100, 5, 0, complex, INITIATOR, 0];
    let middle = before.iter().map(|record| record.to_vec());
    let day: Records = [quote].into_iter().chain(middle).chain([trade, vec![7, wait, 0, 2, price, 5]]).collect();
    [None, Some(0), Some(180_001)].map(|cancelled| {
        let cancellation = cancelled.map(|wait| vec![8, wait, 0, INITIATOR]);
        let list = list_of(&day.iter().cloned().chain(cancellation).collect());
        let last = list.lines().last().expect("a list has lines");
        last.split(' ').nth(2).expect("a line has five words").into()
    })
}

#[test]
fn judged_after_9_and_before_11() {
    assert_eq!(reasons(&[], 0, 110, 30, 0), ["0", "14", "0"]);
    assert_eq!(reasons(&[], 0, 100, 30, 0), ["11", "14", "11"]);
    assert_eq!(reasons(&[], 0, 111, 30, 0), ["12", "14", "12"]);
    assert_eq!(reasons(&[], 0, 110, 0, 0), ["13", "14", "13"]);
    for price in [100, 110, 111] {
        assert_eq!(reasons(&[&[1, 0, 2, 0, 100, 30, 30, 0, 0, 0]], 0, price, 30, 0), ["10"; 3]);
        assert_eq!(reasons(&[&[4, 0, 1, 2, 0, 2, 110, 5]], 0, price, 30, 0), ["2"; 3]);
        assert_eq!(reasons(&[&[2, 0, 2, 1]], 0, price, 30, 0), ["3"; 3]);
        assert_eq!(reasons(&[&[2, 0, 2, 2]], 0, price, 30, 0), ["5"; 3]);
        assert_eq!(reasons(&[&[2, 0, 1, 2]], 0, price, 30, 0), ["6"; 3]);
        assert_eq!(reasons(&[], 1, price, 30, 0), ["7"; 3]);
        assert_eq!(reasons(&[], 0, price, 30, 180_001), ["9"; 3]);
    }
    // Home that is not firm is a reason only without an initiator.
    assert_eq!(reasons(&[&[2, 0, 1, 1]], 0, 110, 30, 180_000), ["0", "14", "0"]);
}

#[test]
fn an_event_that_prints_nothing() {
    let mut records = cancelled_on(10, &[[5, 1, 4]]);
    records.push(vec![4, 0, 1, 2, 0, 2, 110, 5]);
    let list = "event what a b c\n3 T 0 3 0\n4 F 0 10 20\n5 F 14 0 30\n6 F 0 10 20\n8 S 0 0 0\n";
    assert_eq!(list_of(&records), list);
    let journal = bytes_of(&records);
    let mut again = vec![0; journal.len()];
    assert_eq!(journal::rewrite(&journal, &mut again), Ok(journal.len()));
    assert_eq!(again, journal);
}

/// What the last record is refused for; those before it are not.
pub fn refused_last(records: &Records) -> Option<No> {
    let (_, before) = records.split_last().expect("there are records");
    let start = bytes_of(&before.to_vec()).len();
    assert_eq!(journal::accept(&bytes_of(records)[..start]), Ok(()));
    let refusal = journal::accept(&bytes_of(records)).err()?;
    assert_eq!(refusal.place as usize, start);
    Some(refusal.no)
}

#[test]
fn what_is_refused() {
    let refused = |cancellation: [u32; 3]| refused_last(&cancelled_on(20, &[cancellation]));
    for order in 0..=2 {
        assert_eq!(refused([0, order, 4]), None);
        for another in [1, 2, 3] {
            assert_eq!(refused([0, order, another]), Some(No::UnknownOrTwice));
        }
        for none in [0, 5, 268_435_455] {
            assert_eq!(refused([0, order, none]), Some(No::Field));
        }
    }
    for unknown in [3, 511, 512, 268_435_455] {
        assert_eq!(refused([0, unknown, 4]), Some(No::UnknownOrTwice));
        assert_eq!(refused([0, unknown, 0]), Some(No::Field));
    }
    assert_eq!(refused([86_399_999 - MORNING, 0, 4]), None);
    assert_eq!(refused([86_400_000 - MORNING, 0, 4]), Some(No::Field));
    assert_eq!(refused_last(&vec![vec![8, 0, 0, 4]]), Some(No::UnknownOrTwice));
}

#[test]
fn a_trade_without_initiator_has_none_to_be_named() {
    for named in 1..=4 {
        let mut records = claims_on(20, 0);
        records.push(vec![8, 0, 0, named]);
        assert_eq!(refused_last(&records), Some(No::UnknownOrTwice));
    }
}

#[test]
fn each_claim_is_cancelled_once_in_time_or_late() {
    for first in [0, 180_000, 180_001] {
        for order in 0..=2 {
            let again = if order == 1 { Some(No::UnknownOrTwice) } else { None };
            assert_eq!(refused_last(&cancelled_on(20, &[[first, 1, 4], [0, order, 4]])), again);
        }
        assert_eq!(refused_last(&cancelled_on(20, &[[first, 1, 4], [0, 1, 5]])), Some(No::Field));
    }
}

#[test]
fn the_initiator_may_ask_itself_and_each_trade_has_its_own() {
    let mut records = claims_on(20, INITIATOR);
    records.extend([vec![3, 0, 0, 100, 5, 0, 0, 2, 0], vec![7, 0, 1, 4, 110, 30]]);
    for (order, right) in [(0, 4), (2, 4), (3, 2)] {
        for named in 2..=4 {
            let mut records = records.clone();
            records.push(vec![8, 0, order, named]);
            let refused = if named == right { None } else { Some(No::UnknownOrTwice) };
            assert_eq!(refused_last(&records), refused);
        }
    }
}
