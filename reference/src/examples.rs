//! Day D and the thirteen examples of the paper, by number, and the ten contracts at the close. Examples 4 to 7 leave
//! prices, senders and N open: here home is 1 of four, the trade is at 100 and exchanges 2, 3, 4 bid 110.

use crate::event::{HomeTrade, Quote};
use crate::fuzz::activity::put_number;
use crate::market::Market;
use crate::refusal::{No, Refusal};
use crate::{day, journal, sheet, vectors};

pub const CLOSE: u32 = 57_600_000;
pub const MORNING: u32 = 36_000_000;

/// Home 1 of four with firm sizes of ten, and these records.
pub fn day_of(records: &[&[u32]]) -> Vec<u8> {
    let mut journal = Vec::new();
    let header = [&[1, 4, CLOSE], &[10; 8][..]].concat();
    for &number in header.iter().chain(records.iter().copied().flatten()) {
        put_number(&mut journal, number);
    }
    journal
}

pub fn printed(records: &[&[u32]]) -> String {
    String::from_utf8(day::printed(&day_of(records))).expect("lists are plain text")
}

pub fn own_sheet(journal: &[u8]) -> Vec<u8> {
    let mut out = vec![0; sheet::Sheet::MOST_BYTES];
    let end = sheet::write(journal, &mut out).expect("the journal is good and the room enough");
    out.truncate(end);
    out
}

fn sheet_of(fills: &[u32], sizes: &[u32]) -> Vec<u8> {
    let mut bytes = Vec::new();
    for (filled, size) in fills.iter().zip(sizes) {
        for number in [0, *filled, size - filled] {
            put_number(&mut bytes, number);
        }
    }
    bytes
}

/// A trade at 100, and Satisfaction Orders for it at the 110 that exchanges 2, 3, .. bid for these customers.
fn shared_records(trade: u32, customers: &[u32], sizes: &[u32]) -> Vec<Vec<u32>> {
    let quotes = customers.iter().zip(2..).map(|(&held, from)| vec![1, 0, from, 0, 110, held, held, 0, 0, 0]);
    let made = [vec![3, 0, 0, 100, trade, 0, 0, 0, 0]];
    let asked = sizes.iter().zip(2..).map(|(&size, from)| vec![7, 0, 0, from, 110, size]);
    quotes.chain(made).chain(asked).collect()
}

fn shared(trade: u32, customers: &[u32], sizes: &[u32]) -> Vec<u8> {
    let records = shared_records(trade, customers, sizes);
    day_of(&records.iter().map(Vec::as_slice).collect::<Vec<_>>())
}

/// The same for two of 30, with the closing record at a place among the records: two quotes, the trade, two claims.
fn shared_at_close(trade: u32, closing: usize) -> Vec<u8> {
    let mut records = shared_records(trade, &[30; 2], &[30; 2]);
    records.insert(closing, vec![9, 0]);
    day_of(&records.iter().map(Vec::as_slice).collect::<Vec<_>>())
}

/// All fills up to the sizes that the checker passes.
fn good_fills(journal: &[u8], sizes: &[u32]) -> Vec<Vec<u32>> {
    let mut all = vec![vec![]];
    for &size in sizes {
        let longer = |fills: &Vec<u32>| (0..=size).map(|next| [&fills[..], &[next]].concat()).collect::<Vec<_>>();
        all = all.iter().flat_map(longer).collect();
    }
    all.retain(|fills| sheet::check(journal, &sheet_of(fills, sizes)).is_ok());
    all
}

fn is_block(price: u32, size: u32) -> bool {
    let mut market = Market::default();
    market.quote(&Quote { exchange: 1, series: 0, prices: [0, price - 1], customers: [0, 0] });
    let trade = HomeTrade { series: 0, price, size, block_form: 1, complex: false, initiator: None, delay: 0 };
    market.is_block(&trade)
}

#[test]
fn examples_1_to_3_blocks() {
    assert!(is_block(300, 500));
    assert!(!is_block(400, 499));
    assert!(!is_block(299, 500));
}

#[test]
fn example_4_shares_come_out_even() {
    let sizes = [150, 70, 30];
    let journal = shared(100, &sizes, &sizes);
    assert_eq!(own_sheet(&journal), sheet_of(&[60, 28, 12], &sizes));
    assert_eq!(good_fills(&journal, &sizes), [[60, 28, 12]]);
}

#[test]
fn example_5_the_odd_contracts_may_go_to_any() {
    let sizes = [30; 3];
    let journal = shared(20, &sizes, &sizes);
    assert_eq!(own_sheet(&journal), sheet_of(&[7, 7, 6], &sizes));
    assert_eq!(good_fills(&journal, &sizes), [[6, 7, 7], [7, 6, 7], [7, 7, 6]]);
}

#[test]
fn example_6_what_one_did_not_ask_for_goes_to_the_other() {
    let sizes = [5, 30];
    let journal = shared(20, &[30, 30], &sizes);
    assert_eq!(own_sheet(&journal), sheet_of(&[5, 15], &sizes));
    assert_eq!(good_fills(&journal, &sizes), [[5, 15]]);
}

#[test]
fn example_7_within_the_firm_size_every_claim_is_due() {
    let sizes = [30; 2];
    let journal = shared(10, &sizes, &sizes);
    assert_eq!(own_sheet(&journal), sheet_of(&[10, 10], &sizes));
    assert_eq!(good_fills(&journal, &sizes), [[10, 10]]);
}

/// The reason on a Satisfaction Order so long after the report; the trade is reported with a delay.
fn reason_after(report: u32, wait: u32) -> String {
    const DELAY: u32 = 1_000;
    let list = printed(&[
        &[1, report - DELAY, 2, 0, 110, 20, 20, 0, 0, 0],
        &[3, 0, 0, 100, 5, 0, 0, 0, DELAY],
        &[7, DELAY + wait, 0, 2, 110, 5],
    ]);
    list.lines().last().expect("a list has lines").into()
}

#[test]
fn example_8_time_runs_from_the_report() {
    assert_eq!(reason_after(CLOSE - 300_001, 180_000), "2 F 0 5 0");
    assert_eq!(reason_after(CLOSE - 300_001, 180_001), "2 F 8 0 5");
    assert_eq!(reason_after(CLOSE - 300_000, 60_000), "2 F 0 5 0");
    assert_eq!(reason_after(CLOSE - 300_000, 60_001), "2 F 8 0 5");
}

#[test]
fn example_9_an_order_unanswered_for_more_than_20_seconds() {
    for (wait, line) in [(20_000, "3 F 0 5 0"), (20_001, "3 F 2 0 5")] {
        let list = printed(&[
            &[1, MORNING, 2, 0, 110, 20, 20, 0, 0, 0],
            &[4, 0, 1, 2, 0, 2, 110, 5],
            &[3, wait, 0, 100, 5, 0, 0, 0, 0],
            &[7, 0, 0, 2, 110, 5],
        ]);
        assert_eq!(list.lines().last(), Some(line));
    }
}

#[test]
fn example_10_clear_locked_crossed() {
    for (bid, line) in [(119, "1 Q 0 0 0"), (120, "1 Q 1 2 1"), (121, "1 Q 2 2 1")] {
        let list = printed(&[&[1, 0, 2, 0, 0, 0, 0, 120, 5, 0], &[1, 0, 1, 0, bid, 5, 0, 0, 0, 0]]);
        assert_eq!(list.lines().last(), Some(line));
    }
}

#[test]
fn example_11_one_form_for_each_number() {
    let mut bytes = Vec::new();
    put_number(&mut bytes, 300);
    assert_eq!(bytes, [0xAC, 0x02]);
    let refused = Err(Refusal { no: No::UnreadableNumber, place: 0 });
    assert_eq!(journal::accept(&[0x80, 0x00]), refused);
}

#[test]
fn example_12_whole_or_at_least_the_principal_size() {
    for (size, line) in [(10, "1 R 1 10 0"), (11, "1 R 2 10 0")] {
        let list = printed(&[&[1, 0, 1, 0, 100, 20, 0, 0, 0, 0], &[6, 0, 2, 2, 0, 2, 100, size]]);
        assert_eq!(list.lines().last(), Some(line));
    }
}

#[test]
fn example_13_day_d() {
    let day_d = "01 02 80 D0 BB 1B 0A 0A 0A 0A 01 E8 07 02 00 6E 14 0F 78 14 00 \
                 03 00 00 64 0C 00 00 00 00 07 E8 07 00 02 6E 14";
    let journal = vectors::bytes(day_d).expect("hex");
    let list = "event what a b c\n1 T 0 1 0\n2 F 0 12 8\n";
    assert_eq!(day::printed(&journal), list.as_bytes());
    assert_eq!(sheet::check(&journal, &own_sheet(&journal)), Ok(()));
    let mut again = vec![0; journal.len()];
    assert_eq!(journal::rewrite(&journal, &mut again), Ok(journal.len()));
    assert_eq!(again, journal);
}

#[test]
fn at_the_close_each_claim_is_at_most_ten() {
    let sizes = [30; 2];
    for (trade, fills) in [(30, [10, 10]), (12, [6, 6]), (10, [10, 10]), (9, [9, 9]), (19, [10, 9]), (20, [10, 10])] {
        for closing in 0..=2 {
            let journal = shared_at_close(trade, closing);
            assert_eq!(own_sheet(&journal), sheet_of(&fills, &sizes), "trade of {trade}");
        }
    }
    assert_eq!(good_fills(&shared_at_close(30, 2), &sizes), [[10, 10]]);
    assert_eq!(good_fills(&shared_at_close(12, 2), &sizes), [[6, 6]]);
    assert_eq!(good_fills(&shared_at_close(19, 2), &sizes), [[9, 10], [10, 9]]);
}

#[test]
fn a_trade_before_the_closing_record_keeps_its_claims() {
    let sizes = [30; 2];
    for closing in 3..=5 {
        let journal = shared_at_close(30, closing);
        assert_eq!(own_sheet(&journal), sheet_of(&[15, 15], &sizes));
        assert_eq!(good_fills(&journal, &sizes), [[15, 15]]);
    }
    let fill_above_claim = Err(Refusal { no: No::AboveClaim, place: 0 });
    assert_eq!(sheet::check(&shared_at_close(30, 2), &sheet_of(&[15, 15], &sizes)), fill_above_claim);
}

#[test]
fn the_closing_record_is_an_event_that_prints_nothing() {
    let records: [&[u32]; 4] = [&[1, 0, 1, 0, 100, 5, 0, 0, 0, 0], &[9, 0], &[9, 1], &[6, 0, 2, 2, 0, 2, 100, 10]];
    let [quote, closing, second, order] = records;
    assert_eq!(printed(&[closing]), "event what a b c\n");
    assert_eq!(printed(&[quote, closing, order]), "event what a b c\n0 Q 0 0 0\n2 R 1 10 0\n");
    assert_eq!(printed(&[closing, second]), format!("refused 7 at {}\n", day_of(&[closing]).len()));
    assert_eq!(printed(&[closing, &[9, 86_400_000]]), format!("refused 5 at {}\n", day_of(&[closing]).len()));
}
