//! Full journals for benchmarks.

use crate::fuzz::activity::Activity;
use crate::fuzz::chance::Chance;
use crate::header::Header;
use crate::journal::Journal;
use crate::lengths;
use crate::record::kind;

/// Every kind with what it is full of.
pub const KINDS: [(&str, &str); 9] = [
    ("quotes", "quotes of eight exchanges in every series"),
    ("short", "such quotes, every number of a record in one byte or two"),
    ("claims", "128 trades, 256 sent orders, 512 Satisfaction Orders"),
    ("short-claims", "the same, every number of a record in one byte or two"),
    ("worst", "one trade of 100,000 contracts shared among seven exchanges"),
    ("mixed", "all that happens on a market, and the closing record in the middle"),
    ("lengths", "quotes, orders, trades and claims whose numbers are of every length that they may have"),
    ("batches", "32 series quoted again and again by batches, 2,048 quotes"),
    ("singles", "the same quotes, each by a record of its own"),
];

/// The largest number of two bytes.
const TWO_BYTES: u32 = 16_383;

/// A journal of exactly as many bytes as one may have; batches, and the same quotes singly, take fewer.
pub fn journal(kind: &str) -> Option<Vec<u8>> {
    let chance = &mut Chance::new(1, 0);
    let mut day = Activity::open(chance, &header());
    day.series = (0..32).collect();
    day.level = 250;
    if kind.starts_with("short") {
        day.largest = TWO_BYTES;
    }
    match kind {
        "quotes" | "short" => {}
        "claims" | "short-claims" => claims(&mut day),
        "worst" => worst(&mut day),
        "mixed" => mixed(&mut day),
        "lengths" => lengths::fill(&mut day),
        "batches" => return Some(requotes(day, true)),
        "singles" => return Some(requotes(day, false)),
        _ => return None,
    }
    day.fill_up(Journal::MOST_BYTES);
    Some(day.bytes)
}

/// Home 1 of eight, close at 16:00, firm sizes of ten.
fn header() -> [u32; Header::NUMBERS] {
    let mut numbers = [10; Header::NUMBERS];
    numbers[..3].copy_from_slice(&[1, 8, 57_600_000]);
    numbers
}

/// Every trade is asked for by four of seven, after orders to two of them.
fn claims(day: &mut Activity) {
    for trade in 0..128 {
        let series = trade % 32;
        for from in 2..=8 {
            let customers = day.chance.between(5, 60);
            day.add_as_is(1, 10, &[from, series, 250 + from, 60, customers, 300, 20, 5]);
        }
        for to in 2..=3 {
            day.add_as_is(4, 5_000, &[1, to, (series + 1) % 32, 2, 250 + to, 20]);
        }
        let size = day.chance.between(8, 90);
        day.add_as_is(3, 100, &[series, 250, size, 0, 0, 0, 1_000]);
        let first = day.chance.between(2, 5);
        for from in first..first + 4 {
            let size = day.chance.between(5, 60);
            day.add_as_is(7, 200, &[trade, from, 250 + from, size]);
        }
    }
}

fn worst(day: &mut Activity) {
    for from in 2..=8 {
        day.add_as_is(1, 10, &[from, 0, 251, 100_000, 100_000 - 7 * from, 0, 0, 0]);
    }
    day.add_as_is(3, 100, &[0, 250, 100_000, 0, 0, 0, 0]);
    for from in 2..=8 {
        day.add_as_is(7, 200, &[0, from, 251, 100_000]);
    }
}

/// Each exchange in turn quotes every series, eight times over.
fn requotes(mut day: Activity, at_once: bool) -> Vec<u8> {
    for turn in 0..64 {
        let exchange = 1 + turn % 8;
        let quotes: Vec<[u32; 7]> =
            (0..32).map(|series| [series, 240 + turn % 5, 20, 5, 260 + turn % 7, 20, 5]).collect();
        if at_once {
            day.add_as_is(kind::BATCH, 100, &[&[exchange, 32][..], &quotes.concat()].concat());
            continue;
        }
        for (n, quote) in quotes.iter().enumerate() {
            let milliseconds = if n == 0 { 100 } else { 0 };
            day.add_as_is(kind::QUOTE, milliseconds, &[&[exchange][..], quote].concat());
        }
    }
    day.bytes
}

fn mixed(day: &mut Activity) {
    mix_up_to(day, Journal::MOST_BYTES / 2);
    day.add_as_is(kind::CLOSING_WINDOW, 0, &[]);
    mix_up_to(day, Journal::MOST_BYTES - 600);
}

fn mix_up_to(day: &mut Activity, length: usize) {
    while day.bytes.len() < length {
        if day.trades() < 127 && day.sent() < 255 && day.satisfactions() < 498 {
            day.something();
        } else {
            day.something_without_numbers();
        }
    }
}
