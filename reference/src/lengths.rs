//! A day for benchmarks whose numbers are of every length that their place allows, so that no length follows from those
//! before it.

use crate::event::HomeTrade;
use crate::fuzz::activity::Activity;
use crate::fuzz::chance::Chance;
use crate::journal::Journal;
use crate::number::Number;
use crate::record::{Contracts, Price, kind};
use crate::time::Time;

/// The least and the largest number of each length in bytes.
const OF_LENGTH: [(u32, u32); 4] = [(0, 0x7F), (0x80, 0x3FFF), (0x4000, 0x1F_FFFF), (0x20_0000, Number::LARGEST)];
/// Milliseconds of up to three bytes, and of four. They are near the least of their length, and those of four bytes are
/// rare, for a day is over after 41 of them.
const PAUSES: (u32, u32) = (0, 0x4FFF);
const LONG_PAUSES: (u32, u32) = (0x20_0000, 0x20_FFFF);
const ONE_LONG_PAUSE_IN: usize = 100;
/// Bytes at the end that are left to `Activity::fill_up`: enough for it to end at the last byte of a journal.
const REST: usize = 48;

/// As many trades as there may be, each after quotes and orders and before its claims, then quotes.
pub fn fill(day: &mut Activity) {
    for trade in 0..HomeTrade::MOST as u32 {
        for _ in 0..day.chance.between(2, 10) {
            add_quote(day);
        }
        add_batch(day);
        add_status(day);
        add_orders(day, 2 * trade);
        add_trade(day, trade, 4 * trade);
    }
    while day.bytes.len() + REST <= Journal::MOST_BYTES {
        add_quote(day);
    }
}

/// From the first to the last, both included, each length that there is between them as often as another.
fn number(chance: &mut Chance, first: u32, last: u32) -> u32 {
    let ranges = OF_LENGTH.map(|(least, largest)| (least.max(first), largest.min(last)));
    let there: Vec<(u32, u32)> = ranges.into_iter().filter(|(least, largest)| least <= largest).collect();
    let (least, largest) = chance.pick(&there);
    chance.between(least, largest)
}

fn price(chance: &mut Chance) -> u32 {
    number(chance, 1, Price::MOST)
}

fn contracts(chance: &mut Chance) -> u32 {
    number(chance, 1, Contracts::MOST)
}

fn series(day: &mut Activity) -> u32 {
    day.chance.pick(&day.series)
}

/// A price with size and customer contracts, or none.
fn side(chance: &mut Chance, price: u32) -> [u32; 3] {
    if price == 0 {
        return [0; 3];
    }
    let size = contracts(chance);
    [price, size, number(chance, 0, size)]
}

/// The series and the six quote numbers; at times a side is absent.
fn quoted(day: &mut Activity) -> Vec<u32> {
    let series = series(day);
    let (one, other) = (price(day.chance), price(day.chance));
    let alone = one == other || day.chance.one_in(8);
    let [bid, offer] = if alone { day.chance.pick(&[[one, 0], [0, one]]) } else { [one.min(other), one.max(other)] };
    [&[series][..], &side(day.chance, bid), &side(day.chance, offer)].concat()
}

/// Adds a record after milliseconds of any length.
fn add(day: &mut Activity, kind: u32, fields: &[u32]) {
    if day.chance.one_in(ONE_LONG_PAUSE_IN) {
        add_after(day, LONG_PAUSES, kind, fields);
    } else {
        add_after(day, PAUSES, kind, fields);
    }
}

fn add_after(day: &mut Activity, (least, largest): (u32, u32), kind: u32, fields: &[u32]) {
    let milliseconds = number(day.chance, least, largest).min(Time::LAST - day.time);
    day.add_as_is(kind, milliseconds, fields);
}

fn add_quote(day: &mut Activity) {
    let exchange = day.chance.between(1, day.exchanges);
    let fields = [&[exchange][..], &quoted(day)].concat();
    add(day, kind::QUOTE, &fields);
}

fn add_batch(day: &mut Activity) {
    let (exchange, count) = (day.chance.between(1, day.exchanges), day.chance.between(1, 3));
    let mut fields = vec![exchange, count];
    for _ in 0..count {
        fields.extend(quoted(day));
    }
    add(day, kind::BATCH, &fields);
}

fn add_status(day: &mut Activity) {
    let fields = [day.chance.between(1, day.exchanges), day.chance.between(0, 2)];
    add(day, kind::STATUS, &fields);
}

/// Two orders are sent, of which the first has this number and a response, and one is received.
fn add_orders(day: &mut Activity, number_of_first: u32) {
    let size = add_order(day, kind::SENT_ORDER);
    add_order(day, kind::SENT_ORDER);
    let filled = number(day.chance, 0, size);
    add(day, kind::RESPONSE, &[number_of_first, filled]);
    add_order(day, kind::RECEIVED_ORDER);
}

/// Answers its size.
fn add_order(day: &mut Activity, kind: u32) -> u32 {
    let (away, series, size) = (day.away(), series(day), contracts(day.chance));
    let fields = [day.chance.between(1, 2), away, series, day.chance.between(1, 2), price(day.chance), size];
    add(day, kind, &fields);
    size
}

/// A trade and the claims of four exchanges, the first of which has this number. The first is cancelled by naming the
/// initiator, the last, which has the trade's price, as for a block that was none.
fn add_trade(day: &mut Activity, trade: u32, number_of_first: u32) {
    let (series, traded_at, size, initiator) = (series(day), price(day.chance), contracts(day.chance), day.away());
    let (form, complex) = (day.chance.pick(&[0, 0, 1, 2]), day.chance.between(0, 1));
    let delay = number(day.chance, 0, Time::LONGEST_DELAY);
    add(day, kind::HOME_TRADE, &[series, traded_at, size, form, complex, initiator, delay]);
    let first = day.chance.between(2, 5);
    for from in first..first + 3 {
        let fields = [trade, from, price(day.chance), contracts(day.chance)];
        add(day, kind::SATISFACTION_ORDER, &fields);
    }
    add(day, kind::CANCELLATION, &[number_of_first, initiator]);
    let size = contracts(day.chance);
    add(day, kind::SATISFACTION_ORDER, &[trade, first + 3, traded_at, size]);
    // Without a block's form no trade is one, and a long pause would be too late.
    if form == 0 {
        add_after(day, PAUSES, kind::NO_BLOCK, &[number_of_first + 3]);
    }
}
