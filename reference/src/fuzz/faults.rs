//! Records with one fault, and bytes damaged anywhere.

use super::activity::{Activity, Asked, put_number};
use super::chance::Chance;
use super::{batching, values};
use crate::record::kind;

/// Adds the record with one thing wrong, or what is wrong only beside the records before it.
pub fn add_faulty(day: &mut Activity, kind: u32, milliseconds: u32, fields: &[u32]) {
    match day.chance.below(16) {
        0 => {
            let unknown = values::unknown_kind(day.chance);
            day.add_as_is(unknown, milliseconds, fields);
        }
        1 => {
            let beyond = around_the_days_end(day);
            day.add_as_is(kind, beyond, fields);
        }
        2 => add_with_a_long_number(day, kind, milliseconds, fields),
        3 => add_unsound_quote(day, milliseconds),
        4 => add_unknown_or_twice(day, milliseconds),
        5 | 6 => add_faulty_closing(day, milliseconds),
        7 | 8 => add_faulty_cancellation(day),
        9 | 10 => add_faulty_no_block(day),
        11 | 12 => batching::add_faulty_batch(day),
        _ => {
            let mut fields = fields.to_vec();
            let field = day.chance.below(fields.len());
            fields[field] = values::near_an_end(day.chance, kind, field, day.home, day.exchanges);
            day.add_as_is(kind, milliseconds, &fields);
        }
    }
}

/// Milliseconds up to the day's last one, or one more.
fn around_the_days_end(day: &mut Activity) -> u32 {
    86_399_999 - day.time.min(86_399_999) + day.chance.between(0, 1)
}

/// A closing record that is perhaps the second: as it should be, past the day (5 comes before 7), with a number that
/// can't be read, cut off, or with a byte after it that is no field of its own but the next record's kind.
fn add_faulty_closing(day: &mut Activity, milliseconds: u32) {
    if day.chance.percent(60) {
        day.add_as_is(kind::CLOSING_WINDOW, 0, &[]);
    }
    match day.chance.below(8) {
        0..=2 => {
            let beyond = around_the_days_end(day);
            day.add_as_is(kind::CLOSING_WINDOW, beyond, &[]);
        }
        3 => add_with_a_long_number(day, kind::CLOSING_WINDOW, milliseconds, &[]),
        4 => {
            day.add_as_is(kind::CLOSING_WINDOW, 300, &[]);
            let cut_off = day.bytes.len() - day.chance.between(1, 2) as usize;
            day.bytes.truncate(cut_off);
        }
        5 => {
            let next = day.chance.between(0, 12);
            day.add_as_is(kind::CLOSING_WINDOW, milliseconds, &[next]);
        }
        _ => day.add_as_is(kind::CLOSING_WINDOW, milliseconds, &[]),
    }
}

/// A cancellation with something wrong, of an order that could be cancelled or of one that could not; what leads up to
/// it goes well.
pub fn add_faulty_cancellation(day: &mut Activity) {
    day.until_fault = None;
    let (order, initiator) = an_order_to_cancel(day);
    let milliseconds = day.chance.pick(&[0, 0, 1, 60_001, 180_001]);
    match day.chance.below(12) {
        0..=2 => {
            let time = day.time.saturating_add(milliseconds);
            day.cancel_at(order, time);
            if day.chance.one_in(2) {
                day.something_without_numbers();
            }
            let again = day.chance.pick(&[0, 0, 1, 60_001, 180_001]);
            day.add_as_is(kind::CANCELLATION, again, &[order as u32, initiator]);
        }
        3..=6 => {
            let (order, named) = not_to_cancel(day, order, initiator);
            day.add_as_is(kind::CANCELLATION, milliseconds, &[order, named]);
        }
        7..=9 => {
            let beyond = around_the_days_end(day);
            day.add_as_is(kind::CANCELLATION, beyond, &[order as u32, initiator]);
        }
        10 => add_with_a_long_number(day, kind::CANCELLATION, milliseconds, &[order as u32, initiator]),
        _ => {
            let next = day.chance.between(0, 12);
            day.add_as_is(kind::CANCELLATION, milliseconds, &[order as u32, initiator, next]);
            let cut_off = day.bytes.len() - day.chance.below(4);
            day.bytes.truncate(cut_off);
        }
    }
}

/// Where no order is open to cancellation, one is sent for a trade with an initiator; answers the latter too.
fn an_order_to_cancel(day: &mut Activity) -> (usize, u32) {
    if day.open_to_cancellation().is_empty() || day.chance.one_in(4) {
        day.initiated = 100;
        day.trade();
        let away = day.away();
        day.satisfaction(day.trades() - 1, away);
    }
    let open = day.open_to_cancellation();
    let order = day.chance.pick(&open);
    (order, day.asked[order].initiator)
}

/// An order and an exchange that do not fit: mostly one of them is wrong, at times both.
fn not_to_cancel(day: &mut Activity, order: usize, initiator: u32) -> (u32, u32) {
    let count = day.satisfactions() as u32;
    let unknown = day.chance.pick(&[count, count, count, count + 1, 512, 268_435_455]);
    let closed = (0..day.asked.len()).filter(|&order| day.asked[order].initiator == 0 || day.asked[order].cancelled);
    let closed: Vec<usize> = closed.chain([order]).collect();
    let (closed, away) = (day.chance.pick(&closed), day.away());
    let from = day.asked[order].from;
    let another = day.chance.pick(&[day.home, from, from, away, away, away, away, 0, day.exchanges + 1]);
    match day.chance.below(9) {
        0 => (unknown, initiator),
        1 | 2 => (closed as u32, day.asked[closed].initiator.max(1)),
        3 => (day.chance.pick(&[unknown, closed as u32]), another),
        _ => (order as u32, another),
    }
}

/// A cancellation as no block with something wrong, or what an earlier one or its lack makes wrong; what leads up to it
/// goes well.
pub fn add_faulty_no_block(day: &mut Activity) {
    day.until_fault = None;
    let initiated = std::mem::replace(&mut day.initiated, 100);
    if day.chance.one_in(2) {
        day.move_near_close();
    }
    let order = day.one_as_block();
    day.initiated = initiated;
    let milliseconds = day.chance.pick(&[0, 0, 1, 60_001, 180_000]);
    match day.chance.below(20) {
        0..=6 => not_as_no_block(day, order),
        7..=9 => after_a_cancellation(day, order),
        10..=15 => after_no_block(day, order),
        16 | 17 => {
            let beyond = around_the_days_end(day);
            day.add_as_is(kind::NO_BLOCK, beyond, &[order as u32]);
        }
        18 => add_with_a_long_number(day, kind::NO_BLOCK, milliseconds, &[order as u32]),
        _ => {
            let next = day.chance.between(0, 12);
            day.add_as_is(kind::NO_BLOCK, milliseconds, &[order as u32, next]);
            let cut_off = day.bytes.len() - day.chance.below(4);
            day.bytes.truncate(cut_off);
        }
    }
}

/// "An unknown claim, a block, a price that is not the trade's, more than 180,000 ms after the claim", or the order
/// sent again though it was not cancelled.
fn not_as_no_block(day: &mut Activity, order: usize) {
    let count = day.satisfactions() as u32;
    let Asked { trade, from, .. } = day.asked[order];
    let price = day.trade_price(trade) + 1;
    match day.chance.below(9) {
        0 => {
            let unknown = day.chance.pick(&[count, count, count + 1, 511, 512, 268_435_455]);
            day.add_as_is(kind::NO_BLOCK, 0, &[unknown]);
        }
        1 => day.add_as_is(kind::SATISFACTION_ORDER, 0, &[trade as u32, from, price, 30]),
        2 | 3 => {
            let milliseconds = day.chance.pick(&[180_000, 180_001, 180_001, 180_001, 180_002, 400_000]);
            day.add_as_is(kind::NO_BLOCK, milliseconds, &[order as u32]);
        }
        4 | 5 => {
            for other in day.away_exchanges() {
                day.satisfaction_at(0, price, 5, trade, other);
            }
            let last = day.satisfactions() as u32 - 1;
            day.add_as_is(kind::NO_BLOCK, 0, &[last]);
        }
        _ => {
            let order = day.one_around_a_block();
            day.add_as_is(kind::NO_BLOCK, 0, &[order as u32]);
        }
    }
}

/// "A claim already cancelled by kind 8": it stays the one of its exchange and trade.
fn after_a_cancellation(day: &mut Activity, order: usize) {
    let Asked { trade, from, .. } = day.asked[order];
    let wait = day.chance.pick(&[0, 1, 60_001, 60_001, 180_000, 180_001]);
    day.cancel_at(order, day.time.saturating_add(wait));
    if day.chance.one_in(2) {
        day.add_as_is(kind::NO_BLOCK, 0, &[order as u32]);
    } else {
        let price = day.trade_price(trade) + 1;
        day.add_as_is(kind::SATISFACTION_ORDER, 0, &[trade as u32, from, price, 30]);
    }
}

/// A second cancellation of the order, of either kind; the order sent again cancelled as no block, or sent a third
/// time.
fn after_no_block(day: &mut Activity, order: usize) {
    let Asked { trade, from, initiator, .. } = day.asked[order];
    let later = day.chance.pick(&[0, 0, 1, 100_000]);
    day.no_block_at(order, day.time.saturating_add(later));
    let milliseconds = day.chance.pick(&[0, 0, 1, 60_001]);
    match day.chance.below(5) {
        0 => return day.add_as_is(kind::NO_BLOCK, milliseconds, &[order as u32]),
        1 => return day.add_as_is(kind::CANCELLATION, milliseconds, &[order as u32, initiator]),
        _ => {}
    }
    let price = day.trade_price(trade) + day.chance.between(0, 1);
    let again = day.chance.pick(&[0, 180_000, 180_001]);
    let again = day.until(day.time.saturating_add(again));
    day.satisfaction_at(again, price, 30, trade, from);
    let second = day.satisfactions() - 1;
    let by_kind_8 = day.chance.one_in(2);
    if by_kind_8 {
        day.cancel_at(second, day.time);
    }
    match day.chance.below(3) {
        0 => day.add_as_is(kind::NO_BLOCK, milliseconds, &[second as u32]),
        1 => day.add_as_is(kind::NO_BLOCK, milliseconds, &[order as u32]),
        _ => day.add_as_is(kind::SATISFACTION_ORDER, milliseconds, &[trade as u32, from, price, 30]),
    }
}

/// One of the numbers longer than needed, or over 4 bytes.
fn add_with_a_long_number(day: &mut Activity, kind: u32, milliseconds: u32, fields: &[u32]) {
    let numbers: Vec<u32> = [kind, milliseconds].iter().chain(fields).copied().collect();
    let long = day.chance.below(numbers.len());
    for (at, &number) in numbers.iter().enumerate() {
        put_number(&mut day.bytes, number);
        if at == long {
            let last = day.bytes.len() - 1;
            day.bytes[last] |= 0x80;
            let extra: &[&[u8]] = &[&[0], &[0x80, 0], &[0x80, 0x80, 0x80, 1], &[0xFF, 0xFF, 0xFF, 0xFF]];
            let extra = day.chance.pick(extra);
            day.bytes.extend_from_slice(extra);
        }
    }
}

/// "Both sides and bid not below offer; a price 0 with a size or customers; a price with size 0; customers above size."
fn add_unsound_quote(day: &mut Activity, milliseconds: u32) {
    let (exchange, series) = (day.away(), day.series[0]);
    let sides = day.chance.pick(&values::UNSOUND);
    let fields: Vec<u32> = [exchange, series].into_iter().chain(sides).collect();
    day.add_as_is(1, milliseconds, &fields);
}

/// Numbers that name nothing or something a second time, fills at and above an order.
fn add_unknown_or_twice(day: &mut Activity, milliseconds: u32) {
    let away = day.away();
    if day.chance.one_in(2) {
        let trades = day.trades() as u32;
        let trade = day.chance.pick(&[trades, trades + 1, trades.saturating_sub(1), 0, 128, 268_435_455]);
        day.add_as_is(7, milliseconds, &[trade, away, 100, 5]);
        day.add_as_is(7, 0, &[trade, away, 100, 5]);
    } else {
        let sent = day.sent() as u32;
        let order = day.chance.pick(&[sent, sent + 1, sent.saturating_sub(1), 0, 256, 268_435_455]);
        let filled = day.chance.pick(&[0, 1, 10, 100, 99_999, 100_000, 100_001]);
        day.add_as_is(5, milliseconds, &[order, filled]);
        day.add_as_is(5, 0, &[order, filled]);
    }
}

/// Changes, loses, repeats or adds bytes somewhere.
pub fn damage(chance: &mut Chance, bytes: &mut Vec<u8>) {
    let at = chance.below(bytes.len() + 1);
    match chance.below(9) {
        0 => bytes.truncate(at),
        1 => bytes.truncate(bytes.len().saturating_sub(chance.below(4))),
        2 => {
            let byte = chance.byte();
            bytes.insert(at, byte);
        }
        3 => bytes.extend((0..chance.below(6)).map(|_| chance.byte())),
        4 if at < bytes.len() => {
            bytes.remove(at);
        }
        5 if at < bytes.len() => bytes[at] ^= 1 << chance.below(8),
        6 if at < bytes.len() => bytes[at] = chance.pick(&[0, 1, 0x7F, 0x80, 0x81, 0xFF]),
        7 => {
            let end = (at + chance.below(24)).min(bytes.len());
            bytes.extend_from_within(at..end);
        }
        _ if at < bytes.len() => bytes[at] = chance.byte(),
        _ => {}
    }
}
