//! Numbers worth asking about: usual ones, the ends of each range, and those just outside.

use super::batching::{self, Drawn};
use super::chance::Chance;
use crate::alone::Plain;
use crate::batch::Batch;
use crate::header::Header;
use crate::record::{Record, kind};

/// The sides of quotes that are refused 6.
pub const UNSOUND: [[u32; 6]; 10] = [
    [100, 5, 5, 100, 5, 5],
    [101, 5, 5, 100, 5, 5],
    [0, 1, 0, 100, 5, 5],
    [0, 0, 1, 100, 5, 5],
    [100, 5, 5, 0, 1, 1],
    [100, 0, 0, 101, 5, 5],
    [100, 5, 5, 101, 0, 0],
    [100, 5, 6, 101, 5, 5],
    [100, 5, 5, 101, 5, 6],
    [0, 0, 0, 0, 0, 1],
];

/// Larger than any number that can be stored, or the largest.
const HUGE: [u32; 6] = [268_435_455, 268_435_456, 268_435_457, 1 << 31, u32::MAX - 1, u32::MAX];

pub fn contracts(chance: &mut Chance) -> u32 {
    match chance.below(20) {
        0..=8 => chance.between(1, 20),
        9..=13 => chance.between(1, 150),
        14..=16 => chance.pick(&[1, 2, 9, 10, 11, 12, 20, 30, 127, 128]),
        17 => chance.pick(&[499, 500, 501, 9_998, 9_999, 10_000]),
        18 => chance.between(1, 3_000),
        _ => chance.pick(&[1, 16_383, 16_384, 99_999, 100_000]),
    }
}

/// Contracts on either side of the limit at the close, or much more; often the same, so that shares come out level.
pub fn claimed_around_ten(chance: &mut Chance) -> u32 {
    if chance.one_in(2) { 30 } else { chance.pick(&[1, 9, 9, 10, 10, 11, 11, 12, 60, 500, 100_000]) }
}

/// A size on either side of the limit at the close, of the usual firm sizes and of two or more claims at the limit.
pub fn trade_size_around_ten(chance: &mut Chance) -> u32 {
    let shared = chance.between(11, 70);
    chance.pick(&[1, 9, 10, 10, 11, 12, 12, 19, 20, 21, 30, shared, shared, 500, 3_000])
}

pub fn customers(chance: &mut Chance, size: u32) -> u32 {
    match chance.below(8) {
        0 => 0,
        1..=3 => size,
        _ => chance.between(0, size),
    }
}

pub fn series(chance: &mut Chance) -> u32 {
    if chance.percent(60) { chance.pick(&[0, 31]) } else { chance.between(0, 31) }
}

/// A level of prices for a class.
pub fn level(chance: &mut Chance) -> u32 {
    match chance.below(10) {
        0 => chance.between(1, 6),
        1 => chance.between(999_990, 1_000_000),
        2..=4 => chance.between(297, 303),
        _ => chance.pick(&[50, 100, 126, 130, 400, 2_000, 16_383, 120_000]),
    }
}

pub fn firm_size(chance: &mut Chance) -> u32 {
    match chance.below(8) {
        0..=4 => chance.between(10, 12),
        5 => chance.pick(&[20, 25, 50, 127, 128]),
        6 => chance.between(10, 9_999),
        _ => 9_999,
    }
}

pub fn close(chance: &mut Chance) -> u32 {
    match chance.below(6) {
        0 => chance.pick(&[300_000, 300_001, 86_399_999, 86_399_998]),
        1 => chance.between(300_000, 86_399_999),
        _ => chance.pick(&[57_600_000, 58_500_000]),
    }
}

/// A header in range.
pub fn header(chance: &mut Chance) -> [u32; Header::NUMBERS] {
    let mut numbers = [0; Header::NUMBERS];
    let exchanges = chance.weighted(&[(3, 2), (3, 3), (2, 4), (1, 5), (1, 6), (1, 7), (4, 8)]);
    numbers[0] = chance.between(1, exchanges);
    numbers[1] = exchanges;
    numbers[2] = close(chance);
    for size in &mut numbers[3..3 + 2 * exchanges as usize] {
        *size = firm_size(chance);
    }
    numbers
}

/// A header in range whose automatic sizes are large but for one away exchange's.
pub fn header_with_one_small_size(chance: &mut Chance) -> [u32; Header::NUMBERS] {
    let mut numbers = header(chance);
    let exchanges = numbers[1] as usize;
    for exchange in 0..exchanges {
        numbers[3 + 2 * exchange] = chance.pick(&[128, 500, 9_999]);
    }
    let small = (numbers[0] as usize + chance.below(exchanges - 1)) % exchanges;
    numbers[3 + 2 * small] = 10;
    numbers
}

/// A header that may have one number out of range, or sizes beyond the 2N that count.
pub fn header_or_near(chance: &mut Chance) -> [u32; Header::NUMBERS] {
    let mut numbers = header(chance);
    let counting = 3 + 2 * numbers[1] as usize;
    if chance.one_in(3) {
        for size in &mut numbers[counting..] {
            *size = chance.pick(&[0, 9, 10, 10_000, u32::MAX]);
        }
    }
    if chance.one_in(3) {
        let among = chance.pick(&[3, counting]);
        let at = chance.below(among);
        numbers[at] = match at {
            0 => chance.pick(&[0, 1, numbers[1], numbers[1] + 1, 9, 128]),
            1 => chance.pick(&[0, 1, 2, 8, 9, 16, 128]),
            2 => chance.pick(&[0, 299_999, 300_000, 86_399_999, 86_400_000]),
            _ => chance.pick(&[0, 9, 10, 9_999, 10_000, 16_384]),
        };
        if chance.one_in(4) {
            numbers[at] = chance.pick(&HUGE);
        }
    }
    numbers
}

/// Usual values and ends for each field of a kind, all in range when an exchange is at most N and not home.
fn usual_fields(chance: &mut Chance, kind: u32, header: &[u32]) -> [u32; Record::MOST_FIELDS] {
    let exchanges = header[1];
    let away = 1 + (header[0] + chance.below(exchanges as usize - 1) as u32) % exchanges;
    let price = chance.pick(&[1, 100, 127, 128, 300, 16_384, 999_999, 1_000_000]);
    let size = contracts(chance);
    let one_or_two = chance.between(1, 2);
    match kind {
        1 => quote_fields(chance, exchanges),
        2 => [chance.between(1, exchanges), chance.between(0, 2), 0, 0, 0, 0, 0, 0],
        3 => {
            let initiator = chance.pick(&[0, away]);
            let delay = chance.pick(&[0, 1, 127, 128, 600_000]);
            [series(chance), price, size, chance.between(0, 2), chance.between(0, 1), initiator, delay, 0]
        }
        4 | 6 => [chance.between(1, 2), away, series(chance), one_or_two, price, size, 0, 0],
        5 => [naming(chance), chance.pick(&[0, 1, size, 100_000]), 0, 0, 0, 0, 0, 0],
        7 => [naming(chance), away, price, size, 0, 0, 0, 0],
        8 => [naming(chance), chance.between(1, exchanges), 0, 0, 0, 0, 0, 0],
        11 => [naming(chance), 0, 0, 0, 0, 0, 0, 0],
        _ => [0; Record::MOST_FIELDS],
    }
}

pub fn unknown_kind(chance: &mut Chance) -> u32 {
    chance.pick(&[0, 12, 12, 13, 26, 127, 128, 16_384, 268_435_455])
}

fn naming(chance: &mut Chance) -> u32 {
    chance.pick(&[0, 1, 127, 128, 255, 256, 512, 16_384, 2_097_152, 268_435_455])
}

pub fn quote_fields(chance: &mut Chance, exchanges: u32) -> [u32; Record::MOST_FIELDS] {
    let bid = chance.pick(&[0, 1, 100, 127, 999_998, 999_999]);
    let offer = chance.pick(&[0, bid + 1, bid + 1, 1_000_000]);
    let sizes = [bid, offer].map(|price| if price == 0 { 0 } else { contracts(chance) });
    let held = sizes.map(|size| customers(chance, size));
    [chance.between(1, exchanges), series(chance), bid, sizes[0], held[0], offer, sizes[1], held[1]]
}

/// A record with its own fields, one number of which may lie at the end of its range, outside, or beyond what can be
/// stored.
pub fn record_or_near(chance: &mut Chance, header: &[u32; Header::NUMBERS]) -> Plain<Vec<u32>> {
    let exchanges = header[1].clamp(2, 8);
    let kind = chance.pick(&[1, 2, 3, 4, 5, 6, 7, 8, 8, 8, 9, 9, 9, 10, 10, 10, 11, 11, 11]);
    let milliseconds = chance.pick(&[0, 0, 1, 127, 128, 1_000, 20_001, 16_384, 2_097_152, 86_399_999]);
    let mut record = Plain { kind, milliseconds, fields: own_fields(chance, kind, &[header[0].min(8), exchanges]) };
    match chance.below(12) {
        0 => record.kind = if chance.one_in(4) { chance.pick(&HUGE) } else { unknown_kind(chance) },
        1 => record.milliseconds = chance.pick(&[86_399_999, 86_400_000, 268_435_455, 268_435_456, u32::MAX]),
        2..=6 if !record.fields.is_empty() => {
            let field = chance.below(record.fields.len());
            record.fields[field] = near_an_end(chance, kind, field, header[0], header[1]);
        }
        _ => {}
    }
    record
}

/// As many as the kind has.
fn own_fields(chance: &mut Chance, kind: u32, header: &[u32]) -> Vec<u32> {
    if kind == kind::BATCH {
        let count = batching::count_of_quotes(chance);
        let exchange = chance.between(1, header[1]);
        return Drawn::new(exchange, batching::some_quotes(chance, count)).fields();
    }
    let fields = usual_fields(chance, kind, header);
    Record { kind, milliseconds: 0, fields }.plain().fields.to_vec()
}

/// What each field of each kind means: Exchange, Series, Price, Contracts, Three (0 to 2), Flag, Delay, One or two,
/// Naming.
const MEANT: [&[u8]; 12] =
    [b"", b"ESPCCPCC", b"ET", b"SPCTFED", b"OESOPC", b"NC", b"OESOPC", b"NEPC", b"NE", b"", b"EQ", b"N"];

/// The same of a quote in a batch; its count is Q.
const MEANT_IN_BATCH: &[u8; 7] = b"SPCCPCC";

fn meant(kind: u32, field: usize) -> Option<&'static u8> {
    match (kind, field.checked_sub(Batch::OPENING)) {
        (kind::BATCH, Some(at)) => MEANT_IN_BATCH.get(at % Batch::NUMBERS_A_QUOTE),
        _ => MEANT.get(kind as usize).and_then(|fields| fields.get(field)),
    }
}

/// The largest that this field may be, where that takes more than one byte; else 0.
pub fn most_of(kind: u32, field: usize) -> u32 {
    match meant(kind, field) {
        Some(b'P') => 1_000_000,
        Some(b'C') => 100_000,
        Some(b'D') => 600_000,
        _ => 0,
    }
}

/// A value at or just beyond an end of the range of this field, or one that can't be stored.
pub fn near_an_end(chance: &mut Chance, kind: u32, field: usize, home: u32, exchanges: u32) -> u32 {
    if chance.one_in(6) {
        return chance.pick(&HUGE);
    }
    match meant(kind, field) {
        Some(b'E') => chance.pick(&[0, 1, home, home, exchanges, exchanges.saturating_add(1)]),
        Some(b'S') => chance.pick(&[0, 31, 32]),
        Some(b'P') => chance.pick(&[0, 1, 1_000_000, 1_000_001]),
        Some(b'C') => chance.pick(&[0, 1, 100_000, 100_001]),
        Some(b'T') => chance.pick(&[0, 2, 3]),
        Some(b'F') => chance.pick(&[0, 1, 2]),
        Some(b'D') => chance.pick(&[0, 600_000, 600_001]),
        Some(b'O') => chance.pick(&[0, 1, 2, 3]),
        Some(b'Q') => chance.pick(&[0, 1, 32, 33, 127, 128]),
        Some(b'N') if chance.one_in(3) => chance.pick(&[268_435_455, 268_435_456]),
        _ => naming(chance),
    }
}

/// A time so far: usual, at the day's end, past it.
pub fn time_so_far(chance: &mut Chance, milliseconds: u32) -> u32 {
    let left = 86_399_999u32.saturating_sub(milliseconds);
    match chance.below(8) {
        0 => chance.pick(&[86_399_999, 86_400_000, u32::MAX]),
        1 => left,
        2 => left + 1,
        3 => chance.pick(&HUGE),
        _ => chance.pick(&[0, 1, 1_000, left / 2]),
    }
}
