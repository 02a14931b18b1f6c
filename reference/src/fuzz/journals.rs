//! Which journals are asked about: usual days, faulty and damaged ones, days at every limit.

use super::activity::{Activity, put_number};
use super::chance::Chance;
use super::{batching, faults, values};
use crate::header::Header;
use crate::journal::Journal;
use crate::record::kind;

#[derive(Clone, Copy)]
enum Day {
    Usual,
    WithFault,
    WithFaultyCancellation,
    WithFaultyNoBlock,
    WithFaultyBatch,
    Damaged,
    OnlyHeader,
    Noise,
    ManyTrades,
    ManySent,
    ManySatisfactions,
    ManyRecords,
    Full,
    FullOfBatches,
    TooLong,
}

/// The closing record comes at any point of the day, or never; on some days most trades come from other exchanges, on
/// some many ask as if they were blocks, on some many quotes or all come in batches.
fn open<'c>(chance: &'c mut Chance, header: &[u32; Header::NUMBERS]) -> Activity<'c> {
    let mut day = Activity::open(chance, header);
    if day.chance.percent(60) {
        let most = day.chance.pick(&[4, 30, 300]);
        let records = day.chance.below(most);
        day.close_after(records);
    }
    day.initiated = day.chance.pick(&[25, 80]);
    day.as_block = day.chance.pick(&[0, 0, 50]);
    day.batched = day.chance.pick(&[0, 0, 20, 60, 100]);
    day.others = day.chance.pick(&[0, 2, 31]);
    day
}

/// Mostly days with trades that are shared out, for questions about sheets.
pub fn journal_with_claims(chance: &mut Chance) -> Vec<u8> {
    if chance.one_in(3) {
        return journal(chance);
    }
    let header = if chance.one_in(4) { values::header_with_one_small_size(chance) } else { values::header(chance) };
    let trades = 1 + chance.below(4);
    let mut day = open(chance, &header);
    day.initiated = 60;
    for _ in 0..trades {
        day.something();
        match day.chance.below(17) {
            0..=4 => day.trade_around_ten(),
            5..=8 => day.shared_trade(),
            9 | 10 => day.shared_but_for_one(),
            11 => day.cancellations_near_close(),
            12 => day.send_again_near_close(),
            _ => {
                if day.chance.one_in(3) {
                    let records = day.chance.below(40);
                    day.close_after(records);
                }
                day.all_send_again();
            }
        }
    }
    day.bytes
}

/// Half of them days with orders that follow an initial execution, for questions about the list.
pub fn journal_with_orders(chance: &mut Chance) -> Vec<u8> {
    if chance.one_in(100) {
        return most_lines(chance);
    }
    if chance.one_in(2) {
        return journal(chance);
    }
    let header = values::header(chance);
    let runs = 1 + chance.below(4);
    let mut day = open(chance, &header);
    if day.chance.percent(70) {
        day.move_on();
    }
    for _ in 0..runs {
        day.second_orders();
        if day.chance.one_in(3) {
            day.something();
        }
    }
    day.bytes
}

pub fn journal(chance: &mut Chance) -> Vec<u8> {
    let day = chance.weighted(&[
        (320, Day::Usual),
        (180, Day::WithFault),
        (200, Day::WithFaultyCancellation),
        (200, Day::WithFaultyNoBlock),
        (320, Day::WithFaultyBatch),
        (80, Day::Damaged),
        (80, Day::OnlyHeader),
        (20, Day::Noise),
        (8, Day::ManyTrades),
        (8, Day::ManySent),
        (36, Day::ManySatisfactions),
        (6, Day::ManyRecords),
        (12, Day::Full),
        (30, Day::FullOfBatches),
        (6, Day::TooLong),
    ]);
    match day {
        Day::Usual => usual(chance, None),
        Day::WithFault => {
            let until = chance.below(30);
            usual(chance, Some(until))
        }
        Day::WithFaultyCancellation => with_fault_at_the_end(chance, faults::add_faulty_cancellation),
        Day::WithFaultyNoBlock => with_fault_at_the_end(chance, faults::add_faulty_no_block),
        Day::WithFaultyBatch => with_fault_at_the_end(chance, batching::add_faulty_batch),
        Day::Damaged => damaged(chance),
        Day::OnlyHeader => only_header(chance),
        Day::Noise => (0..chance.below(60)).map(|_| chance.byte()).collect(),
        Day::ManyTrades => many(chance, 128, |day| day.trades(), |day| day.trade()),
        Day::ManySent => many(chance, 256, |day| day.sent(), |day| day.sent_order()),
        Day::ManySatisfactions => many_satisfactions(chance),
        Day::ManyRecords => many_records(chance),
        Day::Full => full(chance),
        Day::FullOfBatches => full_of_batches(chance),
        Day::TooLong => too_long(chance),
    }
}

fn usual(chance: &mut Chance, until_fault: Option<usize>) -> Vec<u8> {
    let header = values::header(chance);
    let steps = match chance.below(20) {
        0..=2 => chance.below(4),
        3..=13 => 3 + chance.below(20),
        14..=18 => 10 + chance.below(60),
        _ => 50 + chance.below(300),
    };
    let mut day = open(chance, &header);
    day.until_fault = until_fault;
    if day.chance.percent(70) {
        day.move_on();
    }
    for _ in 0..steps {
        match day.chance.below(25) {
            0 | 1 => day.trade_around_ten(),
            2 => day.cancellations_near_close(),
            3 => day.send_again_near_close(),
            4 => day.second_orders(),
            _ => day.something(),
        }
    }
    day.bytes
}

/// Some records, then one with something wrong.
fn with_fault_at_the_end(chance: &mut Chance, add_faulty: fn(&mut Activity)) -> Vec<u8> {
    let header = values::header(chance);
    let steps = chance.below(15);
    let mut day = open(chance, &header);
    for _ in 0..steps {
        day.something();
    }
    add_faulty(&mut day);
    day.bytes
}

fn damaged(chance: &mut Chance) -> Vec<u8> {
    let mut bytes = usual(chance, None);
    for _ in 0..1 + chance.below(3) {
        faults::damage(chance, &mut bytes);
    }
    bytes
}

/// A header, perhaps with a number out of range or cut off, and perhaps some records after it.
fn only_header(chance: &mut Chance) -> Vec<u8> {
    let header = values::header_or_near(chance);
    let mut bytes = Vec::new();
    for &number in &header[..3 + 2 * header[1].min(8) as usize] {
        put_number(&mut bytes, number);
    }
    if chance.one_in(3) {
        faults::damage(chance, &mut bytes);
    }
    if chance.one_in(2) {
        let records: &[&[u8]] = &[&[2, 0, 1, 0], &[9, 0], &[9, 0, 2, 0, 1, 0], &[9, 0, 9, 0], &[9, 0, 9], &[9]];
        let cancellations: &[&[u8]] = &[&[8, 0, 0, 1], &[8, 1, 0, 2], &[8, 0, 9, 1], &[8, 0, 0, 0], &[8, 0, 0], &[8]];
        let no_block: &[&[u8]] = &[&[11, 0, 0], &[11, 1, 0], &[11, 0, 9], &[11, 0, 0x80, 0], &[11, 0], &[11]];
        let batches: &[&[u8]] = &[
            &[10, 0, 1, 1, 0, 100, 1, 1, 101, 1, 1],
            &[10, 1, 2, 1, 0, 100, 1, 1, 0, 0, 0],
            &[10, 0, 1, 0],
            &[10, 0, 0, 33, 0x80, 0],
            &[10, 0, 1],
            &[10, 0],
            &[10],
        ];
        let records = chance.pick(&[records, cancellations, no_block, batches]);
        bytes.extend(chance.pick(records));
    }
    bytes
}

/// As many of one thing as a journal may hold, or one more, among other activity.
fn many(chance: &mut Chance, most: usize, count: fn(&Activity) -> usize, add: fn(&mut Activity)) -> Vec<u8> {
    let header = values::header(chance);
    let wanted = most + chance.below(2);
    let busy = chance.one_in(3);
    let mut day = open(chance, &header);
    while count(&day) < wanted {
        add(&mut day);
        if busy && day.chance.one_in(4) && count(&day) + 4 < wanted {
            day.something();
        }
    }
    day.bytes
}

/// Around 512 Satisfaction Orders, the last of them perhaps cancelled or a second one, and one more for a trade that
/// there is not.
fn many_satisfactions(chance: &mut Chance) -> Vec<u8> {
    let mut header = values::header(chance);
    header[0] = chance.between(1, 8);
    header[1] = 8;
    for size in &mut header[3..] {
        *size = 10;
    }
    let wanted = chance.pick(&[511, 512, 512, 513]);
    let mut day = open(chance, &header);
    day.initiated = 80;
    let cancelled = day.one_as_block();
    day.no_block_at(cancelled, day.time);
    while day.satisfactions() + 14 < wanted && day.trades() < 127 {
        day.shared_trade();
    }
    let by_second = day.chance.one_in(2);
    for trade in (1..day.trades()).cycle().take(20 * 128) {
        let away = day.away();
        if day.satisfactions() + (by_second as usize) < wanted {
            // The last may be said to be for no block.
            day.as_block = if day.satisfactions() + 1 == wanted { 100 } else { day.as_block };
            day.satisfaction(trade, away);
        }
    }
    if by_second {
        let (trade, away) = (day.asked[cancelled].trade, day.asked[cancelled].from);
        day.satisfaction_again(0, 30, trade, away);
    } else if let Some(&last) = day.open_to_no_block().last() {
        day.no_block_at(last, day.time);
    }
    for _ in 0..2 {
        day.cancel_some_from(500);
    }
    if day.chance.one_in(3) {
        let (trade, away) = (day.trades() as u32, day.away());
        day.add_as_is(7, 0, &[trade, away, 100, 5]);
    }
    day.bytes
}

/// About as many records as a journal can hold, the last but a few of which print.
fn many_records(chance: &mut Chance) -> Vec<u8> {
    let header = values::header(chance);
    let before_closing = chance.below(10_000);
    let mut day = Activity::open(chance, &header);
    day.close_after(before_closing);
    day.statuses_up_to(Journal::MOST_BYTES - 60);
    day.received_order();
    day.quote_around(day.home);
    day.statuses_up_to(Journal::MOST_BYTES);
    day.bytes
}

/// Exactly as many bytes as a journal may have, or one fewer or more.
fn full(chance: &mut Chance) -> Vec<u8> {
    let header = values::header(chance);
    let length = chance.pick(&[32_767, 32_768, 32_768, 32_769]);
    let busy = chance.below(200);
    let mut day = open(chance, &header);
    if day.chance.one_in(3) {
        day.series = (0..32).collect();
    }
    for _ in 0..busy {
        day.something();
    }
    day.fill_up(length);
    day.bytes
}

/// The same with batches up to the last byte, or with one that promises more quotes than there is room for.
fn full_of_batches(chance: &mut Chance) -> Vec<u8> {
    let header = values::header(chance);
    let length = chance.pick(&[32_767, 32_768, 32_768, 32_768, 32_769]);
    let busy = chance.below(30);
    let mut day = open(chance, &header);
    for _ in 0..busy {
        day.something();
    }
    let left = day.chance.weighted(&[(3, 0), (1, 4), (1, 11), (1, 100), (1, 227), (1, 228)]);
    day.fill_up_with_batches(length - left);
    if left > 0 {
        // Of 32 quotes without a price, 228 bytes.
        day.add_as_is(kind::BATCH, 0, &[1, 32]);
        day.bytes.resize(length, 0);
    }
    day.bytes
}

/// After some records home's batches of 32 quotes without a price: no journal prints more lines.
fn most_lines(chance: &mut Chance) -> Vec<u8> {
    let header = values::header(chance);
    let busy = chance.below(10);
    let mut day = open(chance, &header);
    for _ in 0..busy {
        day.something();
    }
    day.fill_with_homes_batches(Journal::MOST_BYTES);
    day.bytes
}

fn too_long(chance: &mut Chance) -> Vec<u8> {
    let mut bytes = only_header(chance);
    let length = chance.pick(&[32_769, 32_770, 40_000, 131_072]);
    bytes.resize(length, 0);
    bytes
}

/// A header's numbers and its bytes, for questions about single records.
pub fn header_numbers(chance: &mut Chance) -> [u32; Header::NUMBERS] {
    if chance.one_in(4) { values::header_or_near(chance) } else { values::header(chance) }
}
