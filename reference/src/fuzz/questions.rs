//! The questions of a run, each decided by the seed and its number alone.

use super::activity::put_number;
use super::batching::{self, Drawn};
use super::chance::Chance;
use super::{faults, journals, reading, sheets, values};
use crate::alone::Plain;
use crate::ask::{Question, op};
use crate::batch::Batch;
use crate::header::Header;
use crate::record::kind;

pub fn question(seed: u64, number: u64) -> Question {
    let chance = &mut Chance::new(seed, number);
    if number % reading::ONE_IN == reading::ONE_IN - 1 {
        let mut question = reading::question(chance, seed, number / reading::ONE_IN);
        question.cap = mostly_enough(chance, &question);
        return question;
    }
    let asked = chance.weighted(&[
        (11, op::JOURNAL),
        (22, op::DAY),
        (14, op::SHEET),
        (26, op::CHECK),
        (8, op::TOTALS),
        (5, op::WRITE_HEADER),
        (16, op::WRITE_RECORD),
        (16, op::READ_RECORD),
        (4, op::REWRITE),
        (2, 0),
    ]);
    let mut question = match asked {
        op::WRITE_HEADER => write_header(chance),
        op::WRITE_RECORD => write_record(chance),
        op::READ_RECORD => read_record(chance),
        op::CHECK => check(chance),
        op::DAY => Question { op: asked, a: journals::journal_with_orders(chance), ..Question::default() },
        op::SHEET => Question { op: asked, a: journals::journal_with_claims(chance), ..Question::default() },
        0 => no_question(chance),
        _ => Question { op: asked, a: journals::journal(chance), ..Question::default() },
    };
    question.cap = cap(chance, &question);
    question
}

fn bytes_needed(question: &Question) -> u32 {
    let plenty = Question { cap: Question::MOST, ..question.clone() };
    plenty.answer().bytes.len() as u32
}

/// The lent output where what is written tells more than that it has room.
fn mostly_enough(chance: &mut Chance, question: &Question) -> u32 {
    let needed = bytes_needed(question);
    chance.weighted(&[(8, needed), (1, needed.saturating_sub(1)), (1, needed + 100)])
}

/// The lent output: just enough, one byte too few, none, plenty.
fn cap(chance: &mut Chance, question: &Question) -> u32 {
    let needed = bytes_needed(question);
    let some = chance.between(0, needed);
    let more = needed + chance.between(1, 100);
    chance
        .weighted(&[
            (8, needed),
            (6, needed.saturating_sub(1)),
            (1, needed + 1),
            (1, 0),
            (2, some),
            (3, more),
            (1, Question::MOST),
        ])
        .min(Question::MOST)
}

pub(super) fn words(numbers: &[u32]) -> Vec<u8> {
    numbers.iter().flat_map(|number| number.to_le_bytes()).collect()
}

fn write_header(chance: &mut Chance) -> Question {
    let header = values::header_or_near(chance);
    Question { op: op::WRITE_HEADER, a: words(&header), ..Question::default() }
}

fn write_record(chance: &mut Chance) -> Question {
    let header = journals::header_numbers(chance);
    let mut record = values::record_or_near(chance, &header);
    let mut time = values::time_so_far(chance, record.milliseconds);
    if chance.one_in(2) {
        let fields = spoiled_batch(chance, &header).fields();
        (time, record) = (chance.pick(&[0, 0, 0, time]), Plain { kind: kind::BATCH, milliseconds: 0, fields });
        if chance.one_in(5) {
            let late = record.fields.len() - 1 - chance.below(record.fields.len().min(20));
            record.fields[late] = chance.pick(&[268_435_456, u32::MAX]);
        }
    }
    let mut numbers = header.to_vec();
    numbers.extend([time, record.kind, record.milliseconds]);
    numbers.extend(given_fields(chance, &record));
    Question { op: op::WRITE_RECORD, a: words(&numbers), ..Question::default() }
}

/// A batch with something wrong, mostly.
fn spoiled_batch(chance: &mut Chance, header: &[u32; Header::NUMBERS]) -> Drawn {
    let exchanges = header[1].clamp(2, 8);
    let (exchange, count) = (chance.between(1, exchanges), batching::count_of_quotes(chance));
    let mut drawn = Drawn::new(exchange, batching::some_quotes(chance, count));
    if chance.percent(70) {
        drawn.spoil(chance, exchanges);
    }
    drawn
}

/// As many fields as there is room for: the record's own, more of them, which do not count, or in a batch fewer.
fn given_fields(chance: &mut Chance, record: &Plain<Vec<u32>>) -> Vec<u32> {
    let own = record.fields.len();
    let is_batch = record.kind == kind::BATCH;
    let any = chance.between(Plain::FEWEST_FIELDS as u32, Plain::MOST_FIELDS as u32) as usize;
    let fewer = own - chance.below(own.min(Batch::NUMBERS_A_QUOTE) + 1);
    let given = match chance.below(16) {
        0 => any,
        1 => own + 1 + chance.below(9),
        2 | 3 => Plain::MOST_FIELDS,
        4..=7 if is_batch => fewer,
        8 if is_batch => own.min(any),
        _ => own,
    };
    let beyond = chance.pick(&[0, 0, 1, 268_435_456, u32::MAX]);
    let mut fields = record.fields.clone();
    fields.resize(given.clamp(Plain::FEWEST_FIELDS, Plain::MOST_FIELDS), beyond);
    fields
}

fn read_record(chance: &mut Chance) -> Question {
    let header = journals::header_numbers(chance);
    let mut bytes = Vec::new();
    let time = if chance.one_in(2) {
        put_batch(chance, &header, &mut bytes)
    } else {
        let record = values::record_or_near(chance, &header);
        for &number in [record.kind, record.milliseconds].iter().chain(&record.fields) {
            put_number(&mut bytes, number);
        }
        match chance.below(9) {
            0..=2 => faults::damage(chance, &mut bytes),
            3 => bytes.extend((0..1 + chance.below(3)).map(|_| chance.byte())),
            _ => {}
        }
        values::time_so_far(chance, record.milliseconds)
    };
    let mut numbers = header.to_vec();
    numbers.push(time);
    Question { op: op::READ_RECORD, a: words(&numbers), b: bytes, ..Question::default() }
}

/// A batch with numbers out of range, unsound, unreadable or cut off; answers the time so far.
fn put_batch(chance: &mut Chance, header: &[u32; Header::NUMBERS], bytes: &mut Vec<u8>) -> u32 {
    let mut drawn = spoiled_batch(chance, header);
    let milliseconds = chance.pick(&[0, 0, 1, 128, 86_399_999]);
    let time = values::time_so_far(chance, milliseconds);
    let how = chance.below(6);
    if how == 0 {
        drawn.make_unreadable(chance);
    }
    drawn.put(chance, milliseconds, bytes);
    match how {
        1 if drawn.unreadable.is_none() => bytes.truncate(1 + chance.below(bytes.len())),
        2 if drawn.unreadable.is_none() => bytes.truncate(1 + chance.below(5)),
        _ => {}
    }
    chance.pick(&[0, 0, 0, time])
}

fn check(chance: &mut Chance) -> Question {
    let journal = journals::journal_with_claims(chance);
    let sheet = sheets::sheet(chance, &journal);
    Question { op: op::CHECK, a: journal, b: sheet, ..Question::default() }
}

/// An op that there is not, or numbers that are too many or too few for theirs.
fn no_question(chance: &mut Chance) -> Question {
    let unknown = chance.pick(&[0, 200, 254, 255]);
    let numbered = chance.pick(&[op::WRITE_HEADER, op::WRITE_RECORD, op::READ_RECORD]);
    let fewest = Header::NUMBERS + 3 + Plain::FEWEST_FIELDS;
    let most = Header::NUMBERS + 3 + Plain::MOST_FIELDS;
    let taken = match numbered {
        op::WRITE_HEADER => [Header::NUMBERS; 2],
        op::READ_RECORD => [Header::NUMBERS + 1; 2],
        _ => [fewest, most],
    };
    let [few, many] = [taken[0] - 1, taken[1] + 1];
    let numbers = chance.pick(&[0, few, few, many, many, taken[0], taken[1]]);
    let mut a = words(&vec![1; numbers]);
    if chance.one_in(2) {
        a.resize(a.len() + chance.below(4), 0);
    }
    Question { op: chance.pick(&[unknown, numbered, numbered]), a, ..Question::default() }
}
