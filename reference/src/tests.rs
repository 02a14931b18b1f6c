//! Small cases of numbers, records, refusals and questions, and how long every made journal is and its numbers are.

use crate::alone::Plain;
use crate::ask::{self, Question};
use crate::header::{FirmSizes, Header};
use crate::journal::{Journal, Watcher};
use crate::number::Reader;
use crate::record::kind;
use crate::refusal::{No, Refusal};
use crate::{day, journal, make};
use std::collections::BTreeMap;

fn read(bytes: &[u8]) -> Option<(u32, usize)> {
    let mut reader = Reader::new(bytes);
    let number = reader.number().ok()?;
    Some((number, reader.place()))
}

#[test]
fn numbers_of_each_length() {
    assert_eq!(read(&[0x00]), Some((0, 1)));
    assert_eq!(read(&[0x7F]), Some((127, 1)));
    assert_eq!(read(&[0x80, 0x01]), Some((128, 2)));
    assert_eq!(read(&[0xFF, 0x7F, 0x80]), Some((16_383, 2)));
    assert_eq!(read(&[0x80, 0x80, 0x01]), Some((16_384, 3)));
    assert_eq!(read(&[0xFF, 0xFF, 0xFF, 0x7F, 0x00]), Some((268_435_455, 4)));
}

#[test]
fn numbers_that_cannot_be_read() {
    let cut_off: [&[u8]; 4] = [&[], &[0x80], &[0xFF, 0xFF], &[0x80, 0x80, 0x80]];
    let too_long: [&[u8]; 2] = [&[0x80, 0x80, 0x80, 0x80], &[0x80, 0x80, 0x80, 0x80, 0x01]];
    let longer_than_needed: [&[u8]; 3] = [&[0x80, 0x00], &[0xFF, 0x80, 0x00], &[0x80, 0x80, 0x80, 0x00]];
    for bytes in cut_off.iter().chain(&too_long).chain(&longer_than_needed) {
        assert_eq!(read(bytes), None, "{bytes:?}");
    }
}

#[test]
fn an_empty_journal_and_one_that_is_too_long() {
    assert_eq!(day::printed(&[]), b"refused 2 at 0\n");
    assert_eq!(day::printed(&vec![0; Journal::MOST_BYTES + 1]), b"refused 1 at 0\n");
}

pub fn two_exchanges() -> Header {
    let mut header = Header { home: 1, exchanges: 2, close: 57_600_000, ..Header::default() };
    header.sizes[..2].fill(FirmSizes { automatic: 10, principal: 10 });
    header
}

#[test]
fn a_closing_record_alone_has_no_fields() {
    let header = two_exchanges();
    let closing = Plain { kind: kind::CLOSING_WINDOW, milliseconds: 300, fields: vec![] };
    let with_fields_beyond = Plain { fields: [u32::MAX; 8], kind: closing.kind, milliseconds: 300 };
    let mut out = [0; 4];
    assert_eq!(with_fields_beyond.write(&header, 0, &mut out), Ok(3));
    assert_eq!(out, [9, 0xAC, 0x02, 0]);
    assert_eq!(Plain::read_alone(&header, 0, &out), Ok((3, closing.clone())));
    let refused = |no, place| Err(Refusal { no, place });
    assert_eq!(Plain::read_alone(&header, 86_399_700, &out), refused(No::Field, 0));
    assert_eq!(Plain::read_alone(&header, 0, &out[..2]), refused(No::UnreadableNumber, 1));
    assert_eq!(closing.write(&header, 86_399_700, &mut out), Err(Refusal::new(No::Field)));
    assert_eq!(closing.write(&header, 0, &mut out[..2]), Err(Refusal::new(No::OutputTooShort)));
}

#[test]
fn a_cancellation_alone_names_any_number_and_any_exchange() {
    let header = two_exchanges();
    let of = |order, named| Plain { kind: kind::CANCELLATION, milliseconds: 0, fields: vec![order, named] };
    let mut out = [0xA5; 8];
    for named in [1, 2] {
        let cancellation = of(268_435_455, named);
        assert_eq!(cancellation.write(&header, 0, &mut out), Ok(7));
        assert_eq!(out, [8, 0, 0xFF, 0xFF, 0xFF, 0x7F, named as u8, 0xA5]);
        assert_eq!(Plain::read_alone(&header, 0, &out), Ok((7, cancellation)));
    }
    let refused = |no, place| Err(Refusal { no, place });
    assert_eq!(Plain::read_alone(&header, 0, &[8, 0, 0]), refused(No::UnreadableNumber, 3));
    assert_eq!(Plain::read_alone(&header, 0, &[8, 0, 0, 0]), refused(No::Field, 0));
    assert_eq!(Plain::read_alone(&header, 0, &[8, 0, 0, 3]), refused(No::Field, 0));
    assert_eq!(Plain::read_alone(&header, 86_399_999, &[8, 1, 0, 2]), refused(No::Field, 0));
    for unfit in [of(268_435_456, 2), of(0, 0), of(0, 3), of(0, u32::MAX)] {
        assert_eq!(unfit.write(&header, 0, &mut out), Err(Refusal::new(No::Field)));
    }
}

#[test]
fn a_no_block_record_alone_names_any_number() {
    let header = two_exchanges();
    let of = |order| Plain { kind: kind::NO_BLOCK, milliseconds: 0, fields: vec![order] };
    let mut out = [0xA5; 8];
    let no_block = of(268_435_455);
    let with_fields_beyond = Plain { fields: [268_435_455, 9, 9, 9, 9, 9, 9, u32::MAX], kind: 11, milliseconds: 0 };
    assert_eq!(with_fields_beyond.write(&header, 0, &mut out), Ok(6));
    assert_eq!(out, [11, 0, 0xFF, 0xFF, 0xFF, 0x7F, 0xA5, 0xA5]);
    assert_eq!(Plain::read_alone(&header, 0, &out), Ok((6, no_block.clone())));
    let refused = |no, place| Err(Refusal { no, place });
    assert_eq!(Plain::read_alone(&header, 0, &[11, 0]), refused(No::UnreadableNumber, 2));
    assert_eq!(Plain::read_alone(&header, 0, &[11, 0, 0x80, 0]), refused(No::UnreadableNumber, 2));
    assert_eq!(Plain::read_alone(&header, 86_399_999, &[11, 1, 0]), refused(No::Field, 0));
    for unfit in [268_435_456, u32::MAX] {
        assert_eq!(of(unfit).write(&header, 0, &mut out), Err(Refusal::new(No::Field)));
    }
    assert_eq!(no_block.write(&header, 0, &mut out[..5]), Err(Refusal::new(No::OutputTooShort)));
}

#[test]
fn unknown_kinds() {
    for kind in [0, 12, 13, 128] {
        let unknown = Plain { kind, milliseconds: 0, fields: [0; 8] };
        assert_eq!(unknown.write(&two_exchanges(), 0, &mut [0; 4]), Err(Refusal::new(No::UnknownKind)));
    }
}

/// Header, time so far, kind, milliseconds and 8 to 226 fields.
#[test]
fn questions_about_a_record_have_room_for_8_to_226_fields() {
    for (fields, no) in [(7, 98), (8, 4), (9, 4), (225, 4), (226, 4), (227, 98)] {
        let mut numbers = vec![1, 2, 57_600_000, 10, 10, 10, 10];
        numbers.resize(22 + fields, 0);
        let a: Vec<u8> = numbers.iter().flat_map(|number: &u32| number.to_le_bytes()).collect();
        let question = Question { op: ask::op::WRITE_RECORD, cap: 9, a, b: vec![] };
        assert_eq!(question.answer().no, no);
        let odd = Question { a: [&question.a[..], &[0]].concat(), ..question };
        assert_eq!(odd.answer().no, 98);
    }
}

#[test]
fn a_record_that_is_read_has_at_least_8_fields() {
    let numbers: [u32; 20] = std::array::from_fn(|at| [1, 2, 57_600_000, 10, 10, 10, 10].get(at).copied().unwrap_or(0));
    let a: Vec<u8> = numbers.iter().flat_map(|number| number.to_le_bytes()).collect();
    let two_quotes = [10, 0, 2, 2, 0, 100, 1, 1, 101, 1, 1, 0, 100, 1, 1, 101, 1, 1];
    for (bytes, words) in [(&[9, 0][..], 11), (&[2, 0, 1, 0], 11), (&two_quotes, 19)] {
        let read = Question { op: ask::op::READ_RECORD, cap: 0, a: a.clone(), b: bytes.to_vec() };
        assert_eq!(read.answer().bytes.len(), 4 * words);
    }
}

#[test]
fn made_journals_are_full_and_good() {
    for (kind, _) in make::KINDS {
        let made = make::journal(kind).expect("a kind that is named");
        assert_eq!(made.len() == Journal::MOST_BYTES, !["batches", "singles"].contains(&kind), "{kind}");
        assert_eq!(journal::accept(&made), Ok(()), "{kind}");
    }
}

/// How many numbers take one byte to four, at each place of the records of each kind: milliseconds are at 0, the fields
/// from 1 on.
#[derive(Default)]
struct Lengths(BTreeMap<(u32, usize), [usize; 4]>);

impl Watcher for Lengths {
    fn record(&mut self, record: Plain<&[u32]>) {
        for (place, &number) in [record.milliseconds].iter().chain(record.fields).enumerate() {
            let groups_beyond_first = number.max(1).ilog2() / 7;
            self.0.entry((record.kind, place)).or_default()[groups_beyond_first as usize] += 1;
        }
    }
}

fn lengths_of(kind: &str) -> Lengths {
    let made = make::journal(kind).expect("a kind that is named");
    let (header, reader) = journal::open(&made).expect("made journals have a header");
    let mut lengths = Lengths::default();
    journal::walk(&header, reader, &mut lengths).expect("made journals are accepted");
    lengths
}

#[test]
fn short_journals_have_no_number_of_three_bytes() {
    for kind in ["short", "short-claims"] {
        for (place, counts) in lengths_of(kind).0 {
            assert_eq!(counts[2..], [0, 0], "{kind} at {place:?}");
        }
    }
}

#[test]
fn claims_are_as_many_as_there_may_be() {
    for kind in ["claims", "short-claims"] {
        let Lengths(found) = lengths_of(kind);
        for (of, count) in [(kind::HOME_TRADE, 128), (kind::SENT_ORDER, 256), (kind::SATISFACTION_ORDER, 512)] {
            assert_eq!(found[&(of, 0)].iter().sum::<usize>(), count, "{kind}");
        }
    }
}

/// How many bytes a number may take, field by field. Trades are up to 128, sent orders 256, Satisfaction Orders 512; of a
/// batch the first quote is looked at.
const MOST_BYTES: [(u32, &[usize]); 10] = [
    (kind::QUOTE, &[1, 1, 3, 3, 3, 3, 3, 3]),
    (kind::STATUS, &[1, 1]),
    (kind::HOME_TRADE, &[1, 3, 3, 1, 1, 1, 3]),
    (kind::SENT_ORDER, &[1, 1, 1, 1, 3, 3]),
    (kind::RESPONSE, &[2, 3]),
    (kind::RECEIVED_ORDER, &[1, 1, 1, 1, 3, 3]),
    (kind::SATISFACTION_ORDER, &[1, 1, 3, 3]),
    (kind::CANCELLATION, &[2, 1]),
    (kind::NO_BLOCK, &[2]),
    (kind::BATCH, &[1, 1, 1, 3, 3, 3, 3, 3, 3]),
];

#[test]
fn numbers_of_every_length_stand_at_every_place_that_allows_them() {
    let Lengths(found) = lengths_of("lengths");
    let often = 8;
    for (kind, fields) in MOST_BYTES {
        for (place, &most) in [3].iter().chain(fields).enumerate() {
            let counts = found[&(kind, place)];
            assert!(counts[..most].iter().all(|&count| count >= often), "{kind} at {place}: {counts:?}");
        }
    }
    let pauses_of_four_bytes: usize = MOST_BYTES.iter().map(|&(kind, _)| found[&(kind, 0)][3]).sum();
    assert!(pauses_of_four_bytes >= 2 * often);
}

#[test]
fn lent_output_that_is_too_short_keeps_its_bytes() {
    let made = make::journal("mixed").expect("a kind that is named");
    let short = Question { op: ask::op::REWRITE, cap: made.len() as u32 - 1, a: made, b: vec![] };
    let answer = short.answer();
    assert_eq!((answer.no, answer.place, answer.kept), (No::OutputTooShort as u32, 0, true));
    assert!(answer.bytes.is_empty());
}

#[test]
fn a_run_ends_at_a_question_that_is_too_large_or_cut_off() {
    let good = Question { op: ask::op::JOURNAL, a: vec![1], ..Question::default() };
    for damage in [|bytes: &mut Vec<u8>| bytes[3] = 0xFF, |bytes: &mut Vec<u8>| bytes.truncate(13)] {
        let (mut first, mut second) = (Vec::new(), Vec::new());
        good.put(&mut first);
        good.put(&mut second);
        damage(&mut second);
        let (input, mut output) = ([first, second].concat(), Vec::new());
        ask::run(&mut input.as_slice(), &mut output).expect("nothing fails in memory");
        let mut right = Vec::new();
        good.answer().put(&mut right);
        assert_eq!(output, right);
    }
}
