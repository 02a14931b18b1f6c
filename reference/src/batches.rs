//! Batches of quotes: the same as so many quotes one after the other, and what is refused. Home is 1 of four with firm
//! sizes of ten.

use crate::alone::Plain;
use crate::cancellations::{Records, bytes_of, list_of, sheet_of};
use crate::examples::{MORNING, own_sheet};
use crate::fuzz::{self, activity::put_number};
use crate::header::Header;
use crate::journal::{self, Journal, Watcher, open, walk};
use crate::record::kind;
use crate::refusal::{No, Refusal};
use crate::tests::two_exchanges;
use crate::{day, sheet, totals};

/// A bid for 30 customer contracts.
fn bid(series: u32, price: u32) -> [u32; 7] {
    [series, price, 30, 30, 0, 0, 0]
}

const NO_QUOTE: [u32; 7] = [0; 7];
const SOUND: [u32; 7] = [0, 100, 1, 1, 101, 1, 1];
const OUT_OF_RANGE: [u32; 7] = [32, 100, 1, 1, 101, 1, 1];
const UNSOUND: [u32; 7] = [0, 101, 1, 1, 101, 1, 1];

fn batch(milliseconds: u32, exchange: u32, quotes: &[[u32; 7]]) -> Vec<u32> {
    let mut numbers = vec![kind::BATCH, milliseconds, exchange, quotes.len() as u32];
    numbers.extend(quotes.iter().flatten());
    numbers
}

/// Writes each batch as so many quotes, "the later ones with zero elapsed time", and notes which event each record was.
struct Apart {
    bytes: Vec<u8>,
    events: Vec<u32>,
    records: u32,
}

impl Apart {
    fn put(&mut self, kind: u32, milliseconds: u32, fields: &[u32]) {
        for &number in [kind, milliseconds].iter().chain(fields) {
            put_number(&mut self.bytes, number);
        }
        self.events.push(self.records);
    }
}

impl Watcher for Apart {
    fn record(&mut self, record: Plain<&[u32]>) {
        let Plain { kind, milliseconds, fields } = record;
        match fields {
            [exchange, _, quotes @ ..] if kind == kind::BATCH => {
                for (at, quote) in quotes.chunks_exact(7).enumerate() {
                    let waited = if at == 0 { milliseconds } else { 0 };
                    self.put(kind::QUOTE, waited, &[&[*exchange], quote].concat());
                }
            }
            _ => self.put(kind, milliseconds, fields),
        }
        self.records += 1;
    }
}

/// An accepted journal with its batches taken apart, unless that makes it too long.
fn apart(bytes: &[u8]) -> Option<Apart> {
    let (header, reader) = open(bytes).ok()?;
    let mut written = [0; Header::MOST_BYTES];
    let end = header.put(&mut written);
    let mut apart = Apart { bytes: written[..end].to_vec(), events: Vec::new(), records: 0 };
    walk(&header, reader, &mut apart).ok()?;
    Some(apart).filter(|apart| apart.bytes.len() <= Journal::MOST_BYTES)
}

/// The list of the day taken apart, with the event numbers of the day.
fn list_by_events(apart: &Apart) -> String {
    let list = String::from_utf8(day::printed(&apart.bytes)).expect("lists are plain text");
    let mut lines = list.lines();
    let mut renumbered = lines.next().expect("a list has a first line").to_string() + "\n";
    for line in lines {
        let (event, rest) = line.split_once(' ').expect("a line has five words");
        let event = apart.events[event.parse::<usize>().expect("an event's number")];
        renumbered += &format!("{event} {rest}\n");
    }
    renumbered
}

/// Verdicts, sheet and totals are those of so many kind 1 records; the day written again has the same bytes. Answers
/// whether the day is accepted and has batches.
fn is_the_same_apart(bytes: &[u8]) -> bool {
    let Some(apart) = apart(bytes) else {
        return false;
    };
    assert_eq!(day::printed(bytes), list_by_events(&apart).as_bytes());
    assert_eq!(own_sheet(bytes), own_sheet(&apart.bytes));
    assert_eq!(totals::totals(bytes), totals::totals(&apart.bytes));
    assert_eq!(sheet::check(bytes, &own_sheet(&apart.bytes)), Ok(()));
    let mut again = vec![0; bytes.len()];
    assert_eq!(journal::rewrite(bytes, &mut again), Ok(bytes.len()));
    assert_eq!(again, bytes);
    apart.bytes != bytes
}

#[test]
fn days_by_seed_are_the_same_apart() {
    let days = (0..2_000).flat_map(|number| fuzz::days(7, number));
    assert!(days.filter(|day| is_the_same_apart(day)).count() > 2_000);
}

#[test]
fn one_event_that_prints_each_of_homes_quotes() {
    let quoted = batch(0, 2, &[[0, 0, 0, 0, 120, 5, 0], [1, 110, 5, 0, 0, 0, 0]]);
    let home = [bid(0, 119), bid(0, 120), bid(0, 121), bid(0, 119), [1, 0, 0, 0, 110, 5, 0], NO_QUOTE];
    let records = vec![quoted, batch(5, 1, &home), vec![3, 0, 1, 100, 5, 0, 0, 0, 0]];
    let lines = "1 Q 0 0 0\n1 Q 1 2 1\n1 Q 2 2 1\n1 Q 0 0 0\n1 Q 1 2 2\n1 Q 0 0 0\n2 T 0 1 0\n";
    assert_eq!(list_of(&records), format!("event what a b c\n{lines}"));
    assert!(is_the_same_apart(&bytes_of(&records)));
}

#[test]
fn up_to_32_quotes_and_no_fewer_than_one() {
    for count in [1, 2, 31, 32] {
        let quotes: Vec<[u32; 7]> = (0..count).map(|series| bid(series, 100)).collect();
        let records = vec![batch(1, 1, &quotes)];
        assert_eq!(list_of(&records).lines().filter(|line| *line == "0 Q 0 0 0").count(), count as usize);
        assert!(is_the_same_apart(&bytes_of(&records)));
    }
}

/// The last quote of a series stands: it decides on who is traded through and for how many.
#[test]
fn the_last_of_a_series_stands() {
    let claim = |quotes: &[[u32; 7]]| {
        let trade = vec![3, 0, 0, 100, 40, 0, 0, 0, 0];
        list_of(&vec![batch(MORNING, 2, quotes), trade, vec![7, 0, 0, 2, 110, 30]])
    };
    let with = |lines: &str| format!("event what a b c\n{lines}");
    assert_eq!(claim(&[bid(0, 110)]), with("1 T 0 1 0\n2 F 0 30 0\n"));
    assert_eq!(claim(&[bid(0, 100), bid(1, 90), bid(0, 110)]), with("1 T 0 1 0\n2 F 0 30 0\n"));
    assert_eq!(claim(&[bid(0, 110), bid(1, 90), bid(0, 100)]), with("1 T 0 0 0\n2 F 10 0 30\n"));
    assert_eq!(claim(&[[0, 110, 9, 9, 0, 0, 0], [0, 110, 9, 4, 0, 0, 0]]), with("1 T 0 1 0\n2 F 0 4 26\n"));
}

/// "Followed by a quote of that exchange in the series worse than its price or absent on that side", for good.
#[test]
fn a_batch_ends_reason_2() {
    let reason = |exchange: u32, quotes: &[[u32; 7]]| {
        let mut day: Records = vec![batch(MORNING, 2, &[bid(0, 110)]), vec![4, 0, 1, 2, 0, 2, 110, 5]];
        day.extend([batch(0, exchange, quotes), batch(0, 2, &[bid(0, 110)])]);
        day.extend([vec![3, 20_001, 0, 100, 5, 0, 0, 0, 0], vec![7, 0, 0, 2, 110, 5]]);
        list_of(&day).lines().last().expect("a list has lines").split(' ').nth(2).expect("a reason").to_string()
    };
    assert_eq!(reason(2, &[bid(0, 110)]), "2");
    assert_eq!(reason(2, &[bid(1, 109), NO_QUOTE, bid(0, 110)]), "0");
    assert_eq!(reason(2, &[bid(0, 109), bid(0, 110)]), "0");
    assert_eq!(reason(2, &[bid(0, 110), bid(0, 109)]), "0");
    assert_eq!(reason(2, &[bid(1, 109), bid(2, 109)]), "2");
    assert_eq!(reason(3, &[bid(0, 109), bid(0, 110)]), "2");
}

/// A home quote of a batch is "a later home quote" of request d, also where the batch takes it back.
#[test]
fn a_batch_is_the_later_quote() {
    let second = |wait: u32, exchange: u32, quotes: &[[u32; 7]]| {
        let order = |wait: u32| vec![6, wait, 2, 2, 1, 2, 50, 5];
        let initial = vec![6, 0, 2, 2, 0, 2, 100, 5];
        let opening = batch(MORNING, 1, &[bid(0, 100), bid(1, 50)]);
        let day = vec![opening, initial, batch(0, exchange, quotes), order(wait)];
        list_of(&day).lines().last().expect("a list has lines").split_once(" R ").expect("R").1.to_string()
    };
    let (whole, none, in_part) = ("1 5 0", "0 0 4", "2 5 0");
    for quotes in [&[bid(0, 99)][..], &[bid(0, 99), bid(0, 100)], &[bid(0, 100), bid(2, 1), bid(0, 101)]] {
        assert_eq!(second(15_000, 1, quotes), whole);
        assert_eq!(second(60_000, 1, quotes), whole);
    }
    for quotes in [&[bid(0, 100)][..], &[bid(1, 50), bid(2, 7)], &[bid(0, 100), bid(0, 100)]] {
        assert_eq!(second(15_000, 1, quotes), none);
        assert_eq!(second(60_000, 1, quotes), in_part);
    }
    assert_eq!(second(15_000, 3, &[bid(0, 99), bid(0, 90)]), none);
    // None, and the price that stood: a price stands there now.
    assert_eq!(second(0, 1, &[NO_QUOTE, bid(0, 100)]), whole);
    assert_eq!(second(0, 1, &[bid(0, 99), NO_QUOTE]), none);
    assert_eq!(second(15_001, 1, &[bid(0, 100), NO_QUOTE]), whole);
}

/// What a day is refused that ends in these numbers, after a status; the place is counted from the batch's start.
fn refused(numbers: &[u32]) -> Option<(No, usize)> {
    let before = bytes_of(&vec![vec![2, MORNING, 1, 0]]);
    let bytes = bytes_of(&vec![vec![2, MORNING, 1, 0], numbers.to_vec()]);
    refused_after(&before, &bytes)
}

fn refused_after(before: &[u8], bytes: &[u8]) -> Option<(No, usize)> {
    let refusal = journal::accept(bytes).err()?;
    assert_eq!(day::list(bytes), Err(refusal));
    assert_eq!(journal::rewrite(bytes, &mut [0; 1_000]), Err(refusal));
    Some((refusal.no, refusal.place as usize - before.len()))
}

/// The same with bytes after the numbers.
fn refused_with(numbers: &[u32], bytes: &[u8]) -> Option<(No, usize)> {
    let before = bytes_of(&vec![vec![2, MORNING, 1, 0]]);
    let mut journal = bytes_of(&vec![vec![2, MORNING, 1, 0], numbers.to_vec()]);
    journal.extend_from_slice(bytes);
    refused_after(&before, &journal)
}

const FIELD: Option<(No, usize)> = Some((No::Field, 0));
const QUOTE: Option<(No, usize)> = Some((No::Quote, 0));

#[test]
fn a_count_out_of_range_is_found_before_the_quotes_are_read() {
    for count in [0, 33, 127, 128, 16_384, 268_435_455] {
        let opening = [kind::BATCH, 0, 1, count];
        assert_eq!(refused(&opening), FIELD);
        assert_eq!(refused_with(&opening, &[0x80, 0]), FIELD);
        assert_eq!(refused_with(&opening, &[0x80]), FIELD);
        assert_eq!(refused(&[&opening[..], &SOUND.repeat(33)].concat()), FIELD);
        assert_eq!(refused(&[&opening[..], &UNSOUND.repeat(33)].concat()), FIELD);
    }
    let mut too_many = batch(0, 1, &[SOUND; 32]);
    assert_eq!(refused(&too_many), None);
    too_many[3] = 33;
    too_many.extend(SOUND);
    assert_eq!(refused(&too_many), FIELD);
}

#[test]
fn all_quotes_are_read_before_one_is_judged() {
    for first in [OUT_OF_RANGE, UNSOUND] {
        for (exchange, milliseconds) in [(1, 0), (0, 0), (5, 0), (1, 86_400_000)] {
            let opening = [&[kind::BATCH, milliseconds, exchange, 2][..], &first].concat();
            let start = bytes_of(&vec![opening.clone()]).len() - bytes_of(&vec![]).len();
            assert_eq!(refused(&opening), Some((No::UnreadableNumber, start)));
            assert_eq!(refused_with(&opening, &[0x80, 0]), Some((No::UnreadableNumber, start)));
            assert_eq!(refused_with(&opening, &[0, 0x80, 0x80]), Some((No::UnreadableNumber, start + 1)));
        }
    }
}

#[test]
fn cut_at_every_byte() {
    let before = bytes_of(&vec![vec![2, MORNING, 1, 0]]);
    let quotes = [[31, 300, 128, 7, 301, 100_000, 0], SOUND, UNSOUND, OUT_OF_RANGE];
    let whole = bytes_of(&vec![vec![2, MORNING, 1, 0], batch(300, 2, &quotes)]);
    for end in before.len() + 1..whole.len() {
        let Some((No::UnreadableNumber, place)) = refused_after(&before, &whole[..end]) else {
            panic!("cut at {end}");
        };
        // It is the number that the end falls into, or the one that should start there.
        assert!(before.len() + place <= end && whole[before.len() + place..end].iter().all(|byte| *byte >= 0x80));
    }
    assert_eq!(refused_after(&before, &whole), QUOTE);
}

#[test]
fn the_first_that_kind_1_would_refuse() {
    let said = |quotes: &[[u32; 7]]| refused(&batch(0, 2, quotes));
    assert_eq!(said(&[SOUND, UNSOUND, OUT_OF_RANGE]), QUOTE);
    assert_eq!(said(&[SOUND, OUT_OF_RANGE, UNSOUND]), FIELD);
    assert_eq!(said(&[UNSOUND, OUT_OF_RANGE]), QUOTE);
    assert_eq!(said(&[OUT_OF_RANGE, UNSOUND]), FIELD);
    for quotes in [[OUT_OF_RANGE, SOUND], [SOUND, OUT_OF_RANGE]] {
        assert_eq!(said(&quotes), FIELD);
    }
    for at in [0, 15, 31] {
        let mut quotes = [SOUND; 32];
        quotes[at] = UNSOUND;
        assert_eq!(said(&quotes), QUOTE);
        quotes[at] = OUT_OF_RANGE;
        assert_eq!(said(&quotes), FIELD);
    }
}

/// Exchange and the day's time are among what kind 1 would refuse: 5 of the first quote, before its 6.
#[test]
fn exchange_and_time() {
    for quote in [SOUND, UNSOUND, OUT_OF_RANGE] {
        for exchange in [0, 5, 128, 268_435_455] {
            assert_eq!(refused(&batch(0, exchange, &[quote])), FIELD);
        }
        assert_eq!(refused(&batch(86_400_000 - MORNING, 2, &[quote, SOUND])), FIELD);
        assert_eq!(refused(&batch(268_435_455, 2, &[quote])), FIELD);
    }
    assert_eq!(refused(&batch(86_399_999 - MORNING, 2, &[SOUND, SOUND])), None);
    assert_eq!(refused(&batch(86_399_999 - MORNING, 2, &[SOUND, UNSOUND])), QUOTE);
}

fn written(time: u32, numbers: &[u32], room: usize) -> Result<Vec<u8>, No> {
    let [kind, milliseconds, ref fields @ ..] = *numbers else {
        panic!("kind and milliseconds are given");
    };
    let mut out = vec![0xA5; room];
    let end = Plain { kind, milliseconds, fields }.write(&two_exchanges(), time, &mut out).map_err(|refusal| {
        assert_eq!(refusal.place, 0);
        refusal.no
    })?;
    assert!(out[end..].iter().all(|byte| *byte == 0xA5));
    out.truncate(end);
    Ok(out)
}

#[test]
fn a_batch_alone_is_read_as_it_was_written() {
    for count in [1, 2, 31, 32] {
        let numbers = batch(5, 2, &vec![SOUND; count]);
        let bytes = 4 + 7 * count;
        let alone = written(0, &numbers, bytes).expect("there is just enough room");
        let plain = Plain { kind: kind::BATCH, milliseconds: 5, fields: numbers[2..].to_vec() };
        assert_eq!(Plain::read_alone(&two_exchanges(), 0, &alone), Ok((bytes, plain.clone())));
        assert_eq!(Plain::read_alone(&two_exchanges(), 0, &[&alone[..], &[0x80]].concat()), Ok((bytes, plain)));
        assert_eq!(written(0, &numbers, bytes - 1), Err(No::OutputTooShort));
        let with_more = [&numbers[..], &[u32::MAX; 3]].concat();
        assert_eq!(written(0, &with_more, 1_000), Ok(alone));
    }
}

#[test]
fn too_few_fields_are_5_before_any_6() {
    let numbers = batch(0, 2, &[UNSOUND, SOUND]);
    assert_eq!(written(0, &numbers, 100), Err(No::Quote));
    for given in 2..numbers.len() {
        assert_eq!(written(0, &numbers[..given], 100), Err(No::Field));
    }
    for kind in [0, 12] {
        assert_eq!(written(0, &[kind, 0], 100), Err(No::UnknownKind));
    }
    // So it is with every kind.
    assert_eq!(written(0, &[kind::QUOTE, 0, 2, 0, 101, 1, 1, 101, 1], 100), Err(No::Field));
}

#[test]
fn what_is_not_written() {
    let said = |time: u32, numbers: &[u32]| written(time, numbers, 1_000).err();
    for count in [0, 33, 127, 128, 268_435_456, u32::MAX] {
        let numbers = [&[kind::BATCH, 0, 2, count][..], &SOUND.repeat(33)].concat();
        assert_eq!(said(0, &numbers), Some(No::Field));
    }
    for (quotes, no) in [
        ([SOUND, UNSOUND, OUT_OF_RANGE], No::Quote),
        ([SOUND, OUT_OF_RANGE, UNSOUND], No::Field),
        ([SOUND, SOUND, [0, 100, 1, 268_435_456, 101, 1, 1]], No::Field),
        ([SOUND, UNSOUND, [0, u32::MAX, 1, 1, 101, 1, 1]], No::Quote),
    ] {
        assert_eq!(said(0, &batch(0, 2, &quotes)), Some(no));
        assert_eq!(said(86_399_999, &batch(0, 2, &quotes)), Some(no));
        assert_eq!(said(86_399_999, &batch(1, 2, &quotes)), Some(No::Field));
        assert_eq!(said(u32::MAX, &batch(u32::MAX, 2, &quotes)), Some(No::Field));
        assert_eq!(said(0, &batch(0, 3, &quotes)), Some(No::Field));
    }
    assert_eq!(written(0, &batch(0, 2, &[UNSOUND]), 0), Err(No::Quote));
    assert_eq!(written(0, &batch(0, 2, &[SOUND]), 0), Err(No::OutputTooShort));
}

#[test]
fn a_batch_alone_is_refused_as_in_a_journal() {
    let header = two_exchanges();
    let read = |time, bytes: &[u8]| Plain::read_alone(&header, time, bytes).expect_err("it is refused");
    let at = |no, place| Refusal { no, place };
    assert_eq!(read(0, &[10]), at(No::UnreadableNumber, 1));
    assert_eq!(read(0, &[10, 0, 2]), at(No::UnreadableNumber, 3));
    assert_eq!(read(0, &[10, 0, 2, 0]), at(No::Field, 0));
    assert_eq!(read(u32::MAX, &[10, 0, 0, 33, 0x80, 0]), at(No::Field, 0));
    assert_eq!(read(0, &[10, 0, 3, 1, 0, 101, 1, 1, 101, 1]), at(No::UnreadableNumber, 10));
    assert_eq!(read(0, &[10, 0, 3, 1, 0, 101, 1, 1, 101, 1, 1]), at(No::Field, 0));
    assert_eq!(read(0, &[10, 0, 2, 1, 0, 101, 1, 1, 101, 1, 1]), at(No::Quote, 0));
    assert_eq!(read(86_399_999, &[10, 1, 2, 1, 0, 101, 1, 1, 101, 1, 1]), at(No::Field, 0));
}

/// "Byte limit aside": a full journal holds more quotes in batches.
#[test]
fn in_a_full_journal() {
    let mut records: Records = vec![];
    while bytes_of(&records).len() + 228 <= Journal::MOST_BYTES {
        records.push(batch(0, 1, &[NO_QUOTE; 32]));
    }
    let full = bytes_of(&records);
    assert_eq!(journal::accept(&full), Ok(()));
    let quotes = day::list(&full).expect("it is accepted").split(|byte| *byte == b'\n').count() - 2;
    assert_eq!(quotes, 32 * records.len());
    assert!(apart(&full).is_none());
    let mut cut = full.clone();
    cut.extend([10, 0, 1, 32]);
    cut.resize(Journal::MOST_BYTES, 0);
    let end = Journal::MOST_BYTES as u32;
    assert_eq!(journal::accept(&cut), Err(Refusal { no: No::UnreadableNumber, place: end }));
    cut.push(0);
    assert_eq!(journal::accept(&cut), Err(Refusal::new(No::JournalTooLong)));
}

#[test]
fn its_claims_are_shared_out_as_ever() {
    let mut day: Records = (2..=4).map(|from| batch(0, from, &[bid(1, 7), bid(0, 90), bid(0, 110)])).collect();
    day.push(vec![3, MORNING, 0, 100, 20, 0, 0, 0, 0]);
    day.extend((2..=4).map(|from| vec![7, 0, 0, from, 110, 30]));
    assert_eq!(own_sheet(&bytes_of(&day)), sheet_of(&[[0, 7, 23], [0, 7, 23], [0, 6, 24]]));
    assert!(is_the_same_apart(&bytes_of(&day)));
}

/// Whether a trade was a block is among what a journal is refused for: the last of a series in a batch decides it too.
#[test]
fn a_batch_decides_on_a_block() {
    let is_block = |quotes: &[[u32; 7]]| {
        let trade = vec![3, 0, 0, 300, 500, 1, 0, 0, 0];
        let day = vec![batch(MORNING, 2, quotes), trade, vec![7, 0, 0, 2, 300, 5], vec![11, 0, 0]];
        journal::accept(&bytes_of(&day)).is_err_and(|refusal| refusal.no == No::UnknownOrTwice)
    };
    let offer = |price| [0, 0, 0, 0, price, 5, 0];
    assert!(is_block(&[bid(0, 301)]) && is_block(&[offer(299)]));
    assert!(is_block(&[bid(0, 300), bid(1, 7), bid(0, 301)]) && is_block(&[offer(300), offer(299)]));
    assert!(!is_block(&[bid(0, 301), bid(1, 7), bid(0, 300)]) && !is_block(&[offer(299), offer(300)]));
    assert!(!is_block(&[bid(1, 301), bid(0, 300)]));
}

#[test]
fn made_batches_apart_are_the_made_singles() {
    let batches = crate::make::journal("batches").expect("a kind that is named");
    assert!(is_the_same_apart(&batches));
    assert_eq!(apart(&batches).map(|apart| apart.bytes), crate::make::journal("singles"));
}
