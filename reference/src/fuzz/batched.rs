//! What batches of quotes come to, for the tables of what was reached: in journals, read and written alone.

use super::cancelled::{numbers, so};
use crate::alone::Plain;
use crate::batch::Batch;
use crate::claims::{Desk, reason};
use crate::event::{Cancellation, HomeTrade, NoBlock, Order, Quote, Response, Satisfaction};
use crate::header::Header;
use crate::journal::{Journal, Moment, Watcher, open, walk};
use crate::market::{Duty, Market, QuoteVerdict};
use crate::number::{Number, Reader};
use crate::periods::Periods;
use crate::record::{Record, kind};
use crate::refusal::No;
use crate::time::Time;

/// Counts out of range, and what stands where the quotes should.
const COUNTS: [(u32, &str); 4] = [(0, "count 0"), (33, "count 33"), (127, "count 127"), (128, "count 128")];
const LARGER: &str = "a larger count";

/// Bytes of a batch of 32 quotes of which each number but the series takes three, beside kind, exchange and count.
const LONGEST: usize = 3 + Batch::MOST_QUOTES * (1 + 3 * 6);
const QUOTES: [&str; 3] = ["quotes readable", "quotes unreadable", "quotes missing"];

/// Why a batch is refused that is read, in a journal or alone, beside its count.
const REFUSED: &str = "
    exchange 0|exchange above N|past the day|exchange unfit, its first quote unsound
    past the day, its first quote unsound
    first quote out of range|later quote out of range|first quote unsound|later quote unsound
    out of range before unsound|unsound before out of range
    milliseconds unreadable|exchange unreadable|count unreadable|first quote unreadable|later quote unreadable
    unreadable after a quote out of range|unreadable after an unsound quote|unreadable, exchange unfit
    unreadable, past the day|cut after its kind|cut after its milliseconds|cut after its exchange|cut after its count
    cut between quotes|cut within a quote|cut within a number";

const WANTED: &str = "
    batch of home, 1 quote|batch of home, 2 to 30 quotes|batch of home, 31 quotes|batch of home, 32 quotes
    batch of an away exchange, 1 quote|batch of an away exchange, 2 to 30 quotes
    batch of an away exchange, 31 quotes|batch of an away exchange, 32 quotes
    batch of home, a series twice|batch of an away exchange, a series twice|batch with time elapsed, a series twice
    batch of home, Q lines that differ|batch of home, Q lines of a series that differ
    batch of 32 quotes, Q lines that differ
    batch right before a trade in its millisecond|batch right after a trade in its millisecond
    order ended by a batch, no reason 2|order ended by what its batch takes back, no reason 2
    order judged by home's batch as the later quote|order judged by what home's batch takes back
    order within 15 seconds judged by home's batch as the later quote
    verdict by the last of a series in a batch
    batch in a journal of 32,768 bytes|batch at the end of a journal of 32,768 bytes
    batch refused, journal of 32,769 bytes|batch refused, cut by the end of a journal of 32,768 bytes
    batch read alone, 1 quote|batch read alone, 2 to 30 quotes|batch read alone, 31 quotes|batch read alone, 32 quotes
    batch read alone, more than its own given|batch read alone, of the longest numbers
    batch written alone, 1 quote|batch written alone, 2 to 30 quotes|batch written alone, 31 quotes
    batch written alone, 32 quotes|batch written alone, of the longest numbers
    batch written alone, more than its own given|batch written alone, 226 given and fewer its own
    batch written alone, just enough room|batch not written alone, one byte too short
    batch not written alone, count 0|batch not written alone, count 33|batch not written alone, a larger count
    batch not written alone, too few fields|batch not written alone, too few fields, an unsound quote among them
    batch not written alone, the last field missing|batch not written alone, 8 fields
    batch not written alone, above 268,435,455 in a later quote
    batch not written alone, exchange 0|batch not written alone, exchange above N|batch not written alone, past the day
    batch not written alone, out of range before unsound|batch not written alone, unsound before out of range
    batch not written alone, first quote unsound|batch not written alone, later quote unsound
    record of another kind written alone, more than 8 fields given";

pub fn wanted() -> Vec<String> {
    let counts = COUNTS.map(|(_, count)| count).into_iter().chain([LARGER]);
    let counts: Vec<String> = counts.flat_map(|count| QUOTES.map(|quotes| format!("{count}, {quotes}"))).collect();
    let refused = counts.into_iter().chain(split(REFUSED)).filter(|why| !why.is_empty());
    let refused = refused.flat_map(|why| [format!("batch refused, {why}"), format!("batch not read alone, {why}")]);
    refused.chain(split(WANTED)).collect()
}

fn split(names: &'static str) -> impl Iterator<Item = String> {
    names.split(['|', '\n']).map(|what| what.trim().to_string())
}

fn how_many(count: usize) -> &'static str {
    match count {
        1 => "1 quote",
        31 => "31 quotes",
        Batch::MOST_QUOTES => "32 quotes",
        _ => "2 to 30 quotes",
    }
}

/// The series of a batch's quotes.
fn series_of(fields: &[u32]) -> Vec<u32> {
    fields[Batch::OPENING..].chunks_exact(Batch::NUMBERS_A_QUOTE).map(|quote| quote[0]).collect()
}

fn has_one_twice(series: &[u32]) -> bool {
    series.iter().enumerate().any(|(at, one)| series[..at].contains(one))
}

/// Follows the batches of a journal.
struct Batches<'h> {
    header: &'h Header,
    /// The series of the batch that is shown, as long as quotes of it are to come, and whose it is.
    series: Vec<u32>,
    exchange: u32,
    verdicts: Vec<QuoteVerdict>,
    /// Kind and time of the last record.
    last: Option<(u32, u32)>,
    time: u32,
    reached: Vec<String>,
}

impl Watcher for Batches<'_> {
    fn record(&mut self, record: Plain<&[u32]>) {
        self.time += record.milliseconds;
        self.verdicts.clear();
        self.series.clear();
        if record.kind == kind::BATCH {
            self.note_batch(&record);
        }
        let at_a_trade = self.last == Some((kind::HOME_TRADE, self.time)) && record.kind == kind::BATCH;
        let at_a_batch = self.last == Some((kind::BATCH, self.time)) && record.kind == kind::HOME_TRADE;
        self.reached.extend(so(&[
            (at_a_trade, "batch right after a trade in its millisecond"),
            (at_a_batch, "batch right before a trade in its millisecond"),
        ]));
        self.last = Some((record.kind, self.time));
    }

    fn quote(&mut self, _at: Moment, market: &Market, quote: &Quote) {
        if self.series.is_empty() || self.exchange != self.header.home {
            return;
        }
        self.verdicts.push(market.home_quote_verdict(quote.exchange, quote.series));
        if self.verdicts.len() == self.series.len() {
            self.note_lines();
        }
    }
}

impl<'h> Batches<'h> {
    fn new(header: &'h Header) -> Batches<'h> {
        let (series, verdicts, reached) = (Vec::new(), Vec::new(), Vec::new());
        Batches { header, series, exchange: 0, verdicts, last: None, time: 0, reached }
    }

    fn note_batch(&mut self, batch: &Plain<&[u32]>) {
        self.exchange = batch.fields[0];
        self.series = series_of(batch.fields);
        let whose = if self.exchange == self.header.home { "home" } else { "an away exchange" };
        self.reached.push(format!("batch of {whose}, {}", how_many(self.series.len())));
        if has_one_twice(&self.series) {
            self.reached.push(format!("batch of {whose}, a series twice"));
            self.reached.extend(so(&[(batch.milliseconds > 0, "batch with time elapsed, a series twice")]));
        }
    }

    /// All lines of home's batch are there.
    fn note_lines(&mut self) {
        let differ = |first: usize, second: usize| self.verdicts[first] != self.verdicts[second];
        let pairs = || (0..self.series.len()).flat_map(|second| (0..second).map(move |first| (first, second)));
        let some_differ = pairs().any(|(first, second)| differ(first, second));
        let of_a_series = |first: usize, second: usize| self.series[first] == self.series[second];
        let of_one = pairs().any(|(first, second)| of_a_series(first, second) && differ(first, second));
        let all_32 = self.series.len() == Batch::MOST_QUOTES;
        self.reached.extend(so(&[
            (some_differ, "batch of home, Q lines that differ"),
            (of_one, "batch of home, Q lines of a series that differ"),
            (some_differ && all_32, "batch of 32 quotes, Q lines that differ"),
        ]));
    }
}

/// Which quotes of a batch are heard of by what is kept beside the quotes: the orders that excuse, and the periods.
#[derive(Clone, Copy, PartialEq)]
enum Heard {
    All,
    /// Those alone that the rest of the batch leaves standing.
    Last,
    None,
}

/// A day that hears of some quotes of a batch only.
struct Hearing<'h> {
    heard: Heard,
    desk: Desk<'h>,
    periods: Periods,
    /// On each received order.
    duties: Vec<Duty>,
    /// How long after its sender's initial execution it came, where there was one.
    waited: Vec<Option<u32>>,
    /// The series of the batch's quotes that are to come.
    series: Vec<u32>,
}

impl Watcher for Hearing<'_> {
    fn record(&mut self, record: Plain<&[u32]>) {
        self.series.clear();
        if record.kind == kind::BATCH {
            self.series = series_of(record.fields);
            self.series.reverse();
        }
    }

    fn quote(&mut self, at: Moment, market: &Market, quote: &Quote) {
        let in_batch = self.series.pop().is_some();
        let replaced = self.series.contains(&(quote.series as u32));
        if in_batch && (self.heard == Heard::None || self.heard == Heard::Last && replaced) {
            return;
        }
        self.desk.quote(at, market, quote);
        if quote.exchange + 1 == self.desk.header.home as usize {
            self.periods.home_quote(quote);
        }
    }

    fn home_trade(&mut self, at: Moment, market: &Market, trade: &HomeTrade) {
        self.desk.home_trade(at, market, trade);
    }

    fn sent_order(&mut self, at: Moment, market: &Market, order: &Order) {
        self.desk.sent_order(at, market, order);
    }

    fn response(&mut self, response: &Response, size: u32) {
        self.desk.response(response, size);
    }

    fn received_order(&mut self, at: Moment, market: &Market, order: &Order) {
        self.waited.push(self.periods.of(order.away).map(|period| at.time - period.began));
        self.duties.push(self.periods.duty(self.desk.header, market, at.time, order));
    }

    fn satisfaction_order(&mut self, at: Moment, order: &Satisfaction) {
        self.desk.satisfaction_order(at, order);
    }

    fn cancellation(&mut self, at: Moment, cancellation: &Cancellation) {
        self.desk.cancellation(at, cancellation);
    }

    fn no_block(&mut self, at: Moment, no_block: &NoBlock) {
        self.desk.no_block(at, no_block);
    }

    fn closing_window(&mut self, at: Moment) {
        self.desk.closing_window(at);
    }
}

impl<'h> Hearing<'h> {
    fn of(header: &'h Header, journal: &[u8], heard: Heard) -> Hearing<'h> {
        let (desk, periods) = (Desk::new(header), Periods::default());
        let mut hearing = Hearing { heard, desk, periods, duties: Vec::new(), waited: Vec::new(), series: Vec::new() };
        let (_, reader) = open(journal).expect("the journal was accepted");
        walk(header, reader, &mut hearing).expect("the journal was accepted");
        hearing
    }

    /// Whether the other one excuses home for a claim that this one does not.
    fn is_excused_by(&self, other: &Hearing) -> bool {
        let mut lines = self.desk.lines.iter().zip(&other.desk.lines);
        lines.any(|(line, other)| line.reason != other.reason && other.reason == reason::ORDER_UNANSWERED)
    }

    fn judges_otherwise_than(&self, other: &Hearing) -> bool {
        self.duties != other.duties
    }

    /// Whether the first order that the other one judges otherwise came within 15 seconds of an initial execution.
    fn judges_soon_otherwise_than(&self, other: &Hearing) -> bool {
        let first = (0..self.duties.len()).find(|&at| self.duties[at] != other.duties[at]);
        first.and_then(|at| self.waited[at]).is_some_and(|waited| waited <= Time::NO_SECOND_ORDER)
    }
}

/// Writes every record, of a batch only the first quote of each series.
struct FirstOfSeries {
    bytes: Vec<u8>,
}

impl Watcher for FirstOfSeries {
    fn record(&mut self, record: Plain<&[u32]>) {
        let mut fields = record.fields.to_vec();
        if record.kind == kind::BATCH {
            let mut first: Vec<u32> = Vec::new();
            fields.truncate(Batch::OPENING);
            for quote in record.fields[Batch::OPENING..].chunks_exact(Batch::NUMBERS_A_QUOTE) {
                if !first.contains(&quote[0]) {
                    first.push(quote[0]);
                    fields.extend_from_slice(quote);
                }
            }
            fields[1] = first.len() as u32;
        }
        let mut written = [0; Plain::MOST_BYTES];
        let end = Plain { kind: record.kind, milliseconds: record.milliseconds, fields }.put(&mut written);
        self.bytes.extend_from_slice(&written[..end]);
    }
}

/// Whether a trade or an order would be judged otherwise if the first quote of a series in a batch stood.
fn is_judged_by_the_last(header: &Header, journal: &[u8]) -> bool {
    let mut written = [0; Header::MOST_BYTES];
    let end = header.put(&mut written);
    let mut first = FirstOfSeries { bytes: written[..end].to_vec() };
    let (_, reader) = open(journal).expect("the journal was accepted");
    walk(header, reader, &mut first).expect("the journal was accepted");
    let verdicts = |journal: &[u8]| {
        let list = String::from_utf8(crate::day::printed(journal)).expect("lists are plain text");
        let verdicts = list.lines().filter_map(|line| Some(line.split_once(' ')?.1.to_string()));
        verdicts.filter(|line| !line.starts_with('Q')).collect::<Vec<_>>()
    };
    verdicts(&first.bytes) != verdicts(journal)
}

/// What the batches of an accepted journal reach.
pub fn reached(header: &Header, journal: &[u8]) -> Vec<String> {
    let mut batches = Batches::new(header);
    let (_, reader) = open(journal).expect("the journal was accepted");
    walk(header, reader, &mut batches).expect("the journal was accepted");
    let Batches { mut reached, last, .. } = batches;
    if reached.is_empty() {
        return reached;
    }
    let [all, last_ones, none] =
        [Heard::All, Heard::Last, Heard::None].map(|heard| Hearing::of(header, journal, heard));
    let full = journal.len() == Journal::MOST_BYTES;
    let at_the_end = full && last.is_some_and(|(kind, _)| kind == kind::BATCH);
    reached.extend(so(&[
        (all.is_excused_by(&none), "order ended by a batch, no reason 2"),
        (all.is_excused_by(&last_ones), "order ended by what its batch takes back, no reason 2"),
        (all.judges_otherwise_than(&none), "order judged by home's batch as the later quote"),
        (all.judges_otherwise_than(&last_ones), "order judged by what home's batch takes back"),
        (all.judges_soon_otherwise_than(&none), "order within 15 seconds judged by home's batch as the later quote"),
        (is_judged_by_the_last(header, journal), "verdict by the last of a series in a batch"),
        (full, "batch in a journal of 32,768 bytes"),
        (at_the_end, "batch at the end of a journal of 32,768 bytes"),
    ]));
    reached
}

/// A batch that is refused as it is read, from its first byte on.
struct Refused<'a> {
    header: &'a Header,
    time: u32,
    bytes: &'a [u8],
    /// All numbers up to the first that can't be read, the kind first.
    numbers: Vec<u32>,
}

impl Refused<'_> {
    fn exchange_is_unfit(&self) -> bool {
        self.numbers.get(2).is_some_and(|&exchange| !self.header.is_exchange(exchange))
    }

    fn is_past_the_day(&self) -> bool {
        let milliseconds = self.numbers.get(1).copied().unwrap_or(0);
        self.time as u64 + milliseconds as u64 > Time::LAST as u64
    }

    /// What kind 1 would say of each of its quotes that were read whole, if exchange and time were in order.
    fn quotes(&self) -> Vec<Result<(), No>> {
        let count = self.numbers.get(3).map_or(0, |&count| count as usize);
        let quotes = self.numbers.get(4..).unwrap_or(&[]).chunks_exact(Batch::NUMBERS_A_QUOTE);
        quotes.take(count).map(|quote| judged_alone(self.header, quote)).collect()
    }

    /// Why, where it is 2: what can't be read, and what was wrong before it.
    fn unreadable(&self, place: usize) -> Vec<String> {
        let at = self.numbers.len();
        let quotes = self.quotes();
        let cut = place == self.bytes.len();
        let cut_off = !cut && self.bytes[place..].iter().all(|byte| *byte >= 0x80) && self.bytes.len() - place < 4;
        let what = match at {
            1 => "milliseconds unreadable",
            2 => "exchange unreadable",
            3 => "count unreadable",
            4..11 => "first quote unreadable",
            _ => "later quote unreadable",
        };
        let where_cut = match at {
            1 => "cut after its kind",
            2 => "cut after its milliseconds",
            3 => "cut after its exchange",
            4 => "cut after its count",
            _ if (at - 4) % Batch::NUMBERS_A_QUOTE == 0 => "cut between quotes",
            _ => "cut within a quote",
        };
        so(&[
            (!cut && !cut_off, what),
            (cut, where_cut),
            (cut_off, "cut within a number"),
            (quotes.contains(&Err(No::Field)), "unreadable after a quote out of range"),
            (quotes.contains(&Err(No::Quote)), "unreadable after an unsound quote"),
            (at > 3 && self.exchange_is_unfit(), "unreadable, exchange unfit"),
            (at > 3 && self.is_past_the_day(), "unreadable, past the day"),
        ])
    }

    /// What stands after a count out of range.
    fn after_count(&self) -> &'static str {
        let mut reader = Reader::new(self.bytes);
        for _ in 0..4 {
            reader.number().expect("the count was read");
        }
        if reader.at_end() {
            return QUOTES[2];
        }
        while reader.number().is_ok() {}
        QUOTES[!reader.at_end() as usize]
    }

    fn why(&self, no: u32, place: usize) -> Vec<String> {
        if no == No::UnreadableNumber as u32 {
            return self.unreadable(place);
        }
        let count = self.numbers[3];
        if !(1..=Batch::MOST_QUOTES as u32).contains(&count) {
            let named = COUNTS.iter().find(|(number, _)| *number == count).map_or(LARGER, |(_, name)| name);
            return vec![format!("{named}, {}", self.after_count())];
        }
        judged_wrong(self.numbers[2], &self.quotes(), self.exchange_is_unfit(), self.is_past_the_day())
    }
}

/// What kind 1 would say of a quote of an exchange that there is, in time.
fn judged_alone(header: &Header, quote: &[u32]) -> Result<(), No> {
    let mut fields = [1; Record::MOST_FIELDS];
    fields[1..].copy_from_slice(quote);
    Record { kind: kind::QUOTE, milliseconds: 0, fields }.check(header, 0)
}

/// Why a batch of which every number is there is 5 or 6.
fn judged_wrong(exchange: u32, quotes: &[Result<(), No>], unfit: bool, late: bool) -> Vec<String> {
    let first = |no: No| quotes.iter().position(|said| *said == Err(no));
    let (five, six) = (first(No::Field), first(No::Quote));
    let fit = !unfit && !late;
    let no_five_before = five.is_none_or(|five| six < Some(five));
    so(&[
        (unfit && !late && exchange == 0, "exchange 0"),
        (unfit && !late && exchange != 0, "exchange above N"),
        (late && !unfit, "past the day"),
        (unfit && !late && six == Some(0), "exchange unfit, its first quote unsound"),
        (late && !unfit && six == Some(0), "past the day, its first quote unsound"),
        (fit && five == Some(0), "first quote out of range"),
        (fit && five > Some(0) && !(six.is_some() && no_five_before), "later quote out of range"),
        (fit && six == Some(0), "first quote unsound"),
        (fit && six > Some(0) && no_five_before, "later quote unsound"),
        (fit && five.is_some() && six.is_some() && !no_five_before, "out of range before unsound"),
        (fit && five.is_some() && six.is_some() && no_five_before, "unsound before out of range"),
    ])
}

/// Follows the time up to a refusal.
#[derive(Default)]
struct Clock {
    time: u32,
}

impl Watcher for Clock {
    fn record(&mut self, record: Plain<&[u32]>) {
        self.time += record.milliseconds;
    }
}

/// Where the batch starts that a journal is refused at, and the time so far.
fn refused_batch(header: &Header, journal: &[u8], no: u32, place: usize) -> Option<(usize, u32)> {
    let starts = place.saturating_sub(Plain::MOST_BYTES)..=place;
    let mut starts = starts.rev().filter(|&start| journal.get(start) == Some(&(kind::BATCH as u8)));
    starts.find_map(|start| {
        let mut clock = Clock::default();
        let (_, reader) = open(&journal[..start]).ok()?;
        walk(header, reader, &mut clock).ok()?;
        let refusal = Plain::read_alone(header, clock.time, &journal[start..]).err()?;
        let is_that = (refusal.no as u32, start + refusal.place as usize) == (no, place);
        is_that.then_some((start, clock.time))
    })
}

/// Why a journal is refused 2, 5 or 6 at a batch.
pub fn reached_by_refusal(journal: &[u8], no: u32, place: usize) -> Vec<String> {
    let Ok((header, _)) = open(journal) else {
        let too_long = journal.len() == Journal::MOST_BYTES + 1 && is_all_but_too_long(journal);
        return so(&[(no == 1 && too_long, "batch refused, journal of 32,769 bytes")]);
    };
    let Some((start, time)) = refused_batch(&header, journal, no, place) else {
        return vec![];
    };
    let bytes = &journal[start..];
    let refused = Refused { header: &header, time, bytes, numbers: numbers_before(bytes, no, place - start) };
    let mut reached: Vec<String> =
        refused.why(no, place - start).into_iter().map(|why| format!("batch refused, {why}")).collect();
    let by_the_end = no == 2 && place == Journal::MOST_BYTES;
    reached.extend(so(&[(by_the_end, "batch refused, cut by the end of a journal of 32,768 bytes")]));
    reached
}

/// All numbers, or those before the one that is refused 2.
fn numbers_before(bytes: &[u8], no: u32, place: usize) -> Vec<u32> {
    numbers(if no == No::UnreadableNumber as u32 { &bytes[..place] } else { bytes })
}

/// Whether a journal that is a byte too long has a batch at its end and would be good if it might be as long.
fn is_all_but_too_long(journal: &[u8]) -> bool {
    let mut reader = Reader::new(journal);
    let Ok(header) = Header::read(&mut reader) else {
        return false;
    };
    let mut batches = Batches::new(&header);
    walk(&header, reader, &mut batches).is_ok() && batches.last.is_some_and(|(kind, _)| kind == kind::BATCH)
}

/// A batch read alone, or a record written alone: `words` are the time so far and, given to a writer, kind,
/// milliseconds and fields.
pub fn reached_alone(
    header: &Header,
    words: &[u32],
    read: Option<&[u8]>,
    no: u32,
    place: usize,
    used: usize,
) -> Vec<String> {
    match (read, words) {
        (Some(bytes), [time, ..]) if bytes.first() == Some(&(kind::BATCH as u8)) => {
            reached_by_reading(header, *time, bytes, no, place, used)
        }
        (None, [time, kind::BATCH, milliseconds, fields @ ..]) => {
            let mut reached = reached_by_writing(header, *time, *milliseconds, fields, no);
            reached.extend(so(&[(used >= LONGEST, "batch written alone, of the longest numbers")]));
            reached
        }
        (None, [_, _, _, fields @ ..]) => {
            let more = no == 0 && fields.len() > Plain::FEWEST_FIELDS;
            so(&[(more, "record of another kind written alone, more than 8 fields given")])
        }
        _ => vec![],
    }
}

fn reached_by_reading(header: &Header, time: u32, bytes: &[u8], no: u32, place: usize, used: usize) -> Vec<String> {
    let refused = Refused { header, time, bytes, numbers: numbers_before(bytes, no, place) };
    match no {
        0 => {
            let count = refused.numbers[3] as usize;
            let mut reached = vec![format!("batch read alone, {}", how_many(count))];
            reached.extend(so(&[
                (bytes.len() > used, "batch read alone, more than its own given"),
                (used >= LONGEST, "batch read alone, of the longest numbers"),
            ]));
            reached
        }
        2 | 5 | 6 => refused.why(no, place).into_iter().map(|why| format!("batch not read alone, {why}")).collect(),
        _ => vec![],
    }
}

fn reached_by_writing(header: &Header, time: u32, milliseconds: u32, fields: &[u32], no: u32) -> Vec<String> {
    let count = fields[1] as usize;
    let own = Batch::OPENING + count.saturating_mul(Batch::NUMBERS_A_QUOTE);
    let given = fields.len();
    let late = time as u64 + milliseconds as u64 > Time::LAST as u64;
    let unfit = !header.is_exchange(fields[0]);
    let quotes = fields[Batch::OPENING..].chunks_exact(Batch::NUMBERS_A_QUOTE).take(count);
    let quotes: Vec<_> = quotes.map(|quote| judged_alone(header, quote)).collect();
    let name = |why: String| format!("batch not written alone, {why}");
    match no {
        0 => {
            let mut reached = vec![format!("batch written alone, {}", how_many(count))];
            reached.extend(so(&[
                (given > own, "batch written alone, more than its own given"),
                (given > own && given == Batch::MOST_FIELDS, "batch written alone, 226 given and fewer its own"),
            ]));
            reached
        }
        5 if count == 0 || count > Batch::MOST_QUOTES => {
            let named = COUNTS[..2].iter().find(|(number, _)| *number as usize == count);
            vec![name(named.map_or(LARGER, |(_, named)| named).into())]
        }
        5 if given < own && !late && !unfit && !quotes.contains(&Err(No::Field)) => so(&[
            (true, "batch not written alone, too few fields"),
            (quotes.contains(&Err(No::Quote)), "batch not written alone, too few fields, an unsound quote among them"),
            (given + 1 == own, "batch not written alone, the last field missing"),
            (given == Plain::FEWEST_FIELDS, "batch not written alone, 8 fields"),
        ]),
        5 | 6 if given >= own => {
            let later = &fields[Batch::OPENING + Batch::NUMBERS_A_QUOTE..own];
            let huge =
                !late && !unfit && no == 5 && quotes[0].is_ok() && later.iter().any(|&field| field > Number::LARGEST);
            let mut reached = so(&[(huge, "batch not written alone, above 268,435,455 in a later quote")]);
            reached.extend(judged_wrong(fields[0], &quotes, unfit, late).into_iter().map(name));
            reached
        }
        _ => vec![],
    }
}

/// The room that is lent for a batch.
pub fn reached_by_room(words: &[u32], enough: bool) -> Vec<String> {
    let is_batch = words.get(1) == Some(&kind::BATCH);
    so(&[
        (is_batch && enough, "batch written alone, just enough room"),
        (is_batch && !enough, "batch not written alone, one byte too short"),
    ])
}
