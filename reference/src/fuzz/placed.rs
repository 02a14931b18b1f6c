//! What questions about how bytes are read have reached: numbers of each length at each place, records at each distance
//! from the end, quotes in runs that are refused or just acceptable. The bytes say it, and whether they are accepted.

use super::ends::{BATCH_MORE, FARTHEST};
use super::in_runs::{Mark, Quote, Turn};
use super::places::{BEFORE_FIELDS, BEFORE_QUOTES, Form, KINDS, Place, Stands};
use super::places::{fewest_bytes, most_bytes, name_of, numbers_of};
use crate::batch::Batch;
use crate::header::Header;
use crate::journal::{accept, open};
use crate::number::Number;
use crate::record::kind;
use crate::refusal::{No, Refusal};
use std::collections::BTreeMap;
use std::fmt::{self, Display, Formatter};

/// So many short quotes come right before a record that stands in a run or near the end.
const QUOTES_BEFORE: usize = 2;

/// What these questions should reach.
#[derive(Clone, Copy, PartialEq, Eq, PartialOrd, Ord)]
enum Item {
    /// A number at a place, stored in a form, of a record that stands somewhere.
    Number(Stands, Place, Form),
    /// A number in a kind of record that can't be read, with its length.
    Unreadable(u32, Form),
    /// A record of a kind begins, or ends, so many bytes before the end.
    Begins(u32, usize),
    Ends(u32, usize),
    /// The end cuts it off after so many bytes.
    Cut(u32, usize),
    /// Behind the count of a batch of several quotes stand four bytes for each number and so many more.
    BatchBefore(i32),
    /// A long run is refused at this quote, or accepted with it.
    Refused(Mark, Turn),
    Accepted(Mark, Turn),
}

impl Display for Item {
    fn fmt(&self, f: &mut Formatter) -> fmt::Result {
        match self {
            Item::Number(stands, place, form) => write!(f, "{} {stands}, {place}: {form}", name_of(place.kind)),
            Item::Unreadable(kind, form) => write!(f, "{}, a number {form}", name_of(*kind)),
            Item::Begins(kind, bytes) => write!(f, "{} begins {bytes} bytes before the end", name_of(*kind)),
            Item::Ends(kind, bytes) => write!(f, "{} ends {bytes} bytes before the end", name_of(*kind)),
            Item::Cut(kind, bytes) => write!(f, "{} cut off after {bytes} bytes", name_of(*kind)),
            Item::BatchBefore(more) => write!(f, "batch before 4 bytes for each number and {more} more"),
            Item::Refused(mark, turn) => write!(f, "run refused at its {turn} quote, {mark}"),
            Item::Accepted(mark, turn) => write!(f, "run accepted, its {turn} quote: {mark}"),
        }
    }
}

impl Item {
    /// Where numbers are counted: there are too many for a tree.
    fn index(stands: Stands, place: Place, form: Form) -> usize {
        let of_kind = stands as usize * (*KINDS.end() as usize + 1) + place.kind as usize;
        (of_kind * Place::MOST + place.number) * Form::EACH.len() + form.index()
    }

    fn numbers() -> Vec<Item> {
        let mut items = Vec::new();
        for (stands, place) in Stands::ALL.into_iter().flat_map(|stands| Place::all().map(move |place| (stands, place)))
        {
            let is_there = |form: &Form| match form {
                Form::CutOff(_) => stands != Stands::InARun,
                Form::Missing => stands != Stands::InARun && place.number > 0,
                _ => true,
            };
            items.extend(Form::EACH.into_iter().filter(is_there).map(|form| Item::Number(stands, place, form)));
        }
        for kind in KINDS {
            items.extend((2..=4).map(|length| Item::Unreadable(kind, Form::TooLong(length))));
            items.extend((1..=3).map(|length| Item::Unreadable(kind, Form::CutOff(length))));
        }
        items
    }

    fn distances() -> Vec<Item> {
        let mut items: Vec<Item> = BATCH_MORE.map(Item::BatchBefore).collect();
        for kind in KINDS {
            items.extend((fewest_bytes(kind)..=FARTHEST).map(|bytes| Item::Begins(kind, bytes)));
            items.extend((0..=FARTHEST).map(|bytes| Item::Ends(kind, bytes)));
            items.extend((1..most_bytes(kind).min(FARTHEST + 1)).map(|bytes| Item::Cut(kind, bytes)));
        }
        items
    }

    fn runs() -> Vec<Item> {
        let turns = |marks: Vec<Mark>| marks.into_iter().flat_map(|mark| Turn::ALL.map(|turn| (mark, turn)));
        let refused = turns(Mark::refused()).map(|(mark, turn)| Item::Refused(mark, turn));
        refused.chain(turns(Mark::acceptable()).map(|(mark, turn)| Item::Accepted(mark, turn))).collect()
    }
}

/// A record as it is stored, as far as it can be read.
#[derive(Default)]
struct Stored {
    start: usize,
    /// What its first byte says, whatever follows.
    kind: u32,
    numbers: Vec<u32>,
    forms: Vec<Form>,
    /// Where its last number ends, or the one that can't be read begins.
    end: usize,
    is_whole: bool,
}

impl Stored {
    fn read(&mut self, bytes: &[u8], start: usize) {
        self.numbers.clear();
        self.forms.clear();
        (self.start, self.end, self.is_whole) = (start, start, false);
        self.kind = bytes.get(start).map_or(0, |byte| byte % 128) as u32;
        while let Some(wanted) = self.wanted() {
            if self.numbers.len() == wanted {
                self.is_whole = true;
                return;
            }
            let form = Form::of(bytes, self.end);
            self.forms.push(form);
            let Form::Bytes(length) = form else {
                return;
            };
            let groups = bytes[self.end..self.end + length].iter().rev();
            self.numbers.push(groups.fold(0, |higher, &byte| higher << 7 | byte as u32 % 128));
            self.end += length;
        }
    }

    /// How many numbers it has, as far as is known; none where its kind or count stops it.
    fn wanted(&self) -> Option<usize> {
        match self.numbers[..] {
            [] => Some(1),
            [kind::BATCH, _, _, count, ..] if !(1..=Batch::MOST_QUOTES as u32).contains(&count) => None,
            [kind::BATCH, _, _, count, ..] => Some(BEFORE_QUOTES + count as usize * Batch::NUMBERS_A_QUOTE),
            [kind, ..] => KINDS.contains(&kind).then(|| numbers_of(kind)),
        }
    }

    /// A quote with every field in one byte or two.
    fn is_short_quote(&self) -> bool {
        let is_short = |form: &Form| matches!(form, Form::Bytes(1 | 2));
        self.is_whole && self.kind == kind::QUOTE && self.forms[BEFORE_FIELDS..].iter().all(is_short)
    }

    /// Kind, milliseconds, exchange and count of a batch whose count was read.
    fn bytes_before_quotes(&self) -> usize {
        let length = |form: &Form| if let Form::Bytes(length) = form { *length } else { 0 };
        self.forms[..BEFORE_QUOTES].iter().map(length).sum()
    }

    fn is_cut(&self) -> bool {
        matches!(self.forms.last(), Some(Form::CutOff(_) | Form::Missing))
    }
}

/// A whole record of a journal.
struct Passed {
    start: usize,
    end: usize,
    kind: u32,
    is_short_quote: bool,
    /// The time before it.
    time: u32,
}

fn quote_at(header: &Header, journal: &[u8], at: &Passed) -> Quote {
    let mut record = Stored::default();
    record.read(journal, at.start);
    let fields = record.numbers[BEFORE_FIELDS..].try_into().expect("a quote has eight fields");
    Quote { exchanges: header.exchanges, time: at.time, milliseconds: record.numbers[1], fields }
}

pub struct Placed {
    /// By `Item::index`.
    numbers: Vec<u64>,
    others: BTreeMap<Item, u64>,
}

impl Default for Placed {
    fn default() -> Placed {
        let last = Place { kind: *KINDS.end(), number: Place::MOST - 1 };
        let numbers = vec![0; Item::index(Stands::Alone, last, Form::Missing) + 1];
        Placed { numbers, others: BTreeMap::new() }
    }
}

impl Placed {
    fn count(&mut self, item: Item) {
        *self.others.entry(item).or_default() += 1;
    }

    fn note_numbers(&mut self, record: &Stored, stands: Stands) {
        if !KINDS.contains(&record.kind) {
            return;
        }
        for (at, &form) in record.forms.iter().enumerate() {
            self.numbers[Item::index(stands, Place::of(record.kind, at), form)] += 1;
            if matches!(form, Form::TooLong(_) | Form::CutOff(_)) {
                self.count(Item::Unreadable(record.kind, form));
            }
        }
    }

    /// A record that is read alone under a good header.
    pub fn note_alone(&mut self, bytes: &[u8]) {
        let mut record = Stored::default();
        record.read(bytes, 0);
        self.note_numbers(&record, Stands::Alone);
    }

    pub fn note_journal(&mut self, journal: &[u8]) {
        let Ok((header, reader)) = open(journal) else {
            return;
        };
        let refusal = accept(journal).err();
        let (mut record, mut passed, mut quotes) = (Stored::default(), Vec::new(), 0);
        let (mut at, mut time) = (reader.place(), 0);
        while at < journal.len() {
            record.read(journal, at);
            if refusal.is_none_or(|refusal| at <= refusal.place as usize) {
                self.note_record(&record, journal.len(), quotes);
            }
            if !record.is_whole {
                break;
            }
            let is_short_quote = record.is_short_quote();
            passed.push(Passed { start: at, end: record.end, kind: record.kind, is_short_quote, time });
            quotes = if is_short_quote { quotes + 1 } else { 0 };
            time = record.numbers[1].saturating_add(time);
            at = record.end;
        }
        let is_read_to_the_end = match refusal {
            None => true,
            Some(Refusal { no, place }) => {
                no == No::UnreadableNumber && record.is_cut() && place as usize == record.end
            }
        };
        if is_read_to_the_end {
            self.note_distances(&record, &passed, journal.len());
        }
        self.note_runs(&header, journal, &passed, refusal);
    }

    /// A record that was read, after so many short quotes.
    fn note_record(&mut self, record: &Stored, length: usize, quotes: usize) {
        let left = length - record.start;
        let numbers = record.wanted().unwrap_or(0);
        if let (true, Some(stands)) = (quotes >= QUOTES_BEFORE, Stands::by_bytes_left(left, record.kind, numbers)) {
            self.note_numbers(record, stands);
        }
        if record.kind == kind::BATCH && numbers > fewest_bytes(kind::BATCH) {
            let behind = left - record.bytes_before_quotes();
            let more = behind as i32 - (Number::MOST_BYTES * (numbers - BEFORE_QUOTES)) as i32;
            if BATCH_MORE.contains(&more) {
                self.count(Item::BatchBefore(more));
            }
        }
    }

    /// Whole records by what is behind them, and the last that is not.
    fn note_distances(&mut self, last: &Stored, passed: &[Passed], length: usize) {
        if last.is_cut() && KINDS.contains(&last.kind) {
            self.count(Item::Cut(last.kind, length - last.start));
        }
        for record in passed.iter().rev().take_while(|record| length - record.end <= FARTHEST) {
            self.count(Item::Ends(record.kind, length - record.end));
            self.count(Item::Begins(record.kind, length - record.start));
        }
    }

    /// Long runs of quotes, all of them short but one at most, up to the refusal.
    fn note_runs(&mut self, header: &Header, journal: &[u8], passed: &[Passed], refusal: Option<Refusal>) {
        let is_quote = |record: &Passed| record.kind == kind::QUOTE;
        let runs = passed.chunk_by(|one, next| is_quote(one) && is_quote(next));
        let refused_at = refusal.map_or(journal.len(), |refusal| refusal.place as usize);
        for run in runs.filter(|run| run.len() >= Turn::FEWEST && is_quote(&run[0])) {
            let is_accepted = run[run.len() - 1].end <= refused_at;
            for turn in Turn::ALL {
                let at = turn.at(run.len());
                let mut others = run[..at].iter().chain(&run[at + 1..]);
                let is_singled_out = others.all(|record| record.is_short_quote);
                if is_singled_out && is_accepted {
                    self.note_acceptable(&quote_at(header, journal, &run[at]), turn);
                } else if is_singled_out && run[at].start == refused_at {
                    self.note_refused(header, journal, &run[at], turn);
                }
            }
        }
    }

    fn note_acceptable(&mut self, quote: &Quote, turn: Turn) {
        for mark in Mark::acceptable().into_iter().filter(|mark| mark.is_of(quote)) {
            self.count(Item::Accepted(mark, turn));
        }
    }

    /// A quote that is refused while all else is sound.
    fn note_refused(&mut self, header: &Header, journal: &[u8], at: &Passed, turn: Turn) {
        let all_else = [&journal[..at.start], &journal[at.end..]].concat();
        let mark = Mark::alone_of(&quote_at(header, journal, at));
        if let (Some(mark), Ok(())) = (mark, accept(&all_else)) {
            self.count(Item::Refused(mark, turn));
        }
    }

    fn times(&self, item: &Item) -> u64 {
        match *item {
            Item::Number(stands, place, form) => self.numbers[Item::index(stands, place, form)],
            _ => self.others.get(item).copied().unwrap_or(0),
        }
    }

    /// Prints how often each of these was reached at least, and answers what was not.
    pub fn print(&self) -> Vec<String> {
        let families = [
            ("each number of each length at each place", Item::numbers()),
            ("each record at each distance from the end", Item::distances()),
            ("each quote in a run, refused or just acceptable", Item::runs()),
        ];
        let mut missing = Vec::new();
        for (what, items) in families {
            let least = items.iter().map(|item| self.times(item)).min().unwrap_or(0);
            println!("{what:60} {least:9}");
            missing.extend(items.iter().filter(|item| self.times(item) == 0).map(Item::to_string));
        }
        missing
    }
}
