//! Which number of a record is meant, how it is stored, and where its record stands.

use crate::batch::Batch;
use crate::number::Number;
use crate::record::kind;
use std::fmt::{self, Display, Formatter};
use std::ops::RangeInclusive;

pub const KINDS: RangeInclusive<u32> = kind::QUOTE..=kind::NO_BLOCK;

/// Kind and milliseconds, before the fields.
pub const BEFORE_FIELDS: usize = 2;

/// Kind, milliseconds, exchange and count, before the quotes of a batch.
pub const BEFORE_QUOTES: usize = BEFORE_FIELDS + Batch::OPENING;

const SIDES: [&str; 6] = ["bid", "bid size", "bid customers", "offer", "offer size", "offer customers"];
const ORDER: &[&str] = &["type", "exchange", "series", "side", "price", "size"];

/// What each kind is called, and its fields.
const NAMES: [(&str, &[&str]); 12] = [
    ("", &[]),
    ("quote", &["exchange", "series", SIDES[0], SIDES[1], SIDES[2], SIDES[3], SIDES[4], SIDES[5]]),
    ("status", &["exchange", "status"]),
    ("home trade", &["series", "price", "size", "block form", "complex", "initiator", "delay"]),
    ("sent order", ORDER),
    ("response", &["order", "filled"]),
    ("received order", ORDER),
    ("Satisfaction Order", &["trade", "exchange", "price", "size"]),
    ("cancellation", &["order", "exchange"]),
    ("closing record", &[]),
    ("batch", &["exchange", "count"]),
    ("no-block record", &["order"]),
];

pub fn name_of(kind: u32) -> &'static str {
    NAMES[kind as usize].0
}

/// How many numbers a record of a kind has; a batch has those of its quotes beside them.
pub fn numbers_of(kind: u32) -> usize {
    BEFORE_FIELDS + NAMES[kind as usize].1.len()
}

/// The fewest bytes that a record of a kind takes: one for each number, a batch being of one quote.
pub fn fewest_bytes(kind: u32) -> usize {
    numbers_of(kind) + if kind == kind::BATCH { Batch::NUMBERS_A_QUOTE } else { 0 }
}

/// The most bytes that one takes whose kind takes one, in range or not.
pub fn most_bytes(kind: u32) -> usize {
    let of_quotes = if kind == kind::BATCH { Batch::MOST_QUOTES * Batch::NUMBERS_A_QUOTE } else { 0 };
    1 + Number::MOST_BYTES * (numbers_of(kind) + of_quotes - 1)
}

/// A number of a record, its kind being 0. In a batch those of the first quote come after the count, then those of any
/// later quote, whichever it is.
#[derive(Clone, Copy, PartialEq, Eq, PartialOrd, Ord)]
pub struct Place {
    pub kind: u32,
    pub number: usize,
}

impl Place {
    /// More than any kind has.
    pub const MOST: usize = BEFORE_QUOTES + 2 * Batch::NUMBERS_A_QUOTE;

    pub fn all_of(kind: u32) -> impl Iterator<Item = Place> {
        let count = if kind == kind::BATCH { Self::MOST } else { numbers_of(kind) };
        (0..count).map(move |number| Place { kind, number })
    }

    pub fn all() -> impl Iterator<Item = Place> {
        KINDS.flat_map(Self::all_of)
    }

    /// Of the number that stands there in a record, counted from 0.
    pub fn of(kind: u32, at: usize) -> Place {
        let later = at.saturating_sub(BEFORE_QUOTES) / Batch::NUMBERS_A_QUOTE > 0;
        let folded = BEFORE_QUOTES + at.saturating_sub(BEFORE_QUOTES) % Batch::NUMBERS_A_QUOTE;
        let number = if kind == kind::BATCH && later { folded + Batch::NUMBERS_A_QUOTE } else { at };
        Place { kind, number }
    }

    /// Where it stands in a record; of a batch's later quotes this one is meant.
    pub fn at(self, later_quote: usize) -> usize {
        let is_later = self.kind == kind::BATCH && self.number >= BEFORE_QUOTES + Batch::NUMBERS_A_QUOTE;
        if is_later { self.number + (later_quote - 1) * Batch::NUMBERS_A_QUOTE } else { self.number }
    }
}

impl Display for Place {
    fn fmt(&self, f: &mut Formatter) -> fmt::Result {
        let fields = NAMES[self.kind as usize].1;
        let in_quote = self.number.checked_sub(BEFORE_QUOTES).filter(|_| self.kind == kind::BATCH);
        match (self.number, in_quote) {
            (0, _) => write!(f, "kind"),
            (1, _) => write!(f, "milliseconds"),
            (_, Some(at)) => {
                let whose = if at < Batch::NUMBERS_A_QUOTE { "first" } else { "later" };
                let in_one = at % Batch::NUMBERS_A_QUOTE;
                let number = if in_one == 0 { "series" } else { SIDES[in_one - 1] };
                write!(f, "{whose} quote's {number}")
            }
            (number, None) => write!(f, "{}", fields[number - BEFORE_FIELDS]),
        }
    }
}

/// How a number is stored.
#[derive(Clone, Copy, PartialEq, Eq, PartialOrd, Ord, Debug)]
pub enum Form {
    /// As it should be, in so many bytes.
    Bytes(usize),
    /// "Longer than needed", in so many bytes: the last is 0.
    TooLong(usize),
    /// None of its first four bytes is the last.
    OverFour,
    /// The bytes end after so many of it.
    CutOff(usize),
    /// The bytes end before it.
    Missing,
}

impl Form {
    /// What stands at a place.
    pub fn of(bytes: &[u8], at: usize) -> Form {
        let rest = bytes.get(at..).unwrap_or(&[]);
        let last = rest.iter().take(Number::MOST_BYTES).position(|&byte| byte < 0x80);
        match (last, rest.len()) {
            (Some(last), _) if last > 0 && rest[last] == 0 => Form::TooLong(last + 1),
            (Some(last), _) => Form::Bytes(last + 1),
            (None, 0) => Form::Missing,
            (None, left) if left < Number::MOST_BYTES => Form::CutOff(left),
            _ => Form::OverFour,
        }
    }

    /// Each form that counts by itself at every place: lengths, and what can't be read.
    pub const EACH: [Form; 8] = [
        Form::Bytes(1),
        Form::Bytes(2),
        Form::Bytes(3),
        Form::Bytes(4),
        Form::TooLong(0),
        Form::OverFour,
        Form::CutOff(0),
        Form::Missing,
    ];

    /// Which of them it is.
    pub fn index(self) -> usize {
        match self {
            Form::Bytes(length) => length - 1,
            Form::TooLong(_) => 4,
            Form::OverFour => 5,
            Form::CutOff(_) => 6,
            Form::Missing => 7,
        }
    }
}

impl Display for Form {
    fn fmt(&self, f: &mut Formatter) -> fmt::Result {
        match self {
            Form::Bytes(1) => write!(f, "1 byte"),
            Form::Bytes(length) => write!(f, "{length} bytes"),
            Form::TooLong(0) => write!(f, "longer than needed"),
            Form::TooLong(length) => write!(f, "longer than needed in {length} bytes"),
            Form::OverFour => write!(f, "over four bytes"),
            Form::CutOff(0) => write!(f, "cut off"),
            Form::CutOff(length) => write!(f, "cut off after {length}"),
            Form::Missing => write!(f, "missing"),
        }
    }
}

/// Where a record stands: right after two short quotes or more, with much behind it or little; or alone.
#[derive(Clone, Copy, PartialEq, Eq, PartialOrd, Ord)]
pub enum Stands {
    InARun,
    NearTheEnd,
    Alone,
}

impl Stands {
    pub const ALL: [Stands; 3] = [Stands::InARun, Stands::NearTheEnd, Stands::Alone];
    /// So many bytes follow its first byte at least where it stands in a run, beside four for each number of a batch.
    pub const MUCH: usize = 64;
    /// Near the end there are not so many from its first byte on: kind, then nine numbers of four bytes.
    pub const LITTLE: usize = 37;

    /// Of a record with so many numbers, from whose first byte on so many bytes are left, if it is either.
    pub fn by_bytes_left(left: usize, kind: u32, numbers: usize) -> Option<Stands> {
        let of_batch = if kind == kind::BATCH { numbers * Number::MOST_BYTES } else { 0 };
        if left < Self::LITTLE.max(of_batch) {
            return Some(Stands::NearTheEnd);
        }
        (left > Self::MUCH + of_batch).then_some(Stands::InARun)
    }
}

impl Display for Stands {
    fn fmt(&self, f: &mut Formatter) -> fmt::Result {
        write!(f, "{}", ["in a run", "near the end", "alone"][*self as usize])
    }
}

#[cfg(test)]
mod tests {
    use super::*;
    use crate::number::Reader;

    /// All rows of up to five bytes of the ones that decide.
    #[test]
    fn forms_are_what_a_reader_reads() {
        let mut rows = vec![vec![]];
        for at in 0..5 {
            let longest: Vec<Vec<u8>> = rows.iter().filter(|row: &&Vec<u8>| row.len() == at).cloned().collect();
            for row in longest {
                rows.extend([0, 1, 0x7F, 0x80, 0xFF].map(|byte| [&row[..], &[byte]].concat()));
            }
        }
        for row in rows {
            let mut reader = Reader::new(&row);
            let read = reader.number().is_ok().then_some(reader.place());
            let form = Form::of(&row, 0);
            assert_eq!(read, if let Form::Bytes(length) = form { Some(length) } else { None }, "{row:?} {form:?}");
        }
    }
}
