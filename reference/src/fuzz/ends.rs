//! Records of each kind at each distance from a journal's end: whole ones with short records or a cut one behind them,
//! and such as are cut themselves.

use super::activity::put_number;
use super::chance::Chance;
use super::ground::{Ground, ONE_BYTE};
use super::lengths::put_as;
use super::places::{BEFORE_FIELDS, BEFORE_QUOTES, Form, KINDS, fewest_bytes, most_bytes};
use crate::batch::Batch;
use crate::number::Number;
use crate::record::kind;
use std::ops::RangeInclusive;

/// Distances up to this one.
pub const FARTHEST: usize = 64;

/// How many bytes more than four for each number of its quotes stand behind a batch's count.
pub const BATCH_MORE: RangeInclusive<i32> = -4..=8;

/// A short quote with every number in one byte.
const QUOTE_BYTES: usize = 10;

#[derive(Clone, Copy)]
pub enum Case {
    /// Records of a shape with a short quote after each, the last of which ends so many bytes before the end.
    Whole { shape: Shape, behind: usize },
    /// So many bytes of a record that takes more.
    Cut { kind: u32, bytes: usize },
    /// A batch of several quotes, and behind its count four bytes for each number and so many more.
    Batch { more: i32 },
}

/// Records that all take the same number of bytes.
#[derive(Clone, Copy)]
pub enum Shape {
    /// Every number in one byte.
    Short(u32),
    /// A quote with milliseconds of four bytes, and prices and contracts of so many each.
    Quote(usize),
}

impl Shape {
    fn bytes(self) -> usize {
        match self {
            Shape::Short(kind) => fewest_bytes(kind),
            Shape::Quote(length) => 7 + 6 * length,
        }
    }

    fn kind(self) -> u32 {
        match self {
            Shape::Short(kind) => kind,
            Shape::Quote(_) => kind::QUOTE,
        }
    }

    /// How many bytes lie between one of them and the next: there may be one closing record only.
    fn period(self) -> usize {
        match self {
            Shape::Short(kind::CLOSING_WINDOW) => FARTHEST + 1,
            Shape::Short(kind::QUOTE) => QUOTE_BYTES,
            _ => self.bytes() + QUOTE_BYTES,
        }
    }

    fn numbers(self, ground: &mut Ground, before: u32) -> Vec<u32> {
        match self {
            Shape::Short(kind) => ground.usual(kind, before),
            Shape::Quote(length) => {
                let [exchange, series, ..] = ground.quote_to_look_at();
                let least = 1 << (7 * (length - 1));
                let [bid, size, customers] = [1, 2, 0].map(|more| least + more);
                vec![kind::QUOTE, 2_097_152, exchange, series, bid, size, customers, bid + 1, size, size]
            }
        }
    }
}

pub fn cases() -> impl Iterator<Item = Case> {
    let shapes = KINDS.map(Shape::Short).chain([Shape::Quote(2), Shape::Quote(3)]);
    let whole = shapes.flat_map(|shape| (0..shape.period()).map(move |behind| Case::Whole { shape, behind }));
    let cut = |kind| (1..most_bytes(kind).min(FARTHEST + 1)).map(move |bytes| Case::Cut { kind, bytes });
    whole.chain(KINDS.flat_map(cut)).chain(BATCH_MORE.map(|more| Case::Batch { more }))
}

impl Case {
    /// The kind of record that is looked at.
    pub fn kind(self) -> u32 {
        match self {
            Case::Whole { shape, .. } => shape.kind(),
            Case::Cut { kind, .. } => kind,
            Case::Batch { .. } => kind::BATCH,
        }
    }

    pub fn journal(self, chance: &mut Chance) -> Vec<u8> {
        let mut ground = Ground::open(chance);
        // As many as the shortest shape that names one needs.
        ground.prepare(6);
        let count = 2 + ground.day.chance.below(4);
        ground.run(count);
        match self {
            Case::Whole { shape, behind } => ground.put_whole(shape, behind),
            Case::Cut { kind, bytes } => ground.put_cut(kind, bytes),
            Case::Batch { more } => ground.put_batch_before(more),
        }
        ground.day.bytes
    }
}

impl Ground<'_> {
    fn put_whole(&mut self, shape: Shape, behind: usize) {
        let count = FARTHEST / shape.period() + 1;
        for before in 0..count {
            let numbers = shape.numbers(self, before as u32);
            self.day.add_as_is(numbers[0], numbers[1], &numbers[BEFORE_FIELDS..]);
            if before + 1 < count && shape.period() > shape.bytes() {
                self.fill(QUOTE_BYTES);
            }
        }
        let closes_twice = behind < 4 && shape.kind() == kind::CLOSING_WINDOW;
        if behind == 1 || behind > 0 && (closes_twice || self.day.chance.one_in(3)) {
            let kind = self.day.chance.between(kind::QUOTE, kind::NO_BLOCK);
            self.put_cut(kind, behind);
        } else {
            self.fill(behind);
        }
    }

    /// Complete short records of exactly so many bytes, but for one byte. Those of two and three are closing records.
    pub fn fill(&mut self, bytes: usize) {
        let mut left = bytes;
        while left >= QUOTE_BYTES + 4 || left == QUOTE_BYTES {
            let fields = self.quote_to_look_at();
            self.day.add_as_is(kind::QUOTE, 0, &fields);
            left -= QUOTE_BYTES;
        }
        match left {
            0 => {}
            2 | 3 => self.day.add_as_is(kind::CLOSING_WINDOW, [0, 128][left - 2], &[]),
            4..=7 => self.put_status(left),
            8 | 9 => {
                self.put_status(4);
                self.put_status(left - 4);
            }
            _ => {
                let mut fields = self.quote_to_look_at();
                let longer = [[128, 1, 1], [128, 128, 1], [128, 128, 128]];
                fields[5..].copy_from_slice(&longer[left - QUOTE_BYTES - 1]);
                self.day.add_as_is(kind::QUOTE, 0, &fields);
            }
        }
    }

    /// A status of four to seven bytes, by its milliseconds.
    fn put_status(&mut self, bytes: usize) {
        let exchange = self.exchange();
        self.day.add_as_is(kind::STATUS, [0, 128, 16_384, 2_097_152][bytes - 4], &[exchange, 0]);
    }

    /// The first bytes of a record that takes more, of this kind if one can; its numbers are of any length.
    fn put_cut(&mut self, kind: u32, bytes: usize) {
        let kind = if most_bytes(kind) > bytes { kind } else { kind::BATCH };
        let mut numbers = self.usual(kind, 0);
        if kind == kind::BATCH {
            // The longest of one quote takes 38 bytes, and each quote more 28.
            let (fewest, most) = (1 + bytes.saturating_sub(10) / 28, 1 + bytes / Batch::NUMBERS_A_QUOTE);
            let quotes = self.day.chance.pick(&[fewest, fewest, most, most + 1]);
            numbers.splice(BEFORE_FIELDS.., self.usual_batch(quotes));
        }
        let lengths = self.some_lengths(&numbers, bytes);
        let start = self.day.bytes.len();
        for (&number, length) in numbers.iter().zip(lengths) {
            let higher = if length == 1 { 0 } else { self.day.chance.between(1, ONE_BYTE) << (7 * (length - 1)) };
            put_number(&mut self.day.bytes, number + higher);
        }
        self.day.bytes.truncate(start + bytes);
    }

    /// Lengths of numbers that make more than so many bytes together: milliseconds of four and all others the same, as in
    /// a short quote always, or any. The kind and a batch's count take one byte.
    fn some_lengths(&mut self, numbers: &[u32], bytes: usize) -> Vec<usize> {
        let mut lengths = vec![1; numbers.len()];
        let same = (1..=3).find(|length| 5 + length * (numbers.len() - 2) > bytes);
        let is_short_quote = numbers[0] == kind::QUOTE && matches!(same, Some(1 | 2));
        let is_same = is_short_quote || numbers[0] != kind::BATCH && self.day.chance.one_in(2);
        if let (Some(same), true) = (same, is_same) {
            lengths[1..].fill(same);
            lengths[1] = Number::MOST_BYTES;
            return lengths;
        }
        let more = self.day.chance.pick(&[0, 0, 2, 8]);
        loop {
            let may_grow = |at: &usize| numbers[0] != kind::BATCH || *at != BEFORE_QUOTES - 1;
            let open = (1..lengths.len()).filter(may_grow).filter(|&at| lengths[at] < Number::MOST_BYTES);
            let open: Vec<usize> = open.collect();
            if open.is_empty() || lengths.iter().sum::<usize>() > bytes + more {
                return lengths;
            }
            lengths[self.day.chance.pick(&open)] += 1;
        }
    }

    /// A batch of which every number takes one byte but the last, and as much behind it as is wanted.
    fn put_batch_before(&mut self, more: i32) {
        let quotes = self.day.chance.pick(&[2, 3, 4, 8, 16, 31, 32]);
        let fields = self.usual_batch(quotes);
        let form = self.day.chance.pick(&[Form::Bytes(1), Form::Bytes(1), Form::TooLong(2), Form::OverFour]);
        let (last, others) = fields.split_last().expect("a batch has quotes");
        self.day.add_as_is(kind::BATCH, 0, others);
        put_as(self.day.chance, &mut self.day.bytes, *last, form);
        let numbers = quotes * Batch::NUMBERS_A_QUOTE;
        let last_takes = match form {
            Form::Bytes(_) => 1,
            Form::TooLong(length) => length,
            _ => Number::MOST_BYTES + 1,
        };
        let wanted = numbers * Number::MOST_BYTES - (numbers - 1) - last_takes;
        self.fill(wanted.saturating_add_signed(more as isize));
    }
}
