//! Numbers of each length at each place of each kind of record, and such as can't be read, among short quotes: well
//! inside a journal, near its end, and in records alone.

use super::activity::{LAST_TIME, put_number};
use super::chance::Chance;
use super::ground::{Ground, ONE_BYTE, QuoteFields};
use super::places::{BEFORE_FIELDS, BEFORE_QUOTES, Form, Place, Stands};
use super::questions::words;
use super::values;
use crate::ask::{Question, op};
use crate::batch::Batch;
use crate::event::Side;
use crate::number::Number;
use crate::record::kind;

/// Which number of a record is stored how, and where the record stands.
#[derive(Clone, Copy)]
pub struct Case {
    pub place: Place,
    form: Form,
    pub stands: Stands,
    way: Way,
}

/// What shows how a number was read, or that it was not.
#[derive(Clone, Copy, PartialEq)]
enum Way {
    /// It is in range if it can be, and what follows depends on it.
    ByVerdicts,
    /// The same, and the journal ends so many milliseconds past the day.
    ByTheDaysEnd(u32),
    /// Without its highest group it would be a usual one, and it is taken as that by whoever overlooks the group.
    ByItself,
    /// It can't be read, and what is out of range before it is not looked at.
    AfterAFault,
    /// Whichever there is, by chance.
    Any,
}

pub fn cases() -> impl Iterator<Item = Case> {
    let places = Place::all().flat_map(|place| Stands::ALL.map(|stands| (place, stands)));
    let forms = |(place, stands)| forms(place, stands).into_iter().map(move |form| (place, stands, form));
    places.flat_map(forms).flat_map(|(place, stands, form)| {
        let ways = if stands == Stands::InARun { ways(place, form) } else { &[Way::Any] };
        ways.iter().map(move |&way| Case { place, form, stands, way })
    })
}

/// The ways that count by themselves in a run, those of quotes above all.
fn ways(place: Place, form: Form) -> &'static [Way] {
    let is_price_or_contracts = values::most_of(place.kind, place.number.saturating_sub(BEFORE_FIELDS)) > 0;
    match (place.kind, form) {
        (_, Form::Bytes(_)) if place.number == 1 => &[Way::ByTheDaysEnd(0), Way::ByTheDaysEnd(1)],
        (kind::QUOTE | kind::BATCH, Form::Bytes(2 | 3)) if is_price_or_contracts => &[Way::ByVerdicts, Way::ByItself],
        (kind::QUOTE, Form::TooLong(4)) if place.number > BEFORE_FIELDS => &[Way::ByVerdicts, Way::AfterAFault],
        (kind::QUOTE, _) => &[Way::ByVerdicts],
        _ => &[Way::Any],
    }
}

/// All forms but that of one byte, which stands everywhere; of those that are too long one of three, but every one in a
/// run's quote. Nothing is cut off well inside a journal, and where the kind is missing there is no record.
fn forms(place: Place, stands: Stands) -> Vec<Form> {
    let one_of_three = (place.number + stands as usize) % 3;
    let mut forms = vec![Form::Bytes(2), Form::Bytes(3), Form::Bytes(4), Form::OverFour];
    if stands == Stands::InARun && place.kind == kind::QUOTE {
        forms.extend([2, 3, 4].map(Form::TooLong));
    } else {
        forms.push(Form::TooLong(2 + one_of_three));
    }
    if stands != Stands::InARun {
        forms.push(Form::CutOff(1 + one_of_three));
        forms.extend((place.number > 0).then_some(Form::Missing));
    }
    forms
}

/// A record with one number in the form that is wanted.
struct Written {
    numbers: Vec<u32>,
    /// Which number it is.
    wanted: usize,
    bytes: Vec<u8>,
}

impl Case {
    /// A journal with the record among short quotes. What follows shows how it was read, if anything does.
    pub fn journal(self, chance: &mut Chance, by_list: bool) -> Vec<u8> {
        let kind = self.place.kind;
        let mut ground = Ground::open(chance);
        let names = matches!(kind, kind::RESPONSE | kind::SATISFACTION_ORDER | kind::CANCELLATION | kind::NO_BLOCK);
        if names || ground.day.chance.one_in(2) {
            ground.prepare(1);
        }
        let count = 2 + ground.day.chance.below(7);
        ground.run(count);
        let written = self.record(&mut ground);
        ground.day.bytes.extend(&written.bytes);
        ground.note(&written.numbers);
        match self.stands {
            Stands::NearTheEnd if self.ends_there() => {}
            Stands::NearTheEnd => follow_closely(&mut ground, written.bytes.len()),
            _ => self.follow(&mut ground, &written, by_list),
        }
        ground.day.bytes
    }

    /// Much behind it, and what depends on how it was read.
    fn follow(self, ground: &mut Ground, written: &Written, by_list: bool) {
        let Written { numbers, wanted, .. } = written;
        let of_batch = if self.place.kind == kind::BATCH { Number::MOST_BYTES * numbers.len() } else { 0 };
        ground.run_of_bytes(Stands::MUCH + of_batch);
        match (self.way, quote_of(numbers, *wanted)) {
            (Way::ByTheDaysEnd(past), _) => ground.end_the_day(past),
            (_, Some((quote, side))) => ground.judge(&quote, side, by_list),
            _ => {
                let past = ground.day.chance.between(0, 1);
                ground.end_the_day(past);
            }
        }
    }

    /// The record alone, with nothing behind it or with quotes.
    pub fn alone(self, chance: &mut Chance) -> Question {
        let header = values::header(chance);
        let mut ground = Ground::with(chance, &header);
        let time = ground.day.chance.pick(&[0, 0, 1_000, 80_000_000]);
        ground.day.bytes.clear();
        ground.day.time = time;
        let written = self.record(&mut ground);
        ground.day.bytes.extend(&written.bytes);
        if !self.ends_there() && ground.day.chance.one_in(2) {
            let bytes = ground.day.chance.pick(&[1, Stands::LITTLE, Number::MOST_BYTES * written.numbers.len()]);
            ground.run_of_bytes(bytes);
        }
        let mut numbers = header.to_vec();
        numbers.push(time);
        Question { op: op::READ_RECORD, a: words(&numbers), b: ground.day.bytes, ..Question::default() }
    }

    fn ends_there(self) -> bool {
        matches!(self.form, Form::CutOff(_) | Form::Missing)
    }

    fn record(self, ground: &mut Ground) -> Written {
        let (numbers, wanted) = self.numbers(ground);
        let mut bytes = Vec::new();
        for &number in &numbers[..wanted] {
            put_number(&mut bytes, number);
        }
        put_as(ground.day.chance, &mut bytes, numbers[wanted], self.form);
        // Two bytes may be one that says that more follows, and a 0 in the next number's place; of a quote's kind they are.
        let is_kind = self.place == Place { kind: kind::QUOTE, number: 0 };
        let is_for_two = self.form == Form::TooLong(2) && (is_kind || ground.day.chance.one_in(2));
        let behind = if self.ends_there() { numbers.len() } else { wanted + 1 + is_for_two as usize };
        for &number in numbers.get(behind..).unwrap_or(&[]) {
            put_number(&mut bytes, number);
        }
        Written { numbers, wanted, bytes }
    }

    /// The record's numbers, and which of them is wanted. One that can be read has its length; where one can't, another
    /// before it may be out of range, which is not looked at.
    fn numbers(self, ground: &mut Ground) -> (Vec<u32>, usize) {
        let Place { kind, number } = self.place;
        let mut numbers = ground.usual(kind, 0);
        let quotes = if self.stands == Stands::NearTheEnd { 2 } else { ground.day.chance.pick(&[2, 3, 5, 32]) };
        if kind == kind::BATCH {
            numbers.splice(BEFORE_FIELDS.., ground.usual_batch(quotes));
        }
        let wanted = self.place.at(1 + ground.day.chance.below(quotes - 1));
        let by_chance = self.way == Way::Any && ground.day.chance.one_in(4);
        if let Form::Bytes(length) = self.form {
            let (least, most) = (1 << (7 * (length - 1)), self.most(ground));
            if most < least || by_chance || self.way == Way::ByItself {
                numbers[wanted] = numbers[wanted] % least + least * ground.day.chance.between(1, ONE_BYTE);
            } else {
                numbers[wanted] = in_range(ground.day.chance, least, most);
                keep_sound(&mut numbers, wanted);
            }
        } else if number > BEFORE_FIELDS && (by_chance || self.way == Way::AfterAFault) {
            numbers[BEFORE_FIELDS] = 0;
        }
        (numbers, wanted)
    }

    /// The largest that the number may be, where that takes more than a byte.
    fn most(self, ground: &Ground) -> u32 {
        match self.place.number {
            0 => 0,
            1 => LAST_TIME - ground.day.time,
            number => values::most_of(self.place.kind, number - BEFORE_FIELDS),
        }
    }
}

/// Complete records after one of so many bytes, or none, so that it stands near the end.
fn follow_closely(ground: &mut Ground, taken: usize) {
    let room = (Stands::LITTLE - 1).saturating_sub(taken);
    let bytes = ground.day.chance.below(room + 1);
    ground.fill(if bytes < 4 { 0 } else { bytes });
}

/// A number of the same length as the least, and no more than the most.
fn in_range(chance: &mut Chance, least: u32, most: u32) -> u32 {
    let most = most.min(128 * least - 1);
    let (any, low) = (chance.between(least, most), chance.between(least, most.min(4 * least)));
    chance.pick(&[any, low])
}

/// Where the bid stands of the quote that a number of a record belongs to.
fn bid_of(numbers: &[u32], at: usize) -> Option<usize> {
    match (numbers[0], at.checked_sub(BEFORE_QUOTES)) {
        (kind::QUOTE, _) => Some(BEFORE_FIELDS + 2),
        (kind::BATCH, Some(behind)) => Some(at - behind % Batch::NUMBERS_A_QUOTE + 1),
        (kind::BATCH, None) => Some(BEFORE_QUOTES + 1),
        _ => None,
    }
}

/// The quote that a number belongs to, and its side where the number is of one.
fn quote_of(numbers: &[u32], at: usize) -> Option<(QuoteFields, Option<Side>)> {
    let bid = bid_of(numbers, at)?;
    let fields = std::array::from_fn(|field| if field == 0 { numbers[2] } else { numbers[bid + field - 2] });
    let side = at.checked_sub(bid).map(|in_sides| if in_sides < 3 { Side::Bid } else { Side::Offer });
    Some((fields, side))
}

/// The other numbers of a quote are such that it is sound with this one, unless that is out of range; and would not be
/// if it were smaller.
fn keep_sound(numbers: &mut [u32], at: usize) {
    let Some(in_sides) = bid_of(numbers, at).and_then(|bid| at.checked_sub(bid)) else {
        return;
    };
    match in_sides {
        0 => numbers[at + 3] = numbers[at + 3].max(numbers[at] + 1),
        1 | 4 => numbers[at + 1] = numbers[at],
        2 | 5 => numbers[at - 1] = numbers[at - 1].max(numbers[at]),
        _ => {}
    }
}

/// The number in a form. Where it can't be read, whoever takes it all the same reads a number of one byte.
pub fn put_as(chance: &mut Chance, bytes: &mut Vec<u8>, number: u32, form: Form) {
    let low = number as u8 | 0x80;
    match form {
        Form::Bytes(_) => put_number(bytes, number),
        Form::TooLong(length) => {
            bytes.push(low);
            bytes.resize(bytes.len() + length - 2, 0x80);
            bytes.push(0);
        }
        Form::OverFour => {
            let ends: [[u8; 4]; 5] =
                [[0x80, 0x80, 0x80, 0], [0x80, 0x80, 0x80, 1], [0x80; 4], [0xFF; 4], [0x81, 0x82, 0x83, 4]];
            bytes.push(low);
            bytes.extend(chance.pick(&ends));
        }
        Form::CutOff(length) => {
            bytes.push(low);
            bytes.extend((1..length).map(|_| chance.byte() | 0x80));
        }
        Form::Missing => {}
    }
}
