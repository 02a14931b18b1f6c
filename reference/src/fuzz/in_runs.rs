//! One quote in a long run of short ones: refused, everything behind it being sound, or just acceptable.

use super::activity::LAST_TIME;
use super::chance::Chance;
use super::ground::{Ground, ONE_BYTE, QuoteFields, TWO_BYTES};
use super::places::{BEFORE_FIELDS, Place};
use crate::record::{Record, kind};
use std::fmt::{self, Display, Formatter};

/// A quote as it comes in a run.
pub struct Quote {
    /// N.
    pub exchanges: u32,
    /// The time so far.
    pub time: u32,
    pub milliseconds: u32,
    pub fields: QuoteFields,
}

impl Quote {
    /// The largest that a field may be.
    fn most(&self, field: usize) -> u32 {
        [self.exchanges, 31, 1_000_000, 100_000, 100_000, 1_000_000, 100_000, 100_000][field]
    }

    /// Price, size and customers of the bid or of the offer.
    fn side(&self, side: usize) -> (u32, u32, u32) {
        (self.fields[side], self.fields[side + 1], self.fields[side + 2])
    }
}

/// The fields from which the bid and the offer stand.
const BID: usize = 2;
const OFFER: usize = 5;

/// What makes a quote refused, or just acceptable. Numbers are fields or sides.
#[derive(Clone, Copy, PartialEq, Eq, PartialOrd, Ord)]
pub enum Mark {
    NoExchange,
    OneAbove(usize),
    PastTheDay,
    BidAtOffer,
    BidAboveOffer,
    SizeWithoutPrice(usize),
    CustomersWithoutPrice(usize),
    PriceWithoutSize(usize),
    CustomersAboveSize(usize),
    /// 5 comes before 6.
    SeriesAndBid,
    ExchangeOne,
    Most(usize),
    LastOfDay,
    BidBelowOffer,
    CustomersAtSize(usize),
    NoSide(usize),
    NoSides,
}

impl Mark {
    /// Those that are refused.
    pub fn refused() -> Vec<Mark> {
        let mut marks =
            vec![Mark::NoExchange, Mark::PastTheDay, Mark::BidAtOffer, Mark::BidAboveOffer, Mark::SeriesAndBid];
        marks.extend((0..Record::MOST_FIELDS).map(Mark::OneAbove));
        for side in [BID, OFFER] {
            marks.extend([Mark::SizeWithoutPrice(side), Mark::CustomersWithoutPrice(side)]);
            marks.extend([Mark::PriceWithoutSize(side), Mark::CustomersAboveSize(side)]);
        }
        marks
    }

    /// Those that are not.
    pub fn acceptable() -> Vec<Mark> {
        let mut marks = vec![Mark::ExchangeOne, Mark::LastOfDay, Mark::BidBelowOffer, Mark::NoSides];
        marks.extend((0..Record::MOST_FIELDS).map(Mark::Most));
        marks.extend([BID, OFFER].map(Mark::CustomersAtSize));
        marks.extend([BID, OFFER].map(Mark::NoSide));
        marks
    }

    /// Changes a sound quote with both sides into one that has the mark.
    fn put(self, quote: &mut Quote) {
        let left = LAST_TIME - quote.time.min(LAST_TIME);
        let [bid, offer] = [BID, OFFER].map(|side| quote.fields[side]);
        match self {
            Mark::NoExchange => quote.fields[0] = 0,
            Mark::ExchangeOne => quote.fields[0] = 1,
            Mark::OneAbove(field) => quote.fields[field] = quote.most(field) + 1,
            Mark::Most(field) => quote.fields[field] = quote.most(field),
            Mark::PastTheDay => quote.milliseconds = left + 1,
            Mark::LastOfDay => quote.milliseconds = left,
            Mark::BidAtOffer => quote.fields[OFFER] = bid,
            Mark::BidAboveOffer => (quote.fields[BID], quote.fields[OFFER]) = (offer, bid),
            Mark::BidBelowOffer => quote.fields[OFFER] = bid + 1,
            Mark::SizeWithoutPrice(side) => quote.fields[side] = 0,
            Mark::CustomersWithoutPrice(side) => quote.fields[side..side + 3].copy_from_slice(&[0, 0, 1]),
            Mark::PriceWithoutSize(side) => quote.fields[side + 1..side + 3].fill(0),
            Mark::CustomersAboveSize(side) => quote.fields[side + 2] = quote.fields[side + 1] + 1,
            Mark::CustomersAtSize(side) => quote.fields[side + 2] = quote.fields[side + 1],
            Mark::SeriesAndBid => (quote.fields[1], quote.fields[OFFER]) = (32, bid),
            Mark::NoSide(side) => quote.fields[side..side + 3].fill(0),
            Mark::NoSides => quote.fields[BID..].fill(0),
        }
        // The bid stays below the offer, and customers within the size, where the limits let them.
        match self {
            Mark::OneAbove(BID) | Mark::Most(BID) => quote.fields[OFFER..].fill(0),
            Mark::OneAbove(field) | Mark::Most(field) if field == BID + 2 || field == OFFER + 2 => {
                quote.fields[field - 1] = quote.most(field);
            }
            _ => {}
        }
    }

    pub fn is_of(self, quote: &Quote) -> bool {
        let [exchange, series, ..] = quote.fields;
        let [bid, offer] = [BID, OFFER].map(|side| quote.fields[side]);
        let after = quote.time.saturating_add(quote.milliseconds);
        match self {
            Mark::NoExchange => exchange == 0,
            Mark::ExchangeOne => exchange == 1,
            Mark::OneAbove(field) => quote.fields[field] == quote.most(field) + 1,
            Mark::Most(field) => quote.fields[field] == quote.most(field),
            Mark::PastTheDay => after == LAST_TIME + 1,
            Mark::LastOfDay => after == LAST_TIME,
            Mark::BidAtOffer => bid > 0 && bid == offer,
            Mark::BidAboveOffer => offer > 0 && bid > offer,
            Mark::BidBelowOffer => bid > 0 && bid + 1 == offer,
            Mark::SeriesAndBid => series == 32 && bid > 0 && bid == offer,
            Mark::NoSides => bid == 0 && offer == 0,
            Mark::SizeWithoutPrice(side) => matches!(quote.side(side), (0, size @ 1.., held) if held <= size),
            Mark::CustomersWithoutPrice(side) => matches!(quote.side(side), (0, 0, 1..)),
            Mark::PriceWithoutSize(side) => matches!(quote.side(side), (1.., 0, 0)),
            Mark::CustomersAboveSize(side) => matches!(quote.side(side), (1.., size @ 1..100_000, held) if held > size),
            Mark::CustomersAtSize(side) => matches!(quote.side(side), (1.., size, held) if held == size),
            Mark::NoSide(side) => quote.side(side) == (0, 0, 0) && quote.side(BID + OFFER - side).0 > 0,
        }
    }

    /// Of what is wrong with a quote the one thing, or the two that are meant to be.
    pub fn alone_of(quote: &Quote) -> Option<Mark> {
        let marks: Vec<Mark> = Mark::refused().into_iter().filter(|mark| mark.is_of(quote)).collect();
        let both = [Mark::BidAtOffer, Mark::SeriesAndBid, Mark::OneAbove(1)];
        match marks[..] {
            [one] => Some(one),
            _ if marks == both => Some(Mark::SeriesAndBid),
            _ => None,
        }
    }
}

impl Display for Mark {
    fn fmt(&self, f: &mut Formatter) -> fmt::Result {
        let field = |field: usize| Place { kind: kind::QUOTE, number: BEFORE_FIELDS + field };
        match *self {
            Mark::NoExchange => write!(f, "exchange 0"),
            Mark::ExchangeOne => write!(f, "exchange 1"),
            Mark::OneAbove(at) => write!(f, "{} one above the most", field(at)),
            Mark::Most(at) => write!(f, "{} the most", field(at)),
            Mark::PastTheDay => write!(f, "a millisecond past the day"),
            Mark::LastOfDay => write!(f, "the day's last millisecond"),
            Mark::BidAtOffer => write!(f, "bid at the offer"),
            Mark::BidAboveOffer => write!(f, "bid above the offer"),
            Mark::BidBelowOffer => write!(f, "bid one below the offer"),
            Mark::SeriesAndBid => write!(f, "series 32 and bid at the offer"),
            Mark::NoSides => write!(f, "neither bid nor offer"),
            Mark::SizeWithoutPrice(side) => write!(f, "no {}, but a size", field(side)),
            Mark::CustomersWithoutPrice(side) => write!(f, "no {}, but customers", field(side)),
            Mark::PriceWithoutSize(side) => write!(f, "{} without size", field(side)),
            Mark::CustomersAboveSize(side) => write!(f, "{} above the size", field(side + 2)),
            Mark::CustomersAtSize(side) => write!(f, "{} equal to the size", field(side + 2)),
            Mark::NoSide(side) => write!(f, "no {}", field(side)),
        }
    }
}

/// Which quote of a run it is.
#[derive(Clone, Copy, PartialEq, Eq, PartialOrd, Ord)]
pub enum Turn {
    First,
    Second,
    Middle,
    LastButOne,
    Last,
}

impl Turn {
    pub const ALL: [Turn; 5] = [Turn::First, Turn::Second, Turn::Middle, Turn::LastButOne, Turn::Last];
    /// A run is long from so many quotes on.
    pub const FEWEST: usize = 7;

    pub fn at(self, count: usize) -> usize {
        [0, 1, count / 2, count - 2, count - 1][self as usize]
    }
}

impl Display for Turn {
    fn fmt(&self, f: &mut Formatter) -> fmt::Result {
        write!(f, "{}", ["first", "second", "middle", "last but one", "last"][*self as usize])
    }
}

#[derive(Clone, Copy)]
pub struct Case {
    mark: Mark,
    turn: Turn,
}

pub fn cases() -> impl Iterator<Item = Case> {
    let marks = Mark::refused().into_iter().chain(Mark::acceptable());
    marks.flat_map(|mark| Turn::ALL.map(|turn| Case { mark, turn }))
}

impl Case {
    pub fn is_refused(self) -> bool {
        Mark::refused().contains(&self.mark)
    }

    pub fn journal(self, chance: &mut Chance, by_list: bool) -> Vec<u8> {
        let mut ground = Ground::open(chance);
        if ground.day.chance.one_in(2) {
            ground.prepare(1);
        }
        let is_of_time = matches!(self.mark, Mark::PastTheDay | Mark::LastOfDay);
        if is_of_time || ground.day.chance.one_in(4) {
            ground.move_near_the_days_end();
        }
        let quote = self.put_run(&mut ground);
        // The last ones are read well inside the journal by one walk, at its end by the other.
        if self.is_refused() && (by_list && self.turn == Turn::Last || ground.day.chance.one_in(6)) {
            return ground.day.bytes;
        }
        let status = if self.is_refused() { 0 } else { ground.day.chance.pick(&[0, 0, 0, 1, 2]) };
        ground.day.add_as_is(kind::STATUS, 0, &[quote[0].clamp(1, ground.day.exchanges), status]);
        let count = 4 + ground.day.chance.below(5);
        ground.run(count);
        if !self.is_refused() {
            ground.judge(&quote, None, by_list);
        }
        ground.day.bytes
    }

    /// The run; answers the quote that has the mark.
    fn put_run(self, ground: &mut Ground) -> QuoteFields {
        let most = ground.day.chance.pick(&[3, 12, 40]);
        let count = Turn::FEWEST + ground.day.chance.below(most);
        let before = self.turn.at(count);
        ground.run(before);
        let (exchanges, time) = (ground.day.exchanges, ground.day.time);
        let most = ground.day.chance.pick(&[ONE_BYTE, TWO_BYTES]);
        let (milliseconds, fields) = (ground.pause(), ground.quote_up_to(most, 16));
        let mut quote = Quote { exchanges, time, milliseconds, fields };
        self.mark.put(&mut quote);
        ground.day.add_as_is(kind::QUOTE, quote.milliseconds, &quote.fields);
        ground.run(count - before - 1);
        quote.fields
    }
}
