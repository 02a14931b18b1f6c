//! Days for questions about how bytes are read: short quotes one after the other, records of every kind that may stand
//! among them, and records whose verdicts show how a quote was read.

use super::activity::{Activity, LAST_TIME};
use super::batching::Drawn;
use super::chance::Chance;
use super::values;
use crate::event::{SIDES, Side};
use crate::header::Header;
use crate::record::{Record, kind};

/// The fields of a quote.
pub type QuoteFields = [u32; Record::MOST_FIELDS];

/// The largest numbers of one byte and of two.
pub const ONE_BYTE: u32 = 127;
pub const TWO_BYTES: u32 = 16_383;

pub struct Ground<'c> {
    pub day: Activity<'c>,
    /// An exchange that home trades with.
    pub away: u32,
    trades: u32,
    claims: u32,
}

impl<'c> Ground<'c> {
    pub fn open(chance: &'c mut Chance) -> Ground<'c> {
        let header = values::header(chance);
        Self::with(chance, &header)
    }

    pub fn with(chance: &'c mut Chance, header: &[u32; Header::NUMBERS]) -> Ground<'c> {
        let mut day = Activity::open(chance, header);
        let away = day.away();
        Ground { day, away, trades: 0, claims: 0 }
    }

    /// So many of each kind may follow: there are as many trades with a Satisfaction Order each, priced as if the trade
    /// were a block, as many trades without one, and as many sent orders.
    pub fn prepare(&mut self, count: u32) {
        let away = self.away;
        let opens = self.day.chance.pick(&[0, 100, 20_000, 34_200_000]);
        self.day.add_as_is(kind::STATUS, opens, &[away, 0]);
        for _ in 0..2 * count {
            self.day.add_as_is(kind::HOME_TRADE, 0, &[0, 100, 20, 0, 0, away, 0]);
        }
        for trade in 0..count {
            self.day.add_as_is(kind::SATISFACTION_ORDER, 0, &[trade, away, 100, 20]);
        }
        for _ in 0..count {
            self.day.add_as_is(kind::SENT_ORDER, 0, &[1, away, 0, 1, 100, 100_000]);
        }
        (self.trades, self.claims) = (2 * count, count);
    }

    /// Claims that are to be cancelled in time have come.
    fn is_prepared(&self) -> bool {
        self.claims > 0
    }

    pub fn exchange(&mut self) -> u32 {
        self.day.chance.between(1, self.day.exchanges)
    }

    /// A sound quote with both sides, no number above this, in a series from this one on.
    pub fn quote_up_to(&mut self, most: u32, first_series: u32) -> QuoteFields {
        let (exchange, chance) = (self.exchange(), &mut self.day.chance);
        let bid = chance.between(1, most - 1);
        let offer = chance.between(bid + 1, most);
        let sizes = [0; 2].map(|_| chance.between(1, most));
        let held = sizes.map(|size| chance.between(0, size));
        let series = chance.between(first_series, first_series + 15);
        [exchange, series, bid, sizes[0], held[0], offer, sizes[1], held[1]]
    }

    /// A quote that is looked at, every number in one byte; the short quotes around it leave its series alone.
    pub fn quote_to_look_at(&mut self) -> QuoteFields {
        self.quote_up_to(ONE_BYTE, 16)
    }

    /// A quote of which every number takes one byte, or some take two; at times a side is absent, or both.
    pub fn short_quote(&mut self) -> QuoteFields {
        let most = self.day.chance.pick(&[ONE_BYTE, ONE_BYTE, TWO_BYTES]);
        let mut fields = self.quote_up_to(most, 0);
        match self.day.chance.below(12) {
            0 => fields[2..5].fill(0),
            1 => fields[5..].fill(0),
            2 => fields[2..].fill(0),
            _ => {}
        }
        fields
    }

    /// Milliseconds of one byte mostly, but of any length; never past the day.
    pub fn pause(&mut self) -> u32 {
        let some = self.day.chance.between(1, 1_000);
        let longest = if self.is_prepared() { some } else { 2_097_152 + some };
        let milliseconds = self.day.chance.weighted(&[(14, 0), (3, 1), (3, some), (1, 20_000), (1, longest)]);
        if milliseconds > LAST_TIME - self.day.time.min(LAST_TIME) { 0 } else { milliseconds }
    }

    /// So many short quotes one after the other.
    pub fn run(&mut self, count: usize) {
        for _ in 0..count {
            let (milliseconds, fields) = (self.pause(), self.short_quote());
            self.day.add_as_is(kind::QUOTE, milliseconds, &fields);
        }
    }

    /// The same, of more than so many bytes.
    pub fn run_of_bytes(&mut self, bytes: usize) {
        let end = self.day.bytes.len() + bytes;
        while self.day.bytes.len() <= end {
            self.run(1);
        }
    }

    /// Kind, milliseconds and fields of a record that may come next, each in one byte. `before` counts those of its kind
    /// since the day was prepared.
    pub fn usual(&mut self, kind: u32, before: u32) -> Vec<u32> {
        let (exchange, away, chance) = (self.exchange(), self.away, &mut self.day.chance);
        let [price, size] = [0; 2].map(|_| chance.between(1, ONE_BYTE));
        let [one_or_two, side] = [0; 2].map(|_| chance.between(1, 2));
        let (series, milliseconds) = (chance.between(0, 31), chance.pick(&[0, 0, 1, ONE_BYTE]));
        let fields = match kind {
            kind::QUOTE => self.quote_to_look_at().to_vec(),
            kind::STATUS => vec![exchange, chance.between(0, 2)],
            kind::HOME_TRADE => {
                let initiator = chance.pick(&[0, away]);
                vec![series, price, size, chance.between(0, 2), chance.between(0, 1), initiator, 0]
            }
            kind::SENT_ORDER | kind::RECEIVED_ORDER => vec![one_or_two, away, series, side, price, size],
            kind::RESPONSE => vec![before, size],
            kind::SATISFACTION_ORDER => vec![self.claims + before, away, price, size],
            kind::CANCELLATION => vec![before, away],
            kind::NO_BLOCK => vec![before],
            kind::BATCH => self.usual_batch(1),
            _ => vec![],
        };
        [kind, milliseconds].into_iter().chain(fields).collect()
    }

    /// The fields of a batch of so many quotes, each in a series of its own, each number in one byte.
    pub fn usual_batch(&mut self, count: usize) -> Vec<u32> {
        let exchange = self.exchange();
        let mut quotes = Vec::with_capacity(count);
        for at in 0..count as u32 {
            let [_, mut quote @ ..] = self.quote_to_look_at();
            quote[0] = 31 - at;
            quotes.push(quote);
        }
        Drawn::new(exchange, quotes).fields()
    }

    /// Takes a record as read that was put otherwise than by its numbers.
    pub fn note(&mut self, numbers: &[u32]) {
        self.day.time = self.day.time.saturating_add(numbers[1]);
        self.trades += (numbers[0] == kind::HOME_TRADE) as u32;
        self.claims += (numbers[0] == kind::SATISFACTION_ORDER) as u32;
    }

    /// Records whose verdicts depend on a side of a quote, or on either: home's at its price or, if it is home's, an order
    /// at it; a trade a cent through, and a claim for that. On the list all of them show it. Without one only whether the
    /// trade was a block does: a claim can't be for no block then.
    pub fn judge(&mut self, quote: &QuoteFields, side: Option<Side>, by_list: bool) {
        let [exchange, series, bid, _, _, offer, ..] = *quote;
        let either = self.day.chance.pick(&SIDES);
        let of_bid = bid > 0 && (offer == 0 || side.unwrap_or(either) == Side::Bid);
        let price = if of_bid { bid } else { offer };
        if price == 0 {
            return;
        }
        if by_list {
            self.meet(exchange, series, price, of_bid);
        }
        let through = if of_bid { price - 1 } else { price + 1 };
        let traded = if by_list { through } else { self.day.chance.pick(&[price, through]) };
        let traded = traded.clamp(1, 1_000_000);
        let form = if by_list { self.day.chance.between(0, 1) } else { 1 };
        let from = if exchange == self.day.home { self.away } else { exchange };
        let asked = if form == 1 { traded } else { price };
        self.day.add_as_is(kind::HOME_TRADE, 0, &[series, traded, 100_000, form, 0, 0, 0]);
        self.day.add_as_is(kind::SATISFACTION_ORDER, 0, &[self.trades, from, asked, 100_000]);
        if !by_list {
            self.day.add_as_is(kind::NO_BLOCK, 0, &[self.claims]);
        }
    }

    /// Home shows an away exchange's price on the other side; or an order meets home's own.
    fn meet(&mut self, exchange: u32, series: u32, price: u32, of_bid: bool) {
        let (home, away) = (self.day.home, self.away);
        if exchange == home {
            let side = if of_bid { 2 } else { 1 };
            self.day.add_as_is(kind::RECEIVED_ORDER, 0, &[2, away, series, side, price, 10]);
        } else if of_bid {
            self.day.add_as_is(kind::QUOTE, 0, &[home, series, 0, 0, 0, price, 1, 1]);
        } else {
            self.day.add_as_is(kind::QUOTE, 0, &[home, series, price, 1, 1, 0, 0, 0]);
        }
    }

    /// The time is so near the day's end that milliseconds of any length reach it.
    pub fn move_near_the_days_end(&mut self) {
        let (home, left) = (self.day.home, self.day.chance.pick(&[0, 3, 100, 5_000, 500_000, 3_000_000]));
        self.day.add_as_is(kind::STATUS, LAST_TIME - self.day.time - left, &[home, 0]);
    }

    /// A record in the day's last millisecond, or so many later: all that came before was read as so long.
    pub fn end_the_day(&mut self, past: u32) {
        let (home, left) = (self.day.home, LAST_TIME - self.day.time.min(LAST_TIME));
        self.day.add_as_is(kind::STATUS, left + past, &[home, 0]);
    }
}
