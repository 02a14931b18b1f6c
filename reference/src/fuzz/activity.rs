//! Journals grown record by record from what a market does, so that every verdict, reason and share comes up.

use super::batching::Last;
use super::chance::Chance;
use super::values;
use crate::header::Header;
use crate::number::{Number, put};
use crate::record::kind;

pub(super) const LAST_TIME: u32 = 86_399_999;

/// A trade as its Satisfaction Orders need it.
#[derive(Clone, Copy)]
struct Made {
    price: u32,
    /// 0 where there is none.
    initiator: u32,
    report: u32,
    /// Bid and offer of each exchange at the trade.
    shown: [[u32; 2]; 9],
    block: bool,
    /// One bit for each exchange with a Satisfaction Order that was not cancelled as no block.
    asked: u32,
    /// One bit for each exchange with one that was.
    no_block: u32,
}

impl Made {
    /// The bid or offer traded through, where there is one.
    fn through(&self, exchange: u32) -> u32 {
        let [bid, offer] = self.shown[exchange as usize];
        if bid > self.price || offer == 0 { bid } else { offer }
    }
}

/// A Satisfaction Order as its cancellation needs it.
#[derive(Clone, Copy)]
pub(super) struct Asked {
    pub trade: usize,
    pub from: u32,
    pub price: u32,
    pub received: u32,
    /// Of its trade; 0 where there is none.
    pub initiator: u32,
    pub cancelled: bool,
    /// When it was cancelled as no block.
    pub no_block: Option<u32>,
}

struct Sent {
    size: u32,
    answered: bool,
}

/// What away exchanges hold for customers and ask for.
#[derive(Clone, Copy)]
pub(super) enum Held {
    Anything,
    /// The same or a multiple of the same, so that shares come out level.
    Even(u32),
    /// Contracts on both sides of the limit at the close, and many more.
    AroundTen,
}

#[derive(Clone, Copy)]
enum ClosingWindow {
    NotToday,
    /// So many records come before the one that says so.
    After(usize),
    Begun,
}

pub struct Activity<'c> {
    pub chance: &'c mut Chance,
    pub bytes: Vec<u8>,
    /// How many records go well before one with a fault.
    pub until_fault: Option<usize>,
    closing_window: ClosingWindow,
    pub home: u32,
    pub exchanges: u32,
    pub(super) close: u32,
    pub time: u32,
    /// The series that are traded.
    pub series: Vec<u32>,
    pub level: u32,
    /// The largest pause, and the largest size that `quote` draws.
    pub largest: u32,
    /// The away exchange with the least automatic size.
    pub(super) least: u32,
    /// Home's principal size.
    pub(super) principal: u32,
    /// How many of a hundred trades come from another exchange's linkage order.
    pub initiated: usize,
    /// How many of a hundred Satisfaction Orders are priced as a block's, beside those that are by chance.
    pub(super) as_block: usize,
    /// How many of a hundred quotes come in a batch, and how many others at most come with one.
    pub(super) batched: usize,
    pub(super) others: usize,
    pub(super) last_quotes: Option<Last>,
    /// Bid and offer by series and exchange.
    shown: [[[u32; 2]; 9]; 32],
    statuses: [u32; 9],
    trades: Vec<Made>,
    sent: Vec<Sent>,
    pub(super) asked: Vec<Asked>,
}

/// The number as stored, of any size.
pub fn put_number(bytes: &mut Vec<u8>, number: u32) {
    let mut stored = [0; 5];
    let end = put(&mut stored, 0, number);
    bytes.extend_from_slice(&stored[..end]);
}

fn away_with_least_size(header: &[u32; Header::NUMBERS]) -> u32 {
    let away = (1..=header[1]).filter(|&exchange| exchange != header[0]);
    away.min_by_key(|&exchange| header[1 + 2 * exchange as usize]).expect("there are two exchanges or more")
}

impl<'c> Activity<'c> {
    pub fn open(chance: &'c mut Chance, header: &[u32; Header::NUMBERS]) -> Activity<'c> {
        let mut bytes = Vec::new();
        for &number in &header[..3 + 2 * header[1] as usize] {
            put_number(&mut bytes, number);
        }
        let series = (0..chance.between(1, 2)).map(|_| values::series(chance)).collect();
        let level = values::level(chance);
        Activity {
            chance,
            bytes,
            until_fault: None,
            closing_window: ClosingWindow::NotToday,
            home: header[0],
            exchanges: header[1],
            close: header[2],
            time: 0,
            series,
            level,
            largest: Number::LARGEST,
            least: away_with_least_size(header),
            principal: header[2 + 2 * header[0] as usize],
            initiated: 25,
            as_block: 0,
            batched: 0,
            others: 31,
            last_quotes: None,
            shown: [[[0; 2]; 9]; 32],
            statuses: [0; 9],
            trades: Vec::new(),
            sent: Vec::new(),
            asked: Vec::new(),
        }
    }

    pub fn trades(&self) -> usize {
        self.trades.len()
    }

    pub fn sent(&self) -> usize {
        self.sent.len()
    }

    pub fn satisfactions(&self) -> usize {
        self.asked.len()
    }

    /// Adds a record, or one with a fault where one is wanted; before it the closing record where its turn has come.
    pub(super) fn add(&mut self, kind: u32, milliseconds: u32, fields: &[u32]) {
        let milliseconds = self.close_in_turn(milliseconds);
        if self.until_fault == Some(0) {
            super::faults::add_faulty(self, kind, milliseconds, fields);
        } else if kind == kind::QUOTE {
            self.add_quote(milliseconds, fields);
        } else {
            self.add_as_is(kind, milliseconds, fields);
        }
        self.until_fault = self.until_fault.map(|left| left.wrapping_sub(1));
    }

    /// The closing record comes after so many more, unless it has come.
    pub fn close_after(&mut self, records: usize) {
        if !matches!(self.closing_window, ClosingWindow::Begun) {
            self.closing_window = ClosingWindow::After(records);
        }
    }

    /// In its turn the closing record stands in the millisecond of the record before it or of the one after it. Answers
    /// the milliseconds left for the latter.
    fn close_in_turn(&mut self, milliseconds: u32) -> u32 {
        match self.closing_window {
            ClosingWindow::After(0) => {
                let waited = self.chance.pick(&[0, milliseconds]);
                self.add_as_is(kind::CLOSING_WINDOW, waited, &[]);
                self.closing_window = ClosingWindow::Begun;
                milliseconds - waited
            }
            ClosingWindow::After(records) => {
                self.closing_window = ClosingWindow::After(records - 1);
                milliseconds
            }
            _ => milliseconds,
        }
    }

    pub fn add_as_is(&mut self, kind: u32, milliseconds: u32, fields: &[u32]) {
        for &number in [kind, milliseconds].iter().chain(fields) {
            put_number(&mut self.bytes, number);
        }
        self.time = self.time.saturating_add(milliseconds);
    }

    /// Milliseconds until the next record; never past the day.
    pub(super) fn pause(&mut self) -> u32 {
        let milliseconds = match self.chance.below(24) {
            0..=12 => 0,
            13..=17 => self.chance.between(1, 1_000),
            18..=20 => self.chance.between(1_000, 30_000),
            21 => self.chance.pick(&[19_999, 20_000, 20_001]),
            22 => self.chance.pick(&[59_999, 60_000, 60_001, 127, 128]),
            _ => self.chance.pick(&[179_999, 180_000, 180_001]),
        };
        let milliseconds = milliseconds.min(self.largest);
        if milliseconds > LAST_TIME - self.time.min(LAST_TIME) { 0 } else { milliseconds }
    }

    /// Milliseconds until a time, or a pause where it has passed or lies beyond the day.
    pub(super) fn until(&mut self, time: u32) -> u32 {
        if (self.time..=LAST_TIME).contains(&time) { time - self.time } else { self.pause() }
    }

    pub fn away(&mut self) -> u32 {
        1 + (self.home + self.chance.below(self.exchanges as usize - 1) as u32) % self.exchanges
    }

    pub(super) fn away_exchanges(&self) -> Vec<u32> {
        (1..=self.exchanges).filter(|&exchange| exchange != self.home).collect()
    }

    pub(super) fn a_series(&mut self) -> u32 {
        let at = self.chance.below(self.series.len());
        self.series[at]
    }

    /// A price some cents around the level.
    fn price_around(&mut self, cents: u32) -> u32 {
        let shift = self.chance.between(0, 2 * cents);
        (self.level + shift).saturating_sub(cents).clamp(1, 1_000_000)
    }

    /// Some time of the day, often near the close or the end.
    pub fn move_on(&mut self) {
        let near_close = self.close.saturating_sub(self.chance.between(250_000, 1_000_000));
        let late = LAST_TIME - self.chance.between(0, 300_000);
        let some = self.chance.between(0, LAST_TIME);
        let time = self.chance.weighted(&[(4, 34_200_000), (4, near_close), (1, late), (1, some)]);
        if time > self.time {
            let exchange = self.away();
            self.add(2, time - self.time, &[exchange, self.statuses[exchange as usize]]);
        }
    }

    /// The time is close less 300,000 or a little later, where it has not passed.
    pub fn move_near_close(&mut self) {
        let later = self.chance.between(0, 2);
        let milliseconds = self.until(self.close - 300_000 + later);
        let exchange = self.away();
        self.add(2, milliseconds, &[exchange, self.statuses[exchange as usize]]);
    }

    pub fn quote(&mut self, exchange: u32, series: u32, prices: [u32; 2]) {
        let size = values::contracts(self.chance).min(self.largest);
        let held = values::customers(self.chance, size);
        self.quote_held(exchange, series, prices, size, held);
    }

    /// A quote with this size and these customer contracts on each side that is shown.
    fn quote_held(&mut self, exchange: u32, series: u32, prices: [u32; 2], size: u32, held: u32) {
        let milliseconds = self.pause();
        self.quote_after(milliseconds, exchange, series, prices, size, held);
    }

    /// The same after so long.
    pub(super) fn quote_after(&mut self, ms: u32, exchange: u32, series: u32, prices: [u32; 2], size: u32, held: u32) {
        let mut fields = vec![exchange, series];
        for price in prices {
            fields.extend(if price == 0 { [0, 0, 0] } else { [price, size, held] });
        }
        self.add(1, ms, &fields);
        self.note_shown(exchange, series, prices);
    }

    pub fn quote_around(&mut self, exchange: u32) {
        let series = self.a_series();
        let prices = self.prices_around();
        self.quote(exchange, series, prices);
    }

    /// A bid and an offer some cents around the level; at times one of them is absent, or both.
    pub(super) fn prices_around(&mut self) -> [u32; 2] {
        let mut bid = self.price_around(3);
        let mut offer = bid + self.chance.between(1, 4);
        if offer > 1_000_000 || self.chance.one_in(10) {
            offer = 0;
        }
        if self.chance.one_in(10) {
            bid = 0;
        }
        [bid, offer]
    }

    pub(super) fn note_shown(&mut self, exchange: u32, series: u32, prices: [u32; 2]) {
        self.shown[series as usize][exchange as usize] = prices;
    }

    /// A home quote one cent below, at or above what an away exchange shows on the other side.
    pub fn home_quote_at_an_away_price(&mut self) {
        let (series, away) = (self.a_series(), self.away());
        let [bid, offer] = self.shown[series as usize][away as usize];
        let shift = self.chance.between(0, 2);
        let wide = self.chance.between(1, 5);
        if offer > 1 && self.chance.one_in(2) {
            let own = (offer + shift - 1).min(1_000_000);
            let other = if own + wide > 1_000_000 || self.chance.one_in(4) { 0 } else { own + wide };
            self.quote(self.home, series, [own, other]);
        } else if bid > 1 {
            let own = (bid + shift - 1).min(1_000_000);
            let other = if self.chance.one_in(4) { 0 } else { own.saturating_sub(wide) };
            self.quote(self.home, series, [other, own]);
        } else {
            self.quote_around(self.home);
        }
    }

    pub fn status(&mut self, exchange: u32, status: u32) {
        let milliseconds = self.pause();
        self.add(2, milliseconds, &[exchange, status]);
        self.statuses[exchange as usize] = status;
    }

    /// Statuses, four bytes each, as many as fit into so many bytes.
    pub fn statuses_up_to(&mut self, length: usize) {
        while self.bytes.len() + 4 <= length {
            let exchange = self.chance.between(1, self.exchanges);
            let status = self.chance.between(0, 2);
            self.add(2, 0, &[exchange, status]);
            self.statuses[exchange as usize] = status;
        }
    }

    pub fn some_status(&mut self) {
        let exchange = if self.chance.one_in(3) { self.home } else { self.away() };
        let status = self.chance.weighted(&[(5, 0), (2, 1), (2, 2)]);
        self.status(exchange, status);
    }

    pub fn all_firm(&mut self) {
        for exchange in 1..=self.exchanges {
            if self.statuses[exchange as usize] != 0 {
                self.status(exchange, 0);
            }
        }
    }

    /// A trade reported after a delay, made at a time or after a pause.
    pub(super) fn trade_at(&mut self, milliseconds: u32, series: u32, price: u32, size: u32, delay: u32) {
        let form = self.chance.weighted(&[(5, 0), (2, 1), (2, 2)]);
        self.trade_of(form, milliseconds, series, price, size, delay);
    }

    /// The same of this block form.
    pub(super) fn trade_of(&mut self, form: u32, milliseconds: u32, series: u32, price: u32, size: u32, delay: u32) {
        let complex = self.chance.one_in(12) as u32;
        let initiator = if self.chance.percent(self.initiated) { self.away() } else { 0 };
        let report = self.time.saturating_add(milliseconds + delay);
        let shown = self.shown[series as usize];
        let outside = shown.iter().any(|&[bid, offer]| bid > price || (1..price).contains(&offer));
        let block = form != 0 && size >= 500 && price as u64 * size as u64 >= 150_000 && outside;
        self.add(3, milliseconds, &[series, price, size, form, complex, initiator, delay]);
        self.trades.push(Made { price, initiator, report, shown, block, asked: 0, no_block: 0 });
    }

    /// Whether home may say of a Satisfaction Order that the trade was no block, were it the first to be cancelled.
    pub(super) fn is_priced_as_a_block_that_was_none(&self, order: usize) -> bool {
        let Asked { trade, price, .. } = self.asked[order];
        price == self.trades[trade].price && !self.trades[trade].block
    }

    /// Whether an exchange shows a price.
    pub(super) fn shows(&self, series: u32, exchange: u32) -> bool {
        self.shown[series as usize][exchange as usize] != [0, 0]
    }

    /// Home's bid and offer.
    pub(super) fn home_shows(&self, series: u32) -> [u32; 2] {
        self.shown[series as usize][self.home as usize]
    }

    /// Whether an order of this exchange for this trade was cancelled as no block.
    pub(super) fn had_no_block(&self, trade: usize, from: u32) -> bool {
        self.trades[trade].no_block >> from & 1 == 1
    }

    /// Whether one was and no other has come since.
    pub(super) fn may_send_again(&self, trade: usize, from: u32) -> bool {
        self.had_no_block(trade, from) && self.trades[trade].asked >> from & 1 == 0
    }

    /// Takes the order as cancelled as no block.
    pub(super) fn let_send_again(&mut self, order: usize) {
        let Asked { trade, from, .. } = self.asked[order];
        self.asked[order].cancelled = true;
        self.asked[order].no_block = Some(self.time);
        self.trades[trade].asked &= !(1 << from);
        self.trades[trade].no_block |= 1 << from;
    }

    pub(super) fn trade_price(&self, trade: usize) -> u32 {
        self.trades[trade].price
    }

    pub(super) fn delay(&mut self) -> u32 {
        self.chance.weighted(&[(4, 0), (2, 1_000), (1, 90_000), (1, 599_999), (1, 600_000)])
    }

    pub fn trade(&mut self) {
        let (series, price) = (self.a_series(), self.price_around(6));
        let size = values::contracts(self.chance);
        let (milliseconds, delay) = (self.pause(), self.delay());
        self.trade_at(milliseconds, series, price, size, delay);
    }

    /// A trade around the least that makes a block, outside the best prices or not.
    pub fn block_trade(&mut self) {
        let series = self.a_series();
        let price = self.chance.pick(&[1, 299, 300, 301, 400, 1_000_000]);
        let size = self.chance.pick(&[499, 500, 501, 100_000]);
        let exchange = self.chance.between(1, self.exchanges);
        let shift = self.chance.between(0, 2);
        let outside = (price + shift).saturating_sub(1).min(1_000_000);
        let bid_side = self.chance.one_in(2);
        self.quote(exchange, series, if bid_side { [outside, 0] } else { [0, outside] });
        let (milliseconds, delay) = (self.pause(), self.delay());
        self.trade_at(milliseconds, series, price, size, delay);
        if exchange != self.home {
            self.satisfaction(self.trades.len() - 1, exchange);
        }
    }

    /// Several exchanges show better prices than a trade, and most of them ask for satisfaction.
    pub fn shared_trade(&mut self) {
        self.mostly_all_firm();
        let series = self.a_series();
        let even = self.chance.one_in(2);
        let held = if even { Held::Even(self.chance.pick(&[10, 30, 30, 12, 500])) } else { Held::Anything };
        self.trade_through(series, held);
    }

    /// The same around the limit at the close; often the closing record comes right before the trade, right after it or
    /// among the Satisfaction Orders.
    pub fn trade_around_ten(&mut self) {
        self.mostly_all_firm();
        let series = self.a_series();
        self.trade_through(series, Held::AroundTen);
    }

    pub(super) fn mostly_all_firm(&mut self) {
        if self.chance.percent(75) {
            self.all_firm();
        } else {
            let (home, away) = (self.home, self.away());
            for exchange in [home, away] {
                let status = self.chance.between(0, 2);
                self.status(exchange, status);
            }
        }
    }

    fn trade_through(&mut self, series: u32, held: Held) {
        let price = self.level.clamp(8, 999_990);
        let senders = self.quote_better(series, price, held);
        let size = match held {
            Held::Anything => values::contracts(self.chance),
            Held::Even(held) => self.chance.between(10, 2 * held),
            Held::AroundTen => values::trade_size_around_ten(self.chance),
        };
        let (milliseconds, delay) = (self.pause(), self.delay());
        if matches!(held, Held::AroundTen) && self.chance.one_in(2) {
            let records = self.chance.below(4);
            self.close_after(records);
        }
        self.trade_at(milliseconds, series, price, size, delay);
        let first = self.asked.len();
        for sender in senders {
            let size = match held {
                Held::Anything => values::contracts(self.chance),
                Held::Even(held) => held,
                Held::AroundTen => values::claimed_around_ten(self.chance),
            };
            if self.chance.percent(90) {
                self.satisfaction_of(size, self.trades.len() - 1, sender);
            }
        }
        if self.chance.one_in(2) {
            self.send_again_from(first);
        }
        if self.chance.one_in(2) {
            self.cancel_some_from(first);
        }
    }

    /// Some away exchanges show bids above a price or offers below it; answers which.
    pub(super) fn quote_better(&mut self, series: u32, price: u32, held: Held) -> Vec<u32> {
        let mut senders = self.away_exchanges();
        self.chance.shuffle(&mut senders);
        senders.truncate(1 + self.chance.below(senders.len()));
        self.quote_better_by(senders, series, price, held)
    }

    /// These do; answers them in another order.
    pub(super) fn quote_better_by(&mut self, mut senders: Vec<u32>, series: u32, price: u32, held: Held) -> Vec<u32> {
        let bids = self.chance.one_in(2);
        for &sender in &senders {
            let cents = self.chance.between(1, 4);
            let prices = if bids { [price + cents, 0] } else { [0, price - cents] };
            let held = match held {
                Held::Anything => {
                    self.quote(sender, series, prices);
                    continue;
                }
                Held::Even(held) => held * self.chance.pick(&[1, 1, 1, 2, 3]),
                Held::AroundTen => values::claimed_around_ten(self.chance),
            };
            self.quote_held(sender, series, prices, held, held);
        }
        self.chance.shuffle(&mut senders);
        senders
    }

    /// A trade whose report lies around close less 300,000, and Satisfaction Orders around the last timely moment.
    pub fn trade_near_close(&mut self) {
        let (series, delay) = (self.a_series(), self.delay());
        let price = self.level.clamp(8, 999_990);
        for exchange in self.away_exchanges() {
            self.quote(exchange, series, [price + 1, 0]);
        }
        let shift = self.chance.between(0, 2);
        let report = (self.close - 300_000 + shift).saturating_sub(1);
        let milliseconds = self.until(report.saturating_sub(delay));
        let size = values::contracts(self.chance);
        self.trade_at(milliseconds, series, price, size, delay);
        let first = self.asked.len();
        for exchange in self.away_exchanges() {
            self.satisfaction(self.trades.len() - 1, exchange);
        }
        self.send_again_from(first);
        self.cancel_some_from(first);
    }

    /// A trade whose Satisfaction Order any exchange may still send, if there is one.
    pub fn satisfaction_for_some_trade(&mut self) {
        if self.trades.is_empty() {
            return self.trade();
        }
        let recent = self.trades.len().min(3);
        let trade = self.trades.len() - 1 - self.chance.below(recent);
        let exchange = self.away();
        self.satisfaction(trade, exchange);
    }

    pub fn satisfaction(&mut self, trade: usize, from: u32) {
        let size = values::contracts(self.chance);
        self.satisfaction_of(size, trade, from);
    }

    /// A Satisfaction Order of this size, at times around the last timely moment.
    fn satisfaction_of(&mut self, size: u32, trade: usize, from: u32) {
        let milliseconds = if self.chance.percent(15) {
            let allowed = self.chance.pick(&[60_000, 60_001, 180_000, 180_001]);
            self.until(self.trades[trade].report.saturating_add(allowed))
        } else {
            self.pause()
        };
        self.satisfaction_after(milliseconds, size, trade, from);
    }

    /// A Satisfaction Order after so long, unless the exchange has sent one for the trade.
    pub(super) fn satisfaction_after(&mut self, milliseconds: u32, size: u32, trade: usize, from: u32) {
        let made = self.trades[trade];
        let through = made.through(from);
        let shift = self.chance.between(0, 2);
        let by_chance = self.chance.weighted(&[(14, through), (3, made.price), (2, through + shift)]);
        let price = if self.chance.percent(self.as_block) { made.price } else { by_chance };
        self.satisfaction_at(milliseconds, price, size, trade, from);
    }

    /// The same with this price.
    pub(super) fn satisfaction_at(&mut self, milliseconds: u32, price: u32, size: u32, trade: usize, from: u32) {
        let Made { asked, initiator, .. } = self.trades[trade];
        if asked >> from & 1 == 1 {
            return;
        }
        let price = price.clamp(1, 1_000_000);
        self.add(7, milliseconds, &[trade as u32, from, price, size]);
        self.trades[trade].asked |= 1 << from;
        let asked = Asked { trade, from, price, received: self.time, initiator, cancelled: false, no_block: None };
        self.asked.push(asked);
    }

    /// A second Satisfaction Order, mostly at the price required, after so long.
    pub(super) fn satisfaction_again(&mut self, milliseconds: u32, size: u32, trade: usize, from: u32) {
        let made = self.trades[trade];
        let through = made.through(from);
        let price = self.chance.weighted(&[(9, through), (2, made.price), (1, through + 1)]);
        self.satisfaction_at(milliseconds, price, size, trade, from);
    }

    /// When a trade was reported.
    pub(super) fn report_of(&self, trade: usize) -> u32 {
        self.trades[trade].report
    }

    /// An order with the price that the receiver shows, or one near it.
    fn order(&mut self, kind: u32, away: u32, receiver: u32, milliseconds: u32) {
        let (series, side) = (self.a_series(), self.chance.between(1, 2));
        let shown = self.shown[series as usize][receiver as usize][if side == 1 { 1 } else { 0 }];
        let shift = self.chance.between(0, 2);
        let around = self.price_around(3);
        let price = self.chance.weighted(&[(6, shown), (2, (shown + shift).saturating_sub(1)), (1, around)]);
        let size = values::contracts(self.chance);
        let order_type = self.chance.between(1, 2);
        self.add(kind, milliseconds, &[order_type, away, series, side, price.clamp(1, 1_000_000), size]);
        if kind == 4 {
            self.sent.push(Sent { size, answered: false });
        }
    }

    pub fn sent_order(&mut self) {
        let (away, milliseconds) = (self.away(), self.pause());
        self.order(4, away, away, milliseconds);
    }

    pub fn received_order(&mut self) {
        let (away, milliseconds) = (self.away(), self.pause());
        self.order(6, away, self.home, milliseconds);
    }

    pub fn response(&mut self) {
        let waiting: Vec<usize> = (0..self.sent.len()).filter(|&order| !self.sent[order].answered).collect();
        if waiting.is_empty() {
            return self.sent_order();
        }
        let order = self.chance.pick(&waiting);
        self.response_to(order);
    }

    fn response_to(&mut self, order: usize) {
        let size = self.sent[order].size;
        let part = self.chance.between(0, size);
        let filled = self.chance.weighted(&[(3, size), (1, 0), (2, part)]);
        let milliseconds = self.pause();
        self.add(5, milliseconds, &[order as u32, filled]);
        self.sent[order].answered = true;
    }

    /// An order to an exchange that meets a side of its quote.
    fn send(&mut self, milliseconds: u32, away: u32, series: u32, side: u32, price: u32) {
        let size = values::contracts(self.chance);
        let order_type = self.chance.between(1, 2);
        self.add(4, milliseconds, &[order_type, away, series, side, price, size]);
        self.sent.push(Sent { size, answered: false });
    }

    /// One or two orders sent some 20 seconds before a trade through their receiver: answered or not, quoted away or
    /// not.
    pub fn trade_after_an_order(&mut self) {
        let (series, away) = (self.a_series(), self.away());
        let price = self.level.clamp(8, 999_990);
        let bid_side = self.chance.one_in(2);
        let show = |shown: u32| if bid_side { [shown, 0] } else { [0, shown] };
        let (better, side) = if bid_side { (price + 2, 2) } else { (price - 2, 1) };
        self.quote(away, series, show(better));
        let order_price = better + self.chance.between(0, 2) - 1;
        self.send(0, away, series, side, order_price);
        let sent_at = self.time;
        if self.chance.one_in(3) {
            let order_price = better + self.chance.between(0, 2) - 1;
            let later = self.until(sent_at.saturating_add(10_000));
            self.send(later, away, series, side, order_price);
        }
        for _ in 0..self.chance.below(4) {
            match self.chance.below(4) {
                0 if !self.sent[self.sent.len() - 1].answered => self.response_to(self.sent.len() - 1),
                1 => self.quote(away, series, [0, 0]),
                2 => self.quote_around(away),
                _ => self.quote(away, series, show(better)),
            }
        }
        let shown_last = better + self.chance.between(0, 2) - 1;
        if self.chance.one_in(2) {
            self.quote(away, series, show(shown_last));
        }
        let wait = self.chance.pick(&[19_999, 20_000, 20_001, 20_001, 29_999, 30_001, 40_000]);
        let milliseconds = self.until(sent_at.saturating_add(wait));
        let size = values::contracts(self.chance);
        self.trade_at(milliseconds, series, price, size, 0);
        let first = self.asked.len();
        self.satisfaction(self.trades.len() - 1, away);
        self.send_again_from(first);
    }

    /// One thing that happens on the market.
    pub fn something(&mut self) {
        let happens: fn(&mut Activity<'c>) = self.chance.weighted(&[
            (26, |day| {
                let away = day.away();
                day.quote_around(away);
            }),
            (6, |day| day.quote_around(day.home)),
            (6, |day| day.home_quote_at_an_away_price()),
            (5, |day| day.some_status()),
            (9, |day| day.received_order()),
            (7, |day| day.sent_order()),
            (6, |day| day.response()),
            (5, |day| day.trade()),
            (12, |day| day.satisfaction_for_some_trade()),
            (2, |day| day.block_trade()),
            (5, |day| day.shared_trade()),
            (1, |day| day.trade_near_close()),
            (3, |day| day.trade_after_an_order()),
            (5, |day| day.cancellation()),
            (1, |day| day.cancellations_near_close()),
            (4, |day| day.no_block()),
            (4, |day| day.send_again()),
            (1, |day| day.all_send_again()),
            (1, |day| day.block_or_none()),
            (3, |day| day.some_requote()),
        ]);
        happens(self);
    }

    /// One thing that is not numbered, of which there may be any number.
    pub fn something_without_numbers(&mut self) {
        match self.chance.below(8) {
            0 => self.some_status(),
            1 | 2 => self.received_order(),
            3 => self.home_quote_at_an_away_price(),
            _ => {
                let exchange = self.chance.between(1, self.exchanges);
                self.quote_around(exchange);
            }
        }
    }

    /// Quotes, then what it takes until the journal has exactly this many bytes: records of four, ten and eleven.
    pub fn fill_up(&mut self, length: usize) {
        self.others = 0;
        while self.bytes.len() + 48 <= length {
            let exchange = self.chance.between(1, self.exchanges);
            self.quote_around(exchange);
        }
        self.batched = 0;
        while self.bytes.len() < length {
            let away = self.away();
            match (length - self.bytes.len()) % 4 {
                0 => self.add(2, 0, &[away, 0]),
                2 => self.add(1, 0, &[away, 0, 1, 1, 0, 0, 0, 0]),
                _ => self.add(1, 0, &[away, 0, 128, 1, 0, 0, 0, 0]),
            }
        }
    }
}
