//! Orders received after an initial execution: at either side of each limit, in every series and on each side, from one
//! sender or several, with home and away quotes in between or none.

use super::activity::Activity;
use super::values;

/// After the initial execution, in milliseconds.
const LIMITS: [u32; 4] = [15_000, 15_001, 60_000, 60_001];

const PA: u32 = 1;
const PRINCIPAL: u32 = 2;

/// A side of a quote; the offer is 1.
const BID: usize = 0;

/// The side of an order that meets it: a sell, 2, the bid, a buy, 1, the offer.
fn order_side(met: usize) -> u32 {
    if met == BID { 2 } else { 1 }
}

/// So much better for whoever meets it, or worse where it is below 0.
fn better_by(side: usize, price: u32, cents: i32) -> u32 {
    price.saturating_add_signed(if side == BID { cents } else { -cents }).clamp(1, 1_000_000)
}

/// What follows one order that is an initial execution, mostly.
struct Run {
    sender: u32,
    /// The order's, and another.
    series: [u32; 2],
    side: usize,
    /// Home's there, then.
    price: u32,
    /// When this sender's orders came.
    received: Vec<u32>,
}

impl Activity<'_> {
    /// An initial execution or what is just none, and orders and quotes after it.
    pub fn second_orders(&mut self) {
        let mut run = self.open_run();
        self.initial_execution(&mut run);
        for _ in 0..2 + self.chance.below(11) {
            for _ in 0..self.chance.pick(&[0, 0, 1, 1, 2, 3]) {
                self.quote_between(&run);
            }
            self.further_order(&mut run);
        }
    }

    /// Home is firm, mostly, and alone in two series.
    fn open_run(&mut self) -> Run {
        self.mostly_all_firm();
        let first = self.a_series();
        let other = (first + self.chance.between(1, 31)) % 32;
        let middle = self.middle();
        for series in [first, other] {
            self.away_withdraws(series);
            if self.chance.one_in(4) {
                let before = self.chance.pick(&[[0, 0], [middle - 4, middle + 4], [middle - 2, middle + 2]]);
                self.quote_at_once(self.home, series, before);
            }
            self.quote_at_once(self.home, series, [middle - 3, middle + 3]);
        }
        let side = self.chance.below(2);
        let price = [middle - 3, middle + 3][side];
        Run { sender: self.away(), series: [first, other], side, price, received: Vec::new() }
    }

    /// Home's prices stay some cents below it and above it.
    fn middle(&self) -> u32 {
        self.level.clamp(8, 999_990)
    }

    fn initial_execution(&mut self, run: &mut Run) {
        let milliseconds = self.pause();
        let order_type = self.chance.weighted(&[(9, PRINCIPAL), (1, PA)]);
        let few = self.chance.between(1, self.principal);
        let size = self.chance.weighted(&[(3, few), (3, self.principal), (1, self.principal + 1)]);
        let price = better_by(run.side, run.price, self.chance.pick(&[0, 0, -1]));
        self.receive(milliseconds, order_type, run.sender, (run.series[0], run.side), price, size);
        run.received.push(self.time);
    }

    /// When the next order comes: at a limit after the first order or one of the last two, or soon.
    fn next_limit(&mut self, run: &Run) -> u32 {
        let last = run.received.len() - 1;
        let after = [0, last.saturating_sub(1), last].map(|order| run.received[order]);
        let mut times: Vec<u32> = after.iter().flat_map(|time| LIMITS.map(|limit| time + limit)).collect();
        times.retain(|&time| time >= self.time);
        times.sort_unstable();
        let soon = self.time + self.chance.pick(&[0, 0, 1, 500, 9_000]);
        let Some(&next) = times.first() else {
            return soon;
        };
        let any = self.chance.pick(&times);
        self.chance.weighted(&[(4, soon), (4, next), (3, any)])
    }

    /// An order of the sender or of another, often in the series and on the side of the first.
    fn further_order(&mut self, run: &mut Run) {
        let time = self.next_limit(run);
        let milliseconds = self.until(time);
        let other = self.away();
        let sender = self.chance.weighted(&[(4, run.sender), (1, other)]);
        let (same, elsewhere) = (run.series[0], self.chance.pick(&[(run.series[1], 0), (run.series[1], 1)]));
        let place = self.chance.weighted(&[(3, (same, run.side)), (2, (same, 1 - run.side)), (4, elsewhere)]);
        let shown = self.home_shows(place.0)[place.1];
        let cents = self.chance.weighted(&[(6, 0), (3, -1), (1, 1)]);
        let price = if shown == 0 { run.price } else { better_by(place.1, shown, cents) };
        let some = values::contracts(self.chance);
        let size = self.chance.pick(&[1, self.principal - 1, self.principal, self.principal, self.principal + 1, some]);
        let order_type = self.chance.weighted(&[(6, PRINCIPAL), (1, PA)]);
        self.receive(milliseconds, order_type, sender, place, price, size);
        if sender == run.sender {
            run.received.push(self.time);
        }
    }

    fn receive(&mut self, ms: u32, order_type: u32, sender: u32, place: (u32, usize), price: u32, size: u32) {
        let (series, met) = place;
        self.add(6, ms, &[order_type, sender, series, order_side(met), price, size]);
    }

    /// A quote, or what else may matter to the next order or should not.
    fn quote_between(&mut self, run: &Run) {
        let (series, side) = (run.series[0], run.side);
        match self.chance.below(20) {
            0 | 1 => self.home_price(series, side, self.home_shows(series)[side]),
            2..=8 => {
                self.another_price(run);
                if self.chance.one_in(2) {
                    self.home_price(series, side, run.price);
                }
                if self.chance.one_in(2) {
                    self.away_price(run);
                }
            }
            9 => self.another_place(series, 1 - side),
            10 => {
                let side = self.chance.below(2);
                self.another_place(run.series[1], side);
            }
            11..=14 => self.away_price(run),
            15..=17 => self.away_withdraws(series),
            18 => {
                let status = self.chance.pick(&[0, 0, 1, 2]);
                self.status(self.home, status);
            }
            _ => self.something_without_numbers(),
        }
    }

    /// Home shows another price than at the first order there, or none.
    fn another_price(&mut self, run: &Run) {
        let cents = self.chance.pick(&[-2, -1, 1, 2]);
        let another = better_by(run.side, run.price, cents);
        let price = self.chance.pick(&[another, another, 0]);
        self.home_price(run.series[0], run.side, price);
    }

    /// Home shows this price on this side, and on the other what it did, where the two go together.
    fn home_price(&mut self, series: u32, side: usize, price: u32) {
        let mut prices = self.home_shows(series);
        prices[side] = price;
        let [bid, offer] = prices;
        if offer != 0 && bid >= offer {
            prices[1 - side] = 0;
        }
        self.quote_at_once(self.home, series, prices);
    }

    /// Home shows another price or none, or what it showed, where there was no initial execution.
    fn another_place(&mut self, series: u32, side: usize) {
        let cents = self.chance.between(2, 4);
        let price = if side == BID { self.middle() - cents } else { self.middle() + cents };
        let price = self.chance.pick(&[price, price, price, 0]);
        self.home_price(series, side, price);
    }

    /// An away exchange shows a price around home's on the side of the first order, mostly a better one.
    fn away_price(&mut self, run: &Run) {
        let shown = self.home_shows(run.series[0])[run.side];
        let cents = self.chance.pick(&[-1, 0, 1, 1, 2]);
        let price = better_by(run.side, if shown == 0 { run.price } else { shown }, cents);
        let mut prices = [0, 0];
        prices[run.side] = price;
        let away = self.away();
        self.quote_at_once(away, run.series[0], prices);
    }

    fn away_withdraws(&mut self, series: u32) {
        for away in self.away_exchanges() {
            if self.shows(series, away) {
                self.quote_at_once(away, series, [0, 0]);
            }
        }
    }

    /// In the millisecond of the record before it.
    fn quote_at_once(&mut self, exchange: u32, series: u32, prices: [u32; 2]) {
        let size = values::contracts(self.chance);
        self.quote_after(0, exchange, series, prices, size, 0);
    }
}
