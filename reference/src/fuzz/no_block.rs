//! Home cancels Satisfaction Orders that were priced as a block's when the trade was none, and the exchanges send
//! again: at once, at either side of each limit, in time and late.

use super::activity::{Activity, Asked, Held, LAST_TIME};
use super::values;
use crate::record::kind;

/// From the Satisfaction Order to its cancellation as no block, and from that to the second one, at most.
const IN_TIME: u32 = 180_000;

impl Activity<'_> {
    /// The Satisfaction Orders that home may still cancel as no block.
    pub fn open_to_no_block(&self) -> Vec<usize> {
        let open = |&order: &usize| {
            let Asked { trade, from, received, cancelled, .. } = self.asked[order];
            let is_first = !self.had_no_block(trade, from);
            let in_time = self.time <= received.saturating_add(IN_TIME);
            !cancelled && is_first && in_time && self.is_priced_as_a_block_that_was_none(order)
        };
        (0..self.asked.len()).filter(open).collect()
    }

    /// When home cancels an order, not before now nor past the day.
    fn time_of_no_block(&mut self, order: usize) -> u32 {
        let some = self.chance.between(0, IN_TIME);
        let wait = self.chance.pick(&[0, 0, some, some, 60_000, 60_001, IN_TIME - 1, IN_TIME, IN_TIME]);
        self.asked[order].received.saturating_add(wait).max(self.time).min(LAST_TIME)
    }

    /// When the exchange sends again for a trade, the order having been cancelled then: by the limit on the second
    /// one, or by those that the second one is not held to.
    fn time_to_send_again(&mut self, order: usize, cancelled: u32) -> u32 {
        let report = self.report_of(self.asked[order].trade);
        let some = self.chance.between(0, IN_TIME);
        let wait = self.chance.pick(&[0, some, some, 60_001, IN_TIME, IN_TIME, IN_TIME, IN_TIME + 1, IN_TIME + 1]);
        let by_report = report.saturating_add(self.chance.pick(&[60_001, IN_TIME, IN_TIME + 1]));
        let by_cancellation = cancelled.saturating_add(wait);
        if self.chance.one_in(8) && by_report >= cancelled { by_report } else { by_cancellation }
    }

    pub fn no_block_at(&mut self, order: usize, time: u32) {
        let milliseconds = self.until(time);
        self.add(kind::NO_BLOCK, milliseconds, &[order as u32]);
        self.let_send_again(order);
    }

    /// One of the orders that home may still cancel.
    pub fn no_block(&mut self) {
        let open = self.open_to_no_block();
        if open.is_empty() {
            return self.satisfaction_for_some_trade();
        }
        let order = self.chance.pick(&open);
        let time = self.time_of_no_block(order);
        self.no_block_at(order, time);
    }

    /// One of the exchanges that may send again does.
    pub fn send_again(&mut self) {
        let again = |&order: &usize| self.may_send_again(self.asked[order].trade, self.asked[order].from);
        let again: Vec<usize> = (0..self.asked.len()).filter(again).collect();
        if again.is_empty() {
            return self.no_block();
        }
        let order = self.chance.pick(&again);
        let Asked { trade, from, no_block, .. } = self.asked[order];
        let time = self.time_to_send_again(order, no_block.unwrap_or(self.time));
        let (milliseconds, size) = (self.until(time), values::contracts(self.chance));
        self.satisfaction_again(milliseconds, size, trade, from);
    }

    /// Most of the orders from this one on that home may cancel are cancelled, and most of those are sent again, what
    /// comes first first and with other things in between.
    pub fn send_again_from(&mut self, first: usize) {
        let mut steps = Vec::new();
        for order in self.open_to_no_block().into_iter().filter(|&order| order >= first) {
            if self.chance.percent(80) {
                let cancelled = self.time_of_no_block(order);
                steps.push((cancelled, order, false));
                if self.chance.percent(85) {
                    steps.push((self.time_to_send_again(order, cancelled), order, true));
                }
            }
        }
        steps.sort_unstable_by_key(|&(time, _, again)| (time, again));
        for (time, order, again) in steps {
            if self.chance.one_in(12) {
                self.something_without_numbers();
            }
            let Asked { trade, from, .. } = self.asked[order];
            if again && self.may_send_again(trade, from) {
                let (milliseconds, size) = (self.until(time), self.chance.pick(&[5, 10, 30, 30, 60]));
                self.satisfaction_again(milliseconds, size, trade, from);
            } else if !again && self.open_to_no_block().contains(&order) {
                self.no_block_at(order, time.max(self.time));
            }
        }
    }

    /// A trade through several or all exchanges, all or most of whom ask as for a block, are cancelled and send again;
    /// at times some send too late, and some second orders are cancelled naming the initiator.
    pub fn all_send_again(&mut self) {
        self.all_firm();
        let (series, price) = (self.a_series(), self.level.clamp(8, 999_990));
        let senders = if self.chance.one_in(2) {
            let all = self.away_exchanges();
            self.quote_better_by(all, series, price, Held::Even(30))
        } else {
            self.quote_better(series, price, Held::AroundTen)
        };
        let size = self.chance.pick(&[8, 12, 25, 40, 120]);
        self.trade_at(0, series, price, size, 0);
        let trade = self.trades() - 1;
        let first = self.asked.len();
        let part = self.chance.pick(&[60, 100, 100]);
        for &sender in &senders {
            if self.chance.percent(part) {
                self.satisfaction_at(0, price, 30, trade, sender);
            } else {
                self.satisfaction_after(0, 30, trade, sender);
            }
        }
        for order in self.open_to_no_block().into_iter().filter(|&order| order >= first) {
            let wait = self.chance.pick(&[0, 0, 1, 9_000]);
            self.no_block_at(order, self.time.saturating_add(wait));
        }
        let second = self.asked.len();
        let late_from = senders.len() - self.chance.below(3).min(senders.len());
        for (at, sender) in senders.into_iter().enumerate() {
            if !self.may_send_again(trade, sender) {
                continue;
            }
            let soon = self.chance.pick(&[0, 0, 5, 10_000]);
            let wait = if at == late_from { IN_TIME + 1 } else { soon };
            let size = self.chance.pick(&[5, 30, 30, 30, 60]);
            let milliseconds = self.until(self.time.saturating_add(wait));
            self.satisfaction_again(milliseconds, size, trade, sender);
        }
        if self.chance.one_in(2) {
            self.cancel_some_from(second);
        }
    }

    /// A trade reported around close less 300,000: orders as for a block, their cancellation and the second ones more
    /// than a minute and up to three minutes apart.
    pub fn send_again_near_close(&mut self) {
        let as_block = std::mem::replace(&mut self.as_block, 80);
        self.trade_near_close();
        self.as_block = as_block;
    }

    /// A trade that is a block or just none by the only price shown, of an away exchange or of home, and a Satisfaction
    /// Order priced as a block's for it. Then that price may change, which does not count. Answers the order's number.
    pub fn one_around_a_block(&mut self) -> usize {
        let (series, from) = (self.a_series(), self.away());
        let shower = self.chance.pick(&[from, self.home]);
        for exchange in 1..=self.exchanges {
            if self.shows(series, exchange) {
                self.quote(exchange, series, [0, 0]);
            }
        }
        let bid_side = self.chance.one_in(2);
        let outside = if bid_side { [0, 299, 300, 301, 301, 302] } else { [0, 301, 300, 299, 299, 298] };
        let [at_trade, later] =
            [0, 1].map(|_| self.chance.pick(&outside)).map(|price| if bid_side { [price, 0] } else { [0, price] });
        self.quote(shower, series, at_trade);
        let form = self.chance.between(1, 2);
        self.trade_of(form, 0, series, 300, 500, 0);
        self.satisfaction_at(0, 300, 500, self.trades() - 1, from);
        self.quote(shower, series, later);
        self.asked.len() - 1
    }

    /// The same, cancelled and sent again if it may.
    pub fn block_or_none(&mut self) {
        let order = self.one_around_a_block();
        self.send_again_from(order);
    }

    /// A Satisfaction Order priced as a block's for a small trade of now, the only one of its exchange.
    pub fn one_as_block(&mut self) -> usize {
        let (series, price, from) = (self.a_series(), self.level.clamp(8, 999_990), self.away());
        self.quote(from, series, [price + 1, 0]);
        let size = self.chance.between(1, 60);
        self.trade_at(0, series, price, size, 0);
        self.satisfaction_at(0, price, 30, self.trades() - 1, from);
        self.asked.len() - 1
    }
}
