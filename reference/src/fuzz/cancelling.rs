//! Home cancels Satisfaction Orders and names the initiator: at once, at either side of each limit, in time and late.

use super::activity::{Activity, Held};
use crate::record::kind;

impl Activity<'_> {
    /// The Satisfaction Orders that home may still cancel.
    pub fn open_to_cancellation(&self) -> Vec<usize> {
        let open = |&order: &usize| self.asked[order].initiator != 0 && !self.asked[order].cancelled;
        (0..self.asked.len()).filter(open).collect()
    }

    /// When home cancels an order, if the time has not passed by then.
    fn time_to_cancel(&mut self, order: usize) -> u32 {
        let some = self.chance.between(0, 200_000);
        let wait = self.chance.pick(&[0, some, 59_999, 60_000, 60_001, 60_001, 179_999, 180_000, 180_000, 180_001]);
        self.asked[order].received.saturating_add(wait)
    }

    pub fn cancel_at(&mut self, order: usize, time: u32) {
        let milliseconds = self.until(time);
        self.add(kind::CANCELLATION, milliseconds, &[order as u32, self.asked[order].initiator]);
        self.asked[order].cancelled = true;
    }

    /// One of the last orders or any that was not cancelled yet.
    pub fn cancellation(&mut self) {
        let open = self.open_to_cancellation();
        let recent = self.chance.pick(&[1, 3, open.len()]).min(open.len());
        if recent == 0 {
            return self.satisfaction_for_some_trade();
        }
        let order = open[open.len() - 1 - self.chance.below(recent)];
        let time = self.time_to_cancel(order);
        self.cancel_at(order, time);
    }

    /// Few or most of the orders from this one on, those first whose time comes first, with other things in between.
    pub fn cancel_some_from(&mut self, first: usize) {
        let part = self.chance.pick(&[25, 70]);
        let mut cancellations = Vec::new();
        for order in self.open_to_cancellation().into_iter().filter(|&order| order >= first) {
            if self.chance.percent(part) {
                cancellations.push((self.time_to_cancel(order), order));
            }
        }
        cancellations.sort_unstable();
        for (time, order) in cancellations {
            if self.chance.one_in(6) {
                self.something_without_numbers();
            }
            self.cancel_at(order, time);
        }
    }

    /// A trade on another exchange's order that several ask to share, one of whom is cancelled in time: often the one whose
    /// firm size is the least.
    pub fn shared_but_for_one(&mut self) {
        self.all_firm();
        let (series, price) = (self.a_series(), self.level.clamp(8, 999_990));
        let senders = self.quote_better(series, price, Held::Even(30));
        let initiated = std::mem::replace(&mut self.initiated, 100);
        let size = self.chance.between(11, 60);
        self.trade_at(0, series, price, size, 0);
        self.initiated = initiated;
        let first = self.asked.len();
        for sender in senders {
            self.satisfaction_after(0, 30, self.trades() - 1, sender);
        }
        let least = (first..self.asked.len()).find(|&order| self.asked[order].from == self.least);
        let any = first + self.chance.below(self.asked.len() - first);
        let order = if self.chance.one_in(2) { least.unwrap_or(any) } else { any };
        let wait = self.chance.pick(&[0, 1, 60_000]);
        self.cancel_at(order, self.time.saturating_add(wait));
    }

    /// Satisfaction Orders received around close less 300,000 for a trade of the minutes before, and cancellations.
    pub fn cancellations_near_close(&mut self) {
        self.mostly_all_firm();
        let (series, price) = (self.a_series(), self.level.clamp(8, 999_990));
        let senders = self.quote_better(series, price, Held::Even(30));
        let near_close = self.close - 300_000;
        let before = self.chance.between(0, 150_000);
        let milliseconds = self.until(near_close.saturating_sub(before));
        let (size, delay) = (self.chance.between(5, 60), self.delay());
        self.trade_at(milliseconds, series, price, size, delay);
        let mut received: Vec<u32> = senders.iter().map(|_| near_close + self.chance.between(0, 2)).collect();
        received.sort_unstable();
        let first = self.asked.len();
        for (sender, received) in senders.into_iter().zip(received) {
            let milliseconds = self.until(received.saturating_sub(1));
            self.satisfaction_after(milliseconds, 30, self.trades() - 1, sender);
        }
        self.cancel_some_from(first);
    }
}
