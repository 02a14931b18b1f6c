//! The sent orders that may still excuse home (reason 2).

use crate::event::{Order, Quote, SIDES, Side};
use crate::header::Exchanges;
use crate::record::Series;
use crate::time::Time;

struct Sent {
    time: u32,
    price: u32,
    filled_in_full: bool,
    /// The order sent before it to the same exchange, series and side.
    before: u16,
}

const NONE: u16 = u16::MAX;

/// Orders sent and "neither filled in full nor followed by a quote of that exchange in the series worse than its price
/// or absent on that side", as a chain for each series, exchange and side.
pub struct OpenOrders {
    last: [[[u16; SIDES.len()]; Exchanges::MOST as usize]; Series::COUNT],
    sent: Vec<Sent>,
}

impl Default for OpenOrders {
    fn default() -> OpenOrders {
        OpenOrders {
            last: [[[NONE; 2]; Exchanges::MOST as usize]; Series::COUNT],
            sent: Vec::with_capacity(Order::MOST_SENT),
        }
    }
}

impl OpenOrders {
    pub fn send(&mut self, time: u32, order: &Order) {
        let last = &mut self.last[order.series][order.away][order.meets as usize];
        let before = std::mem::replace(last, self.sent.len() as u16);
        self.sent.push(Sent { time, price: order.price, filled_in_full: false, before });
    }

    pub fn sent_orders(&self) -> u32 {
        self.sent.len() as u32
    }

    pub fn fill_in_full(&mut self, order: usize) {
        self.sent[order].filled_in_full = true;
    }

    #[inline(always)]
    pub fn quote(&mut self, quote: &Quote) {
        if self.last[quote.series][quote.exchange] != [NONE; 2] {
            self.end_worse_quoted(quote);
        }
    }

    /// "The excuse ends there" (desk): takes the orders that the quote ends out of their chains.
    fn end_worse_quoted(&mut self, quote: &Quote) {
        for side in SIDES {
            let shown = quote.prices[side as usize];
            let mut later = NONE;
            let mut order = self.last[quote.series][quote.exchange][side as usize];
            while order != NONE {
                let Sent { price, before, filled_in_full, .. } = self.sent[order as usize];
                if !filled_in_full && !side.is_worse_or_absent(shown, price) {
                    later = order;
                } else if later == NONE {
                    self.last[quote.series][quote.exchange][side as usize] = before;
                } else {
                    self.sent[later as usize].before = before;
                }
                order = before;
            }
        }
    }

    /// "Home had sent the sender an order in the series (sell for a bid, buy for an offer) more than 20,000 ms before
    /// the trade", asked when the trade is made.
    pub fn excuse(&self, exchange: usize, series: usize, side: Side, trade_time: u32) -> bool {
        let mut order = self.last[series][exchange][side as usize];
        while order != NONE {
            let sent = &self.sent[order as usize];
            if !sent.filled_in_full && trade_time - sent.time > Time::ANSWER_AWAITED {
                return true;
            }
            order = sent.before;
        }
        false
    }
}
