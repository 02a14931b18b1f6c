//! "After a principal order that we had to execute whole (the initial execution), further principal orders from the
//! same sender in the class, any series": the periods that judge those orders, one at most for each sender.

use crate::event::{Order, Quote, Side};
use crate::header::{Exchanges, Header};
use crate::market::{Duty, Market};
use crate::time::Time;

/// An initial execution, and whether home has quoted otherwise since.
#[derive(Clone, Copy)]
pub struct Period {
    pub began: u32,
    pub series: usize,
    pub side: Side,
    /// Home's on that side, when it began.
    pub price: u32,
    /// "A later home quote gave another price, or none, on the side of the initial execution in its series."
    pub quoted_otherwise: bool,
}

impl Period {
    /// What a further order comes to that has none of the reasons 1, 2 and 3; nothing where it "is judged as a first
    /// one".
    fn duty(&self, header: &Header, market: &Market, time: u32, size: u32) -> Option<Duty> {
        let waited = time - self.began;
        if waited <= Time::NO_SECOND_ORDER {
            let excepted = self.quoted_otherwise && self.best_price_stands(header, market);
            (!excepted).then_some(Duty::None { reason: 4 })
        } else if waited <= Time::SECOND_ORDER_IN_PART && !self.quoted_otherwise {
            Some(Duty::AtLeast { contracts: size.min(header.home_principal_size()) })
        } else {
            None
        }
    }

    /// "And a price stands there now that is the best."
    pub fn best_price_stands(&self, header: &Header, market: &Market) -> bool {
        let shown = market.price(header.home as usize - 1, self.series, self.side);
        shown != 0 && shown == market.best(self.series, self.side)
    }

    /// Home quotes: a quote that stood when the period began is none of these.
    fn home_quote(&mut self, quote: &Quote) {
        self.quoted_otherwise |= quote.series == self.series && quote.prices[self.side as usize] != self.price;
    }
}

/// The last period of each sender.
#[derive(Default)]
pub struct Periods([Option<Period>; Exchanges::MOST as usize]);

impl Periods {
    pub fn of(&self, sender: usize) -> Option<&Period> {
        self.0[sender].as_ref()
    }

    pub fn home_quote(&mut self, quote: &Quote) {
        for period in self.0.iter_mut().flatten() {
            period.home_quote(quote);
        }
    }

    /// Home's duty on a received order. "Reason 4 and this answer are judged after 1, 2 and 3." "P/A orders stay as
    /// they are."
    pub fn duty(&mut self, header: &Header, market: &Market, time: u32, order: &Order) -> Duty {
        let as_first = market.duty_as_first(header, order);
        if !order.principal || matches!(as_first, Duty::None { .. }) {
            return as_first;
        }
        if let Some(duty) = self.of(order.away).and_then(|period| period.duty(header, market, time, order.size)) {
            return duty;
        }
        if matches!(as_first, Duty::Whole { .. }) {
            self.begin(header, market, time, order);
        }
        as_first
    }

    /// "A later whole execution of an order judged as a first one starts a new period in the old one's place."
    fn begin(&mut self, header: &Header, market: &Market, time: u32, order: &Order) {
        let Order { series, meets: side, .. } = *order;
        let price = market.price(header.home as usize - 1, series, side);
        self.0[order.away] = Some(Period { began: time, series, side, price, quoted_otherwise: false });
    }
}
