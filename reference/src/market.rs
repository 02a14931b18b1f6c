//! The quotes and statuses standing, and the verdicts that they alone decide.

use crate::event::{HomeTrade, Order, Quote, SIDES, Side, Status};
use crate::header::{Exchanges, Header};
use crate::record::Series;

const EXCHANGES: usize = Exchanges::MOST as usize;

/// One number for each exchange, on each side.
type BySide = [[u32; EXCHANGES]; SIDES.len()];

/// "All start firm, without quotes": a price 0 is absent.
pub struct Market {
    prices: [BySide; Series::COUNT],
    customers: [BySide; Series::COUNT],
    statuses: [u32; EXCHANGES],
}

/// "Q: 0/1/2 clear, locked, crossed; exchange or 0; side, 1 home's bid, 2 home's offer, or 0."
#[derive(Clone, Copy, Debug, PartialEq, Eq)]
pub struct QuoteVerdict {
    pub verdict: u32,
    pub exchange: u32,
    pub side: u32,
}

impl QuoteVerdict {
    const CLEAR: QuoteVerdict = QuoteVerdict { verdict: 0, exchange: 0, side: 0 };
    const LOCKED: u32 = 1;
    const CROSSED: u32 = 2;

    fn of(verdict: u32, away: usize, by_bid: bool, by_offer: bool) -> Option<QuoteVerdict> {
        let side = if by_bid { 1 } else { 2 };
        (by_bid || by_offer).then_some(QuoteVerdict { verdict, exchange: away as u32 + 1, side })
    }
}

/// Home's duty on a received order.
#[derive(Clone, Copy, Debug, PartialEq, Eq)]
pub enum Duty {
    None { reason: u32 },
    Whole { contracts: u32 },
    AtLeast { contracts: u32 },
}

impl Default for Market {
    fn default() -> Market {
        Market {
            prices: [[[0; EXCHANGES]; 2]; Series::COUNT],
            customers: [[[0; EXCHANGES]; 2]; Series::COUNT],
            statuses: [Status::FIRM; EXCHANGES],
        }
    }
}

impl Market {
    #[inline(always)]
    pub fn quote(&mut self, quote: &Quote) {
        for side in SIDES {
            self.prices[quote.series][side as usize][quote.exchange] = quote.prices[side as usize];
            self.customers[quote.series][side as usize][quote.exchange] = quote.customers[side as usize];
        }
    }

    pub fn set_status(&mut self, status: &Status) {
        self.statuses[status.exchange] = status.status;
    }

    pub fn status(&self, exchange: usize) -> u32 {
        self.statuses[exchange]
    }

    #[inline(always)]
    pub fn price(&self, exchange: usize, series: usize, side: Side) -> u32 {
        self.prices[series][side as usize][exchange]
    }

    pub fn customers(&self, exchange: usize, series: usize, side: Side) -> u32 {
        self.customers[series][side as usize][exchange]
    }

    /// "Highest bid and lowest offer shown by any exchange, home included, firm or not"; 0 where all are absent.
    #[inline(always)]
    pub fn best(&self, series: usize, side: Side) -> u32 {
        let shown = &self.prices[series][side as usize];
        match side {
            Side::Bid => shown.iter().fold(0, |best, &bid| best.max(bid)),
            // One less turns an absent offer into the highest there is.
            Side::Offer => shown.iter().fold(u32::MAX, |best, &offer| best.min(offer.wrapping_sub(1))).wrapping_add(1),
        }
    }

    /// "500 or more contracts, price in cents times contracts at least 150,000, price below the best bid or above the
    /// best offer, and block form 1 or 2", asked when the trade is made.
    pub fn is_block(&self, trade: &HomeTrade) -> bool {
        const CONTRACTS: u32 = 500;
        const VALUE: u64 = 150_000;
        trade.block_form != 0
            && trade.size >= CONTRACTS
            && trade.price as u64 * trade.size as u64 >= VALUE
            && SIDES.into_iter().any(|side| side.is_better(self.best(trade.series, side), trade.price))
    }

    /// "Crossed if its bid is above an away offer or its offer below an away bid; else locked if equal.
    /// Crossed wins over locked; the lowest exchange of that kind is named."
    pub fn home_quote_verdict(&self, home: usize, series: usize) -> QuoteVerdict {
        let [bids, offers] = &self.prices[series];
        let (bid, offer) = (bids[home], offers[home]);
        let crossed = |away: usize| {
            let by_bid = Side::Offer.is_better(offers[away], bid);
            let by_offer = offer != 0 && Side::Bid.is_better(bids[away], offer);
            QuoteVerdict::of(QuoteVerdict::CROSSED, away, by_bid, by_offer)
        };
        let locked = |away: usize| {
            let by_bid = bid != 0 && offers[away] == bid;
            let by_offer = offer != 0 && bids[away] == offer;
            QuoteVerdict::of(QuoteVerdict::LOCKED, away, by_bid, by_offer)
        };
        let mut away = (0..EXCHANGES).filter(|&exchange| exchange != home);
        let first_crossed = away.clone().find_map(crossed);
        first_crossed.or_else(|| away.find_map(locked)).unwrap_or(QuoteVerdict::CLEAR)
    }

    /// "1 if its price is not the receiver's bid (sell) or offer (buy); else 2 if that is not the best; else 0."
    pub fn sent_order_verdict(&self, order: &Order) -> u32 {
        if order.price != self.price(order.away, order.series, order.meets) {
            1
        } else if order.price != self.best(order.series, order.meets) {
            2
        } else {
            0
        }
    }

    /// "No duty, reason 1: home's bid (sell) or offer (buy) is absent or worse than the price. Reason 2: it is not the
    /// best. Reason 3: home is non-firm. First that holds. Otherwise the whole order if not above the firm size, else
    /// at least the firm size." A principal order is judged as a first one.
    pub fn duty_as_first(&self, header: &Header, order: &Order) -> Duty {
        let home = header.home as usize - 1;
        let shown = self.price(home, order.series, order.meets);
        if order.meets.is_worse_or_absent(shown, order.price) {
            return Duty::None { reason: 1 };
        }
        if shown != self.best(order.series, order.meets) {
            return Duty::None { reason: 2 };
        }
        if self.status(home) == Status::NON_FIRM {
            return Duty::None { reason: 3 };
        }
        let firm_size =
            if order.principal { header.home_principal_size() } else { header.customer_firm_size(order.away) };
        if order.size <= firm_size {
            Duty::Whole { contracts: order.size }
        } else {
            Duty::AtLeast { contracts: firm_size }
        }
    }
}
