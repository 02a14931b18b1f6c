//! Home trades with the snapshot that judges their Satisfaction Orders: reasons, claims, due totals.

use crate::event::{Cancellation, HomeTrade, NoBlock, Order, Quote, Response, SIDES, Satisfaction, Side, Status};
use crate::header::{Exchanges, Header};
use crate::journal::{Moment, Watcher};
use crate::market::Market;
use crate::orders::OpenOrders;
use crate::time::Time;

/// The reasons on a Satisfaction Order.
pub mod reason {
    pub const NONE: u8 = 0;
    pub const ORDER_UNANSWERED: u8 = 2;
    pub const SENDER_NON_FIRM: u8 = 3;
    pub const HOME_NON_FIRM: u8 = 4;
    pub const SENDER_IN_ROTATION: u8 = 5;
    pub const HOME_IN_ROTATION: u8 = 6;
    pub const COMPLEX: u8 = 7;
    pub const LATE: u8 = 8;
    pub const LATE_FOR_INITIATOR: u8 = 9;
    pub const NOT_TRADED_THROUGH: u8 = 10;
    pub const TRADE_PRICE_NO_BLOCK: u8 = 11;
    pub const NOT_THE_PRICE: u8 = 12;
    pub const NO_CUSTOMERS: u8 = 13;
    pub const INITIATOR_NAMED: u8 = 14;
    pub const SENT_AGAIN_LATE: u8 = 15;
}

/// What a trade settles for one exchange: "prices, customer contracts and statuses are those at the trade".
#[derive(Clone, Copy)]
struct Standing {
    /// The first reason that the trade alone decides (10, 2 to 7), or none.
    reason: u8,
    /// The bid or offer traded through.
    price: u32,
    customers: u32,
    /// Where home has cancelled its claim as priced for a block that was none: the last moment to send again.
    last_again: Option<u32>,
}

impl Standing {
    const NOT_TRADED_THROUGH: Standing =
        Standing { reason: reason::NOT_TRADED_THROUGH, price: 0, customers: 0, last_again: None };
}

pub struct Trade {
    price: u32,
    pub size: u32,
    initiated: bool,
    pub block: bool,
    /// A Satisfaction Order received later than this is late, unless it is the exchange's second.
    last_timely: u32,
    /// How many away exchanges were traded through.
    pub traded_through: u32,
    /// "The trade is larger than the customer firm size with any exchange traded through, asked or not."
    pub larger_than_firm: bool,
    /// It stands after the closing record in the journal, in whatever millisecond.
    pub in_closing_window: bool,
    standings: [Standing; Exchanges::MOST as usize],
    lines: [u16; Trade::MOST_LINES],
    line_count: usize,
}

impl Trade {
    /// One for each away exchange, and one more for each that sends again.
    pub const MOST_LINES: usize = 2 * (Exchanges::MOST as usize - 1);

    pub fn is_traded_through(&self, exchange: usize) -> bool {
        self.standings[exchange].reason != reason::NOT_TRADED_THROUGH
    }

    /// Its lines of the sheet, in their order.
    pub fn lines(&self) -> &[u16] {
        &self.lines[..self.line_count]
    }

    /// "The least of order size, customer contracts and trade size": the claim of a line with reason 0, but for the
    /// limit at the close.
    pub fn claim_without_limit(&self, size: u32, customers: u32) -> u32 {
        size.min(customers).min(self.size)
    }

    /// The claim of a line with reason 0.
    pub fn claim(&self, size: u32, customers: u32) -> u32 {
        let claim = self.claim_without_limit(size, customers);
        if self.in_closing_window { claim.min(Line::MOST_CLAIM_AT_CLOSE) } else { claim }
    }

    pub fn due_total(&self, sum_of_claims: u32) -> u32 {
        if self.larger_than_firm { self.size.min(sum_of_claims) } else { sum_of_claims }
    }

    /// "Reasons on a Satisfaction Order, first that holds", as long as it is not cancelled.
    fn reason(&self, received: u32, order: &Satisfaction) -> u8 {
        let standing = &self.standings[order.from];
        if standing.reason != reason::NONE {
            return standing.reason;
        }
        // "The second is not judged by 8 or 9 but by reason 15 ...; 15 stands in 8's place."
        match standing.last_again {
            Some(last_again) if received > last_again => return reason::SENT_AGAIN_LATE,
            None if received > self.last_timely && self.initiated => return reason::LATE_FOR_INITIATOR,
            None if received > self.last_timely => return reason::LATE,
            _ => {}
        }
        if order.price == self.price && !self.block {
            return reason::TRADE_PRICE_NO_BLOCK;
        }
        let required = if self.block { self.price } else { standing.price };
        if order.price != required {
            return reason::NOT_THE_PRICE;
        }
        if standing.customers == 0 { reason::NO_CUSTOMERS } else { reason::NONE }
    }
}

/// What a Satisfaction Order comes to.
#[derive(Clone, Copy)]
pub struct Line {
    trade: u16,
    from: u16,
    pub reason: u8,
    pub size: u32,
    pub claim: u32,
    pub customers: u32,
    /// A cancellation later than this is late.
    pub last_cancellation: u32,
}

impl Line {
    /// "For a trade after it, each claim is also at most 10, and due totals follow."
    pub const MOST_CLAIM_AT_CLOSE: u32 = 10;

    /// The reasons judged after 14, and none at all. "15 stands in 8's place", before it.
    pub fn gives_way_to_cancellation(&self) -> bool {
        matches!(
            self.reason,
            reason::NONE | reason::TRADE_PRICE_NO_BLOCK | reason::NOT_THE_PRICE | reason::NO_CUSTOMERS
        )
    }

    /// "A cancellation in time makes reason 14, judged after 9 and before 11, with claim 0."
    pub fn cancel_in_time(&mut self) {
        if self.gives_way_to_cancellation() {
            self.reason = reason::INITIATOR_NAMED;
            self.claim = 0;
        }
    }
}

pub struct Desk<'h> {
    pub header: &'h Header,
    open_orders: OpenOrders,
    closing_window_begun: bool,
    pub trades: Vec<Trade>,
    pub lines: Vec<Line>,
}

impl<'h> Desk<'h> {
    pub fn new(header: &'h Header) -> Desk<'h> {
        Desk {
            header,
            open_orders: OpenOrders::default(),
            closing_window_begun: false,
            trades: Vec::with_capacity(HomeTrade::MOST),
            lines: Vec::with_capacity(Satisfaction::MOST),
        }
    }

    pub fn sent_orders(&self) -> u32 {
        self.open_orders.sent_orders()
    }

    fn home(&self) -> usize {
        self.header.home as usize - 1
    }

    /// "Traded through if its bid is above the price or its offer below it."
    fn side_traded_through(market: &Market, exchange: usize, trade: &HomeTrade) -> Option<Side> {
        SIDES.into_iter().find(|side| {
            let shown = market.price(exchange, trade.series, *side);
            side.is_better(shown, trade.price)
        })
    }

    /// "Report = trade time plus delay." With an initiator the 180,000 ms hold near the close too.
    fn last_timely(&self, time: u32, trade: &HomeTrade) -> u32 {
        let report = time + trade.delay;
        let near_close = report >= self.header.close - Time::NEAR_CLOSE;
        let to_claim = if near_close && trade.initiator.is_none() { Time::TO_CLAIM_NEAR_CLOSE } else { Time::TO_CLAIM };
        report + to_claim
    }

    /// "Up to and including 180,000 ms after receiving it, or 60,000 if we received it at or after close less 300,000."
    fn last_cancellation(&self, received: u32) -> u32 {
        let near_close = received >= self.header.close - Time::NEAR_CLOSE;
        received + if near_close { Time::TO_CANCEL_NEAR_CLOSE } else { Time::TO_CANCEL }
    }

    /// The reasons after 10 that are settled at the trade, in the paper's order.
    fn reason_at_trade(&self, market: &Market, time: u32, trade: &HomeTrade, exchange: usize, side: Side) -> u8 {
        let sender = market.status(exchange);
        let home = market.status(self.home());
        if self.open_orders.excuse(exchange, trade.series, side, time) {
            reason::ORDER_UNANSWERED
        } else if sender == Status::NON_FIRM {
            reason::SENDER_NON_FIRM
        } else if trade.initiator.is_none() && home == Status::NON_FIRM {
            reason::HOME_NON_FIRM
        } else if sender == Status::ROTATION {
            reason::SENDER_IN_ROTATION
        } else if home == Status::ROTATION {
            reason::HOME_IN_ROTATION
        } else if trade.complex {
            reason::COMPLEX
        } else {
            reason::NONE
        }
    }

    pub fn judge_trade(&mut self, market: &Market, time: u32, home_trade: &HomeTrade) -> &Trade {
        let mut trade = Trade {
            price: home_trade.price,
            size: home_trade.size,
            initiated: home_trade.initiator.is_some(),
            block: market.is_block(home_trade),
            last_timely: self.last_timely(time, home_trade),
            traded_through: 0,
            larger_than_firm: false,
            in_closing_window: self.closing_window_begun,
            standings: [Standing::NOT_TRADED_THROUGH; Exchanges::MOST as usize],
            lines: [0; Trade::MOST_LINES],
            line_count: 0,
        };
        for exchange in (0..self.header.exchanges as usize).filter(|&exchange| exchange != self.home()) {
            let Some(side) = Self::side_traded_through(market, exchange, home_trade) else {
                continue;
            };
            trade.traded_through += 1;
            trade.larger_than_firm |= trade.size > self.header.customer_firm_size(exchange);
            trade.standings[exchange] = Standing {
                reason: self.reason_at_trade(market, time, home_trade, exchange, side),
                price: market.price(exchange, home_trade.series, side),
                customers: market.customers(exchange, home_trade.series, side),
                last_again: None,
            };
        }
        self.trades.push(trade);
        &self.trades[self.trades.len() - 1]
    }
}

impl Watcher for Desk<'_> {
    #[inline(always)]
    fn quote(&mut self, _at: Moment, _market: &Market, quote: &Quote) {
        self.open_orders.quote(quote);
    }

    fn home_trade(&mut self, at: Moment, market: &Market, trade: &HomeTrade) {
        self.judge_trade(market, at.time, trade);
    }

    fn sent_order(&mut self, at: Moment, _market: &Market, order: &Order) {
        self.open_orders.send(at.time, order);
    }

    /// A response that fills less leaves the order standing as an excuse.
    fn response(&mut self, response: &Response, size: u32) {
        if response.filled == size {
            self.open_orders.fill_in_full(response.order);
        }
    }

    /// "Claim: 0 for a reason other than 0."
    fn satisfaction_order(&mut self, at: Moment, order: &Satisfaction) {
        let last_cancellation = self.last_cancellation(at.time);
        let trade = &mut self.trades[order.trade];
        let reason = trade.reason(at.time, order);
        let customers = trade.standings[order.from].customers;
        let claim = if reason == reason::NONE { trade.claim(order.size, customers) } else { 0 };
        trade.lines[trade.line_count] = self.lines.len() as u16;
        trade.line_count += 1;
        let (trade, from) = (order.trade as u16, order.from as u16);
        self.lines.push(Line { trade, from, reason, size: order.size, claim, customers, last_cancellation });
    }

    /// "A late one cancels and changes nothing."
    fn cancellation(&mut self, at: Moment, cancellation: &Cancellation) {
        let line = &mut self.lines[cancellation.order];
        if at.time <= line.last_cancellation {
            line.cancel_in_time();
        }
    }

    /// "The first keeps the reason it has."
    fn no_block(&mut self, at: Moment, no_block: &NoBlock) {
        let Line { trade, from, .. } = self.lines[no_block.order];
        let standing = &mut self.trades[trade as usize].standings[from as usize];
        standing.last_again = Some(at.time + Time::TO_SEND_AGAIN);
    }

    fn closing_window(&mut self, _at: Moment) {
        self.closing_window_begun = true;
    }
}
