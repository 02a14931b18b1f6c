//! What becomes of Satisfaction Orders that were priced as a block's when the trade was none, and of those sent again:
//! for the tables of what was reached, and for sheets that take them otherwise.

use super::cancelled::{numbers, so};
use super::sheets::desk_after;
use crate::alone::Plain;
use crate::claims::{Desk, Trade, reason};
use crate::event::{Cancellation, HomeTrade, NoBlock, Order, Quote, Response, Satisfaction, Side};
use crate::header::Header;
use crate::journal::{Moment, Watcher, open, walk};
use crate::market::Market;
use crate::record::kind;
use crate::sheet::{own_fills, sum_of_claims};
use crate::time::Time;

/// The reasons that a claim priced as a block's may have, the trade being none.
const REASONS_OF_FIRST: [u8; 10] = [2, 3, 4, 5, 6, 7, 8, 9, 10, 11];

/// The reasons that a second claim may have.
const REASONS_OF_SECOND: [u8; 13] = [0, 2, 3, 4, 5, 6, 7, 10, 11, 12, 13, 14, 15];

/// What a second claim is, and what it would be if it were a first.
const OTHERWISE: [(u8, u8); 16] = [
    (0, 8),
    (0, 9),
    (11, 8),
    (11, 9),
    (12, 8),
    (12, 9),
    (13, 8),
    (13, 9),
    (14, 9),
    (15, 0),
    (15, 8),
    (15, 9),
    (15, 11),
    (15, 12),
    (15, 13),
    (15, 14),
];

/// How long after the claim it is cancelled, and how long after that the second comes.
const WAITS: [(u32, &str); 4] =
    [(0, "at once"), (60_001, "60,001 ms later"), (180_000, "180,000 ms later"), (180_001, "180,001 ms later")];

/// Whether the trade has an initiator, and whether the claim or its cancellation lies at or after close less 300,000.
const WHERE: [&str; 4] = ["", ", an initiator", ", near the close", ", an initiator, near the close"];

const WANTED: &str = "
    no block, a block by quotes since|no block, the last of 512 orders|no block, none sent again
    sent again, the last of 512 orders|sent again, refused as the 513th
    sent again in time, initiator named in time|sent again in time, initiator named late
    sent again late, initiator named in time|sent again late, initiator named late
    trade with 14 lines|trade with 14 lines shared out|trade with more than seven lines shared out
    trade shared out among first claims and ones sent again|trade shared out for one sent again
    trade within firm size, one sent again|trade with one sent again late, others shared out
    claim sent again, limited to ten at the close|claim sent again after the closing record, above ten
    sheet accepted, one sent again filled|sheet accepted, one sent again late
    sheet refused, 8 or 9 on one sent again|sheet refused, 15 left out
    sheet refused, 15 for one sent again in time|sheet refused, 15 for a first claim
    sheet refused, 14 in place of 15|sheet refused, reason of the first left out
    sheet refused, filled though sent again late|sheet refused, the first filled
    sheet refused, others filled as if one late were in time|sheet refused, due total without one sent again
    sheet refused, shares with one sent again
    no-block record refused, unknown order|no-block record refused, no order so far
    no block, a block but for a batch|no-block record refused, a block by a batch
    no-block record refused, a block by the offer|no-block record refused, a block by the offer of a batch
    no-block record refused, a block|no-block record refused, a block but none by quotes since
    no-block record refused, price not the trade's
    no-block record refused, 180,001 ms after the claim|no-block record refused, later
    no-block record refused, initiator named in time|no-block record refused, initiator named late
    no-block record refused, said before|no-block record refused, said before and sent again
    no-block record refused, on one sent again|no-block record refused, past the day
    claim refused, second|claim refused, second after the initiator was named in time
    claim refused, second after the initiator was named late
    claim refused, third|claim refused, third after the initiator was named on the second";

pub fn wanted() -> Vec<String> {
    let first = REASONS_OF_FIRST.map(reason_of_first);
    let second = REASONS_OF_SECOND.map(reason_of_second);
    let otherwise = OTHERWISE.map(|(reason, as_first)| instead_of(reason, as_first));
    let waits = WAITS.into_iter().flat_map(|(_, wait)| WHERE.map(|place| format!("sent again {wait}{place}")));
    let first_waits = WAITS[..3].iter().flat_map(|(_, wait)| WHERE.map(|place| format!("no block {wait}{place}")));
    let named = WANTED.split(['|', '\n']).map(|what| what.trim().to_string());
    first.into_iter().chain(second).chain(otherwise).chain(waits).chain(first_waits).chain(named).collect()
}

fn reason_of_first(reason: u8) -> String {
    format!("no block, the first has reason {reason}")
}

fn reason_of_second(reason: u8) -> String {
    format!("sent again, reason {reason}")
}

fn instead_of(reason: u8, as_first: u8) -> String {
    format!("sent again, reason {reason}, as a first {as_first}")
}

/// A Satisfaction Order with its cancellations.
struct Asked {
    trade: usize,
    from: usize,
    price: u32,
    received: Moment,
    /// The one that was cancelled as no block before it.
    first: Option<usize>,
    /// When home named the initiator.
    named: Option<Moment>,
    no_block: Option<Moment>,
    /// When it was cancelled as no block, quotes had come by which the trade would have been one.
    block_by_now: bool,
}

struct Traded {
    trade: HomeTrade,
    block: bool,
    /// If no quote of a batch had come.
    block_singly: bool,
    by_offer: bool,
    /// It stands before the closing record.
    before_closing: bool,
}

#[derive(Default)]
struct Orders {
    market: Market,
    /// Without the quotes of batches.
    singly: Market,
    in_batch: bool,
    trades: Vec<Traded>,
    asked: Vec<Asked>,
    time: u32,
    closing: Option<Moment>,
}

impl Watcher for Orders {
    fn record(&mut self, record: Plain<&[u32]>) {
        self.time += record.milliseconds;
        self.in_batch = record.kind == kind::BATCH;
    }

    fn quote(&mut self, _at: Moment, _market: &Market, quote: &Quote) {
        self.market.quote(quote);
        if !self.in_batch {
            self.singly.quote(quote);
        }
    }

    fn home_trade(&mut self, _at: Moment, market: &Market, trade: &HomeTrade) {
        let (block, block_singly) = (market.is_block(trade), self.singly.is_block(trade));
        let by_offer = block && Side::Offer.is_better(market.best(trade.series, Side::Offer), trade.price);
        let before_closing = self.closing.is_none();
        self.trades.push(Traded { trade: *trade, block, block_singly, by_offer, before_closing });
    }

    fn satisfaction_order(&mut self, at: Moment, order: &Satisfaction) {
        let Satisfaction { trade, from, price, .. } = *order;
        let first = self.asked.iter().position(|asked| (asked.trade, asked.from) == (trade, from));
        let none = Asked { trade, from, price, received: at, first, named: None, no_block: None, block_by_now: false };
        self.asked.push(none);
    }

    fn cancellation(&mut self, at: Moment, cancellation: &Cancellation) {
        self.asked[cancellation.order].named = Some(at);
    }

    fn no_block(&mut self, at: Moment, no_block: &NoBlock) {
        let asked = &mut self.asked[no_block.order];
        asked.no_block = Some(at);
        asked.block_by_now = self.market.is_block(&self.trades[asked.trade].trade);
    }

    fn closing_window(&mut self, at: Moment) {
        self.closing = Some(at);
    }
}

impl Orders {
    fn of(journal: &[u8]) -> Orders {
        let mut orders = Orders::default();
        let (header, reader) = open(journal).expect("the journal was accepted");
        walk(&header, reader, &mut orders).expect("the journal was accepted");
        orders
    }
}

/// What a desk makes of a cancellation as no block.
enum Taken {
    /// Nothing: a second claim is judged as a first.
    NotAtAll,
    /// A second claim is never late.
    WithoutEnd,
}

/// A desk that takes them otherwise.
struct Otherwise<'h> {
    desk: Desk<'h>,
    taken: Taken,
}

impl Watcher for Otherwise<'_> {
    fn quote(&mut self, at: Moment, market: &Market, quote: &Quote) {
        self.desk.quote(at, market, quote);
    }

    fn home_trade(&mut self, at: Moment, market: &Market, trade: &HomeTrade) {
        self.desk.home_trade(at, market, trade);
    }

    fn sent_order(&mut self, at: Moment, market: &Market, order: &Order) {
        self.desk.sent_order(at, market, order);
    }

    fn response(&mut self, response: &Response, size: u32) {
        self.desk.response(response, size);
    }

    fn satisfaction_order(&mut self, at: Moment, order: &Satisfaction) {
        self.desk.satisfaction_order(at, order);
    }

    fn cancellation(&mut self, at: Moment, cancellation: &Cancellation) {
        self.desk.cancellation(at, cancellation);
    }

    fn no_block(&mut self, at: Moment, no_block: &NoBlock) {
        match self.taken {
            Taken::NotAtAll => {}
            Taken::WithoutEnd => self.desk.no_block(Moment { time: Time::LAST, ..at }, no_block),
        }
    }

    fn closing_window(&mut self, at: Moment) {
        self.desk.closing_window(at);
    }
}

fn desk_otherwise<'h>(header: &'h Header, journal: &[u8], taken: Taken) -> Desk<'h> {
    let mut otherwise = Otherwise { desk: Desk::new(header), taken };
    let (_, reader) = open(journal).expect("the journal was accepted");
    walk(header, reader, &mut otherwise).expect("the journal was accepted");
    otherwise.desk
}

/// An accepted journal in which claims were cancelled as no block, in three ways.
pub struct SentAgain<'h> {
    orders: Orders,
    /// As it is.
    desk: Desk<'h>,
    /// If a second claim were judged as a first.
    pub as_first: Desk<'h>,
    /// If a second claim were never late.
    pub without_end: Desk<'h>,
}

impl<'h> SentAgain<'h> {
    pub fn of(header: &'h Header, journal: &[u8]) -> Option<SentAgain<'h>> {
        let orders = Orders::of(journal);
        orders.asked.iter().find(|asked| asked.no_block.is_some())?;
        let desk = desk_after(header, journal);
        let as_first = desk_otherwise(header, journal, Taken::NotAtAll);
        let without_end = desk_otherwise(header, journal, Taken::WithoutEnd);
        Some(SentAgain { orders, desk, as_first, without_end })
    }

    /// The order before it that was cancelled as no block, where this one was sent again.
    pub fn first_of(&self, order: usize) -> Option<usize> {
        self.orders.asked[order].first
    }

    fn is_second(&self, order: usize) -> bool {
        self.first_of(order).is_some()
    }

    fn reason(&self, order: usize) -> u8 {
        self.desk.lines[order].reason
    }

    fn is_late(&self, order: usize) -> bool {
        self.reason(order) == reason::SENT_AGAIN_LATE
    }

    fn is_initiated(&self, order: usize) -> bool {
        self.orders.trades[self.orders.asked[order].trade].trade.initiator.is_some()
    }

    fn place_of(&self, order: usize, time: u32) -> &'static str {
        let near_close = time >= self.desk.header.close - Time::NEAR_CLOSE;
        WHERE[self.is_initiated(order) as usize + 2 * near_close as usize]
    }

    pub fn reached(&self) -> Vec<String> {
        let mut reached = Vec::new();
        for (order, asked) in self.orders.asked.iter().enumerate() {
            if let Some(no_block) = asked.no_block {
                self.reached_by_first(order, no_block, &mut reached);
            }
            if let Some(first) = asked.first {
                self.reached_by_second(first, order, &mut reached);
            }
        }
        for trade in &self.desk.trades {
            reached.extend(self.reached_by_trade(trade));
        }
        reached
    }

    fn reached_by_first(&self, order: usize, no_block: Moment, reached: &mut Vec<String>) {
        let Asked { trade, received, block_by_now, .. } = self.orders.asked[order];
        reached.push(reason_of_first(self.reason(order)));
        if let Some((_, wait)) = WAITS.iter().find(|(wait, _)| *wait == no_block.time - received.time) {
            reached.push(format!("no block {wait}{}", self.place_of(order, received.time)));
        }
        let none_again = !self.orders.asked.iter().any(|asked| asked.first == Some(order));
        reached.extend(so(&[
            (block_by_now, "no block, a block by quotes since"),
            (self.orders.trades[trade].block_singly, "no block, a block but for a batch"),
            (order + 1 == Satisfaction::MOST, "no block, the last of 512 orders"),
            (none_again, "no block, none sent again"),
        ]));
    }

    fn reached_by_second(&self, first: usize, order: usize, reached: &mut Vec<String>) {
        let Asked { received, named, .. } = self.orders.asked[order];
        let cancelled = self.orders.asked[first].no_block.expect("else there is no second").time;
        let (right, as_first) = (self.reason(order), self.as_first.lines[order].reason);
        reached.push(reason_of_second(right));
        if right != as_first {
            reached.push(instead_of(right, as_first));
        }
        // Where an earlier reason holds, the time does not decide.
        let time_decides = matches!(self.without_end.lines[order].reason, 0 | 11..=14);
        if let (true, Some((_, wait))) =
            (time_decides, WAITS.iter().find(|(wait, _)| *wait == received.time - cancelled))
        {
            reached.push(format!("sent again {wait}{}", self.place_of(order, cancelled)));
        }
        let in_time = named.map(|named| named.time <= self.desk.lines[order].last_cancellation);
        let late = self.is_late(order);
        reached.extend(so(&[
            (order + 1 == Satisfaction::MOST, "sent again, the last of 512 orders"),
            (time_decides && !late && in_time == Some(true), "sent again in time, initiator named in time"),
            (time_decides && !late && in_time == Some(false), "sent again in time, initiator named late"),
            (late && in_time == Some(true), "sent again late, initiator named in time"),
            (late && in_time == Some(false), "sent again late, initiator named late"),
        ]));
    }

    fn reached_by_trade(&self, trade: &Trade) -> Vec<String> {
        let lines = || trade.lines().iter().map(|&line| line as usize);
        let claim = |line: usize| self.desk.lines[line].claim;
        let sum = sum_of_claims(&self.desk, trade);
        let shared_out = trade.due_total(sum) < sum;
        let seconds: u32 = lines().filter(|&line| self.is_second(line)).map(claim).sum();
        let was_shared_out = trade.due_total(sum - seconds) < sum - seconds;
        let some_late = lines().any(|line| self.is_late(line));
        let unlimited = |line: usize| {
            let line = &self.desk.lines[line];
            if line.claim > 0 { trade.claim_without_limit(line.size, line.customers) } else { 0 }
        };
        let above_ten = |line: &usize| self.is_second(*line) && unlimited(*line) > 10;
        let limited = lines().filter(above_ten).any(|line| claim(line) < unlimited(line));
        let asked_after = |line: usize| self.orders.closing.is_some_and(|at| at.event < self.event_of(line));
        let before_closing = |line: usize| self.orders.trades[self.orders.asked[line].trade].before_closing;
        let kept = lines().filter(above_ten).any(|line| asked_after(line) && before_closing(line));
        so(&[
            (trade.lines().len() == Trade::MOST_LINES, "trade with 14 lines"),
            (trade.lines().len() == Trade::MOST_LINES && shared_out, "trade with 14 lines shared out"),
            (trade.lines().len() > 7 && shared_out, "trade with more than seven lines shared out"),
            (shared_out && 0 < seconds && seconds < sum, "trade shared out among first claims and ones sent again"),
            (shared_out && !was_shared_out, "trade shared out for one sent again"),
            (seconds > 0 && !trade.larger_than_firm, "trade within firm size, one sent again"),
            (some_late && shared_out, "trade with one sent again late, others shared out"),
            (limited, "claim sent again, limited to ten at the close"),
            (kept, "claim sent again after the closing record, above ten"),
        ])
    }

    fn event_of(&self, order: usize) -> u32 {
        self.orders.asked[order].received.event
    }

    /// What a sheet makes of the claims sent again, accepted or refused.
    pub fn reached_by_sheet(&self, sheet: &[u8], no: u32, place: usize) -> Vec<String> {
        let given = numbers(sheet);
        match no {
            0 => {
                let mut seconds = (0..self.desk.lines.len()).filter(|&order| self.is_second(order));
                so(&[
                    (seconds.clone().any(|order| given[3 * order + 1] > 0), "sheet accepted, one sent again filled"),
                    (seconds.any(|order| self.is_late(order)), "sheet accepted, one sent again late"),
                ])
            }
            22 => self.reached_by_reason(place, given[3 * place]),
            24 => so(&[
                (self.is_late(place), "sheet refused, filled though sent again late"),
                (self.orders.asked[place].no_block.is_some(), "sheet refused, the first filled"),
            ]),
            25 => self.reached_by_total(&self.desk.trades[place], &given),
            26 => {
                let mut lines = self.desk.trades[place].lines().iter().map(|&line| line as usize);
                let second = lines.any(|line| self.is_second(line) && self.desk.lines[line].claim > 0);
                so(&[(second, "sheet refused, shares with one sent again")])
            }
            _ => vec![],
        }
    }

    fn reached_by_reason(&self, order: usize, given: u32) -> Vec<String> {
        let (second, late) = (self.is_second(order), self.is_late(order));
        let is = |desk: &Desk| desk.lines[order].reason as u32 == given;
        let given_15 = given == reason::SENT_AGAIN_LATE as u32;
        let given_14 = given == reason::INITIATOR_NAMED as u32;
        let no_block = self.orders.asked[order].no_block.is_some();
        so(&[
            (second && is(&self.as_first) && matches!(given, 8 | 9), "sheet refused, 8 or 9 on one sent again"),
            (late && is(&self.without_end), "sheet refused, 15 left out"),
            (second && !late && given_15, "sheet refused, 15 for one sent again in time"),
            (!second && given_15, "sheet refused, 15 for a first claim"),
            (late && given_14 && self.orders.asked[order].named.is_some(), "sheet refused, 14 in place of 15"),
            (no_block && given == 0, "sheet refused, reason of the first left out"),
        ])
    }

    fn reached_by_total(&self, trade: &Trade, given: &[u32]) -> Vec<String> {
        let lines = || trade.lines().iter().map(|&line| line as usize);
        let filled: u32 = lines().map(|line| given[3 * line + 1]).sum();
        let sum = sum_of_claims(&self.desk, trade);
        let fills = own_fills(&self.without_end);
        let beside = |line: usize| given[3 * line + 1] == if self.is_late(line) { 0 } else { fills[line] };
        let seconds: u32 = lines().filter(|&line| self.is_second(line)).map(|line| self.desk.lines[line].claim).sum();
        let without = trade.due_total(sum - seconds);
        so(&[
            (lines().all(beside), "sheet refused, others filled as if one late were in time"),
            (seconds > 0 && filled == without, "sheet refused, due total without one sent again"),
        ])
    }
}

/// Why a journal is refused at a cancellation as no block, where one thing alone is wrong with it.
pub fn reached_by_no_block(journal: &[u8], no: u32, place: usize) -> Vec<String> {
    let [kind::NO_BLOCK, milliseconds, order, ..] = numbers(&journal[place..])[..] else {
        return vec![];
    };
    let Ok((header, _)) = open(journal) else {
        return vec![];
    };
    let orders = Orders::of(&journal[..place]);
    let why = match (no, orders.asked.get(order as usize)) {
        (5, _) => vec!["past the day"],
        (_, None) if orders.asked.is_empty() => vec!["no order so far"],
        (_, None) => vec!["unknown order"],
        (_, Some(asked)) => {
            let mut why = wrong_with(&header, &orders, order as usize, orders.time + milliseconds);
            if why.len() != 1 {
                return vec![];
            }
            let Traded { block, block_singly, by_offer, .. } = orders.trades[asked.trade];
            why.extend((block && !block_singly).then_some("a block by a batch"));
            why.extend(by_offer.then_some("a block by the offer"));
            why.extend((by_offer && !block_singly).then_some("a block by the offer of a batch"));
            why
        }
    };
    why.into_iter().map(|why| format!("no-block record refused, {why}")).collect()
}

/// All that is wrong with cancelling the order as no block then.
fn wrong_with(header: &Header, orders: &Orders, order: usize, time: u32) -> Vec<&'static str> {
    let asked = &orders.asked[order];
    let Traded { trade, block, .. } = &orders.trades[asked.trade];
    let mut wrong = Vec::new();
    if *block {
        wrong.push(if orders.market.is_block(trade) { "a block" } else { "a block but none by quotes since" });
    }
    if asked.price != trade.price {
        wrong.push("price not the trade's");
    }
    match (time - asked.received.time).checked_sub(Time::TO_CANCEL_AS_NO_BLOCK + 1) {
        Some(0) => wrong.push("180,001 ms after the claim"),
        Some(_) => wrong.push("later"),
        None => {}
    }
    if let Some(named) = asked.named {
        wrong.push(if is_named_in_time(header, asked, named) {
            "initiator named in time"
        } else {
            "initiator named late"
        });
    }
    if asked.no_block.is_some() {
        let again = orders.asked.iter().any(|asked| asked.first == Some(order));
        wrong.push(if again { "said before and sent again" } else { "said before" });
    }
    if asked.first.is_some() {
        wrong.push("on one sent again");
    }
    wrong
}

fn is_named_in_time(header: &Header, asked: &Asked, named: Moment) -> bool {
    let near_close = asked.received.time >= header.close - Time::NEAR_CLOSE;
    named.time - asked.received.time <= if near_close { Time::TO_CANCEL_NEAR_CLOSE } else { Time::TO_CANCEL }
}

/// Why a journal is refused at a Satisfaction Order for a trade that there is.
pub fn reached_by_claim(journal: &[u8], no: u32, place: usize) -> Option<String> {
    let [kind::SATISFACTION_ORDER, _, trade, from, ..] = numbers(&journal[place..])[..] else {
        return None;
    };
    let (header, _) = open(journal).ok()?;
    let orders = Orders::of(&journal[..place]);
    let is_before = |asked: &&Asked| (asked.trade, asked.from + 1) == (trade as usize, from as usize);
    let before: Vec<&Asked> = orders.asked.iter().filter(is_before).collect();
    let why = match (no, &before[..]) {
        (8, [_]) => return Some("sent again, refused as the 513th".into()),
        (7, [Asked { named: None, .. }]) => "second",
        (7, [asked @ Asked { named: Some(named), .. }]) if is_named_in_time(&header, asked, *named) => {
            "second after the initiator was named in time"
        }
        (7, [_]) => "second after the initiator was named late",
        (7, [_, Asked { named: None, .. }]) => "third",
        (7, [_, _]) => "third after the initiator was named on the second",
        _ => return None,
    };
    Some(format!("claim refused, {why}"))
}
