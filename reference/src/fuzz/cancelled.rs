//! What the cancellations of a journal come to: for the tables of what was reached, and for sheets that take them
//! otherwise.

use super::sheets::desk_after;
use crate::alone::Plain;
use crate::claims::{Desk, Trade, reason};
use crate::event::{Cancellation, HomeTrade, NoBlock, Satisfaction};
use crate::header::Header;
use crate::journal::{Moment, Watcher, open, walk};
use crate::market::Market;
use crate::number::Reader;
use crate::record::kind;
use crate::sheet::{own_fills, sum_of_claims};
use crate::time::Time;

/// How long after its receipt an order is cancelled, where that decides.
const WAITS: [(u32, &str); 4] = [(60_000, "60,000"), (60_001, "60,001"), (180_000, "180,000"), (180_001, "180,001")];

/// Where the receipt lies.
const RECEIPTS: [&str; 4] = ["earlier", "at close less 300,001", "at close less 300,000", "later"];

/// The reasons that an order of a trade with an initiator may have without a cancellation.
const REASONS: [u8; 11] = [0, 2, 3, 5, 6, 7, 9, 10, 11, 12, 13];

const WANTED: &str = "
    cancelled in the millisecond of its receipt|cancelled after other records|the 512th order cancelled
    trade shared out, a claim cancelled|trade shared out no more, a claim cancelled|trade with every claim cancelled
    trade above firm size of one cancelled alone, shared out
    trade within firm size, a claim cancelled|trade at the close, a claim cancelled|block, a claim cancelled
    sheet accepted, a claim cancelled in time|sheet accepted, a claim cancelled late
    sheet refused, reason as if not cancelled|sheet refused, filled though cancelled
    sheet refused, others filled as if not cancelled|sheet refused, shares of those not cancelled
    sheet refused, 14 for a late cancellation|sheet refused, due total without a claim cancelled late
    sheet refused, 14 in place of an earlier reason
    cancellation refused, unknown order|cancellation refused, no order so far
    cancellation refused, trade without initiator|cancellation refused, another than the initiator
    cancellation refused, home named|cancellation refused, sender named
    cancellation refused, second after one in time|cancellation refused, second after a late one
    cancellation refused, second after one as no block
    cancellation refused, exchange 0|cancellation refused, exchange above N|cancellation refused, past the day";

const LARGER_BY_CANCELLED: &str = "trade above firm size of one cancelled alone, shared out";

pub fn wanted() -> Vec<String> {
    let waits = WAITS.into_iter().flat_map(|(_, wait)| RECEIPTS.map(|receipt| waited(wait, receipt)));
    let reasons = REASONS.into_iter().flat_map(|reason| [true, false].map(|in_time| instead_of(reason, in_time)));
    waits.chain(reasons).chain(WANTED.split(['|', '\n']).map(|what| what.trim().to_string())).collect()
}

fn waited(wait: &str, receipt: &str) -> String {
    format!("cancelled {wait} ms after receipt, {receipt}")
}

fn instead_of(reason: u8, in_time: bool) -> String {
    format!("cancelled {}, else reason {reason}", if in_time { "in time" } else { "late" })
}

/// A Satisfaction Order and its cancellation.
struct Asked {
    from: usize,
    initiator: Option<usize>,
    received: Moment,
    cancelled: Option<Moment>,
    /// Cancelled, but as priced for a block that was none.
    no_block: bool,
}

#[derive(Default)]
struct Orders {
    initiators: Vec<Option<usize>>,
    asked: Vec<Asked>,
    time: u32,
}

impl Watcher for Orders {
    fn record(&mut self, record: Plain<&[u32]>) {
        self.time += record.milliseconds;
    }

    fn home_trade(&mut self, _at: Moment, _market: &Market, trade: &HomeTrade) {
        self.initiators.push(trade.initiator);
    }

    fn satisfaction_order(&mut self, at: Moment, order: &Satisfaction) {
        let (from, initiator) = (order.from, self.initiators[order.trade]);
        self.asked.push(Asked { from, initiator, received: at, cancelled: None, no_block: false });
    }

    fn cancellation(&mut self, at: Moment, cancellation: &Cancellation) {
        self.asked[cancellation.order].cancelled = Some(at);
    }

    fn no_block(&mut self, _at: Moment, no_block: &NoBlock) {
        self.asked[no_block.order].no_block = true;
    }
}

impl Orders {
    fn of(journal: &[u8]) -> Orders {
        let mut orders = Orders::default();
        let (header, reader) = open(journal).expect("the journal was accepted");
        walk(&header, reader, &mut orders).expect("the journal was accepted");
        orders
    }
}

/// Writes every record but the cancellations; each keeps its time.
struct WithoutCancellations {
    bytes: Vec<u8>,
    waited: u32,
}

impl Watcher for WithoutCancellations {
    fn record(&mut self, record: Plain<&[u32]>) {
        self.waited += record.milliseconds;
        if record.kind != kind::CANCELLATION {
            let mut written = [0; Plain::MOST_BYTES];
            let end = Plain { milliseconds: self.waited, ..record }.put(&mut written);
            self.bytes.extend_from_slice(&written[..end]);
            self.waited = 0;
        }
    }
}

/// An accepted journal that has cancellations, in three ways.
pub struct Cancelled<'h> {
    orders: Orders,
    /// As it is.
    desk: Desk<'h>,
    /// If no cancellation counted.
    pub without: Desk<'h>,
    /// If late ones counted as those in time.
    pub with_late: Desk<'h>,
}

impl<'h> Cancelled<'h> {
    pub fn of(header: &'h Header, journal: &[u8]) -> Option<Cancelled<'h>> {
        let orders = Orders::of(journal);
        orders.asked.iter().find(|asked| asked.cancelled.is_some())?;
        let mut written = [0; Header::MOST_BYTES];
        let end = header.put(&mut written);
        let mut without = WithoutCancellations { bytes: written[..end].to_vec(), waited: 0 };
        let (_, reader) = open(journal).expect("the journal was accepted");
        walk(header, reader, &mut without).expect("the journal was accepted");
        let mut with_late = desk_after(header, journal);
        for (line, asked) in with_late.lines.iter_mut().zip(&orders.asked) {
            if asked.cancelled.is_some() {
                line.cancel_in_time();
            }
        }
        let (desk, without) = (desk_after(header, journal), desk_after(header, &without.bytes));
        Some(Cancelled { orders, desk, without, with_late })
    }

    pub fn is_cancelled(&self, order: usize) -> bool {
        self.orders.asked[order].cancelled.is_some()
    }

    /// Whether the order was cancelled in time, if it was cancelled.
    fn in_time(&self, order: usize) -> Option<bool> {
        let cancelled = self.orders.asked[order].cancelled?;
        Some(cancelled.time <= self.desk.lines[order].last_cancellation)
    }

    pub fn reached(&self) -> Vec<String> {
        let mut reached = Vec::new();
        for order in 0..self.desk.lines.len() {
            if let Some(in_time) = self.in_time(order) {
                reached.push(instead_of(self.without.lines[order].reason, in_time));
                self.reached_by_order(order, &mut reached);
            }
        }
        for trade in &self.desk.trades {
            reached.extend(self.reached_by_trade(trade));
        }
        reached
    }

    /// How long the order had waited, where that decides on its reason.
    fn reached_by_order(&self, order: usize, reached: &mut Vec<String>) {
        let Asked { received, cancelled: Some(cancelled), .. } = self.orders.asked[order] else {
            return;
        };
        if order + 1 == Satisfaction::MOST {
            reached.push("the 512th order cancelled".into());
        }
        if !self.without.lines[order].gives_way_to_cancellation() {
            return;
        }
        let near_close = self.desk.header.close - Time::NEAR_CLOSE;
        let receipt = (received.time + 2).saturating_sub(near_close).min(3) as usize;
        let wait = cancelled.time - received.time;
        if let Some((_, wait)) = WAITS.iter().find(|(limit, _)| *limit == wait) {
            reached.push(waited(wait, RECEIPTS[receipt]));
        }
        reached.extend(so(&[
            (wait == 0, "cancelled in the millisecond of its receipt"),
            (cancelled.event > received.event + 1, "cancelled after other records"),
        ]));
    }

    /// What became of a trade that has a claim less.
    fn reached_by_trade(&self, trade: &Trade) -> Vec<String> {
        let [claims, without] = [&self.desk, &self.without].map(|desk| sum_of_claims(desk, trade));
        let shared_out = trade.due_total(claims) < claims;
        let was_shared_out = trade.due_total(without) < without;
        let some_left = claims < without && claims > 0;
        so(&[
            (some_left && shared_out, "trade shared out, a claim cancelled"),
            (some_left && was_shared_out && !shared_out, "trade shared out no more, a claim cancelled"),
            (claims == 0 && without > 0, "trade with every claim cancelled"),
            (some_left && !trade.larger_than_firm, "trade within firm size, a claim cancelled"),
            (shared_out && self.is_larger_by_cancelled(trade), LARGER_BY_CANCELLED),
            (some_left && trade.in_closing_window, "trade at the close, a claim cancelled"),
            (claims < without && trade.block, "block, a claim cancelled"),
        ])
    }

    /// The trade is within the firm size of every exchange traded through whose claim was not cancelled.
    fn is_larger_by_cancelled(&self, trade: &Trade) -> bool {
        let lines = || trade.lines().iter().map(|&line| line as usize);
        let is_gone = |exchange| lines().any(|line| self.is_14(line) && self.orders.asked[line].from == exchange);
        let is_within = |exchange| trade.size <= self.desk.header.customer_firm_size(exchange);
        let mut exchanges = 0..self.desk.header.exchanges as usize;
        exchanges.all(|exchange| !trade.is_traded_through(exchange) || is_gone(exchange) || is_within(exchange))
    }

    /// What a sheet makes of the cancellations, accepted or refused.
    pub fn reached_by_sheet(&self, sheet: &[u8], no: u32, place: usize) -> Vec<String> {
        let given = numbers(sheet);
        match no {
            0 => self.reached_by_good_sheet(),
            22 => self.reached_by_reason(place, given[3 * place]),
            24 => so(&[(self.is_14(place), "sheet refused, filled though cancelled")]),
            25 => self.reached_by_total(&self.desk.trades[place], &given),
            26 => {
                let fewer = self.desk.trades[place].lines().iter().any(|&line| self.is_14(line as usize));
                so(&[(fewer, "sheet refused, shares of those not cancelled")])
            }
            _ => vec![],
        }
    }

    fn is_14(&self, order: usize) -> bool {
        self.desk.lines[order].reason == reason::INITIATOR_NAMED
    }

    fn reached_by_good_sheet(&self) -> Vec<String> {
        let claimed: Vec<usize> =
            (0..self.desk.lines.len()).filter(|&order| self.without.lines[order].claim > 0).collect();
        let any = |in_time| claimed.iter().any(|&order| self.in_time(order) == Some(in_time));
        so(&[
            (any(true), "sheet accepted, a claim cancelled in time"),
            (any(false), "sheet accepted, a claim cancelled late"),
        ])
    }

    fn reached_by_reason(&self, order: usize, given: u32) -> Vec<String> {
        let as_if_not = given == self.without.lines[order].reason as u32;
        let given_14 = given == reason::INITIATOR_NAMED as u32;
        so(&[
            (self.is_14(order) && as_if_not, "sheet refused, reason as if not cancelled"),
            (given_14 && self.in_time(order) == Some(false), "sheet refused, 14 for a late cancellation"),
            (given_14 && self.in_time(order) == Some(true), "sheet refused, 14 in place of an earlier reason"),
        ])
    }

    /// The others filled with what is theirs beside a claim that was cancelled, or all with the total that is due without
    /// one that was cancelled late.
    fn reached_by_total(&self, trade: &Trade, given: &[u32]) -> Vec<String> {
        let lines = || trade.lines().iter().map(|&line| line as usize);
        let filled = |line| given[3 * line + 1];
        let fills = own_fills(&self.without);
        let beside = lines().all(|line| filled(line) == if self.is_14(line) { 0 } else { fills[line] });
        let due_without_late = trade.due_total(sum_of_claims(&self.with_late, trade));
        let is_that = lines().map(filled).sum::<u32>() == due_without_late;
        so(&[
            (beside, "sheet refused, others filled as if not cancelled"),
            (is_that, "sheet refused, due total without a claim cancelled late"),
        ])
    }
}

/// What is so.
pub fn so(all: &[(bool, &str)]) -> Vec<String> {
    all.iter().filter(|(is_so, _)| *is_so).map(|(_, what)| what.to_string()).collect()
}

/// All numbers up to one that can't be read.
pub fn numbers(bytes: &[u8]) -> Vec<u32> {
    let mut reader = Reader::new(bytes);
    std::iter::from_fn(|| reader.number().ok()).collect()
}

/// Why a journal is refused 5 or 7 at a cancellation, where one thing alone is wrong with it.
pub fn reached_by_refusal(journal: &[u8], no: u32, place: usize) -> Option<String> {
    let [kind::CANCELLATION, milliseconds, order, named, ..] = numbers(&journal[place..])[..] else {
        return None;
    };
    let (header, _) = open(journal).ok()?;
    let orders = Orders::of(&journal[..place]);
    let why = match no {
        5 => out_of_range(&header, orders.time + milliseconds <= Time::LAST, named),
        _ => match orders.asked.get(order as usize) {
            None if orders.asked.is_empty() => Some("no order so far"),
            None => Some("unknown order"),
            Some(Asked { no_block: true, initiator, .. }) => {
                (*initiator == Some(named as usize - 1)).then_some("second after one as no block")
            }
            Some(Asked { cancelled: None, initiator, from, .. }) => not_named(&header, *initiator, *from, named),
            Some(Asked { initiator, .. }) if *initiator != Some(named as usize - 1) => None,
            Some(_) => match Cancelled::of(&header, &journal[..place])?.in_time(order as usize)? {
                true => Some("second after one in time"),
                false => Some("second after a late one"),
            },
        },
    };
    why.map(|why| format!("cancellation refused, {why}"))
}

fn out_of_range(header: &Header, in_the_day: bool, named: u32) -> Option<&'static str> {
    match in_the_day {
        true if named == 0 => Some("exchange 0"),
        true => Some("exchange above N"),
        false => header.is_exchange(named).then_some("past the day"),
    }
}

fn not_named(header: &Header, initiator: Option<usize>, from: usize, named: u32) -> Option<&'static str> {
    Some(match named {
        _ if initiator.is_none() => "trade without initiator",
        _ if named == header.home => "home named",
        _ if named as usize - 1 == from => "sender named",
        _ => "another than the initiator",
    })
}
