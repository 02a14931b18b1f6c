//! What becomes of the orders received after an initial execution, for the tables of what was reached.

use super::cancelled::so;
use crate::event::{Order, Quote, SIDES, Side, Status};
use crate::header::{Exchanges, Header};
use crate::journal::{Moment, Watcher, open, walk};
use crate::market::{Duty, Market};
use crate::periods::{Period, Periods};
use crate::time::Time;

/// How long after the initial execution an order comes, where that decides.
const WAITS: [(u32, &str); 5] = [
    (0, "at once"),
    (15_000, "15,000 ms later"),
    (15_001, "15,001 ms later"),
    (60_000, "60,000 ms later"),
    (60_001, "60,001 ms later"),
];

/// What home has quoted since, on the side of the initial execution in its series.
const QUOTED: [&str; 7] = [
    "no quote since",
    "the same price quoted again",
    "another price, the best",
    "another price, not the best",
    "no price",
    "the old price back, the best",
    "the old price back, not the best",
];

/// What a further order comes to that has none of the reasons 1, 2 and 3.
const JUDGED: [&str; 5] = [REASON_4, BETWEEN, EXCEPTED, AFTER_QUOTE, AFTER_ALL];

const REASON_4: &str = "reason 4";
const BETWEEN: &str = "answered between the limits";
const EXCEPTED: &str = "as a first by the exception";
const AFTER_QUOTE: &str = "as a first after another quote";
const AFTER_ALL: &str = "as a first after 60 seconds";

/// What is so of such an order.
const OF_ORDER: [&str; 8] = [
    "below the principal size",
    "at the principal size",
    "above the principal size",
    "same series and side",
    "the other side",
    "another series",
    "initial execution at home's bid",
    "initial execution at home's offer",
];

/// What has come since the initial execution or before it and does not count, no quote having come that does.
const NOT_COUNTED: [&str; 6] = [
    "the other side quoted otherwise",
    "another series quoted otherwise",
    "an away quote",
    "another price before",
    "home's price better than the first order's",
    "a P/A order executed whole",
];

const WANTED: &str = "
    second order, the price of the first order quoted since
    period in the old one's place, by the exception|period in the old one's place, after another quote
    period in the old one's place, after 60 seconds
    second order reason 4, by the period in the old one's place
    second order answered between the limits, by the period in the old one's place
    order in part by the exception, then reason 4 by the old period
    order in part, then as a first|P/A order executed whole, then as a first
    order answered whole between the limits, then as a first
    another sender's first order within 15 seconds
    one quote for the periods of two senders|one quote for the period of one sender of two
    P/A order within 15 seconds, whole|P/A order within 15 seconds, in part
    P/A order between the limits, whole|P/A order between the limits, in part
    reason 1 within 15 seconds|reason 2 within 15 seconds|reason 3 within 15 seconds
    reason 1 between the limits|reason 2 between the limits|reason 3 between the limits
    second order reason 4, home in rotation|second order answered between the limits, home in rotation";

pub fn wanted() -> Vec<String> {
    let waits = WAITS.into_iter().flat_map(|(_, wait)| QUOTED.map(|quoted| waited(wait, quoted)));
    let judged = JUDGED.into_iter().flat_map(|judged| OF_ORDER.map(|what| judged_so(judged, what)));
    let kept = [REASON_4, BETWEEN].into_iter().flat_map(|judged| NOT_COUNTED.map(|what| kept(judged, what)));
    let named = WANTED.split(['|', '\n']).map(|what| what.trim().to_string());
    waits.chain(judged).chain(kept).chain(named).collect()
}

fn waited(wait: &str, quoted: &str) -> String {
    format!("second order {wait}, {quoted}")
}

fn judged_so(judged: &str, what: &str) -> String {
    format!("second order {judged}, {what}")
}

fn kept(judged: &str, what: &str) -> String {
    format!("second order {judged}, though {what}")
}

/// What a sender has sent, and what has been quoted since its period began.
#[derive(Clone, Default)]
struct Sender {
    /// Home's prices on the side of the initial execution in its series.
    prices: Vec<u32>,
    other_side: bool,
    other_series: bool,
    away_quote: bool,
    /// Home had shown another price there before.
    price_before: bool,
    /// Of the order that was executed.
    order_price: u32,
    /// When the period began whose place this one took.
    in_place_of: Option<u32>,
    /// By the exception an order was judged as a first one, and not executed whole.
    left_by_one_in_part: bool,
    /// When the last order of each sort came.
    in_part: Option<u32>,
    answered_between: Option<u32>,
    pa_whole: Option<u32>,
}

/// Follows the periods and notes what each order and quote reaches.
struct Followed<'h> {
    header: &'h Header,
    periods: Periods,
    /// As it was before the quote that is shown.
    market: Market,
    /// The series and sides where home has given up a price for another, or for none.
    varied: Vec<(usize, Side)>,
    senders: [Sender; Exchanges::MOST as usize],
    reached: Vec<String>,
}

/// What the orders of a list that was written reach.
pub fn reached(journal: &[u8]) -> Vec<String> {
    let (header, reader) = open(journal).expect("the journal was accepted");
    let mut followed = Followed {
        header: &header,
        periods: Periods::default(),
        market: Market::default(),
        varied: Vec::new(),
        senders: Default::default(),
        reached: Vec::new(),
    };
    walk(&header, reader, &mut followed).expect("the journal was accepted");
    followed.reached
}

fn is_soon(time: u32, then: Option<u32>) -> bool {
    then.is_some_and(|then| time - then <= Time::NO_SECOND_ORDER)
}

/// Which of the answers to a second order it is.
fn judged(period: &Period, waited: u32, duty: Duty) -> &'static str {
    match duty {
        Duty::None { .. } => REASON_4,
        _ if waited <= Time::NO_SECOND_ORDER => EXCEPTED,
        _ if waited > Time::SECOND_ORDER_IN_PART => AFTER_ALL,
        _ if period.quoted_otherwise => AFTER_QUOTE,
        _ => BETWEEN,
    }
}

fn is_as_first(judged: &str) -> bool {
    !matches!(judged, REASON_4 | BETWEEN)
}

impl Watcher for Followed<'_> {
    fn quote(&mut self, at: Moment, _market: &Market, quote: &Quote) {
        let home = self.home();
        for side in SIDES {
            let (shown, before) = (quote.prices[side as usize], self.market.price(quote.exchange, quote.series, side));
            if quote.exchange == home && shown != before && before != 0 {
                self.varied.push((quote.series, side));
            }
        }
        for sender in 0..self.senders.len() {
            self.note_quote(sender, quote);
        }
        if quote.exchange == home {
            self.count_periods_quoted(at.time, quote);
        }
        self.market.quote(quote);
    }

    fn received_order(&mut self, at: Moment, market: &Market, order: &Order) {
        let period = self.periods.of(order.away).copied();
        let as_first = market.duty_as_first(self.header, order);
        let duty = self.periods.duty(self.header, market, at.time, order);
        let has_duty = !matches!(as_first, Duty::None { .. });
        match period {
            Some(period) if !order.principal || !has_duty => self.not_judged_so(&period, at.time, order, as_first),
            Some(period) => self.second_order(&period, at.time, market, order, duty),
            None if order.principal && has_duty => self.first_order(at.time, market, order.away),
            None => {}
        }
        self.remember(period.as_ref(), at.time, order, duty);
    }
}

impl Followed<'_> {
    fn home(&self) -> usize {
        self.header.home as usize - 1
    }

    /// What a quote is to the period of a sender.
    fn note_quote(&mut self, sender: usize, quote: &Quote) {
        let (Some(period), home) = (self.periods.of(sender), self.home()) else {
            return;
        };
        let changed = |side: Side| quote.prices[side as usize] != self.market.price(quote.exchange, quote.series, side);
        let other_side = SIDES[1 - period.side as usize];
        let since = &mut self.senders[sender];
        if quote.exchange != home {
            since.away_quote |= quote.series == period.series && changed(period.side);
        } else if quote.series == period.series {
            since.prices.push(quote.prices[period.side as usize]);
            since.other_side |= changed(other_side);
        } else {
            since.other_series |= changed(period.side);
        }
    }

    /// Hands the quote on, and sees whose periods it is a later quote for that gives another price.
    fn count_periods_quoted(&mut self, time: u32, quote: &Quote) {
        let standing = |periods: &Periods| {
            let all = (0..Exchanges::MOST as usize).filter_map(|sender| periods.of(sender).copied());
            all.filter(|period| time - period.began <= Time::SECOND_ORDER_IN_PART && !period.quoted_otherwise).count()
        };
        let before = standing(&self.periods);
        self.periods.home_quote(quote);
        let after = standing(&self.periods);
        self.reached.extend(so(&[
            (before >= after + 2, "one quote for the periods of two senders"),
            (before == after + 1 && after > 0, "one quote for the period of one sender of two"),
        ]));
    }

    /// An order with a reason of 1, 2 and 3, or a P/A order, while a period lasts.
    fn not_judged_so(&mut self, period: &Period, time: u32, order: &Order, duty: Duty) {
        let when = match time - period.began {
            ..=Time::NO_SECOND_ORDER => "within 15 seconds",
            ..=Time::SECOND_ORDER_IN_PART if !period.quoted_otherwise => "between the limits",
            _ => return,
        };
        match duty {
            Duty::None { reason } if order.principal => self.reached.push(format!("reason {reason} {when}")),
            Duty::None { .. } => {}
            Duty::Whole { .. } => self.reached.push(format!("P/A order {when}, whole")),
            Duty::AtLeast { .. } => self.reached.push(format!("P/A order {when}, in part")),
        }
    }

    /// A principal order of a sender that has no period.
    fn first_order(&mut self, time: u32, market: &Market, sender: usize) {
        let mut others = (0..self.senders.len()).filter(|&other| other != sender);
        let stands = |period: &Period| {
            let excepted = period.quoted_otherwise && period.best_price_stands(self.header, market);
            time - period.began <= Time::NO_SECOND_ORDER && !excepted
        };
        let another = others.any(|other| self.periods.of(other).is_some_and(stands));
        let Sender { in_part, pa_whole, .. } = self.senders[sender];
        self.reached.extend(so(&[
            (another, "another sender's first order within 15 seconds"),
            (is_soon(time, in_part), "order in part, then as a first"),
            (is_soon(time, pa_whole), "P/A order executed whole, then as a first"),
        ]));
    }

    /// What stands on the side of the initial execution in its series, by the quotes since.
    fn quoted(&self, period: &Period, market: &Market, sender: usize) -> &'static str {
        let prices = &self.senders[sender].prices;
        let shown = market.price(self.home(), period.series, period.side);
        let not_best = !period.best_price_stands(self.header, market) as usize;
        match shown {
            _ if prices.is_empty() => QUOTED[0],
            _ if prices.iter().all(|&price| price == period.price) => QUOTED[1],
            0 => QUOTED[4],
            _ if shown == period.price => QUOTED[5 + not_best],
            _ => QUOTED[2 + not_best],
        }
    }

    /// A principal order of a sender that has a period, and none of the reasons 1, 2 and 3.
    fn second_order(&mut self, period: &Period, time: u32, market: &Market, order: &Order, duty: Duty) {
        let wait = time - period.began;
        let judged = judged(period, wait, duty);
        let quoted = self.quoted(period, market, order.away);
        if let Some((_, wait)) = WAITS.iter().find(|(limit, _)| *limit == wait) {
            self.reached.push(waited(wait, quoted));
        }
        let size = order.size.cmp(&self.header.home_principal_size()) as i8 + 1;
        let place = match (order.series == period.series, order.meets == period.side) {
            (true, true) => 3,
            (true, false) => 4,
            (false, _) => 5,
        };
        for what in [size as usize, place, 6 + period.side as usize] {
            self.reached.push(judged_so(judged, OF_ORDER[what]));
        }
        let in_rotation = market.status(self.home()) == Status::ROTATION;
        self.reached.extend(so(&[
            (in_rotation && judged == REASON_4, "second order reason 4, home in rotation"),
            (in_rotation && judged == BETWEEN, "second order answered between the limits, home in rotation"),
        ]));
        self.by_quotes(period, time, order, judged);
        self.by_orders(time, order.away, judged);
    }

    /// What has come since the initial execution, or stood before it, and what that does to the order.
    fn by_quotes(&mut self, period: &Period, time: u32, order: &Order, judged: &str) {
        let sender = &self.senders[order.away];
        let better_than_order = sender.order_price != period.price;
        let not_counted = [
            sender.other_side,
            sender.other_series,
            sender.away_quote,
            sender.price_before,
            better_than_order,
            is_soon(time, sender.pa_whole),
        ];
        if !is_as_first(judged) && !period.quoted_otherwise {
            let so = NOT_COUNTED.iter().zip(not_counted).filter(|(_, is_so)| *is_so);
            self.reached.extend(so.map(|(what, _)| kept(judged, what)));
        }
        if is_as_first(judged) && better_than_order && sender.prices.contains(&sender.order_price) {
            self.reached.push("second order, the price of the first order quoted since".into());
        }
    }

    /// What the orders before it make of it.
    fn by_orders(&mut self, time: u32, sender: usize, judged: &str) {
        let sender = &self.senders[sender];
        let old_ends = |limit: u32| sender.in_place_of.is_some_and(|old| time - old > limit);
        let by_new_one = judged == REASON_4 && old_ends(Time::NO_SECOND_ORDER);
        let between_by_new_one = judged == BETWEEN && old_ends(Time::SECOND_ORDER_IN_PART);
        let by_old_one = judged == REASON_4 && sender.left_by_one_in_part;
        let after_between = judged == AFTER_ALL && is_soon(time, sender.answered_between);
        let as_first = is_as_first(judged);
        self.reached.extend(so(&[
            (by_new_one, "second order reason 4, by the period in the old one's place"),
            (between_by_new_one, "second order answered between the limits, by the period in the old one's place"),
            (by_old_one, "order in part by the exception, then reason 4 by the old period"),
            (as_first && is_soon(time, sender.in_part), "order in part, then as a first"),
            (as_first && is_soon(time, sender.pa_whole), "P/A order executed whole, then as a first"),
            (after_between, "order answered whole between the limits, then as a first"),
        ]));
    }

    /// What the orders that follow this one are told by.
    fn remember(&mut self, before: Option<&Period>, time: u32, order: &Order, duty: Duty) {
        let judged = before.map(|period| judged(period, time - period.began, duty));
        let sender = &mut self.senders[order.away];
        match (order.principal, duty) {
            (false, Duty::Whole { .. }) => sender.pa_whole = Some(time),
            (true, Duty::AtLeast { contracts }) if judged == Some(BETWEEN) => {
                sender.answered_between = Some(time).filter(|_| contracts == order.size);
            }
            (true, Duty::AtLeast { .. }) => {
                sender.in_part = Some(time);
                sender.left_by_one_in_part |= judged == Some(EXCEPTED);
            }
            (true, Duty::Whole { .. }) => self.begin(before, order, judged),
            _ => {}
        }
    }

    /// A period has begun with this order.
    fn begin(&mut self, before: Option<&Period>, order: &Order, judged: Option<&str>) {
        self.reached.extend(so(&[
            (judged == Some(EXCEPTED), "period in the old one's place, by the exception"),
            (judged == Some(AFTER_QUOTE), "period in the old one's place, after another quote"),
            (judged == Some(AFTER_ALL), "period in the old one's place, after 60 seconds"),
        ]));
        self.senders[order.away] = Sender {
            order_price: order.price,
            price_before: self.varied.contains(&(order.series, order.meets)),
            in_place_of: before.map(|period| period.began),
            ..Sender::default()
        };
    }
}
