//! What the questions of a run have reached, by the right answers.

use super::batched;
use super::cancelled::{self, Cancelled};
use super::followed;
use super::placed::Placed;
use super::sent_again::{self, SentAgain};
use super::sheets::{accepted_header, desk_after};
use crate::alone::Plain;
use crate::ask::{Answer, Question, op, word_at};
use crate::claims::{Desk, Line, Trade, reason};
use crate::event::{HomeTrade, Order, Satisfaction};
use crate::header::Header;
use crate::journal::{Journal, Moment, Watcher, open, walk};
use crate::market::Market;
use crate::record::kind;
use crate::sheet;
use crate::time::Time;
use std::cmp::Ordering;
use std::collections::BTreeMap;
use std::ops::RangeInclusive;

/// All that a run should reach beside the numbered ones.
const WANTED: &str = "
    Q clear|Q locked, home's bid|Q locked, home's offer|Q crossed, home's bid|Q crossed, home's offer
    R none, reason 1|R none, reason 2|R none, reason 3|R none, reason 4|R whole|R at least|T block|block with a claim
    trade above firm size, shared out|trade above firm size, claims within it
    trade within firm size, claims above it
    journal with 128 trades|journal with 256 sent orders|journal with 512 Satisfaction Orders
    journal of 32,768 bytes|journal with 8,000 records or more
    sheet accepted, our own|sheet accepted, another
    record not written alone, 7 fields|record not written alone, 227 fields
    list of more than 4,096 lines
    closing record accepted|closing record refused, a second|closing record refused, past the day
    closing record in the millisecond of a trade before it
    closing record in the millisecond of a trade after it
    closing record read alone|closing record read alone, more than its own given
    closing record read alone, unreadable|closing record read alone, past the day
    closing record written alone|closing record written alone, more than its own given
    closing record written alone, past the day
    cancellation read alone|cancellation read alone, more than its own given
    cancellation read alone, unreadable|cancellation read alone, past the day
    cancellation read alone, field out of range
    cancellation written alone|cancellation written alone, more than its own given
    cancellation written alone, past the day|cancellation written alone, field out of range
    no-block record read alone|no-block record read alone, more than its own given
    no-block record read alone, unreadable|no-block record read alone, past the day
    no-block record written alone|no-block record written alone, more than its own given
    no-block record written alone, past the day|no-block record written alone, field out of range
    claim at the close limited to ten|claim at the close of ten as it is|claim at the close below ten
    claim above ten before the closing record|claim above ten before the closing record, asked after it
    trade at the close, limited claims shared out|trade at the close, limited claims all due
    sheet refused, above the limit at the close
    output with just enough room|output with one byte to spare|output one byte too short";

fn wanted() -> impl Iterator<Item = String> {
    let numbered = |what: &'static str, numbers: &[RangeInclusive<u32>]| {
        let numbers: Vec<u32> = numbers.iter().cloned().flatten().collect();
        numbers.into_iter().map(move |number| format!("{what} {number}"))
    };
    numbered("answer", &[0..=9, 20..=22, 24..=26, 98..=99])
        .chain(numbered("F reason", &[0..=0, 2..=15]))
        .chain(numbered("S", &[0..=2]))
        .chain(numbered("T through", &[0..=7]))
        .chain(WANTED.split(['|', '\n']).map(|what| what.trim().to_string()))
        .chain(cancelled::wanted())
        .chain(sent_again::wanted())
        .chain(followed::wanted())
        .chain(batched::wanted())
        .filter(|what| !what.is_empty())
}

/// Where the closing record stands among the others of a journal.
#[derive(Default)]
struct Closing {
    records: usize,
    begun: Option<u32>,
    last_trade: Option<u32>,
    with_trade_before: bool,
    with_trade_after: bool,
    /// For each Satisfaction Order, whether it came after the closing record.
    asked_after: Vec<bool>,
}

impl Watcher for Closing {
    fn record(&mut self, _record: Plain<&[u32]>) {
        self.records += 1;
    }

    fn home_trade(&mut self, at: Moment, _market: &Market, _trade: &HomeTrade) {
        self.with_trade_after |= self.begun == Some(at.time);
        self.last_trade = Some(at.time);
    }

    fn satisfaction_order(&mut self, _at: Moment, _order: &Satisfaction) {
        self.asked_after.push(self.begun.is_some());
    }

    fn closing_window(&mut self, at: Moment) {
        self.with_trade_before = self.last_trade == Some(at.time);
        self.begun = Some(at.time);
    }
}

impl Closing {
    fn of(journal: &[u8]) -> Closing {
        let mut closing = Closing::default();
        let (header, reader) = open(journal).expect("the journal was accepted");
        walk(&header, reader, &mut closing).expect("the journal was accepted");
        closing
    }

    /// What a line with reason 0 says of the limit at the close.
    fn limit_on(&self, trade: &Trade, line: &Line, asked_after: bool) -> Option<&'static str> {
        let unlimited = trade.claim_without_limit(line.size, line.customers);
        match (trade.in_closing_window, unlimited.cmp(&Line::MOST_CLAIM_AT_CLOSE)) {
            (true, Ordering::Greater) => Some("claim at the close limited to ten"),
            (true, Ordering::Equal) => Some("claim at the close of ten as it is"),
            (true, Ordering::Less) => Some("claim at the close below ten"),
            (false, Ordering::Greater) if asked_after => Some(ASKED_AFTER),
            (false, Ordering::Greater) if self.begun.is_some() => Some("claim above ten before the closing record"),
            _ => None,
        }
    }
}

const ASKED_AFTER: &str = "claim above ten before the closing record, asked after it";

#[derive(Default)]
pub struct Coverage {
    counts: BTreeMap<String, u64>,
    placed: Placed,
}

impl Coverage {
    fn count(&mut self, what: impl Into<String>) {
        *self.counts.entry(what.into()).or_default() += 1;
    }

    fn count_all(&mut self, all: impl IntoIterator<Item = String>) {
        for what in all {
            self.count(what);
        }
    }

    pub fn note(&mut self, question: &Question, answer: &Answer) {
        self.count(format!("answer {}", answer.no));
        match (question.op, answer.no) {
            (op::READ_RECORD, 3 | 98) => {}
            (op::READ_RECORD, _) => self.placed.note_alone(&question.b),
            (op::JOURNAL..=op::TOTALS | op::REWRITE, _) => self.placed.note_journal(&question.a),
            _ => {}
        }
        if (op::JOURNAL..=op::TOTALS).contains(&question.op) {
            match accepted_header(&question.a) {
                Some(header) => self.note_journal(&header, &question.a),
                None => self.note_refused(question, answer),
            }
        }
        if question.op == op::CHECK {
            self.note_sheet(question, answer);
        }
        match (question.op, answer.no) {
            (op::CHECK, 0) => self.note_good_sheet(question),
            (op::CHECK, 24) => self.note_fill_above_claim(question, answer),
            (op::DAY, 0) => {
                self.note_list(&answer.bytes);
                self.count_all(followed::reached(&question.a));
            }
            (op::WRITE_RECORD, 98) => self.note_fields(question),
            (op::READ_RECORD, 98) => {}
            (op::WRITE_RECORD | op::READ_RECORD, _) => self.note_record_alone(question, answer),
            _ => {}
        }
        if matches!(question.op, op::DAY | op::SHEET | op::WRITE_HEADER | op::WRITE_RECORD | op::REWRITE) {
            self.note_room(question, answer);
        }
    }

    fn note_room(&mut self, question: &Question, answer: &Answer) {
        let written = answer.bytes.len() as u32;
        let longer = Question { cap: question.cap + 1, ..question.clone() };
        let enough = answer.no == 0 && written > 0 && question.cap == written;
        let too_short = answer.no == 9 && longer.answer().no == 0;
        if enough {
            self.count("output with just enough room");
        } else if answer.no == 0 && question.cap == written + 1 {
            self.count("output with one byte to spare");
        } else if too_short {
            self.count("output one byte too short");
        }
        if question.op == op::WRITE_RECORD && (enough || too_short) {
            self.count_all(batched::reached_by_room(&words_after_header(question), enough));
        }
    }

    /// A journal refused at its closing record, at a cancellation, at a Satisfaction Order or at a batch.
    fn note_refused(&mut self, question: &Question, answer: &Answer) {
        let place = answer.place as usize;
        if matches!(answer.no, 1 | 2 | 5 | 6) {
            self.count_all(batched::reached_by_refusal(&question.a, answer.no, place));
        }
        match (question.a.get(place).map(|&byte| byte as u32), answer.no) {
            (Some(kind::CLOSING_WINDOW), 5) => self.count("closing record refused, past the day"),
            (Some(kind::CLOSING_WINDOW), 7) => self.count("closing record refused, a second"),
            (Some(kind::CANCELLATION), 5 | 7) => {
                self.count_all(cancelled::reached_by_refusal(&question.a, answer.no, place));
            }
            (Some(kind::NO_BLOCK), 5 | 7) => {
                self.count_all(sent_again::reached_by_no_block(&question.a, answer.no, place));
            }
            (Some(kind::SATISFACTION_ORDER), 7 | 8) => {
                self.count_all(sent_again::reached_by_claim(&question.a, answer.no, place));
            }
            _ => {}
        }
    }

    /// A record to be written with a field too few, or with one too many, for any record.
    fn note_fields(&mut self, question: &Question) {
        for fields in [Plain::FEWEST_FIELDS - 1, Plain::MOST_FIELDS + 1] {
            if question.a.len() == 4 * (Header::NUMBERS + 3 + fields) {
                self.count(format!("record not written alone, {fields} fields"));
            }
        }
    }

    /// A closing record, a cancellation of either kind or a batch alone, read or written.
    fn note_record_alone(&mut self, question: &Question, answer: &Answer) {
        let words = words_after_header(question);
        let is_read = question.op == op::READ_RECORD;
        let used = match (answer.no, is_read) {
            (0, true) => word_at(&answer.bytes, 0) as usize,
            _ => answer.bytes.len(),
        };
        let header = Header::of_numbers(&std::array::from_fn(|at| word_at(&question.a, 4 * at)));
        let read = is_read.then_some(&question.b[..]);
        let place = answer.place as usize;
        self.count_all(batched::reached_alone(&header, &words, read, answer.no, place, used));
        let numbers = if is_read { cancelled::numbers(&question.b) } else { words[1..].to_vec() };
        let (kind, own) = match numbers.first() {
            Some(&kind::CLOSING_WINDOW) => ("closing record", 2),
            Some(&kind::CANCELLATION) => ("cancellation", 4),
            Some(&kind::NO_BLOCK) => ("no-block record", 3),
            _ => return,
        };
        let past_the_day = || words[0] as u64 + numbers[1] as u64 > Time::LAST as u64;
        let beyond = || match is_read {
            true => question.b.len() > used,
            false => numbers[own..].iter().any(|&field| field != 0),
        };
        let how = match answer.no {
            0 if beyond() => ", more than its own given",
            0 => "",
            2 => ", unreadable",
            5 if past_the_day() => ", past the day",
            5 => ", field out of range",
            _ => return,
        };
        let what = if is_read { "read" } else { "written" };
        self.count(format!("{kind} {what} alone{how}"));
    }

    /// What a sheet makes of the cancellations, and of what is sent again.
    fn note_sheet(&mut self, question: &Question, answer: &Answer) {
        let Some(header) = accepted_header(&question.a) else {
            return;
        };
        let place = answer.place as usize;
        if let Some(cancelled) = Cancelled::of(&header, &question.a) {
            self.count_all(cancelled.reached_by_sheet(&question.b, answer.no, place));
        }
        if let Some(sent_again) = SentAgain::of(&header, &question.a) {
            self.count_all(sent_again.reached_by_sheet(&question.b, answer.no, place));
        }
    }

    fn note_journal(&mut self, header: &Header, journal: &[u8]) {
        let desk = desk_after(header, journal);
        let closing = Closing::of(journal);
        let limits = [
            (desk.trades.len() == HomeTrade::MOST, "journal with 128 trades"),
            (desk.sent_orders() as usize == Order::MOST_SENT, "journal with 256 sent orders"),
            (desk.lines.len() == Satisfaction::MOST, "journal with 512 Satisfaction Orders"),
            (journal.len() == Journal::MOST_BYTES, "journal of 32,768 bytes"),
            (closing.records >= 8_000, "journal with 8,000 records or more"),
            (closing.begun.is_some(), "closing record accepted"),
            (closing.with_trade_before, "closing record in the millisecond of a trade before it"),
            (closing.with_trade_after, "closing record in the millisecond of a trade after it"),
        ];
        for (_, limit) in limits.into_iter().filter(|(reached, _)| *reached) {
            self.count(limit);
        }
        self.count_all(Cancelled::of(header, journal).iter().flat_map(Cancelled::reached));
        self.count_all(SentAgain::of(header, journal).iter().flat_map(SentAgain::reached));
        self.count_all(batched::reached(header, journal));
        self.note_trades(&desk);
        for trade in &desk.trades {
            self.note_limit(&desk, trade, &closing);
        }
    }

    /// The limit at the close on the claims of a trade.
    fn note_limit(&mut self, desk: &Desk, trade: &Trade, closing: &Closing) {
        let (mut sum, mut limited) = (0, false);
        for &at in trade.lines() {
            let line = &desk.lines[at as usize];
            if line.reason == reason::NONE {
                sum += line.claim;
                limited |= line.claim < trade.claim_without_limit(line.size, line.customers);
                if let Some(what) = closing.limit_on(trade, line, closing.asked_after[at as usize]) {
                    self.count(what);
                }
            }
        }
        if limited && trade.due_total(sum) < sum {
            self.count("trade at the close, limited claims shared out");
        } else if limited {
            self.count("trade at the close, limited claims all due");
        }
    }

    fn note_trades(&mut self, desk: &Desk) {
        for trade in &desk.trades {
            let claims: u32 = trade.lines().iter().map(|&line| desk.lines[line as usize].claim).sum();
            if trade.larger_than_firm && claims > trade.size {
                self.count("trade above firm size, shared out");
            } else if trade.larger_than_firm && claims > 0 {
                self.count("trade above firm size, claims within it");
            } else if claims > trade.size {
                self.count("trade within firm size, claims above it");
            }
            if trade.block && claims > 0 {
                self.count("block with a claim");
            }
        }
    }

    fn note_good_sheet(&mut self, question: &Question) {
        let mut own = vec![0; sheet::Sheet::MOST_BYTES];
        let written = sheet::write(&question.a, &mut own);
        let is_own = written.is_ok_and(|end| own[..end] == question.b);
        self.count(if is_own { "sheet accepted, our own" } else { "sheet accepted, another" });
    }

    /// A sheet refused for a fill above a claim that the limit at the close has made smaller.
    fn note_fill_above_claim(&mut self, question: &Question, answer: &Answer) {
        let header = accepted_header(&question.a).expect("a journal refused has no 24");
        let desk = desk_after(&header, &question.a);
        let line = &desk.lines[answer.place as usize];
        let trade = desk.trades.iter().find(|trade| trade.lines().contains(&(answer.place as u16)));
        let unlimited = trade.map(|trade| trade.claim_without_limit(line.size, line.customers));
        if line.reason == reason::NONE && unlimited > Some(line.claim) {
            self.count("sheet refused, above the limit at the close");
        }
    }

    fn note_list(&mut self, text: &[u8]) {
        if text.iter().filter(|&&byte| byte == b'\n').count() > 4_096 {
            self.count("list of more than 4,096 lines");
        }
        for line in String::from_utf8_lossy(text).lines().skip(1) {
            let words: Vec<&str> = line.split(' ').collect();
            let [_, what, a, b, c] = words[..] else {
                continue;
            };
            match what {
                "Q" => self.count(quote_verdict(a, c)),
                "S" => self.count(format!("S {a}")),
                "R" => self.count(match a {
                    "0" => format!("R none, reason {c}"),
                    "1" => "R whole".into(),
                    _ => "R at least".into(),
                }),
                "T" => self.count(format!("T through {b}")),
                _ => self.count(format!("F reason {a}")),
            }
            if what == "T" && c == "1" {
                self.count("T block");
            }
        }
    }

    /// Prints what was reached how often, beside the answers' numbers, and answers what was not.
    pub fn print(&self) -> Vec<String> {
        for (what, count) in self.counts.iter().filter(|(what, _)| !what.starts_with("answer")) {
            println!("{what:60} {count:9}");
        }
        let missing = self.placed.print();
        wanted().filter(|what| !self.counts.contains_key(what)).chain(missing).collect()
    }
}

/// The numbers of a question about one record that follow the header's.
fn words_after_header(question: &Question) -> Vec<u32> {
    (4 * Header::NUMBERS..question.a.len()).step_by(4).map(|at| word_at(&question.a, at)).collect()
}

fn quote_verdict(verdict: &str, side: &str) -> &'static str {
    match (verdict, side) {
        ("0", _) => "Q clear",
        ("1", "1") => "Q locked, home's bid",
        ("1", _) => "Q locked, home's offer",
        (_, "1") => "Q crossed, home's bid",
        _ => "Q crossed, home's offer",
    }
}
