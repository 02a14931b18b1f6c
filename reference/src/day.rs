//! "The printed day": a list of the verdicts, one line for each event that has one.

use crate::claims::Desk;
use crate::event::{Cancellation, HomeTrade, NoBlock, Order, Quote, Response, Satisfaction};
use crate::header::Header;
use crate::journal::{Moment, Watcher, open, walk};
use crate::market::{Duty, Market};
use crate::periods::Periods;
use crate::refusal::{Refusal, hand_over};
use crate::sheet::own_fills;

/// "The first line is always `event what a b c`."
const FIRST_LINE: &[u8] = b"event what a b c\n";

struct Row {
    event: u32,
    what: u8,
    values: [u32; 3],
}

/// Follows the day and keeps a row for each event that prints; an F row is filled in when the whole journal is read.
struct Day<'h> {
    desk: Desk<'h>,
    periods: Periods,
    rows: Vec<Row>,
}

impl Row {
    /// `8191 F 13 100000 100000` and LF: no journal holds more records, no order more contracts.
    const MOST_WIDTH: usize = 24;

    /// Writes the row as a line ended by LF, and answers the place after it.
    #[inline(always)]
    fn put(&self, text: &mut [u8], place: usize) -> usize {
        let mut end = put_decimal(text, place, self.event);
        text[end] = b' ';
        text[end + 1] = self.what;
        end += 2;
        for value in self.values {
            text[end] = b' ';
            end = put_decimal(text, end + 1, value);
        }
        text[end] = b'\n';
        end + 1
    }
}

#[inline(always)]
fn put_decimal(text: &mut [u8], place: usize, number: u32) -> usize {
    if number < 10 {
        text[place] = b'0' + number as u8;
        return place + 1;
    }
    let end = place + number.ilog10() as usize + 1;
    let mut left = number;
    for digit in text[place..end].iter_mut().rev() {
        *digit = b'0' + (left % 10) as u8;
        left /= 10;
    }
    end
}

impl Day<'_> {
    fn new(header: &Header) -> Day<'_> {
        Day { desk: Desk::new(header), periods: Periods::default(), rows: Vec::with_capacity(1024) }
    }

    fn print(&mut self, at: Moment, what: u8, values: [u32; 3]) {
        self.rows.push(Row { event: at.event, what, values });
    }

    /// "F: that order's line in our own sheet for the whole journal: reason, filled, cancelled."
    fn fill_in_own_lines(&mut self) {
        let fills = own_fills(&self.desk);
        let awaiting = self.rows.iter_mut().filter(|row| row.what == b'F');
        for ((row, line), filled) in awaiting.zip(&self.desk.lines).zip(fills) {
            row.values = [line.reason as u32, filled, line.size - filled];
        }
    }
}

impl Watcher for Day<'_> {
    #[inline(always)]
    fn quote(&mut self, at: Moment, market: &Market, quote: &Quote) {
        self.desk.quote(at, market, quote);
        if quote.exchange + 1 == self.desk.header.home as usize {
            self.periods.home_quote(quote);
            let verdict = market.home_quote_verdict(quote.exchange, quote.series);
            self.print(at, b'Q', [verdict.verdict, verdict.exchange, verdict.side]);
        }
    }

    fn home_trade(&mut self, at: Moment, market: &Market, trade: &HomeTrade) {
        let number = self.desk.trades.len() as u32;
        let trade = self.desk.judge_trade(market, at.time, trade);
        let values = [number, trade.traded_through, trade.block as u32];
        self.print(at, b'T', values);
    }

    fn sent_order(&mut self, at: Moment, market: &Market, order: &Order) {
        let number = self.desk.sent_orders();
        let verdict = market.sent_order_verdict(order);
        self.desk.sent_order(at, market, order);
        self.print(at, b'S', [verdict, number, 0]);
    }

    fn response(&mut self, response: &Response, size: u32) {
        self.desk.response(response, size);
    }

    /// "R: 0 none, 1 whole, 2 at least; contracts, 0 for none; reason or 0."
    fn received_order(&mut self, at: Moment, market: &Market, order: &Order) {
        let values = match self.periods.duty(self.desk.header, market, at.time, order) {
            Duty::None { reason } => [0, 0, reason],
            Duty::Whole { contracts } => [1, contracts, 0],
            Duty::AtLeast { contracts } => [2, contracts, 0],
        };
        self.print(at, b'R', values);
    }

    fn satisfaction_order(&mut self, at: Moment, order: &Satisfaction) {
        self.desk.satisfaction_order(at, order);
        self.print(at, b'F', [0; 3]);
    }

    /// "It prints nothing, nor do kinds 8 and 11."
    fn cancellation(&mut self, at: Moment, cancellation: &Cancellation) {
        self.desk.cancellation(at, cancellation);
    }

    fn no_block(&mut self, at: Moment, no_block: &NoBlock) {
        self.desk.no_block(at, no_block);
    }

    fn closing_window(&mut self, at: Moment) {
        self.desk.closing_window(at);
    }
}

/// The list for the whole journal.
pub fn list(journal: &[u8]) -> Result<Vec<u8>, Refusal> {
    let (header, reader) = open(journal)?;
    let mut day = Day::new(&header);
    walk(&header, reader, &mut day)?;
    day.fill_in_own_lines();
    let mut text = vec![0; FIRST_LINE.len() + Row::MOST_WIDTH * day.rows.len()];
    text[..FIRST_LINE.len()].copy_from_slice(FIRST_LINE);
    let end = day.rows.iter().fold(FIRST_LINE.len(), |place, row| row.put(&mut text, place));
    text.truncate(end);
    Ok(text)
}

/// The list into lent output.
pub fn write(journal: &[u8], out: &mut [u8]) -> Result<usize, Refusal> {
    hand_over(&list(journal)?, out)
}

/// What the day program prints: the list, or `refused 2 at 0` (number, place).
pub fn printed(journal: &[u8]) -> Vec<u8> {
    list(journal).unwrap_or_else(|refusal| format!("refused {} at {}\n", refusal.no as u32, refusal.place).into_bytes())
}
