//! Our own sheet, and the check of any sheet. "A sheet line: reason, filled, cancelled. Lines are counted from 0."

use crate::claims::{Desk, Line, Trade, reason};
use crate::event::Satisfaction;
use crate::journal::{open, walk};
use crate::number::{Number, Reader, put};
use crate::refusal::{No, Refusal, hand_over};

pub struct Sheet;

impl Sheet {
    pub const NUMBERS_A_LINE: usize = 3;
    pub const MOST_BYTES: usize = Satisfaction::MOST * Self::NUMBERS_A_LINE * Number::MOST_BYTES;
}

pub fn sum_of_claims(desk: &Desk, trade: &Trade) -> u32 {
    trade.lines().iter().map(|&line| desk.lines[line as usize].claim).sum()
}

/// What our own sheet fills on each line.
pub fn own_fills(desk: &Desk) -> Vec<u32> {
    let mut fills = vec![0; desk.lines.len()];
    for trade in &desk.trades {
        let sum = sum_of_claims(desk, trade);
        let due = trade.due_total(sum);
        if due < sum {
            give_out(desk, trade, due, &mut fills);
        } else {
            // All that is claimed is due: in whatever order it is given, every line ends filled.
            for &line in trade.lines() {
                fills[line as usize] = desk.lines[line as usize].claim;
            }
        }
    }
    fills
}

/// A line of a trade that has not got its claim yet.
#[derive(Clone, Copy, Default)]
struct Unfilled {
    line: u16,
    next_fill: u64,
    claim: u64,
    customers: u64,
}

/// "Our own sheets give one contract at a time, each to the unfilled line with the least (fill + 1) per customer
/// contract, the earliest on a tie."
fn give_out(desk: &Desk, trade: &Trade, due: u32, fills: &mut [u32]) {
    let mut unfilled = [Unfilled::default(); Trade::MOST_LINES];
    let mut count = 0;
    for &line in trade.lines() {
        let Line { claim, customers, .. } = desk.lines[line as usize];
        if claim > 0 {
            unfilled[count] = Unfilled { line, next_fill: 1, claim: claim as u64, customers: customers as u64 };
            count += 1;
        }
    }
    for _ in 0..due {
        let least = least_per_customer(&unfilled[..count]);
        fills[unfilled[least].line as usize] += 1;
        unfilled[least].next_fill += 1;
        if unfilled[least].next_fill > unfilled[least].claim {
            unfilled.copy_within(least + 1..count, least);
            count -= 1;
        }
    }
}

/// a / b is less than c / d where a times d is less than c times b.
#[inline(always)]
fn least_per_customer(unfilled: &[Unfilled]) -> usize {
    let mut least = 0;
    for (at, line) in unfilled.iter().enumerate().skip(1) {
        let other = &unfilled[least];
        if line.next_fill * other.customers < other.next_fill * line.customers {
            least = at;
        }
    }
    least
}

/// "Sheet writer: the journal's refusal, then 9."
pub fn write(journal: &[u8], out: &mut [u8]) -> Result<usize, Refusal> {
    let (header, reader) = open(journal)?;
    let mut desk = Desk::new(&header);
    walk(&header, reader, &mut desk)?;
    let mut written = [0; Sheet::MOST_BYTES];
    let mut end = 0;
    for (line, filled) in desk.lines.iter().zip(own_fills(&desk)) {
        for number in [line.reason as u32, filled, line.size - filled] {
            end = put(&mut written, end, number);
        }
    }
    hand_over(&written[..end], out)
}

/// A line of the sheet that is checked.
#[derive(Clone, Copy)]
struct Given {
    reason: u32,
    filled: u32,
    cancelled: u32,
}

/// "Sheet order: the journal's refusal first; 20; then line by line 21, 22, 24; then trade by trade 25, 26."
pub fn check(journal: &[u8], sheet: &[u8]) -> Result<(), Refusal> {
    let (header, reader) = open(journal)?;
    let mut desk = Desk::new(&header);
    walk(&header, reader, &mut desk)?;
    let given = read_lines(sheet, desk.lines.len()).map_err(|place| Refusal::at(No::SheetForm, place))?;
    for (at, (line, given)) in desk.lines.iter().zip(&given).enumerate() {
        check_line(line, given).map_err(|no| Refusal::at(no, at))?;
    }
    for (at, trade) in desk.trades.iter().enumerate() {
        check_trade(&desk, trade, &given).map_err(|no| Refusal::at(no, at))?;
    }
    Ok(())
}

/// "Exactly three readable numbers per Satisfaction Order", or the place of the "first byte of the bad number or first
/// extra byte; where it ends between numbers too early, its end".
fn read_lines(sheet: &[u8], lines: usize) -> Result<Vec<Given>, usize> {
    let mut reader = Reader::new(sheet);
    let mut given = Vec::with_capacity(lines);
    for _ in 0..lines {
        let mut number = || reader.number().map_err(|refusal| refusal.place as usize);
        given.push(Given { reason: number()?, filled: number()?, cancelled: number()? });
    }
    if reader.at_end() { Ok(given) } else { Err(reader.place()) }
}

fn check_line(line: &Line, given: &Given) -> Result<(), No> {
    if given.filled + given.cancelled != line.size {
        return Err(No::NotTheSize);
    }
    if given.reason != line.reason as u32 {
        return Err(No::WrongReason);
    }
    if given.filled > line.claim {
        return Err(No::AboveClaim);
    }
    Ok(())
}

fn check_trade(desk: &Desk, trade: &Trade, given: &[Given]) -> Result<(), No> {
    let filled: u32 = trade.lines().iter().map(|&line| given[line as usize].filled).sum();
    if filled != trade.due_total(sum_of_claims(desk, trade)) {
        return Err(No::NotDueTotal);
    }
    if !keeps_share_rule(desk, trade, given) {
        return Err(No::ShareRule);
    }
    Ok(())
}

/// "For any two lines of a trade with reason 0, if the first is filled below its claim, then (its fill + 1) times the
/// second's customer contracts is at least the second's fill times the first's."
fn keeps_share_rule(desk: &Desk, trade: &Trade, given: &[Given]) -> bool {
    trade.lines().iter().all(|&first| {
        let line = &desk.lines[first as usize];
        let filled = given[first as usize].filled;
        filled >= line.claim
            || trade.lines().iter().all(|&second| {
                let other = &desk.lines[second as usize];
                let next = (filled + 1) as u64 * other.customers as u64;
                other.reason != reason::NONE || next >= given[second as usize].filled as u64 * line.customers as u64
            })
    })
}
