//! Sheets for a journal: our own, other good ones, and near misses of every kind.

use super::activity::put_number;
use super::cancelled::Cancelled;
use super::chance::Chance;
use super::faults;
use super::sent_again::SentAgain;
use crate::claims::{Desk, Trade, reason};
use crate::header::Header;
use crate::journal::{open, walk};
use crate::sheet::own_fills;

/// The sheet as numbers, with what a near miss is made from.
struct Draft<'d> {
    desk: &'d Desk<'d>,
    /// Reason, filled, cancelled.
    lines: Vec<[u32; 3]>,
}

pub fn sheet(chance: &mut Chance, journal: &[u8]) -> Vec<u8> {
    let Some(header) = accepted_header(journal) else {
        return (0..chance.below(12)).map(|_| chance.byte()).collect();
    };
    let desk = desk_after(&header, journal);
    let mut draft = Draft { desk: &desk, lines: own_lines(&desk) };
    if chance.one_in(8) {
        draft.lines = lines_with_another_limit(desk_after(&header, journal), chance.one_in(3));
    }
    let mut misses = 65;
    if let (true, Some(sent_again)) = (chance.one_in(2), SentAgain::of(&header, journal)) {
        draft.take_sent_again_otherwise(chance, &sent_again);
        misses = 10;
    } else if let (true, Some(cancelled)) = (chance.percent(60), Cancelled::of(&header, journal)) {
        draft.take_cancellations_otherwise(chance, &cancelled);
        misses = 25;
    }
    if chance.percent(60) {
        draft.break_ties_otherwise(chance);
    }
    if chance.percent(misses) {
        for _ in 0..chance.weighted(&[(5, 1), (1, 2), (1, 3)]) {
            draft.miss(chance);
        }
    }
    let mut bytes = draft.bytes();
    if chance.one_in(7) {
        miss_the_form(chance, &mut bytes);
    }
    bytes
}

pub fn accepted_header(journal: &[u8]) -> Option<Header> {
    crate::journal::accept(journal).ok()?;
    open(journal).ok().map(|(header, _)| header)
}

/// The desk at the end of an accepted journal.
pub fn desk_after<'h>(header: &'h Header, journal: &[u8]) -> Desk<'h> {
    let mut desk = Desk::new(header);
    let (_, reader) = open(journal).expect("the journal was accepted");
    walk(header, reader, &mut desk).expect("the journal was accepted");
    desk
}

/// Our own lines if the limit at the close held for every trade, or for none.
fn lines_with_another_limit(mut desk: Desk, for_every_trade: bool) -> Vec<[u32; 3]> {
    for trade in &mut desk.trades {
        trade.in_closing_window = for_every_trade;
        for &line in trade.lines() {
            let line = &mut desk.lines[line as usize];
            if line.reason == reason::NONE {
                line.claim = trade.claim(line.size, line.customers);
            }
        }
    }
    own_lines(&desk)
}

fn own_lines(desk: &Desk) -> Vec<[u32; 3]> {
    let fills = own_fills(desk);
    let pairs = desk.lines.iter().zip(fills);
    pairs.map(|(line, filled)| [line.reason as u32, filled, line.size - filled]).collect()
}

impl Draft<'_> {
    fn bytes(&self) -> Vec<u8> {
        let mut bytes = Vec::new();
        for &number in self.lines.iter().flatten() {
            put_number(&mut bytes, number);
        }
        bytes
    }

    fn set_fill(&mut self, line: usize, filled: u32) {
        self.lines[line] = [self.lines[line][0], filled, self.desk.lines[line].size.wrapping_sub(filled)];
    }

    /// As if none was cancelled, or all in time: reason and fill, the fill alone, or what that leaves for the others. Or 14
    /// stands for all that was cancelled, or what is left is shared otherwise.
    fn take_cancellations_otherwise(&mut self, chance: &mut Chance, cancelled: &Cancelled) {
        let otherwise = own_lines(if chance.percent(60) { &cancelled.without } else { &cancelled.with_late });
        let how = chance.pick(&[0, 1, 2, 2, 2, 3, 4]);
        for (order, other) in otherwise.into_iter().enumerate() {
            match (how, cancelled.is_cancelled(order)) {
                (0, _) => self.lines[order] = other,
                (1, _) | (2, false) => self.set_fill(order, other[1]),
                (3, true) => self.lines[order][0] = reason::INITIATOR_NAMED as u32,
                _ => {}
            }
        }
        if how == 4 {
            self.share_otherwise(chance);
        }
    }

    /// As if what is sent again were judged as a first, or never late: all of it, its reason, its fill, or what that
    /// leaves for the others. Or 15 stands for all that is sent again or for the firsts, or 14 for 15; the first is
    /// filled in the second's place, or neither, or the first is given no reason; or what is left is shared otherwise.
    fn take_sent_again_otherwise(&mut self, chance: &mut Chance, sent_again: &SentAgain) {
        let otherwise = own_lines(if chance.one_in(2) { &sent_again.as_first } else { &sent_again.without_end });
        let how = chance.pick(&[0, 1, 2, 2, 3, 3, 3, 3, 3, 4, 5, 6, 7, 8, 9, 9, 9, 10]);
        for (order, other) in otherwise.into_iter().enumerate() {
            let late = self.desk.lines[order].reason == reason::SENT_AGAIN_LATE;
            match (how, sent_again.first_of(order)) {
                (0, _) => self.lines[order] = other,
                (1, Some(_)) => self.lines[order][0] = other[0],
                (2, _) => self.set_fill(order, other[1]),
                (3, _) if !late => self.set_fill(order, other[1]),
                (4, Some(_)) => self.lines[order][0] = reason::SENT_AGAIN_LATE as u32,
                (5, Some(first)) => {
                    let filled = self.lines[order][1].min(self.desk.lines[first].size);
                    self.set_fill(first, filled);
                    self.set_fill(order, 0);
                }
                (6, Some(first)) => self.lines[first][0] = reason::NONE as u32,
                (7, Some(first)) => self.lines[first][0] = reason::SENT_AGAIN_LATE as u32,
                (8, Some(_)) => self.set_fill(order, 0),
                (9, _) if late => self.lines[order][0] = reason::INITIATOR_NAMED as u32,
                _ => {}
            }
        }
        if how == 10 {
            self.share_otherwise(chance);
        }
    }

    /// Moves single contracts between lines of a trade that stand level, so that the sheet stays good.
    fn break_ties_otherwise(&mut self, chance: &mut Chance) {
        for trade in &self.desk.trades {
            for _ in 0..6 {
                if let Some((from, to)) = self.two_lines(chance, trade) {
                    if self.stand_level(from, to) {
                        self.move_contracts(from, to, 1);
                    }
                }
            }
        }
    }

    /// The second line might as well have got the last contract of the first.
    fn stand_level(&self, from: usize, to: usize) -> bool {
        let [given, next] = [self.lines[from][1] as u64, self.lines[to][1] as u64 + 1];
        let [mine, other] = [from, to].map(|line| self.desk.lines[line].customers as u64);
        given > 0 && next <= self.desk.lines[to].claim as u64 && given * other == next * mine
    }

    fn two_lines(&self, chance: &mut Chance, trade: &Trade) -> Option<(usize, usize)> {
        let mut claiming: Vec<usize> = trade.lines().iter().map(|&line| line as usize).collect();
        claiming.retain(|&line| self.desk.lines[line].claim > 0);
        chance.shuffle(&mut claiming);
        match claiming[..] {
            [first, second, ..] => Some((first, second)),
            _ => None,
        }
    }

    fn move_contracts(&mut self, from: usize, to: usize, contracts: u32) {
        let contracts = contracts.min(self.lines[from][1]);
        self.set_fill(from, self.lines[from][1] - contracts);
        self.set_fill(to, self.lines[to][1] + contracts);
    }

    /// A line, rather one that claims something.
    fn a_line(&self, chance: &mut Chance) -> usize {
        let claiming: Vec<usize> = (0..self.lines.len()).filter(|&line| self.desk.lines[line].claim > 0).collect();
        if claiming.is_empty() || chance.one_in(4) { chance.below(self.lines.len()) } else { chance.pick(&claiming) }
    }

    /// One thing wrong on one line or trade.
    fn miss(&mut self, chance: &mut Chance) {
        if self.lines.is_empty() {
            return;
        }
        let line = self.a_line(chance);
        let [reason, filled, cancelled] = self.lines[line];
        let claim = self.desk.lines[line].claim;
        match chance.below(10) {
            0 => self.lines[line][2] = chance.pick(&[cancelled + 1, cancelled.saturating_sub(1), 268_435_455]),
            1 => self.lines[line][1] = chance.pick(&[filled + 1, filled.saturating_sub(1), 268_435_455]),
            2 => {
                self.lines[line][0] =
                    chance.pick(&[(reason + 1) % 16, (reason + 15) % 16, 0, 1, 14, 15, reason + 256, reason + 65_536])
            }
            3 => self.set_fill(line, (claim + 1).min(self.desk.lines[line].size)),
            4 => self.set_fill(line, filled.saturating_sub(1)),
            5 => self.set_fill(line, (filled + 1).min(claim)),
            _ => self.share_otherwise(chance),
        }
    }

    /// Moves contracts within the trades that were shared out: totals stay, shares do not.
    fn share_otherwise(&mut self, chance: &mut Chance) {
        let desk = self.desk;
        for trade in &desk.trades {
            let contracts = chance.pick(&[1, 1, 1, 2, 5]);
            if let Some((from, to)) = self.two_lines(chance, trade) {
                let room = desk.lines[to].claim.saturating_sub(self.lines[to][1]);
                self.move_contracts(from, to, contracts.min(room));
            }
        }
    }
}

/// Not exactly three readable numbers a line.
fn miss_the_form(chance: &mut Chance, bytes: &mut Vec<u8>) {
    match chance.below(5) {
        0 => bytes.push(0),
        1 => {
            bytes.pop();
        }
        2 => bytes.extend([0x80, 0]),
        3 => {
            let last = bytes.len().saturating_sub(1);
            bytes.truncate(last);
            bytes.push(0x80);
        }
        _ => faults::damage(chance, bytes),
    }
}
