//! Questions about how bytes are read: numbers of each length at each place, records at each distance from the end,
//! refusals inside runs of quotes. Each comes up in its turn, so that as many questions as there are reach all.

use super::chance::Chance;
use super::places::Stands;
use super::{ends, in_runs, lengths, sheets};
use crate::ask::{Question, op};
use crate::record::kind;
use std::sync::OnceLock;

/// One in so many questions is one of these.
pub const ONE_IN: u64 = 3;

/// From one case to the next there are so many others.
const STEP: usize = 997;

#[derive(Clone, Copy)]
enum Case {
    Length(lengths::Case),
    End(ends::Case),
    InRun(in_runs::Case),
}

/// Entries that walk a journal in the same way.
#[derive(Clone, Copy)]
enum Walk {
    /// Acceptance, totals, rewriting.
    ByItself,
    /// The list, our own sheet, the check of one.
    ToTheList,
}

const WALKS: [Walk; 2] = [Walk::ByItself, Walk::ToTheList];

/// Each with the walk that is asked, if it is not left to chance.
fn cases() -> &'static [(Case, Option<Walk>)] {
    static CASES: OnceLock<Vec<(Case, Option<Walk>)>> = OnceLock::new();
    CASES.get_or_init(|| {
        let all = lengths::cases().map(Case::Length).chain(ends::cases().map(Case::End));
        let all = all.chain(in_runs::cases().map(Case::InRun));
        all.flat_map(|case| walks_for(case).into_iter().map(move |walk| (case, walk))).collect()
    })
}

/// Both are asked about quotes, unless they are just acceptable.
fn walks_for(case: Case) -> Vec<Option<Walk>> {
    let asks_both = match case {
        Case::Length(case) => case.place.kind == kind::QUOTE && case.stands != Stands::Alone,
        Case::End(case) => case.kind() == kind::QUOTE,
        Case::InRun(case) => case.is_refused(),
    };
    if asks_both { WALKS.map(Some).to_vec() } else { vec![None] }
}

/// Which of so many cases has its turn: few in a row are of one sort.
fn in_turn(seed: u64, turn: u64, count: usize) -> usize {
    let first = Chance::new(seed, u64::MAX).below(count);
    (first + (turn % count as u64) as usize * STEP) % count
}

/// The question of one of these turns.
pub fn question(chance: &mut Chance, seed: u64, turn: u64) -> Question {
    let all = cases();
    let (case, walk) = all[in_turn(seed, turn, all.len())];
    let walk = walk.unwrap_or(chance.pick(&WALKS));
    let by_list = matches!(walk, Walk::ToTheList);
    let journal = match case {
        Case::Length(case) if case.stands == Stands::Alone => return case.alone(chance),
        Case::Length(case) => case.journal(chance, by_list),
        Case::End(case) => case.journal(chance),
        Case::InRun(case) => case.journal(chance, by_list),
    };
    let op = match walk {
        Walk::ByItself => chance.pick(&[op::JOURNAL, op::TOTALS, op::REWRITE]),
        Walk::ToTheList => chance.pick(&[op::DAY, op::DAY, op::SHEET, op::CHECK]),
    };
    let b = if op == op::CHECK { sheets::sheet(chance, &journal) } else { vec![] };
    Question { op, a: journal, b, ..Question::default() }
}

#[cfg(test)]
mod tests {
    use super::*;
    use std::collections::BTreeSet;

    #[test]
    fn every_case_has_its_turn_within_8_000_questions() {
        let (count, turns) = (cases().len(), 8_000 / ONE_IN);
        let reached: BTreeSet<usize> = (0..turns).map(|turn| in_turn(1, turn, count)).collect();
        assert_eq!(reached.len(), count);
    }
}
