//! Puts questions by seed to a program and holds its answers against ours.

pub mod activity;
mod batched;
mod batching;
mod cancelled;
mod cancelling;
pub mod chance;
mod coverage;
mod ends;
mod faults;
mod followed;
mod following;
mod ground;
mod in_runs;
mod journals;
mod lengths;
mod no_block;
mod placed;
mod places;
mod questions;
mod reading;
mod sent_again;
mod sheets;
mod values;

use crate::ask::{Answer, Question};
use crate::vectors::hex;
use chance::Chance;
use coverage::Coverage;
use std::collections::BTreeMap;
use std::io::{self, Read, Write};
use std::process::{Command, Stdio};
use std::{fs, thread};

/// A round ends at whichever comes first, which bounds the memory.
const ROUND_QUESTIONS: u64 = 500;
const ROUND_BYTES: usize = 4 << 20;

/// Questions and differences.
#[derive(Default, Clone, Copy)]
struct Tally {
    questions: u64,
    differences: u64,
}

#[derive(Default)]
struct Run {
    by_op: BTreeMap<u8, Tally>,
    by_no: BTreeMap<u32, Tally>,
    coverage: Coverage,
}

/// Questions of one run of the program, with the right answers.
struct Round {
    first: u64,
    questions: Vec<Question>,
    answers: Vec<Answer>,
    input: Vec<u8>,
}

/// Days as they are asked about: any, and those made for lists and for sheets.
#[cfg(test)]
pub fn days(seed: u64, number: u64) -> [Vec<u8>; 3] {
    let made = [journals::journal, journals::journal_with_orders, journals::journal_with_claims];
    made.map(|make| make(&mut Chance::new(seed, number)))
}

/// Asks `count` questions; true where every answer was right. The run stops after the first round with a difference.
pub fn run(program: &[&str], seed: u64, count: u64) -> io::Result<bool> {
    let mut run = Run::default();
    let mut asked = 0;
    let mut good = true;
    while asked < count && good {
        let round = Round::next(seed, asked, count);
        asked += round.questions.len() as u64;
        let room = 16 + round.answers.iter().map(|answer| 13 + answer.bytes.len()).sum::<usize>();
        let said = ask(program, &round.input, room)?;
        good = run.compare(&round, &said, seed)?;
    }
    run.print(seed);
    Ok(good)
}

impl Round {
    fn next(seed: u64, first: u64, count: u64) -> Round {
        let mut round = Round { first, questions: Vec::new(), answers: Vec::new(), input: Vec::new() };
        for number in first..count.min(first + ROUND_QUESTIONS) {
            let question = questions::question(seed, number);
            round.answers.push(question.answer());
            question.put(&mut round.input);
            round.questions.push(question);
            if round.input.len() > ROUND_BYTES {
                break;
            }
        }
        round.put_unreadable_end(&mut Chance::new(!seed, first));
        round
    }

    /// A question that can't be read whole "stops the run", and so does a size that is too large.
    fn put_unreadable_end(&mut self, chance: &mut Chance) {
        let question = Question { op: 1, a: vec![1; 5], ..Question::default() };
        let start = self.input.len();
        question.put(&mut self.input);
        if chance.one_in(2) {
            self.input.truncate(start + chance.below(18));
        } else {
            let size = start + chance.pick(&[1, 5, 9]);
            let large = Question::MOST + chance.pick(&[1, 1 << 20, 1 << 31]);
            self.input[size..size + 4].copy_from_slice(&large.to_le_bytes());
            question.put(&mut self.input);
        }
    }
}

/// What the program answers, up to a bound.
fn ask(program: &[&str], input: &[u8], room: usize) -> io::Result<Vec<u8>> {
    let mut command = Command::new(program[0]);
    let mut child = command.args(&program[1..]).stdin(Stdio::piped()).stdout(Stdio::piped()).spawn()?;
    let mut to = child.stdin.take().expect("its input is piped");
    let from = child.stdout.take().expect("its output is piped");
    let mut said = Vec::new();
    thread::scope(|scope| {
        // A program that stops reading is found by the answers that are missing.
        scope.spawn(move || to.write_all(input).ok());
        let read = from.take(room as u64).read_to_end(&mut said);
        if read.is_err() || said.len() == room {
            child.kill().ok();
        }
        read
    })?;
    child.wait()?;
    Ok(said)
}

impl Run {
    fn compare(&mut self, round: &Round, said: &[u8], seed: u64) -> io::Result<bool> {
        let mut rest = said;
        let mut first_difference = None;
        for (at, (question, answer)) in round.questions.iter().zip(&round.answers).enumerate() {
            let (given, after) = split_answer(rest);
            let mut right = Vec::new();
            answer.put(&mut right);
            let differs = given != right;
            if differs && first_difference.is_none() {
                first_difference = Some((at, given.to_vec(), right));
            }
            self.count(question, answer, differs);
            rest = after;
        }
        if let Some((at, given, right)) = &first_difference {
            report(round, *at, given, right, seed)?;
        } else if !rest.is_empty() {
            println!("{} bytes after the last answer, round of question {}", rest.len(), round.first);
        }
        Ok(first_difference.is_none() && rest.is_empty())
    }

    fn count(&mut self, question: &Question, answer: &Answer, differs: bool) {
        for tally in [self.by_op.entry(question.op).or_default(), self.by_no.entry(answer.no).or_default()] {
            tally.questions += 1;
            tally.differences += differs as u64;
        }
        self.coverage.note(question, answer);
    }

    fn print(&self, seed: u64) {
        for (op, tally) in &self.by_op {
            println!("op {op:4} {:9} questions {:6} differences", tally.questions, tally.differences);
        }
        for (no, tally) in &self.by_no {
            println!("no {no:4} {:9} questions {:6} differences", tally.questions, tally.differences);
        }
        let missing = self.coverage.print();
        println!("not reached: {}", if missing.is_empty() { "nothing".into() } else { missing.join("; ") });
        let all: Vec<&Tally> = self.by_op.values().collect();
        let questions: u64 = all.iter().map(|tally| tally.questions).sum();
        let differences: u64 = all.iter().map(|tally| tally.differences).sum();
        println!("seed {seed}: {questions} questions, {differences} differences");
    }
}

/// The bytes of the next answer, and those after it; an answer cut off is all that is left.
fn split_answer(said: &[u8]) -> (&[u8], &[u8]) {
    let Some(count) = said.get(9..13) else {
        return (said, &[]);
    };
    let end = 13 + u32::from_le_bytes([count[0], count[1], count[2], count[3]]) as usize;
    said.split_at(end.min(said.len()))
}

/// Leaves the question, ready to be asked again, and both answers.
fn report(round: &Round, at: usize, given: &[u8], right: &[u8], seed: u64) -> io::Result<()> {
    let number = round.first + at as u64;
    let name = format!("difference-{seed}-{number}");
    let question = &round.questions[at];
    let mut asked = Vec::new();
    question.put(&mut asked);
    fs::write(format!("{name}.question"), &asked)?;
    let text = format!(
        "seed {seed}, question {number}, op {}, cap {}\nA {}\nB {}\ngiven {}\nright {}\n",
        question.op,
        question.cap,
        hex(&question.a),
        hex(&question.b),
        hex(given),
        hex(right)
    );
    fs::write(format!("{name}.txt"), text)?;
    println!("difference: see {name}.txt and {name}.question");
    Ok(())
}
