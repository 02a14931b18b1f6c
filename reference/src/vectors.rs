//! Holds the library against files of questions and of right answers, line by line.

use crate::alone::Plain;
use crate::header::Header;
use crate::refusal::Refusal;
use crate::{day, journal, sheet, totals};
use std::collections::BTreeMap;
use std::path::{Path, PathBuf};
use std::{fs, io};

/// How many lines of one question were held, and how many differ.
#[derive(Default)]
pub struct Count {
    pub lines: usize,
    pub differences: usize,
}

/// Checks every NAME.questions in a folder against its NAME.answers, in order of name; differing lines are printed.
pub fn check(folder: &Path) -> io::Result<BTreeMap<String, Count>> {
    let mut counts = BTreeMap::new();
    for questions in files_of_questions(folder)? {
        println!("{}", questions.display());
        check_file(&questions, &mut counts)?;
    }
    Ok(counts)
}

/// In order of name; a folder without any is an error.
fn files_of_questions(folder: &Path) -> io::Result<Vec<PathBuf>> {
    let held = fs::read_dir(folder)?.map(|entry| entry.map(|file| file.path()));
    let mut files = held.collect::<io::Result<Vec<PathBuf>>>()?;
    files.retain(|file| file.extension().is_some_and(|end| end == "questions"));
    files.sort();
    if files.is_empty() {
        let message = format!("no NAME.questions in {}", folder.display());
        return Err(io::Error::new(io::ErrorKind::NotFound, message));
    }
    Ok(files)
}

fn check_file(questions: &Path, counts: &mut BTreeMap<String, Count>) -> io::Result<()> {
    let answers = fs::read_to_string(questions.with_extension("answers"))?;
    let mut right = answers.lines();
    let questions = fs::read_to_string(questions)?;
    for (at, question) in questions.lines().enumerate() {
        let words: Vec<&str> = question.split(' ').collect();
        let given = answer(&words).unwrap_or_else(|| "unreadable question".into());
        let count = counts.entry(words[0].into()).or_default();
        count.lines += 1;
        if right.next() != Some(&given) {
            count.differences += 1;
            println!("line {}: {given}", at + 1);
        }
    }
    counts.entry("answers without a question".into()).or_default().differences += right.count();
    Ok(())
}

/// The answer's line, or none for a question that can't be read.
fn answer(words: &[&str]) -> Option<String> {
    match *words {
        ["journal", journal] => Some(said(journal::accept(&bytes(journal)?), |()| "accepted".into())),
        ["day", journal] => Some(format!("ok {}", hex(&day::printed(&bytes(journal)?)))),
        ["sheet", cap, journal] => {
            let journal = bytes(journal)?;
            Some(written(cap, |out| sheet::write(&journal, out)))
        }
        ["check", journal, sheet] => Some(said(sheet::check(&bytes(journal)?, &bytes(sheet)?), |()| "accepted".into())),
        ["totals", journal] => Some(said(totals::totals(&bytes(journal)?), |totals| {
            format!("ok {} {} {} {}", totals.sent, totals.filled, totals.cancelled, totals.pending)
        })),
        ["wheader", cap, ref header @ ..] => {
            let header = header_of(header)?;
            Some(written(cap, |out| header.write(out)))
        }
        ["wrecord", cap, ref rest @ ..] => write_record(cap, rest),
        ["rrecord", ref rest @ ..] => read_record(rest),
        _ => None,
    }
}

fn write_record(cap: &str, words: &[&str]) -> Option<String> {
    let (header, rest) = at_slash(words)?;
    let numbers = numbers(rest)?;
    let [time, kind, milliseconds, ref fields @ ..] = numbers[..] else {
        return None;
    };
    let record = Plain { kind, milliseconds, fields };
    Some(written(cap, |out| record.write(&header, time, out)))
}

fn read_record(words: &[&str]) -> Option<String> {
    let (header, rest) = at_slash(words)?;
    let [time, record] = *rest else {
        return None;
    };
    Some(said(Plain::read_alone(&header, time.parse().ok()?, &bytes(record)?), |(used, record)| {
        let mut line = format!("ok {used} {} {}", record.kind, record.milliseconds);
        for field in record.fields {
            line += &format!(" {field}");
        }
        line
    }))
}

/// The header before the slash, and the words after it.
fn at_slash<'a>(words: &'a [&'a str]) -> Option<(Header, &'a [&'a str])> {
    let slash = words.iter().position(|&word| word == "/")?;
    Some((header_of(&words[..slash])?, &words[slash + 1..]))
}

fn header_of(words: &[&str]) -> Option<Header> {
    let mut all = [0; Header::NUMBERS];
    for (number, given) in all.iter_mut().zip(numbers(words)?) {
        *number = given;
    }
    Some(Header::of_numbers(&all))
}

fn numbers(words: &[&str]) -> Option<Vec<u32>> {
    words.iter().map(|word| word.parse().ok()).collect()
}

fn said<T>(result: Result<T, Refusal>, ok: impl FnOnce(T) -> String) -> String {
    match result {
        Ok(answer) => ok(answer),
        Err(refusal) => format!("refused {} at {}", refusal.no as u32, refusal.place),
    }
}

fn written(cap: &str, entry: impl FnOnce(&mut [u8]) -> Result<usize, Refusal>) -> String {
    let mut out = vec![0; cap.parse().unwrap_or(0)];
    said(entry(&mut out), |end| format!("ok {}", hex(&out[..end])))
}

/// Lowercase hex, `-` for no bytes.
pub fn hex(bytes: &[u8]) -> String {
    if bytes.is_empty() {
        return "-".into();
    }
    bytes.iter().map(|byte| format!("{byte:02x}")).collect()
}

/// The bytes of a hex word; spaces may stand between them.
pub fn bytes(hex: &str) -> Option<Vec<u8>> {
    let digits: Vec<u32> = hex.chars().filter(|c| !"- ".contains(*c)).map(|c| c.to_digit(16)).collect::<Option<_>>()?;
    Some(digits.chunks_exact(2).map(|pair| (16 * pair[0] + pair[1]) as u8).collect())
}
