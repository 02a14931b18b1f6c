//! `reference answer | vectors DIR | fuzz PROGRAM [ARGS..] --seed N --count N | make KIND`

use reference::{ask, fuzz, make, vectors};
use std::io::{self, Write};
use std::path::Path;
use std::process::ExitCode;

fn main() -> ExitCode {
    let arguments: Vec<String> = std::env::args().skip(1).collect();
    let words: Vec<&str> = arguments.iter().map(String::as_str).collect();
    let done = match words[..] {
        ["answer"] => answer(),
        ["vectors", folder] => check_vectors(Path::new(folder)),
        ["fuzz", ref rest @ ..] => put_questions(rest),
        ["make", kind] => make_journal(kind),
        _ => usage(),
    };
    match done {
        Ok(true) => ExitCode::SUCCESS,
        Ok(false) => ExitCode::FAILURE,
        Err(error) => {
            eprintln!("{error}");
            ExitCode::FAILURE
        }
    }
}

fn usage() -> io::Result<bool> {
    eprintln!("reference answer");
    eprintln!("reference vectors DIR");
    eprintln!("reference fuzz PROGRAM [ARGS..] --seed N --count N");
    for (kind, full_of) in make::KINDS {
        eprintln!("reference make {kind:12} ({full_of})");
    }
    Ok(false)
}

fn answer() -> io::Result<bool> {
    let mut input = io::BufReader::with_capacity(1 << 16, io::stdin().lock());
    let mut output = io::BufWriter::with_capacity(1 << 16, io::stdout().lock());
    ask::run(&mut input, &mut output)?;
    Ok(true)
}

fn check_vectors(folder: &Path) -> io::Result<bool> {
    let counts = vectors::check(folder)?;
    for (what, count) in &counts {
        println!("{what:28} {:6} lines, {} differences", count.lines, count.differences);
    }
    let lines: usize = counts.values().map(|count| count.lines).sum();
    let differences: usize = counts.values().map(|count| count.differences).sum();
    println!("{:28} {lines:6} lines, {differences} differences", "all");
    Ok(lines > 0 && differences == 0)
}

/// The program and its arguments stand before `--seed N` and `--count N`.
fn put_questions(words: &[&str]) -> io::Result<bool> {
    let [ref program @ .., "--seed", seed, "--count", count] = *words else {
        return usage();
    };
    let (Ok(seed), Ok(count), false) = (seed.parse(), count.parse(), program.is_empty()) else {
        return usage();
    };
    fuzz::run(program, seed, count)
}

fn make_journal(kind: &str) -> io::Result<bool> {
    let Some(journal) = make::journal(kind) else {
        return usage();
    };
    io::stdout().write_all(&journal)?;
    Ok(true)
}
