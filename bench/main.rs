//! Times the exported functions of an archive beside the reference on journals that the reference makes, in one run; with
//! `--cfg older` those of an older archive too, whose exported names begin with `older_`.

use reference::refusal::Refusal;
use reference::{day, journal, make, sheet, totals};
use std::hint::black_box;
use std::process::ExitCode;
use std::time::{Duration, Instant};

/// Room for the longest list.
const ROOM: usize = 131_072;
/// How long each engine is timed on one function and journal, and how many blocks of calls it has at least.
const TIMED: Duration = Duration::from_millis(300);
const LEAST_ROUNDS: usize = 8;
/// Calls of one engine before the next has its turn. Call by call each would find the caches and the branch history that
/// another left.
const BLOCK: usize = 32;

/// What a call is given, and where it writes.
struct Desk {
    journal: Vec<u8>,
    sheet: Vec<u8>,
    out: Vec<u8>,
    totals: [u64; 4],
}

type Call = fn(&mut Desk) -> u64;

const FUNCTIONS: [&str; 6] = ["journal", "totals", "day", "sheet", "check", "rewrite"];

/// A call for each of the functions, in their order.
struct Engine {
    name: &'static str,
    calls: [Call; FUNCTIONS.len()],
}

/// The engine of an archive, by what its exported names begin with. A slice passes as pointer, then length. The answer is
/// refusal number times 2^32 plus place, or how many bytes were written.
macro_rules! archive {
    ($name:literal, $prefix:literal) => {{
        extern "C" {
            #[link_name = concat!($prefix, "journal")]
            fn journal(journal: *const u8, length: usize) -> u64;
            #[link_name = concat!($prefix, "totals")]
            fn totals(journal: *const u8, length: usize, out: *mut u64, room: usize) -> u64;
            #[link_name = concat!($prefix, "day")]
            fn day(journal: *const u8, length: usize, out: *mut u8, room: usize) -> u64;
            #[link_name = concat!($prefix, "sheet")]
            fn sheet(journal: *const u8, length: usize, out: *mut u8, room: usize) -> u64;
            #[link_name = concat!($prefix, "check")]
            fn check(journal: *const u8, length: usize, sheet: *const u8, lines: usize) -> u64;
            #[link_name = concat!($prefix, "rewrite")]
            fn rewrite(journal: *const u8, length: usize, out: *mut u8, room: usize) -> u64;
        }
        Engine {
            name: $name,
            calls: [
                |desk| unsafe { journal(desk.journal.as_ptr(), desk.journal.len()) },
                |desk| unsafe { totals(desk.journal.as_ptr(), desk.journal.len(), desk.totals.as_mut_ptr(), 4) },
                |desk| unsafe { day(desk.journal.as_ptr(), desk.journal.len(), desk.out.as_mut_ptr(), desk.out.len()) },
                |desk| unsafe {
                    sheet(desk.journal.as_ptr(), desk.journal.len(), desk.out.as_mut_ptr(), desk.out.len())
                },
                |desk| unsafe {
                    check(desk.journal.as_ptr(), desk.journal.len(), desk.sheet.as_ptr(), desk.sheet.len())
                },
                |desk| unsafe {
                    rewrite(desk.journal.as_ptr(), desk.journal.len(), desk.out.as_mut_ptr(), desk.out.len())
                },
            ],
        }
    }};
}

const REFERENCE: Engine = Engine {
    name: "reference",
    calls: [
        |desk| answer(journal::accept(&desk.journal).map(|()| 0)),
        |desk| {
            answer(totals::totals(&desk.journal).map(|totals| {
                desk.totals = [totals.sent, totals.filled, totals.cancelled, totals.pending];
                desk.totals.len()
            }))
        },
        |desk| answer(day::write(&desk.journal, &mut desk.out)),
        |desk| answer(sheet::write(&desk.journal, &mut desk.out)),
        |desk| answer(sheet::check(&desk.journal, &desk.sheet).map(|()| 0)),
        |desk| answer(journal::rewrite(&desk.journal, &mut desk.out)),
    ],
};

const ENGINES: &[Engine] = &[
    archive!("archive", "hasurenta_"),
    REFERENCE,
    #[cfg(older)]
    archive!("older", "older_hasurenta_"),
];

fn answer(result: Result<usize, Refusal>) -> u64 {
    match result {
        Ok(count) => count as u64,
        Err(refusal) => (refusal.no as u64) << 32 | refusal.place as u64,
    }
}

impl Desk {
    fn new(kind: &str) -> Desk {
        let journal = make::journal(kind).expect("a kind that can be made");
        let mut sheet = vec![0; sheet::Sheet::MOST_BYTES];
        let end = sheet::write(&journal, &mut sheet).expect("made journals are accepted");
        sheet.truncate(end);
        Desk { journal, sheet, out: vec![0; ROOM], totals: [0; 4] }
    }

    /// The answer of one call and all that it wrote. Of totals only the four are compared, not how they are counted.
    fn outcome(&mut self, engine: &Engine, function: usize) -> (u64, Vec<u8>, [u64; 4]) {
        self.out.fill(0xA5);
        self.totals = [u64::MAX; 4];
        let said = engine.calls[function](self);
        let counted = FUNCTIONS[function] != "totals";
        (if counted { said } else { said >> 32 }, self.out.clone(), self.totals)
    }

    /// Whether every engine answers as the reference does; those that do not are named.
    fn all_agree(&mut self, kind: &str) -> bool {
        let mut same = true;
        for (function, name) in FUNCTIONS.iter().enumerate() {
            let right = self.outcome(&REFERENCE, function);
            for engine in ENGINES {
                if self.outcome(engine, function) != right {
                    eprintln!("{kind} {name}: answers of {} and {} differ", engine.name, REFERENCE.name);
                    same = false;
                }
            }
        }
        same
    }

    /// The least time of a block of calls.
    fn time(&mut self, call: Call) -> Duration {
        let mut least = Duration::MAX;
        for _ in 0..BLOCK {
            let start = Instant::now();
            black_box(call(black_box(self)));
            least = start.elapsed().min(least);
        }
        least
    }

    /// The least time of each engine, in rounds of a block of each.
    fn least_times(&mut self, function: usize) -> Vec<Duration> {
        let mut least = vec![Duration::MAX; ENGINES.len()];
        let start = Instant::now();
        let mut rounds = 0;
        while rounds < LEAST_ROUNDS || start.elapsed() < TIMED * ENGINES.len() as u32 {
            for (least, engine) in least.iter_mut().zip(ENGINES) {
                *least = self.time(engine.calls[function]).min(*least);
            }
            rounds += 1;
        }
        least
    }
}

fn print_head() {
    print!("{:12} {:8} {:>10} {:>12} {:>17}", "journal", "function", "archive ns", "reference ns", "archive/reference");
    println!("{}", if cfg!(older) { "   older ns older/archive" } else { "" });
}

fn print_line(kind: &str, function: &str, times: &[Duration]) {
    let nanoseconds: Vec<f64> = times.iter().map(|time| time.as_nanos() as f64).collect();
    let (archive, reference) = (nanoseconds[0], nanoseconds[1]);
    print!("{kind:12} {function:8} {archive:10} {reference:12} {:17.2}", archive / reference);
    if let Some(older) = nanoseconds.get(2) {
        print!(" {older:10} {:13.2}", older / archive);
    }
    println!();
}

fn main() -> ExitCode {
    let mut same = true;
    for (kind, _) in make::KINDS {
        same &= Desk::new(kind).all_agree(kind);
    }
    if !same {
        return ExitCode::FAILURE;
    }
    print_head();
    for (kind, _) in make::KINDS {
        let mut desk = Desk::new(kind);
        for (function, name) in FUNCTIONS.iter().enumerate() {
            print_line(kind, name, &desk.least_times(function));
        }
    }
    ExitCode::SUCCESS
}
