//! Day D of document 01 through the desk's functions as Rust calls them: prints its list, and ends with 1 where an answer is
//! not the paper's.

use std::process::ExitCode;

#[link(name = "desk", kind = "static")]
extern "C" {
    fn hasurenta_day(journal: *const u8, journal_len: usize, out: *mut u8, out_len: usize) -> u64;
    fn hasurenta_sheet(journal: *const u8, journal_len: usize, out: *mut u8, out_len: usize) -> u64;
    fn hasurenta_check(journal: *const u8, journal_len: usize, sheet: *const u8, sheet_len: usize) -> u64;
}

#[derive(Debug, PartialEq)]
struct Refusal {
    number: u32,
    place: u32,
}

fn answered(coded: u64) -> Result<usize, Refusal> {
    match (coded >> 32) as u32 {
        0 => Ok(coded as usize),
        number => Err(Refusal { number, place: coded as u32 }),
    }
}

// The functions ask nothing of their slices but that `out` overlaps none, and Rust's borrows see to that.

fn day(journal: &[u8], out: &mut [u8]) -> Result<usize, Refusal> {
    answered(unsafe { hasurenta_day(journal.as_ptr(), journal.len(), out.as_mut_ptr(), out.len()) })
}

fn sheet(journal: &[u8], out: &mut [u8]) -> Result<usize, Refusal> {
    answered(unsafe { hasurenta_sheet(journal.as_ptr(), journal.len(), out.as_mut_ptr(), out.len()) })
}

fn check(journal: &[u8], sheet: &[u8]) -> Result<usize, Refusal> {
    answered(unsafe { hasurenta_check(journal.as_ptr(), journal.len(), sheet.as_ptr(), sheet.len()) })
}

const DAY_D: [u8; 37] = [
    0x01, 0x02, 0x80, 0xD0, 0xBB, 0x1B, 0x0A, 0x0A, 0x0A, 0x0A, //
    0x01, 0xE8, 0x07, 0x02, 0x00, 0x6E, 0x14, 0x0F, 0x78, 0x14, 0x00, //
    0x03, 0x00, 0x00, 0x64, 0x0C, 0x00, 0x00, 0x00, 0x00, //
    0x07, 0xE8, 0x07, 0x00, 0x02, 0x6E, 0x14,
];
const LIST: &[u8] = b"event what a b c\n1 T 0 1 0\n2 F 0 12 8\n";

fn main() -> ExitCode {
    let mut list = [0xA5; 64];
    let listed = day(&DAY_D, &mut list);
    if let Ok(count) = listed {
        print!("{}", String::from_utf8_lossy(&list[..count]));
    }
    let mut own = [0xA5; 4];
    let written = sheet(&DAY_D, &mut own);
    let right = [
        listed == Ok(LIST.len()) && list.starts_with(LIST) && list[LIST.len()..].iter().all(|&byte| byte == 0xA5),
        day(&DAY_D, &mut [0; 37]) == Err(Refusal { number: 9, place: 0 }),
        written == Ok(3) && own == [0, 12, 8, 0xA5],
        check(&DAY_D, &own[..3]) == Ok(0),
        check(&DAY_D, &own) == Err(Refusal { number: 20, place: 3 }),
        day(&DAY_D[..36], &mut list) == Err(Refusal { number: 2, place: 36 }),
        day(&[], &mut []) == Err(Refusal { number: 2, place: 0 }),
    ];
    if let Some(at) = right.iter().position(|&holds| !holds) {
        println!("wrong: {at}");
        return ExitCode::FAILURE;
    }
    ExitCode::SUCCESS
}
