//! Questions and answers of the bulk test program: everything behind one byte format, little-endian.

use crate::alone::Plain;
use crate::header::Header;
use crate::refusal::Refusal;
use crate::{day, journal, sheet, totals};
use std::io::{self, Read, Write};

#[derive(Clone, Debug, Default, PartialEq, Eq)]
pub struct Question {
    pub op: u8,
    pub cap: u32,
    pub a: Vec<u8>,
    pub b: Vec<u8>,
}

pub mod op {
    pub const JOURNAL: u8 = 1;
    pub const DAY: u8 = 2;
    pub const SHEET: u8 = 3;
    pub const CHECK: u8 = 4;
    pub const TOTALS: u8 = 5;
    pub const WRITE_HEADER: u8 = 6;
    pub const WRITE_RECORD: u8 = 7;
    pub const READ_RECORD: u8 = 8;
    pub const REWRITE: u8 = 9;
}

#[derive(Clone, Debug, PartialEq, Eq)]
pub struct Answer {
    pub no: u32,
    pub place: u32,
    pub kept: bool,
    pub bytes: Vec<u8>,
}

/// Every lent byte before the call.
const LENT: u8 = 0xA5;

impl Question {
    /// "`cap`, `na`, `nb` at most 131,072; a larger one ends the run."
    pub const MOST: u32 = 131_072;

    /// The next question, or none where the input ends, is cut off or asks for more than may be asked.
    pub fn read(input: &mut impl Read) -> io::Result<Option<Question>> {
        let mut head = [0; 13];
        if !read_whole(input, &mut head)? {
            return Ok(None);
        }
        let [cap, na, nb] = [1, 5, 9].map(|at| word_at(&head, at));
        if [cap, na, nb].iter().any(|&size| size > Self::MOST) {
            return Ok(None);
        }
        let mut question = Question { op: head[0], cap, a: vec![0; na as usize], b: vec![0; nb as usize] };
        let whole = read_whole(input, &mut question.a)? && read_whole(input, &mut question.b)?;
        Ok(whole.then_some(question))
    }

    pub fn put(&self, out: &mut Vec<u8>) {
        out.push(self.op);
        for size in [self.cap, self.a.len() as u32, self.b.len() as u32] {
            out.extend_from_slice(&size.to_le_bytes());
        }
        out.extend_from_slice(&self.a);
        out.extend_from_slice(&self.b);
    }

    pub fn answer(&self) -> Answer {
        match self.op {
            op::JOURNAL => without_output(journal::accept(&self.a).map(|()| Vec::new())),
            op::DAY => self.with_output(|out| day::write(&self.a, out)),
            op::SHEET => self.with_output(|out| sheet::write(&self.a, out)),
            op::CHECK => without_output(sheet::check(&self.a, &self.b).map(|()| Vec::new())),
            op::TOTALS => without_output(self.totals()),
            op::WRITE_HEADER => self.write_header(),
            op::WRITE_RECORD => self.write_record(),
            op::READ_RECORD => self.read_record(),
            op::REWRITE => self.with_output(|out| journal::rewrite(&self.a, out)),
            _ => Answer::bare(99),
        }
    }

    fn with_output(&self, entry: impl FnOnce(&mut [u8]) -> Result<usize, Refusal>) -> Answer {
        let mut lent = vec![LENT; self.cap as usize];
        let (no, place, end) = match entry(&mut lent) {
            Ok(end) => (0, 0, end),
            Err(refusal) => (refusal.no as u32, refusal.place, 0),
        };
        let kept = lent[end..].iter().all(|&byte| byte == LENT);
        lent.truncate(end);
        Answer { no, place, kept, bytes: lent }
    }

    fn totals(&self) -> Result<Vec<u8>, Refusal> {
        let totals = totals::totals(&self.a)?;
        let four = [totals.sent, totals.filled, totals.cancelled, totals.pending];
        Ok(four.iter().flat_map(|total| total.to_le_bytes()).collect())
    }

    fn write_header(&self) -> Answer {
        let Some(header) = words::<{ Header::NUMBERS }>(&self.a) else {
            return Answer::bare(98);
        };
        self.with_output(|out| Header::of_numbers(&header).write(out))
    }

    /// Header, time so far, kind, milliseconds, and as many fields as are given.
    fn write_record(&self) -> Answer {
        const BEFORE: usize = Header::NUMBERS + 3;
        let wanted = BEFORE + Plain::FEWEST_FIELDS..=BEFORE + Plain::MOST_FIELDS;
        let Some(words) = all_words(&self.a).filter(|words| wanted.contains(&words.len())) else {
            return Answer::bare(98);
        };
        let (header, rest) = split_header(&words);
        let record = Plain { kind: rest[1], milliseconds: rest[2], fields: &rest[3..] };
        self.with_output(|out| record.write(&header, rest[0], out))
    }

    /// Bytes used, kind, milliseconds and "the record's fields, at least 8 of them (unused 0)".
    fn read_record(&self) -> Answer {
        let Some(words) = words::<{ Header::NUMBERS + 1 }>(&self.a) else {
            return Answer::bare(98);
        };
        let (header, rest) = split_header(&words);
        without_output(Plain::read_alone(&header, rest[0], &self.b).map(|(used, record)| {
            let mut said = vec![used as u32, record.kind, record.milliseconds];
            said.extend(&record.fields);
            said.resize(said.len().max(3 + Plain::FEWEST_FIELDS), 0);
            said.iter().flat_map(|word| word.to_le_bytes()).collect()
        }))
    }
}

fn without_output(result: Result<Vec<u8>, Refusal>) -> Answer {
    match result {
        Ok(bytes) => Answer { bytes, ..Answer::bare(0) },
        Err(refusal) => Answer { place: refusal.place, ..Answer::bare(refusal.no as u32) },
    }
}

impl Answer {
    fn bare(no: u32) -> Answer {
        Answer { no, place: 0, kept: true, bytes: Vec::new() }
    }

    pub fn put(&self, out: &mut Vec<u8>) {
        out.extend_from_slice(&self.no.to_le_bytes());
        out.extend_from_slice(&self.place.to_le_bytes());
        out.push(self.kept as u8);
        out.extend_from_slice(&(self.bytes.len() as u32).to_le_bytes());
        out.extend_from_slice(&self.bytes);
    }
}

/// `COUNT` words and nothing else.
fn words<const COUNT: usize>(bytes: &[u8]) -> Option<[u32; COUNT]> {
    all_words(bytes)?.try_into().ok()
}

/// Words and nothing else.
fn all_words(bytes: &[u8]) -> Option<Vec<u32>> {
    (bytes.len() % 4 == 0).then(|| (0..bytes.len()).step_by(4).map(|at| word_at(bytes, at)).collect())
}

fn split_header(words: &[u32]) -> (Header, &[u32]) {
    let (header, rest) = words.split_first_chunk().expect("more words than a header has");
    (Header::of_numbers(header), rest)
}

pub fn word_at(bytes: &[u8], at: usize) -> u32 {
    u32::from_le_bytes([bytes[at], bytes[at + 1], bytes[at + 2], bytes[at + 3]])
}

/// Fills the buffer; false where the input ends before.
fn read_whole(input: &mut impl Read, buffer: &mut [u8]) -> io::Result<bool> {
    match input.read_exact(buffer) {
        Ok(()) => Ok(true),
        Err(error) if error.kind() == io::ErrorKind::UnexpectedEof => Ok(false),
        Err(error) => Err(error),
    }
}

/// Answers every question on the input until it ends.
pub fn run(input: &mut impl Read, output: &mut impl Write) -> io::Result<()> {
    let mut bytes = Vec::new();
    while let Some(question) = Question::read(input)? {
        bytes.clear();
        question.answer().put(&mut bytes);
        output.write_all(&bytes)?;
    }
    output.flush()
}
