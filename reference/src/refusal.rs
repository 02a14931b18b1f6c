//! "Every refusal returns number and place only."

/// The refusal numbers of the paper.
#[derive(Clone, Copy, Debug, PartialEq, Eq)]
#[repr(u32)]
pub enum No {
    JournalTooLong = 1,
    UnreadableNumber = 2,
    Header = 3,
    UnknownKind = 4,
    Field = 5,
    Quote = 6,
    UnknownOrTwice = 7,
    TooMany = 8,
    OutputTooShort = 9,
    SheetForm = 20,
    NotTheSize = 21,
    WrongReason = 22,
    AboveClaim = 24,
    NotDueTotal = 25,
    ShareRule = 26,
}

#[derive(Clone, Copy, Debug, PartialEq, Eq)]
pub struct Refusal {
    pub no: No,
    pub place: u32,
}

impl Refusal {
    pub fn at(no: No, place: usize) -> Refusal {
        Refusal { no, place: place as u32 }
    }

    /// "A writer's place is always 0, and so is any place not named."
    pub fn new(no: No) -> Refusal {
        Refusal { no, place: 0 }
    }
}

/// Puts what was written into the lent output: "output that is written fills a prefix; bytes after it stay",
/// and where it is too short "lent memory keeps its bytes".
pub fn hand_over(written: &[u8], out: &mut [u8]) -> Result<usize, Refusal> {
    let Some(prefix) = out.get_mut(..written.len()) else {
        return Err(Refusal::new(No::OutputTooShort));
    };
    prefix.copy_from_slice(written);
    Ok(written.len())
}
