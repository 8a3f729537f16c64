use std::fmt;

/// Why the library refused, with what the refusal names. [`Refusal::number`] is its number in docs/RULES.md 3.
#[derive(Clone, Copy, Debug, PartialEq, Eq, Hash)]
pub enum Refusal {
    BadState,
    OutOfOrder,
    TooLarge,
    NoRoom,
    BadMark { page: u64 },
    ShortEntry { page: u64 },
    CutEntry { page: u64 },
    NoEntries { page: u64 },
    IdsUsedUp,
    BufferSmall { needed: u64 },
    BelowStart,
    OutsideWindow,
    BadBatch,
    Overlap { page: u64 },
    NotAscending { page: u64 },
    ValueTooLarge,
    CeilingReached,
    BadRaise,
}

impl Refusal {
    /// The refusal of a number and a value as the archive answers them: none for 0.
    ///
    /// # Panics
    /// On any other number, which no function of the archive answers.
    pub(crate) fn from_answer(number: u64, value: u64) -> Option<Refusal> {
        Some(match number {
            0 => return None,
            1 => Refusal::BadState,
            2 => Refusal::OutOfOrder,
            3 => Refusal::TooLarge,
            4 => Refusal::NoRoom,
            5 => Refusal::BadMark { page: value },
            6 => Refusal::ShortEntry { page: value },
            7 => Refusal::CutEntry { page: value },
            8 => Refusal::NoEntries { page: value },
            9 => Refusal::IdsUsedUp,
            10 => Refusal::BufferSmall { needed: value },
            11 => Refusal::BelowStart,
            12 => Refusal::OutsideWindow,
            13 => Refusal::BadBatch,
            14 => Refusal::Overlap { page: value },
            15 => Refusal::NotAscending { page: value },
            16 => Refusal::ValueTooLarge,
            30 => Refusal::CeilingReached,
            31 => Refusal::BadRaise,
            other => unreachable!("the archive answered refusal {other}"),
        })
    }

    /// `Ok` for number 0, else the refusal.
    pub(crate) fn test(number: u64, value: u64) -> Result<(), Refusal> {
        match Refusal::from_answer(number, value) {
            None => Ok(()),
            Some(refusal) => Err(refusal),
        }
    }

    /// The number that the rules give the refusal: 1 to 16, 30 or 31.
    pub fn number(self) -> u64 {
        match self {
            Refusal::BadState => 1,
            Refusal::OutOfOrder => 2,
            Refusal::TooLarge => 3,
            Refusal::NoRoom => 4,
            Refusal::BadMark { .. } => 5,
            Refusal::ShortEntry { .. } => 6,
            Refusal::CutEntry { .. } => 7,
            Refusal::NoEntries { .. } => 8,
            Refusal::IdsUsedUp => 9,
            Refusal::BufferSmall { .. } => 10,
            Refusal::BelowStart => 11,
            Refusal::OutsideWindow => 12,
            Refusal::BadBatch => 13,
            Refusal::Overlap { .. } => 14,
            Refusal::NotAscending { .. } => 15,
            Refusal::ValueTooLarge => 16,
            Refusal::CeilingReached => 30,
            Refusal::BadRaise => 31,
        }
    }
}

impl fmt::Display for Refusal {
    fn fmt(&self, f: &mut fmt::Formatter<'_>) -> fmt::Result {
        write!(f, "refusal {}: ", self.number())?;
        match self {
            Refusal::BadState => write!(f, "bad state"),
            Refusal::OutOfOrder => write!(f, "id not above the last written"),
            Refusal::TooLarge => write!(f, "payload of 2^24 bytes or more"),
            Refusal::NoRoom => write!(f, "no room left in the store"),
            Refusal::BadMark { page } => write!(f, "bad mark on page {page}"),
            Refusal::ShortEntry { page } => write!(f, "short entry on page {page}"),
            Refusal::CutEntry { page } => write!(f, "cut entry on page {page}"),
            Refusal::NoEntries { page } => write!(f, "no entry at page {page}"),
            Refusal::IdsUsedUp => write!(f, "all ids are used up"),
            Refusal::BufferSmall { needed } => write!(f, "the data needs {needed} bytes"),
            Refusal::BelowStart => write!(f, "id below the sequence's start"),
            Refusal::OutsideWindow => write!(f, "id outside the sequence's window"),
            Refusal::BadBatch => write!(f, "the batch's ids, ends and data do not match"),
            Refusal::Overlap { page } => write!(f, "an entry starts inside another on page {page}"),
            Refusal::NotAscending { page } => write!(f, "id not ascending on page {page}"),
            Refusal::ValueTooLarge => write!(f, "data of more than 16,777,208 bytes"),
            Refusal::CeilingReached => write!(f, "no id is left below the ceiling: raise it, store it, then take"),
            Refusal::BadRaise => write!(f, "a ceiling is raised by 1 to 2^32, and to 2^64-1 at most"),
        }
    }
}

impl std::error::Error for Refusal {}
