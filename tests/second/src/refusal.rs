//! The refusals of documents 01 and 02, and answers as the words that C sees.

#[derive(Clone, Copy, Debug, PartialEq, Eq)]
pub enum Refusal {
    PageSize = 1,
    List = 2,
    Total = 3,
    Buffer = 4,
    Header = 5,
    Body = 6,
    Hour = 7,
    Figure = 8,
    Fresh = 9,
    Unsound = 10,
    Full = 11,
    Cells = 12,
    Stretch = 13,
    NotDecimal = 14,
    NoBookCount = 15,
    Changes = 16,
    EmptyBag = 17,
    NotRepairable = 18,
}

pub type Answer<T> = Result<T, Refusal>;

/// `Ok` if the condition of the refusal does not hold.
pub fn refuse_if(condition: bool, refusal: Refusal) -> Answer<()> {
    if condition {
        Err(refusal)
    } else {
        Ok(())
    }
}

/// The cells that a change of the list took and gave back.
#[derive(Clone, Copy, Debug, PartialEq, Eq)]
pub struct Moved {
    pub taken: u64,
    pub returned: u64,
}

impl Moved {
    /// The rise and the fall from one need to another.
    pub fn between(before: u64, after: u64) -> Moved {
        Moved {
            taken: after.saturating_sub(before),
            returned: before.saturating_sub(after),
        }
    }
}

/// An answer that the C interface packs into a number.
pub trait Packed {
    fn packed(self) -> u64;
}

impl Packed for u64 {
    fn packed(self) -> u64 {
        self
    }
}

impl Packed for () {
    fn packed(self) -> u64 {
        0
    }
}

impl Packed for Moved {
    fn packed(self) -> u64 {
        self.taken + self.returned * 65_536
    }
}

/// The word that the C interface gives for an answer.
pub fn word<T: Packed>(answer: Answer<T>) -> i64 {
    match answer {
        Ok(value) => i64::try_from(value.packed()).expect("an answer fits its word"),
        Err(refusal) => -(refusal as i64),
    }
}
