//! The library's functions: which of them it has, and what they may refuse.

#[derive(Clone, Copy, Debug, PartialEq, Eq)]
pub enum Function {
    Fresh,
    Append,
    Set,
    Insert,
    Strike,
    Count,
    Reading,
    Reach,
    Day,
    Free,
    Freeze,
    Repair,
    ImageLength,
    ImageWrite,
    ImageCheck,
    ImageCount,
    ImageReading,
    ImageReach,
    ImageBusiest,
    ImageMatch,
    ImageFromBook,
    ImageToBook,
    ImageMerge,
}

impl Function {
    /// In the order of their declaration.
    pub const ALL: [Function; 23] = [
        Function::Fresh,
        Function::Append,
        Function::Set,
        Function::Insert,
        Function::Strike,
        Function::Count,
        Function::Reading,
        Function::Reach,
        Function::Day,
        Function::Free,
        Function::Freeze,
        Function::Repair,
        Function::ImageLength,
        Function::ImageWrite,
        Function::ImageCheck,
        Function::ImageCount,
        Function::ImageReading,
        Function::ImageReach,
        Function::ImageBusiest,
        Function::ImageMatch,
        Function::ImageFromBook,
        Function::ImageToBook,
        Function::ImageMerge,
    ];

    pub fn all() -> impl Iterator<Item = Function> {
        Function::ALL.into_iter()
    }

    /// The refusals that documents 01 and 02 give this call; the comparison is
    /// not done before it has met each of them.
    pub fn refusals(self) -> &'static [usize] {
        match self {
            Function::Fresh => &[9],
            Function::Append => &[3, 10, 11, 12],
            Function::Set => &[3, 7, 10, 12],
            Function::Insert => &[3, 7, 10, 11, 12],
            Function::Strike => &[7, 10, 12],
            Function::Count | Function::Reading => &[7, 10],
            Function::Day => &[7, 10, 16],
            Function::Reach => &[8, 10],
            Function::Free => &[10],
            Function::Freeze => &[1, 4, 10],
            Function::Repair => &[18],
            Function::ImageLength => &[1, 2, 3],
            Function::ImageWrite => &[1, 2, 3, 4],
            Function::ImageCheck => &[5, 6],
            Function::ImageCount | Function::ImageReading => &[5, 6, 7],
            Function::ImageReach => &[5, 6, 8],
            Function::ImageBusiest => &[5, 6, 13],
            Function::ImageMatch => &[5, 6, 17],
            Function::ImageFromBook => &[1, 2, 4, 14],
            Function::ImageToBook => &[4, 5, 6, 15],
            Function::ImageMerge => &[1, 3, 4, 5, 6],
        }
    }
}
