//! The library under test: its C functions behind safe wrappers, which also
//! count what was called and answered.
//!
//! Every lent buffer is handed over from a mutable borrow, those of const
//! parameters too: a stray write by the library is then something that the
//! comparison sees. Between caller and library stands the lender, for what
//! lies outside the buffers.

use crate::fence;
use crate::function::Function;
use crate::lent::Lender;

#[path = "../../exported.rs"]
mod exported;

use exported as c;

/// What the self-test spoils in the library's first fitting call.
#[derive(Clone, Copy, Debug, PartialEq, Eq)]
pub enum Spoilt {
    Answer,
    Byte,
    /// Of a list that is lent to be written.
    Entry,
}

#[derive(Clone, Copy)]
pub struct Fault {
    pub function: Function,
    pub spoilt: Spoilt,
}

/// The number of refusals, and 0 for an answer.
pub const OUTCOMES: usize = 19;

#[derive(Default)]
pub struct Library {
    /// How often each function gave an answer (0) or each refusal.
    pub seen: [[u64; OUTCOMES]; Function::ALL.len()],
    pub fault: Option<Fault>,
    pub lender: Lender,
}

/// A wrapper over a call that lends one buffer and takes numbers.
macro_rules! over_bytes {
    ($name:ident, $function:ident, $c:ident $(, $argument:ident: $type:ty)*) => {
        pub fn $name(&mut self, bytes: &mut [u8] $(, $argument: $type)*) -> i64 {
            let len = bytes.len();
            let call = |at: [*mut u8; 2]| unsafe { c::$c(at[0], len $(, $argument)*) };
            let word = self.lend(Function::$function, [&mut *bytes, &mut []], call);
            self.done(Function::$function, bytes, word)
        }
    };
}

impl Library {
    over_bytes!(fresh, Fresh, hourlog_fresh, pages: u32, cells: u32);
    over_bytes!(append, Append, hourlog_append, count: u32);
    over_bytes!(set, Set, hourlog_set, hour: u32, count: u32);
    over_bytes!(insert, Insert, hourlog_insert, hour: u32, count: u32);
    over_bytes!(strike, Strike, hourlog_strike, hour: u32);
    over_bytes!(count, Count, hourlog_count, hour: u32);
    over_bytes!(reading, Reading, hourlog_reading, hour: u32);
    over_bytes!(reach, Reach, hourlog_reach, figure: u32);
    over_bytes!(free, Free, hourlog_free);
    over_bytes!(image_check, ImageCheck, hourlog_image_check);
    over_bytes!(image_count, ImageCount, hourlog_image_count, hour: u32);
    over_bytes!(image_reading, ImageReading, hourlog_image_reading, hour: u32);
    over_bytes!(image_reach, ImageReach, hourlog_image_reach, figure: u64);
    over_bytes!(image_busiest, ImageBusiest, hourlog_image_busiest, hours: u32);
    over_bytes!(image_match, ImageMatch, hourlog_image_match, figure: u64);

    /// The list is only lent to read: that it stays is seen to here.
    pub fn day(&mut self, store: &mut [u8], day: u32, changes: &[u32]) -> i64 {
        let (len, mut lent) = (store.len(), changes.to_vec());
        let call = |at: [*mut u8; 2]| unsafe {
            c::hourlog_day(at[0], len, day, at[1].cast(), changes.len())
        };
        let word = self.lend(Function::Day, [&mut *store, bytes_of(&mut lent)], call);
        assert_eq!(lent, changes, "day leaves the list that it is lent");
        self.done(Function::Day, store, word)
    }

    pub fn freeze(&mut self, store: &mut [u8], e: u32, image: &mut [u8]) -> i64 {
        let (len, room) = (store.len(), image.len());
        let call = |at: [*mut u8; 2]| unsafe { c::hourlog_freeze(at[0], len, e, at[1], room) };
        let word = self.lend(Function::Freeze, [store, &mut *image], call);
        self.done(Function::Freeze, image, word)
    }

    /// Store and list are both lent to be written.
    pub fn repair(&mut self, store: &mut [u8], lost: &mut [u32]) -> i64 {
        let (len, n) = (store.len(), lost.len());
        let call = |at: [*mut u8; 2]| unsafe { c::hourlog_repair(at[0], len, at[1].cast(), n) };
        let word = self.lend(Function::Repair, [&mut *store, bytes_of(lost)], call);
        let written = match self.fault {
            Some(fault) if fault.spoilt == Spoilt::Entry => bytes_of(lost),
            _ => store,
        };
        self.done(Function::Repair, written, word)
    }

    pub fn image_length(&mut self, counts: &mut [u32], e: u32) -> i64 {
        let n = counts.len();
        let call = |at: [*mut u8; 2]| unsafe { c::hourlog_image_length(at[0].cast(), n, e) };
        let word = self.lend(Function::ImageLength, [bytes_of(counts), &mut []], call);
        self.done(Function::ImageLength, &mut [], word)
    }

    pub fn image_write(&mut self, counts: &mut [u32], e: u32, image: &mut [u8]) -> i64 {
        let (n, room) = (counts.len(), image.len());
        let call =
            |at: [*mut u8; 2]| unsafe { c::hourlog_image_write(at[0].cast(), n, e, at[1], room) };
        let word = self.lend(Function::ImageWrite, [bytes_of(counts), &mut *image], call);
        self.done(Function::ImageWrite, image, word)
    }

    pub fn image_from_book(&mut self, book: &mut [u8], e: u32, image: &mut [u8]) -> i64 {
        let (len, room) = (book.len(), image.len());
        let call =
            |at: [*mut u8; 2]| unsafe { c::hourlog_image_from_bcd(at[0], len, e, at[1], room) };
        let word = self.lend(Function::ImageFromBook, [book, &mut *image], call);
        self.done(Function::ImageFromBook, image, word)
    }

    pub fn image_to_book(&mut self, image: &mut [u8], book: &mut [u8]) -> i64 {
        let (len, room) = (image.len(), book.len());
        let call = |at: [*mut u8; 2]| unsafe { c::hourlog_image_to_bcd(at[0], len, at[1], room) };
        let word = self.lend(Function::ImageToBook, [image, &mut *book], call);
        self.done(Function::ImageToBook, book, word)
    }

    pub fn image_merge(
        &mut self,
        first: &mut [u8],
        second: &mut [u8],
        e: u32,
        image: &mut [u8],
    ) -> i64 {
        let (len, other, room) = (first.len(), second.len(), image.len());
        let call = |at: [*mut u8; 3]| unsafe {
            c::hourlog_image_merge(at[0], len, at[1], other, e, at[2], room)
        };
        let word = self.lend(Function::ImageMerge, [first, second, &mut *image], call);
        self.done(Function::ImageMerge, image, word)
    }

    /// The same bytes lent as both images.
    pub fn image_merge_same(&mut self, both: &mut [u8], e: u32, image: &mut [u8]) -> i64 {
        let (len, room) = (both.len(), image.len());
        let call = |at: [*mut u8; 2]| unsafe {
            c::hourlog_image_merge(at[0], len, at[0], len, e, at[1], room)
        };
        let word = self.lend(Function::ImageMerge, [both, &mut *image], call);
        self.done(Function::ImageMerge, image, word)
    }

    fn lend<const N: usize>(
        &mut self,
        function: Function,
        buffers: [&mut [u8]; N],
        call: impl Fn([*mut u8; N]) -> i64,
    ) -> i64 {
        fence::calling(function);
        self.lender.lend(buffers, call)
    }

    pub fn calls(&self) -> u64 {
        self.seen.iter().flatten().sum()
    }

    pub fn calls_of(&self, function: Function) -> u64 {
        self.seen[function as usize].iter().sum()
    }

    /// Counts a call, and spoils it if the self-test asks for that.
    fn done(&mut self, function: Function, lent: &mut [u8], word: i64) -> i64 {
        let outcome = usize::try_from(-word).unwrap_or(0);
        self.seen[function as usize][outcome.min(OUTCOMES - 1)] += 1;
        match self.fault {
            Some(fault) if fault.function == function => self.spoil(fault.spoilt, lent, word),
            _ => word,
        }
    }

    /// Spoils one call; one with no byte lent cannot have a byte spoilt.
    fn spoil(&mut self, spoilt: Spoilt, lent: &mut [u8], word: i64) -> i64 {
        match (spoilt, lent.last_mut()) {
            (Spoilt::Answer, _) => {
                self.fault = None;
                word ^ (1 << 62)
            }
            (Spoilt::Byte | Spoilt::Entry, Some(last)) => {
                self.fault = None;
                *last ^= 1;
                word
            }
            (Spoilt::Byte | Spoilt::Entry, None) => word,
        }
    }
}

/// The memory of some counts.
fn bytes_of(counts: &mut [u32]) -> &mut [u8] {
    unsafe { std::slice::from_raw_parts_mut(counts.as_mut_ptr().cast(), size_of_val(counts)) }
}
