//! Where the library finds what it is lent: in copies with nothing beside
//! them, so that one byte read or written outside is seen.
//!
//! The library that is shipped is compiled by Rattle's back end, which no
//! sanitizer instruments. So each call is made twice on the same bytes: in
//! memory that ends where inaccessible pages begin, and in memory that starts
//! where such pages end. The processor faults at the first byte on either
//! side, read or written, whatever code does it. With the feature `heap` each
//! call is made once, in exactly sized heap blocks: for the build with
//! AddressSanitizer, whose library is instrumented (tests/instrumented.sh).

use crate::fence;

#[derive(Clone, Copy, Debug, PartialEq, Eq)]
pub enum Side {
    Before,
    Behind,
}

/// A buffer of a call that lacks some bytes at one side; the call is told of
/// them all the same, and steps outside. For the self-test.
#[derive(Clone, Copy, Debug)]
pub struct Short {
    pub buffer: usize,
    pub side: Side,
    pub bytes: usize,
}

/// A place for one buffer.
enum Place {
    /// Memory between fences, and the side on which the buffer touches one.
    Fenced(&'static mut [u8], Side),
    Heap(Box<[u8]>),
}

impl Place {
    fn new(side: Side) -> Place {
        if cfg!(feature = "heap") {
            Place::Heap([].into())
        } else {
            Place::Fenced(fence::memory(), side)
        }
    }

    fn guards(&self, wanted: Side) -> bool {
        match self {
            Place::Fenced(_, side) => *side == wanted,
            Place::Heap(_) => true,
        }
    }

    /// Lays a copy of the bytes here.
    fn lay(&mut self, bytes: &[u8]) -> *mut u8 {
        match self {
            Place::Fenced(memory, side) => {
                let from = match side {
                    Side::Before => 0,
                    Side::Behind => memory.len() - bytes.len(),
                };
                let here = &mut memory[from..from + bytes.len()];
                here.copy_from_slice(bytes);
                here.as_mut_ptr()
            }
            Place::Heap(block) => {
                *block = bytes.into();
                block.as_mut_ptr()
            }
        }
    }

    /// Lays all but the bytes that are to lack, and gives the address that the
    /// whole would have.
    fn lay_short(&mut self, bytes: &[u8], short: Short) -> *mut u8 {
        match short.side {
            Side::Before => self.lay(&bytes[short.bytes..]).wrapping_sub(short.bytes),
            Side::Behind => self.lay(&bytes[..bytes.len() - short.bytes]),
        }
    }
}

/// The most buffers that a call is lent: two images and one to write to.
const BUFFERS: usize = 3;

/// The places of a call's buffers, on one side.
struct Places([Place; BUFFERS]);

impl Places {
    fn lay<const N: usize>(&mut self, buffers: &[&mut [u8]; N]) -> [*mut u8; N] {
        std::array::from_fn(|k| self.0[k].lay(buffers[k]))
    }

    fn lay_short<const N: usize>(
        &mut self,
        buffers: &[&mut [u8]; N],
        short: Short,
    ) -> [*mut u8; N] {
        let mut at = self.lay(buffers);
        at[short.buffer] = self.0[short.buffer].lay_short(buffers[short.buffer], short);
        at
    }
}

const SIDES: usize = if cfg!(feature = "heap") { 1 } else { 2 };

pub struct Lender {
    places: [Places; SIDES],
    pub short: Option<Short>,
}

impl Default for Lender {
    fn default() -> Lender {
        let sides = [Side::Behind, Side::Before];
        let on = |side| Places(std::array::from_fn(|_| Place::new(side)));
        Lender {
            places: std::array::from_fn(|k| on(sides[k])),
            short: None,
        }
    }
}

impl Lender {
    /// Makes a call on copies of its buffers in every place, and hands back
    /// what it left there and its answer, which must be the same everywhere.
    pub fn lend<const N: usize>(
        &mut self,
        buffers: [&mut [u8]; N],
        call: impl Fn([*mut u8; N]) -> i64,
    ) -> i64 {
        if let Some(short) = self.short {
            return self.lend_short(&buffers, short, call);
        }
        let places = self.places.each_mut().map(|places| places.lay(&buffers));
        let answers = places.map(&call);
        let lengths = buffers.each_ref().map(|buffer| buffer.len());
        let left =
            places.map(|at| -> [&[u8]; N] { std::array::from_fn(|k| bytes_at(at[k], lengths[k])) });
        assert!(
            answers.iter().all(|word| *word == answers[0])
                && left.iter().all(|bytes| *bytes == left[0]),
            "the call does not do the same wherever its buffers lie: {answers:?}"
        );
        for (buffer, left) in buffers.into_iter().zip(left[0]) {
            buffer.copy_from_slice(left);
        }
        answers[0]
    }

    /// The same where the side is guarded on which a buffer is too short.
    fn lend_short<const N: usize>(
        &mut self,
        buffers: &[&mut [u8]; N],
        short: Short,
        call: impl Fn([*mut u8; N]) -> i64,
    ) -> i64 {
        let guarding = |places: &&mut Places| places.0[short.buffer].guards(short.side);
        let places = self
            .places
            .iter_mut()
            .find(guarding)
            .expect("both sides are guarded");
        call(places.lay_short(buffers, short))
    }
}

/// What a call left in a place.
fn bytes_at<'a>(at: *mut u8, len: usize) -> &'a [u8] {
    unsafe { std::slice::from_raw_parts(at, len) }
}
