//! One call on a store, and its comparison between the library, the second
//! implementation and the plain list.

use crate::days::Changes;
use crate::ffi::Library;
use crate::image;
use crate::plain::Plain;
use crate::refusal::word;
use crate::store;
use std::fmt;

/// Whose word the library's is compared with, in messages.
pub const SECOND: &str = "the second implementation";

/// A call with its arguments.
#[derive(Clone, Copy, Debug)]
pub enum Call {
    Fresh(u32, u32),
    Append(u32),
    Set(u32, u32),
    Insert(u32, u32),
    Strike(u32),
    Count(u32),
    Reading(u32),
    Reach(u32),
    Day(u32, Changes),
    Free,
    /// With e, and by how many bytes the output buffer is longer or shorter
    /// than the image.
    Freeze(u32, i64),
}

/// The letters are those of the session program, so that a list of calls can
/// be typed in there; insert, strike and freeze have none and are shown as i, x
/// and z, and a day's changes behind it.
impl fmt::Display for Call {
    fn fmt(&self, f: &mut fmt::Formatter) -> fmt::Result {
        match *self {
            Call::Fresh(pages, cells) => write!(f, "n {pages} {cells}"),
            Call::Append(count) => write!(f, "a {count}"),
            Call::Set(hour, count) => write!(f, "s {hour} {count}"),
            Call::Insert(hour, count) => write!(f, "i {hour} {count}"),
            Call::Strike(hour) => write!(f, "x {hour}"),
            Call::Count(hour) => write!(f, "g {hour}"),
            Call::Reading(hour) => write!(f, "r {hour}"),
            Call::Reach(figure) => write!(f, "w {figure}"),
            Call::Day(day, changes) if changes.is_empty() => write!(f, "d {day}"),
            Call::Day(day, changes) => write!(f, "d {day} {:?}", &*changes),
            Call::Free => write!(f, "f"),
            Call::Freeze(e, room) => write!(f, "z {e} {room:+}"),
        }
    }
}

impl Call {
    fn by_library(self, library: &mut Library, store: &mut [u8], out: &mut [u8]) -> i64 {
        match self {
            Call::Fresh(pages, cells) => library.fresh(store, pages, cells),
            Call::Append(count) => library.append(store, count),
            Call::Set(hour, count) => library.set(store, hour, count),
            Call::Insert(hour, count) => library.insert(store, hour, count),
            Call::Strike(hour) => library.strike(store, hour),
            Call::Count(hour) => library.count(store, hour),
            Call::Reading(hour) => library.reading(store, hour),
            Call::Reach(figure) => library.reach(store, figure),
            Call::Day(day, changes) => library.day(store, day, &changes),
            Call::Free => library.free(store),
            Call::Freeze(e, _) => library.freeze(store, e, out),
        }
    }

    fn by_second(self, bytes: &mut [u8], out: &mut [u8]) -> i64 {
        match self {
            Call::Fresh(pages, cells) => word(store::fresh(bytes, pages.into(), cells.into())),
            Call::Append(count) => word(store::append(bytes, count.into())),
            Call::Set(hour, count) => word(store::set(bytes, hour.into(), count.into())),
            Call::Insert(hour, count) => word(store::insert(bytes, hour.into(), count.into())),
            Call::Strike(hour) => word(store::strike(bytes, hour.into())),
            Call::Count(hour) => word(store::count(bytes, hour.into())),
            Call::Reading(hour) => word(store::reading(bytes, hour.into())),
            Call::Reach(figure) => word(store::reach(bytes, figure.into())),
            Call::Day(day, changes) => word(store::day(bytes, day.into(), &changes)),
            Call::Free => word(store::free(bytes)),
            Call::Freeze(e, _) => word(store::freeze(bytes, e, out)),
        }
    }

    /// What the plain list answers; it has no say in fresh, whose refusal is
    /// about the buffer.
    pub fn by_plain(self, plain: &mut Plain, out: &mut [u8]) -> Option<i64> {
        Some(match self {
            Call::Fresh(..) => return None,
            Call::Append(count) => word(plain.append(count.into())),
            Call::Set(hour, count) => word(plain.set(hour.into(), count.into())),
            Call::Insert(hour, count) => word(plain.insert(hour.into(), count.into())),
            Call::Strike(hour) => word(plain.strike(hour.into())),
            Call::Count(hour) => word(plain.count(hour.into())),
            Call::Reading(hour) => word(plain.reading(hour.into())),
            Call::Reach(figure) => word(plain.reach(figure.into())),
            Call::Day(day, changes) => word(plain.day(day.into(), &changes)),
            Call::Free => word(Ok(plain.free())),
            Call::Freeze(e, _) => word(image::write(plain.counts(), e, out)),
        })
    }

    /// An output buffer for freeze, with a pattern that an image has not.
    pub fn output(self, bytes: &[u8]) -> Vec<u8> {
        let Call::Freeze(e, room) = self else {
            return Vec::new();
        };
        let counts = store::Store::read(bytes).map_or(Vec::new(), |store| store.counts());
        let exact = image::length(&counts, e).unwrap_or(64) as i64;
        vec![0xA5; (exact + room).max(0) as usize]
    }
}

/// What a call that was compared answered and wrote.
pub struct Done {
    pub word: i64,
    pub out: Vec<u8>,
}

/// Lets the library and the second implementation do one call on the same
/// bytes; an error names an answer or a byte in which they differ.
pub fn compare(library: &mut Library, bytes: &mut [u8], call: Call) -> Result<Done, String> {
    let mut second = bytes.to_vec();
    let mut out = call.output(bytes);
    let mut second_out = out.clone();
    let expected = call.by_second(&mut second, &mut second_out);
    let word = call.by_library(library, bytes, &mut out);
    same_word(word, expected, SECOND)?;
    same_bytes(bytes, &second, "store")?;
    same_bytes(&out, &second_out, "image")?;
    Ok(Done { word, out })
}

/// Several calls, each on a copy of its own: an append must not change what
/// the next one sees.
pub fn compare_all(library: &mut Library, bytes: &[u8], calls: &[Call]) -> Result<(), String> {
    for &call in calls {
        compare(library, &mut bytes.to_vec(), call)
            .map_err(|difference| format!("{call}: {difference}"))?;
    }
    Ok(())
}

pub fn same_word(library: i64, expected: i64, other: &str) -> Result<(), String> {
    if library == expected {
        return Ok(());
    }
    Err(format!("the library gives {library}, {other} {expected}"))
}

/// All bytes that two calls left, the first difference named.
pub fn same_bytes(library: &[u8], expected: &[u8], name: &str) -> Result<(), String> {
    if library == expected {
        return Ok(());
    }
    let at = (0..library.len())
        .find(|&k| library[k] != expected[k])
        .expect("both buffers have one length");
    Err(format!(
        "byte {at} of the {name}: the library leaves {:#04x}, not {:#04x}",
        library[at], expected[at]
    ))
}
