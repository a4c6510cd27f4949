//! Comparison of repair, and what note 10 says of its result whatever the bytes
//! were.

use crate::ffi::Library;
use crate::refusal::word;
use crate::repair::repair;
use crate::store::Store;
use crate::store_calls::{compare, same_bytes, same_word, Call, SECOND};

/// What a repair that was compared answered and left.
pub struct Repaired {
    pub word: i64,
    pub bytes: Vec<u8>,
    pub list: Vec<u32>,
}

/// Repairs a copy of these bytes, with a list of so many entries.
pub fn compare_repair(
    library: &mut Library,
    bytes: &[u8],
    room: usize,
) -> Result<Repaired, String> {
    let (mut left, mut list) = (bytes.to_vec(), unwritten(room));
    let (mut second, mut second_list) = (bytes.to_vec(), unwritten(room));
    let expected = word(repair(&mut second, &mut second_list));
    let answer = library.repair(&mut left, &mut list);
    same_word(answer, expected, SECOND)?;
    same_bytes(&left, &second, "store")?;
    same_list(&list, &second_list)?;
    if answer < 0 {
        same_bytes(&left, bytes, "store that was refused")?;
        same_list(&list, &unwritten(room))?;
    } else {
        is_restored(library, bytes, answer, &left)?;
    }
    Ok(Repaired {
        word: answer,
        bytes: left,
        list,
    })
}

/// Entries that are no page's.
pub fn unwritten(room: usize) -> Vec<u32> {
    (0..room as u32).map(|k| 0x5A5A_0000 + k).collect()
}

pub fn same_list(library: &[u32], expected: &[u32]) -> Result<(), String> {
    match (0..library.len()).find(|&k| library[k] != expected[k]) {
        None => Ok(()),
        Some(k) => Err(format!(
            "entry {k} of the list: the library leaves {:#x}, not {:#x}",
            library[k], expected[k]
        )),
    }
}

/// 'The result is sound with the same N; a sound store loses no count and lists
/// nothing.' And repaired once more it stays as it is.
fn is_restored(
    library: &mut Library,
    before: &[u8],
    lost: i64,
    after: &[u8],
) -> Result<(), String> {
    let store = Store::read(after).map_err(|_| "the result is not sound")?;
    compare(library, &mut after.to_vec(), Call::Free)?;
    same_bytes(&after[12..16], &before[12..16], "hours logged")?;
    if let Ok(sound) = Store::read(before) {
        same_word(lost, 0, "a sound store")?;
        if store.counts() != sound.counts() {
            return Err("a sound store has lost a count".into());
        }
    }
    let (mut again, room) = (after.to_vec(), store.pages.len());
    let mut list = unwritten(room);
    let answer = library.repair(&mut again, &mut list);
    same_word(answer, 0, "a store that was repaired")?;
    same_bytes(&again, after, "store repaired once more")?;
    same_list(&list, &unwritten(room))
}
