//! Comparison of the call that merges two images.

use crate::ffi::Library;
use crate::image::{self, image_of};
use crate::image_calls::{compare_output, rooms};
use crate::merge::merged;
use crate::refusal::Answer;
use crate::store_calls::same_bytes;

/// What a door's board sent, and what the full check says of it.
#[derive(Clone)]
pub struct Door {
    pub bytes: Vec<u8>,
    pub list: Answer<Vec<u64>>,
}

impl Door {
    /// The image of a list.
    pub fn of(list: &[u64], e: u32) -> Door {
        Door {
            bytes: image_of(list, e),
            list: Ok(list.to_vec()),
        }
    }

    /// Any bytes.
    pub fn any(bytes: Vec<u8>) -> Door {
        let list = image::list(&bytes);
        Door { bytes, list }
    }
}

/// Two doors merged, into buffers of every room; gives the image, if there is
/// one.
pub fn compare_merging(
    library: &mut Library,
    first: &Door,
    second: &Door,
    e: u32,
) -> Result<Option<Vec<u8>>, String> {
    let image = merged(&first.list, &second.list, e);
    let (mut one, mut other) = (first.bytes.clone(), second.bytes.clone());
    for room in rooms(&image) {
        compare_output(&image, room, "merged image", |out| {
            library.image_merge(&mut one, &mut other, e, out)
        })?;
        same_bytes(&one, &first.bytes, "first image")?;
        same_bytes(&other, &second.bytes, "second image")?;
    }
    Ok(image.ok())
}

/// A door merged with itself, the same bytes being lent as both.
pub fn compare_doubling(library: &mut Library, door: &Door, e: u32) -> Result<(), String> {
    let image = merged(&door.list, &door.list, e);
    let mut both = door.bytes.clone();
    for room in rooms(&image) {
        compare_output(&image, room, "doubled image", |out| {
            library.image_merge_same(&mut both, e, out)
        })?;
        same_bytes(&both, &door.bytes, "image lent as both")?;
    }
    Ok(())
}
