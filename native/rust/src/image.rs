//! Whether an object is a static: it lies in the program's image, or in that of a library.

use crate::ffi;
use std::sync::OnceLock;

/// Where the system tells of no images, nothing is taken for a static.
pub(crate) fn has(address: usize) -> bool {
    static IMAGES: OnceLock<Vec<(usize, usize)>> = OnceLock::new();
    IMAGES.get_or_init(ffi::images).iter().any(|(start, end)| (*start..*end).contains(&address))
}
