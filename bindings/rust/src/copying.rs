//! Texts that the library copies.
use crate::ffi;

const PART: usize = 4096;

/// A whole text, part by part; none where the call answers that there is none.
pub fn copied(mut call: impl FnMut(usize, *mut u8, usize, *mut usize) -> u32) -> Option<String> {
    let mut bytes = Vec::new();
    let mut part = [0; PART];
    loop {
        let mut count = 0;
        if call(bytes.len(), part.as_mut_ptr(), part.len(), &mut count) != ffi::OK {
            return None;
        }
        bytes.extend_from_slice(&part[..count]);
        if count < part.len() {
            // The library gives UTF-8.
            return Some(String::from_utf8_lossy(&bytes).into_owned());
        }
    }
}

/// A name; none where it is empty.
pub fn named(call: impl FnMut(usize, *mut u8, usize, *mut usize) -> u32) -> Option<String> {
    copied(call).filter(|name| !name.is_empty())
}
