//! A slice of 4 GiB and some bytes, by the words of examples/c/kazovuni.rs: a length that was cut to 32 bits would be
//! that of a job that is accepted. `tests/c_examples.sh` builds and runs it.
#[path = "../../examples/c/kazovuni.rs"]
mod kazovuni;

use kazovuni::{apply_delta, compare};
use std::ffi::c_void;

const MOST: usize = 1 << 32;
const PROT_READ: i32 = 1;
const PRIVATE_AND_ANONYMOUS: i32 = 0x02 | 0x20;

extern "C" {
    fn mmap(start: *mut c_void, length: usize, protection: i32, flags: i32, file: i32, offset: i64) -> *mut c_void;
}

fn main() {
    let pages = unsafe { mmap(std::ptr::null_mut(), MOST + 4096, PROT_READ, PRIVATE_AND_ANONYMOUS, -1, 0) };
    assert!(pages as isize != -1, "no such range of addresses");
    // Zeros, that no page stands behind before one is read, and none ever is.
    let huge = unsafe { std::slice::from_raw_parts(pages as *const u8, MOST + 64) };
    let compared = compare(huge, huge).expect("slices of the same length");
    let applied = apply_delta(&huge[..MOST + 60], &mut [0; 64]).expect("slices of any length");
    assert_eq!((compared.status, applied.status), (0x13, 0x15));
}
