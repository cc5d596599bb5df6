//! Jobs straight over a program's own buffers, as buffers.c: a text is copied into a slice of a larger buffer and
//! compared there; what another text has otherwise is written as a delta record, and applied to the copy.
//!
//!     rustc --edition 2021 -L PREFIX/lib -l static=kazovuni buffers.rs
mod kazovuni;

use kazovuni::{apply_delta, compare, create_delta, move_bytes, Record, Refused};

/// The record of a job, which must have status 01.
fn done(answer: Result<Record, Refused>) -> Record {
    let record = answer.expect("buffers of the same length");
    assert_eq!(record.status, 1);
    record
}

fn tell(one: &[u8], other: &[u8]) {
    let compared = done(compare(one, other));
    match compared.result {
        0 => println!("compare: no difference"),
        _ => println!("compare: the first difference is at {}", compared.completed),
    }
}

fn main() {
    let old_text = b"the quick brown fox jumps over the lazy dog now.".to_vec();
    let new_text = b"the quick green fox jumps over the lazy cat now.".to_vec();
    let mut pool = vec![0; 1000];
    let copy = &mut pool[333..][..old_text.len()]; // at an odd place, which no call minds
    let mut delta = vec![0; old_text.len() / 8 * 10]; // at most an entry of 10 bytes for each block of 8

    println!("moved {} bytes", done(move_bytes(&old_text, copy)).completed);
    tell(&old_text, copy);
    tell(&new_text, copy);

    let created = done(create_delta(&old_text, &new_text, &mut delta));
    println!("create: result {}, the record has {} bytes", created.result, created.delta_size);
    assert_eq!(created.delta_size, 20);

    let applied = done(apply_delta(&delta[..created.delta_size as usize], copy));
    println!("apply: {} bytes of the record are done", applied.completed);
    tell(&new_text, copy);
    assert_eq!(copy, new_text);
}
