//! Two versions of a page compared, and a delta record made of them and applied elsewhere, as delta.c: so a replica is
//! kept up to date without the whole page being sent.
//!
//!     rustc --edition 2021 -L PREFIX/lib -l static=kazovuni delta.rs
mod kazovuni;

use kazovuni::{encode, record_of, submit_over, Job, Record, APPLY_DELTA, COMPARE, CREATE_DELTA, PAGE};

/// Carries a job out over a memory, and answers its record, which must have status 01.
fn submit(memory: &mut [u8], job: Job) -> Record {
    let descriptor = encode(&job).expect("flags that fit");
    let answered = submit_over(memory, &descriptor).expect("whole pages");
    let record = record_of(&answered).expect("a status");
    assert_eq!(record.status, 1);
    record
}

fn main() {
    const SIZE: u32 = PAGE as u32;
    let before: Vec<u8> = (0..PAGE).map(|place| (place / 8) as u8).collect();
    let mut after = before.clone();
    after[100..107].copy_from_slice(b"changed"); // in the blocks of 8 with the numbers 12 and 13
    after[4000..4007].copy_from_slice(b"changed"); // in block 500

    // Two memories stand for two machines: the old page, the new one and room for a record; the old page, and room.
    let (old, new, delta) = (0, PAGE as u64, 2 * PAGE as u64);
    let (copy, arrived) = (0, PAGE as u64);
    let mut here = [&before[..], &after[..], &[0; PAGE]].concat();
    let mut there = [&before[..], &[0; PAGE]].concat();

    let compare = Job { opcode: COMPARE, source: old, target: new, size: SIZE, ..Job::default() };
    let compared = submit(&mut here, compare);
    println!("compare: result {}, the first difference is at {}", compared.result, compared.completed);
    assert_eq!((compared.result, compared.completed), (1, 100));

    // With more than 400 bytes of differences, better send the page.
    let create = Job { opcode: CREATE_DELTA, extra: delta, delta_size: 400, ..compare };
    let created = submit(&mut here, create);
    println!("create: result {}, the record has {} bytes", created.result, created.delta_size);
    assert_eq!((created.result, created.delta_size), (1, 30));

    let sent = here[2 * PAGE..][..created.delta_size as usize].to_vec();
    there[PAGE..][..sent.len()].copy_from_slice(&sent);

    let delta_size = created.delta_size;
    let apply = Job { opcode: APPLY_DELTA, source: arrived, delta_size, target: copy, size: SIZE, ..Job::default() };
    let applied = submit(&mut there, apply);
    println!("apply: {} bytes of the record are done", applied.completed);
    assert_eq!(there[..PAGE], after);
    println!("the copy is the new page");
}
