//! A buffer moved over itself, as move.c: room for a word is made in a text, the word is put in, and the room is closed
//! again.
//!
//!     rustc --edition 2021 -L PREFIX/lib -l static=kazovuni move.rs
mod kazovuni;

use kazovuni::{encode, record_of, submit_over, Job, MOVE, PAGE};

/// Moves bytes of the memory, also over themselves, and prints which way they went.
fn shift(memory: &mut [u8], target: usize, source: usize, size: usize) {
    let job = Job { opcode: MOVE, source: source as u64, target: target as u64, size: size as u32, ..Job::default() };
    let descriptor = encode(&job).expect("flags that fit");
    let answered = submit_over(memory, &descriptor).expect("whole pages");
    let record = record_of(&answered).expect("a status");
    assert_eq!((record.status, record.completed), (1, job.size));
    let way = if record.result == 1 { "last to the first" } else { "first to the last" };
    println!("moved {} bytes from the {way}", record.completed);
}

/// Prints the text, which ends with a zero.
fn expect(text: &[u8], wanted: &str) {
    let end = text.iter().position(|&byte| byte == 0).expect("an end");
    let text = String::from_utf8_lossy(&text[..end]);
    println!("{text}");
    assert_eq!(text, wanted);
}

fn main() {
    let mut memory = vec![0; 2 * PAGE];
    let text = PAGE - 16; // it goes over the edge between the two pages
    let place = text + "the quick ".len();
    let size = "fox jumps".len() + 1;
    memory[text..text + 19].copy_from_slice(b"the quick fox jumps");
    expect(&memory[text..], "the quick fox jumps");

    shift(&mut memory, place + 6, place, size); // upwards, into the buffer's own bytes
    memory[place..place + 6].copy_from_slice(b"brown ");
    expect(&memory[text..], "the quick brown fox jumps");

    shift(&mut memory, place, place + 6, size); // and downwards again
    expect(&memory[text..], "the quick fox jumps");
}
