//! A page fault, the page brought, the rest carried out, as fault.c: a move between pages that are brought only when
//! the move asks for them.
//!
//!     rustc --edition 2021 -L PREFIX/lib -l static=kazovuni fault.rs
mod kazovuni;

use kazovuni::{encode, record_of, rest, Engine, Job, MOVE, PAGE};

const PAGES: usize = 4;

fn main() {
    let store: Vec<u8> = (0..PAGES * PAGE).map(|place| (place % 251) as u8).collect();
    let page_of_store = |page: usize| store[page * PAGE..][..PAGE].try_into().expect("a whole page");

    let job = Job { opcode: MOVE, source: 1000, target: 9000, size: 6000, ..Job::default() };
    let mut engine = Engine::new(PAGES as u32, job.size).expect("memory"); // a move needs as much as it moves
    engine.bring(0, page_of_store(0)).expect("memory"); // page 0 is there from the start, the others are not
    let mut left = encode(&job);
    let mut done = 0;
    while let Some(descriptor) = left {
        let answered = engine.submit(&descriptor).expect("an engine");
        let record = record_of(&answered).expect("a status");
        done += record.completed;
        left = rest(&descriptor, &answered);
        if left.is_some() {
            let access = if record.status & 0x80 != 0 { "write" } else { "read" };
            println!("page fault on a {access} of {}, {done} bytes done", record.fault);
            let page = record.fault as usize / PAGE;
            engine.bring(page as u32, page_of_store(page)).expect("memory");
        }
    }
    println!("{done} bytes done");

    let mut moved = vec![0; job.size as usize];
    engine.read(job.target, &mut moved).expect("present bytes");
    assert_eq!(done, job.size);
    assert_eq!(moved, store[1000..7000]);
}
