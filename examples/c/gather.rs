//! A list of jobs as a loop of calls, as gather.c: a packet is put together from pieces that lie in different places of
//! the program, each job after the one before, up to the first that does not end well.
//!
//!     rustc --edition 2021 -L PREFIX/lib -l static=kazovuni gather.rs
mod kazovuni;

use kazovuni::{compare_alike, fill, move_bytes, Record, Refused};

/// A job over slices: from a piece into the packet, or the packet's bytes beside a piece.
enum Piece<'a> {
    Move(&'a [u8]),
    Fill(u64, usize),
    Alike(&'a [u8], usize),
}

/// Carries a job out over the packet, of which so many bytes are there. Answers its record and how many are there then.
fn carry_out(piece: &Piece, packet: &mut [u8], there: usize) -> Result<(Record, usize), Refused> {
    match *piece {
        Piece::Move(bytes) => Ok((move_bytes(bytes, &mut packet[there..][..bytes.len()])?, there + bytes.len())),
        Piece::Fill(pattern, length) => Ok((fill(pattern, &mut packet[there..][..length])?, there + length)),
        Piece::Alike(bytes, place) => Ok((compare_alike(bytes, &packet[place..][..bytes.len()])?, there)),
    }
}

fn main() {
    let (header, trailer, padding) = (b"from here on: ", b"end.", 10);
    let payload = vec![b'x'; 100];
    let mut packet = vec![0; header.len() + payload.len() + padding + trailer.len()];
    let length = packet.len();
    let jobs = [
        Piece::Move(header),
        Piece::Move(&payload),
        Piece::Fill(0x2e2e2e2e2e2e2e2e, padding),
        Piece::Move(trailer),
        Piece::Alike(&payload, header.len()),
        Piece::Alike(header, length - header.len()), // this one does not end well
    ];
    let mut there = 0;
    for (number, job) in jobs.iter().enumerate() {
        let (record, more) = carry_out(job, &mut packet, there).expect("buffers of the same length");
        if record.status != 1 {
            println!("job {number}: status {:02x}", record.status);
            break;
        }
        println!("job {number}: {} bytes", record.completed);
        there = more;
    }
    let packet = String::from_utf8(packet).expect("text");
    println!("{}...{}", &packet[..header.len() + 3], &packet[length - padding - trailer.len()..]);
    assert!(there == length && packet.ends_with("end."));
}
