//! What the examples in Rust need of kazovuni.h: its structs and functions, and safe words for them.
//!
//! A slice or a reference of Rust is all that a call asks of its pointers, so each call is safe behind these types.
#![allow(dead_code)] // each example uses a part of it

use std::ffi::c_void;

pub const PAGE: usize = 4096;
pub type Descriptor = [u8; 64];
pub type RecordBytes = [u8; 32];

pub const MOVE: u8 = 0x03;
pub const FILL: u8 = 0x04;
pub const COMPARE: u8 = 0x05;
pub const CREATE_DELTA: u8 = 0x07;
pub const APPLY_DELTA: u8 = 0x08;

/// The flag of a job whose result is checked.
pub const CHECK_RESULT: u32 = 0x80;

/// `kazovuni_job`
#[repr(C)]
#[derive(Clone, Copy, Debug, Default)]
pub struct Job {
    pub opcode: u8,
    pub expected: u8,
    pub flags: u32,
    pub source: u64,
    pub target: u64,
    pub extra: u64,
    pub size: u32,
    pub delta_size: u32,
}

/// `kazovuni_record`
#[repr(C)]
#[derive(Clone, Copy, Debug, Default)]
pub struct Record {
    pub status: u8,
    pub result: u8,
    pub completed: u32,
    pub fault: u64,
    pub delta_size: u32,
}

/// `kazovuni_engine`
#[repr(C)]
struct Handle {
    engine: *mut c_void,
    is_open: bool,
}

#[link(name = "kazovuni")]
extern "C" {
    fn kazovuni_need(descriptor: *const Descriptor) -> u64;
    fn kazovuni_encode(job: *const Job, descriptor: *mut Descriptor) -> bool;
    fn kazovuni_record_decode(bytes: *const RecordBytes, record: *mut Record) -> bool;
    fn kazovuni_rest(descriptor: *const Descriptor, bytes: *const RecordBytes, left: *mut Descriptor) -> bool;
    fn kazovuni_fill(
        descriptor: *const Descriptor,
        target: *mut u8,
        target_length: usize,
        record: *mut RecordBytes,
    ) -> u8;
    fn kazovuni_move(
        descriptor: *const Descriptor,
        source: *const u8,
        source_length: usize,
        target: *mut u8,
        target_length: usize,
        record: *mut RecordBytes,
    ) -> u8;
    fn kazovuni_compare(
        descriptor: *const Descriptor,
        one: *const u8,
        one_length: usize,
        other: *const u8,
        other_length: usize,
        record: *mut RecordBytes,
    ) -> u8;
    fn kazovuni_create_delta(
        descriptor: *const Descriptor,
        one: *const u8,
        one_length: usize,
        other: *const u8,
        other_length: usize,
        delta: *mut u8,
        delta_length: usize,
        record: *mut RecordBytes,
    ) -> u8;
    fn kazovuni_apply_delta(
        descriptor: *const Descriptor,
        delta: *const u8,
        delta_length: usize,
        target: *mut u8,
        target_length: usize,
        record: *mut RecordBytes,
    ) -> u8;
    fn kazovuni_submit_over(
        bytes: *mut u8,
        length: usize,
        descriptor: *const Descriptor,
        staging: u32,
        record: *mut RecordBytes,
    ) -> u8;
    fn kazovuni_create(handle: *mut Handle, pages: u32, staging: u32) -> u8;
    fn kazovuni_free(handle: *mut Handle);
    fn kazovuni_bring(handle: *mut Handle, page: u32, bytes: *const [u8; PAGE]) -> u8;
    fn kazovuni_read(handle: *mut Handle, address: u64, bytes: *mut u8, length: usize) -> u8;
    fn kazovuni_submit(handle: *mut Handle, descriptor: *const Descriptor, record: *mut RecordBytes) -> u8;
}

/// The code of a call that did nothing, as kazovuni.h names them.
#[derive(Debug)]
pub struct Refused(pub u8);

fn done<T>(value: T, answer: u8) -> Result<T, Refused> {
    if answer == 0 {
        Ok(value)
    } else {
        Err(Refused(answer))
    }
}

/// The descriptor of a job; none where its flags do not fit.
pub fn encode(job: &Job) -> Option<Descriptor> {
    let mut descriptor = [0; 64];
    unsafe { kazovuni_encode(job, &mut descriptor) }.then_some(descriptor)
}

/// The fields of a completion record; none where its status is none.
pub fn record_of(bytes: &RecordBytes) -> Option<Record> {
    let mut record = Record::default();
    unsafe { kazovuni_record_decode(bytes, &mut record) }.then_some(record)
}

/// What is left of a job after a page fault; none where nothing is.
pub fn rest(descriptor: &Descriptor, bytes: &RecordBytes) -> Option<Descriptor> {
    let mut left = [0; 64];
    unsafe { kazovuni_rest(descriptor, bytes, &mut left) }.then_some(left)
}

/// Where the buffers of a job lie, as far as its descriptor says. The rules judge these addresses, and no call follows
/// them: so each buffer has one that is aligned and shares no byte with another, wherever it is. Slices of Rust that
/// are written overlap no other.
const SECOND: u64 = 1 << 40;
const THIRD: u64 = 2 << 40;

/// A length as a descriptor has it; one that does not fit is too long for any job, and so is what stands for it.
fn size_of(bytes: &[u8]) -> u32 {
    u32::try_from(bytes.len()).unwrap_or(u32::MAX)
}

/// The record of a call over buffers, whose lengths have to be those of the job's ranges.
fn carried_out(job: Job, call: impl FnOnce(&Descriptor, &mut RecordBytes) -> u8) -> Result<Record, Refused> {
    let mut record = [0; 32];
    let descriptor = encode(&job).expect("flags that fit");
    done((), call(&descriptor, &mut record))?;
    Ok(record_of(&record).expect("a status"))
}

/// Copies a slice over another one of the same length.
pub fn move_bytes(source: &[u8], target: &mut [u8]) -> Result<Record, Refused> {
    let job = Job { opcode: MOVE, target: SECOND, size: size_of(source), ..Job::default() };
    carried_out(job, |descriptor, record| unsafe {
        kazovuni_move(descriptor, source.as_ptr(), source.len(), target.as_mut_ptr(), target.len(), record)
    })
}

/// Fills a slice with 8 bytes over and over, the lowest of the number first.
pub fn fill(pattern: u64, target: &mut [u8]) -> Result<Record, Refused> {
    let job = Job { opcode: FILL, source: pattern, size: size_of(target), ..Job::default() };
    carried_out(job, |descriptor, record| unsafe {
        kazovuni_fill(descriptor, target.as_mut_ptr(), target.len(), record)
    })
}

/// Finds the first byte in which two slices of the same length differ: result 1, and `completed` is its place.
pub fn compare(one: &[u8], other: &[u8]) -> Result<Record, Refused> {
    compare_with(0, one, other)
}

/// The same with status 01 only where they are alike, and else 02.
pub fn compare_alike(one: &[u8], other: &[u8]) -> Result<Record, Refused> {
    compare_with(CHECK_RESULT, one, other)
}

fn compare_with(flags: u32, one: &[u8], other: &[u8]) -> Result<Record, Refused> {
    let job = Job { opcode: COMPARE, flags, target: SECOND, size: size_of(one), ..Job::default() };
    carried_out(job, |descriptor, record| unsafe {
        kazovuni_compare(descriptor, one.as_ptr(), one.len(), other.as_ptr(), other.len(), record)
    })
}

/// Writes how a slice differs from another one of the same length: 10 bytes for each differing block of 8, in at most
/// the bytes of `delta`, a multiple of 10.
pub fn create_delta(one: &[u8], other: &[u8], delta: &mut [u8]) -> Result<Record, Refused> {
    let (size, delta_size) = (size_of(one), size_of(delta));
    let job = Job { opcode: CREATE_DELTA, target: SECOND, extra: THIRD, size, delta_size, ..Job::default() };
    carried_out(job, |descriptor, record| unsafe {
        let (to, room) = (delta.as_mut_ptr(), delta.len());
        kazovuni_create_delta(descriptor, one.as_ptr(), one.len(), other.as_ptr(), other.len(), to, room, record)
    })
}

/// Writes what a delta record says over a slice of the length that it was made of.
pub fn apply_delta(delta: &[u8], target: &mut [u8]) -> Result<Record, Refused> {
    let (size, delta_size) = (size_of(target), size_of(delta));
    let job = Job { opcode: APPLY_DELTA, target: SECOND, size, delta_size, ..Job::default() };
    carried_out(job, |descriptor, record| unsafe {
        kazovuni_apply_delta(descriptor, delta.as_ptr(), delta.len(), target.as_mut_ptr(), target.len(), record)
    })
}

/// Carries a job out over whole pages, with as much staging as it needs. Addresses are places in the slice.
pub fn submit_over(bytes: &mut [u8], descriptor: &Descriptor) -> Result<RecordBytes, Refused> {
    let mut record = [0; 32];
    let answer = unsafe {
        let staging = kazovuni_need(descriptor) as u32;
        kazovuni_submit_over(bytes.as_mut_ptr(), bytes.len(), descriptor, staging, &mut record)
    };
    done(record, answer)
}

/// An engine with an image of its own, whose pages are present or absent. Of two copies of a handle one alone may be
/// used, so it stands in a box and is moved with it; it is freed with the engine.
pub struct Engine(Box<Handle>);

impl Engine {
    pub fn new(pages: u32, staging: u32) -> Result<Engine, Refused> {
        let mut handle = Box::new(Handle { engine: std::ptr::null_mut(), is_open: false });
        let answer = unsafe { kazovuni_create(&mut *handle, pages, staging) };
        done(Engine(handle), answer)
    }

    pub fn bring(&mut self, page: u32, bytes: &[u8; PAGE]) -> Result<(), Refused> {
        done((), unsafe { kazovuni_bring(&mut *self.0, page, bytes) })
    }

    pub fn read(&mut self, address: u64, bytes: &mut [u8]) -> Result<(), Refused> {
        done((), unsafe { kazovuni_read(&mut *self.0, address, bytes.as_mut_ptr(), bytes.len()) })
    }

    pub fn submit(&mut self, descriptor: &Descriptor) -> Result<RecordBytes, Refused> {
        let mut record = [0; 32];
        let answer = unsafe { kazovuni_submit(&mut *self.0, descriptor, &mut record) };
        done(record, answer)
    }
}

impl Drop for Engine {
    fn drop(&mut self) {
        unsafe { kazovuni_free(&mut *self.0) }
    }
}
