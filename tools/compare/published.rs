//! The crate amf 1.0.0: its answers in the numbers of the refusal table, and a limit on its memory.

use amf::amf3::Value;
use amf::error::DecodeError;
use std::alloc::{GlobalAlloc, Layout, System};
use std::io;
use std::sync::atomic::{AtomicUsize, Ordering::Relaxed};

/// Bytes that a reading by the crate may have allocated when it asks for its next byte; past it the message is skipped.
const MEMORY: usize = 32 << 20;

/// The system's allocator, which counts what is allocated.
pub struct Counting;

static ALLOCATED: AtomicUsize = AtomicUsize::new(0);

unsafe impl GlobalAlloc for Counting {
    unsafe fn alloc(&self, l: Layout) -> *mut u8 {
        ALLOCATED.fetch_add(l.size(), Relaxed);
        System.alloc(l)
    }
    unsafe fn alloc_zeroed(&self, l: Layout) -> *mut u8 {
        ALLOCATED.fetch_add(l.size(), Relaxed);
        System.alloc_zeroed(l)
    }
    unsafe fn dealloc(&self, p: *mut u8, l: Layout) {
        ALLOCATED.fetch_sub(l.size(), Relaxed);
        System.dealloc(p, l)
    }
    unsafe fn realloc(&self, p: *mut u8, l: Layout, size: usize) -> *mut u8 {
        ALLOCATED.fetch_add(size, Relaxed);
        ALLOCATED.fetch_sub(l.size(), Relaxed);
        System.realloc(p, l, size)
    }
}

/// What the crate makes of a message.
pub enum Published {
    Finished {
        value: Value,
        taken: usize,
    },
    Refused {
        no: usize,
        told: usize,
        place: usize,
    },
    /// It would have taken too much memory.
    Skipped,
}

/// A message as the crate reads it: counts the bytes taken, notes where eight are taken at once, and fails when the crate has too much memory.
struct Message<'a> {
    bytes: &'a [u8],
    at: usize,
    eights: Vec<usize>,
    before: usize,
}

impl Message<'_> {
    fn new(bytes: &[u8]) -> Message<'_> {
        Message { bytes, at: 0, eights: Vec::new(), before: ALLOCATED.load(Relaxed) }
    }
}

impl io::Read for Message<'_> {
    fn read(&mut self, buf: &mut [u8]) -> io::Result<usize> {
        if ALLOCATED.load(Relaxed) > self.before + MEMORY + buf.len() {
            return Err(io::Error::from(io::ErrorKind::OutOfMemory));
        }
        let n = buf.len().min(self.bytes.len() - self.at);
        buf[..n].copy_from_slice(&self.bytes[self.at..self.at + n]);
        if n == 8 {
            self.eights.push(self.at);
        }
        self.at += n;
        Ok(n)
    }
}

/// Reads a message with the crate. The place is the count of bytes that it has taken.
pub fn read(bytes: &[u8]) -> Published {
    answer(&mut Message::new(bytes))
}

/// The places at which the crate takes eight bytes at once: numbers, and texts of that length.
pub fn eights(bytes: &[u8]) -> Vec<usize> {
    let mut message = Message::new(bytes);
    answer(&mut message);
    message.eights
}

fn answer(message: &mut Message) -> Published {
    let (no, told) = match Value::read_from(&mut *message) {
        Ok(value) => return Published::Finished { value, taken: message.at },
        Err(DecodeError::Io(e)) if e.kind() == io::ErrorKind::OutOfMemory => return Published::Skipped,
        Err(DecodeError::Io(_)) => (2, 0),
        Err(DecodeError::Unknown { marker }) => (3, marker as usize),
        Err(DecodeError::OutOfRangeReference { index }) => (4, index),
        Err(DecodeError::CircularReference { index }) => (5, index),
        Err(DecodeError::ExternalizableType { .. }) => (6, 0),
        Err(DecodeError::InvalidDate { millis }) => (7, millis.to_bits() as usize),
        Err(DecodeError::String(_)) => (8, 0),
        Err(e) => panic!("the crate says {e}"),
    };
    Published::Refused { no, told, place: message.at }
}

/// Writes a value with the crate.
pub fn write(value: &Value) -> Vec<u8> {
    let mut out = Vec::new();
    value.write_to(&mut out).expect("a vector takes all bytes");
    out
}
