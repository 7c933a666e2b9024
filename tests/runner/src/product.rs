//! The product, called through its C interface; in self-check the oracle stands in its place. It is linked where the archive's code is
//! this machine's, else a child process that has linked it makes the calls.

#[cfg(not(product))]
use crate::served as product;
#[cfg(product)]
use linked as product;
use std::ops::Range;

/// What is lent to one call: two buffers, and where in them the stream and the room lie. The call may write to the room alone, but
/// whoever makes it gives both buffers back whole, as the call left them.
pub struct Lent {
    pub stream_buffer: Vec<u8>,
    pub stream_at: Range<usize>,
    pub room_buffer: Vec<u8>,
    pub room_at: Range<usize>,
}

impl Lent {
    /// The stream and the room themselves.
    fn parts(&mut self) -> (&[u8], &mut [u8]) {
        (&self.stream_buffer[self.stream_at.clone()], &mut self.room_buffer[self.room_at.clone()])
    }
}

#[cfg(product)]
mod linked {
    use super::Lent;

    extern "C" {
        fn checker_answer(stream: *const u8, stream_len: usize, room: *mut u8, room_len: usize) -> i64;
    }

    /// The archive was there when this was built.
    pub fn is_here() -> bool {
        true
    }

    pub fn answer(lent: &mut Lent) -> i64 {
        let (stream, room) = lent.parts();
        // SAFETY: both pointers come from slices of the lengths given, which outlive the call and do not overlap.
        unsafe { checker_answer(stream.as_ptr(), stream.len(), room.as_mut_ptr(), room.len()) }
    }

    pub fn answer_nulls() -> i64 {
        // SAFETY: with both lengths 0 nothing is read or written.
        unsafe { checker_answer(std::ptr::null(), 0, std::ptr::null_mut(), 0) }
    }
}

/// Whether there is a product to call.
pub fn is_here() -> bool {
    product::is_here()
}

/// What is compared with the oracle.
#[derive(Clone, Copy, PartialEq, Eq)]
pub enum Subject {
    Product,
    Oracle,
}

impl Subject {
    pub fn answer(self, lent: &mut Lent) -> i64 {
        match self {
            Subject::Oracle => {
                let (stream, room) = lent.parts();
                oracle::answer(stream, room)
            }
            Subject::Product => product::answer(lent),
        }
    }

    /// An empty stream and no room as C++ may give them: as null pointers.
    pub fn answer_nulls(self) -> i64 {
        match self {
            Subject::Oracle => oracle::answer(&[], &mut []),
            Subject::Product => product::answer_nulls(),
        }
    }
}
