//! The independent program behind the checker's own C interface, for the fuzz targets of `host/fuzz`.

use std::slice::{from_raw_parts, from_raw_parts_mut};

/// The same arguments, the same number and the same bytes as `checker_answer`.
///
/// # Safety
/// `stream` and `room` point to that many bytes, which do not overlap; with a length of 0 the pointer does not matter.
#[no_mangle]
pub unsafe extern "C" fn framecheck_oracle_answer(stream: *const u8, stream_len: usize, room: *mut u8, room_len: usize) -> i64 {
    let stream = if stream_len == 0 { &[] } else { from_raw_parts(stream, stream_len) };
    let room = if room_len == 0 { &mut [] } else { from_raw_parts_mut(room, room_len) };
    oracle::answer(stream, room)
}
