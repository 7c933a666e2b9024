//! The service entry.

use crate::held::{step, State};

/// "A line ends with a line feed; text after the last line feed, if there is any, is a line too. An empty stream has no lines".
pub fn lines(stream: &[u8]) -> Vec<&[u8]> {
    let mut lines: Vec<&[u8]> = stream.split(|&byte| byte == b'\n').collect();
    if lines.last().is_some_and(|last| last.is_empty()) {
        lines.pop();
    }
    lines
}

/// "-1 stream too long; -2 too many lines; -3 answer room shorter than 33 times the lines", tested in this order.
pub fn whole_stream_refusal(stream: &[u8], room: usize) -> Option<i64> {
    if stream.len() > 65_535 {
        return Some(-1);
    }
    let lines = lines(stream).len();
    if lines > 1_024 {
        return Some(-2);
    }
    if room < 33 * lines {
        return Some(-3);
    }
    None
}

/// "Otherwise one line for each frame, ended by a line feed".
pub fn answers(stream: &[u8]) -> Vec<String> {
    let mut state = State::Nothing;
    lines(stream).into_iter().map(|line| step(&mut state, line)).collect()
}

/// "takes a slice of bytes (the stream) and a slice of answer room [...] returns the number of answer bytes, or a negative number";
/// "room after the last answer is untouched."
pub fn answer(stream: &[u8], room: &mut [u8]) -> i64 {
    if let Some(number) = whole_stream_refusal(stream, room.len()) {
        return number;
    }
    let mut end = 0;
    for line in answers(stream) {
        for byte in line.bytes().chain([b'\n']) {
            room[end] = byte;
            end += 1;
        }
    }
    end as i64
}
