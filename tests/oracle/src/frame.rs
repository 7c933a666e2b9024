//! Frames: what a line says, if it says anything.

use crate::across::Ends;
use crate::tables::Place;

/// A line that the frame table has.
#[derive(Clone, Debug, PartialEq, Eq)]
pub enum Frame {
    Begin { tolerance: i128 },
    Point { place: Place },
    Polygon { entries: Vec<usize> },
    End,
    Move { number: i128, point: usize, place: Place },
    Turn { number: i128, polygon: usize },
    Question { polygon: usize },
    Across { ends: Ends },
}

/// "A line is upper-case hexadecimal only."
fn digit(character: u8) -> Option<i128> {
    b"0123456789ABCDEF".iter().position(|&each| each == character).map(|value| value as i128)
}

/// "Fields are big-endian; [...] all other fields unsigned."
fn unsigned(digits: &[i128]) -> i128 {
    digits.iter().fold(0, |value, digit| value * 16 + digit)
}

/// "coordinates are two's complement"
fn coordinate(digits: &[i128]) -> i128 {
    let value = unsigned(digits);
    if value < 1 << 31 {
        value
    } else {
        value - (1 << 32)
    }
}

/// "x 8, y 8, z 8"
fn place(digits: &[i128]) -> Place {
    Place { x: coordinate(&digits[0..8]), y: coordinate(&digits[8..16]), z: coordinate(&digits[16..24]) }
}

/// A point number, a polygon number: 4 digits.
fn element(digits: &[i128]) -> usize {
    unsigned(digits) as usize
}

/// The frame table: kind, fields (digits), length. None is "a character, kind or length that the frame table doesn't have".
pub fn decode(line: &[u8]) -> Option<Frame> {
    let digits: Vec<i128> = line.iter().map(|&character| digit(character)).collect::<Option<Vec<i128>>>()?;
    if digits.len() < 2 {
        return None;
    }
    let kind = unsigned(&digits[0..2]);
    let fields = &digits[2..];
    match (kind, digits.len()) {
        (1, 6) => Some(Frame::Begin { tolerance: unsigned(fields) }),
        (2, 26) => Some(Frame::Point { place: place(fields) }),
        (3, length) if length <= 514 && (length - 2) % 4 == 0 => {
            Some(Frame::Polygon { entries: fields.chunks(4).map(element).collect() })
        }
        (4, 2) => Some(Frame::End),
        (5, 38) => {
            Some(Frame::Move { number: unsigned(&fields[0..8]), point: element(&fields[8..12]), place: place(&fields[12..36]) })
        }
        (6, 14) => Some(Frame::Turn { number: unsigned(&fields[0..8]), polygon: element(&fields[8..12]) }),
        (7, 6) => Some(Frame::Question { polygon: element(fields) }),
        // Document 02, (xiii): "Frame 0C asks for two point numbers (4 each)".
        (0x0C, 10) => Some(Frame::Across { ends: [element(&fields[0..4]), element(&fields[4..8])] }),
        _ => None,
    }
}
