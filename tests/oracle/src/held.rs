//! What is held between two frames, what refuses a frame, and what an accepted frame does.

use crate::across::across_line;
use crate::frame::Frame;
use crate::report::{question_line, report, report_line};
use crate::tables::{Place, Tables};

/// A correction that was accepted.
#[derive(Clone, Debug, PartialEq, Eq)]
pub enum Correction {
    Move { number: i128, point: usize, place: Place },
    Turn { number: i128, polygon: usize },
}

impl Correction {
    fn number(&self) -> i128 {
        match self {
            Correction::Move { number, .. } | Correction::Turn { number, .. } => *number,
        }
    }
}

/// "Each call starts with no load running and no building held".
#[derive(Clone, Debug, PartialEq, Eq)]
pub enum State {
    Nothing,
    Loading(Tables),
    Held { loaded: Tables, history: Vec<Correction> },
}

/// "each point stands where its last accepted move put it, or where it was loaded if there was none"
fn present_place(loaded: &Tables, history: &[Correction], asked: usize) -> Place {
    let moves = history.iter().rev().filter_map(|correction| match correction {
        Correction::Move { point, place, .. } if *point == asked => Some(*place),
        _ => None,
    });
    moves.into_iter().next().unwrap_or(loaded.points[asked])
}

/// "a ring is the reverse of the loaded one exactly when an odd number of accepted turns named it"
fn present_ring(loaded: &Tables, history: &[Correction], asked: usize) -> Vec<usize> {
    let names = |correction: &&Correction| matches!(correction, Correction::Turn { polygon, .. } if *polygon == asked);
    let mut ring = loaded.polygons[asked].clone();
    if history.iter().filter(names).count() % 2 == 1 {
        ring.reverse();
    }
    ring
}

/// "The corrected tables of demand 3 are told from the history since then: [...] order and tolerance are those loaded."
pub fn corrected(loaded: &Tables, history: &[Correction]) -> Tables {
    Tables {
        tolerance: loaded.tolerance,
        points: (0..loaded.points.len()).map(|point| present_place(loaded, history, point)).collect(),
        polygons: (0..loaded.polygons.len()).map(|polygon| present_ring(loaded, history, polygon)).collect(),
    }
}

/// "holds it with last correction number 0 and all stamps 0": the stamp is the number of the last accepted correction that turned
/// the polygon or moved a point that its ring lists.
fn stamp(loaded: &Tables, history: &[Correction], asked: usize) -> i128 {
    let touches = |correction: &&Correction| match correction {
        Correction::Move { point, .. } => loaded.polygons[asked].contains(point),
        Correction::Turn { polygon, .. } => *polygon == asked,
    };
    history.iter().rev().find(touches).map_or(0, Correction::number)
}

impl State {
    /// The tables as they stand: those of the running load, or the corrected ones of the building held, or none.
    pub fn tables(&self) -> Tables {
        match self {
            State::Nothing => Tables::default(),
            State::Loading(tables) => tables.clone(),
            State::Held { loaded, history } => corrected(loaded, history),
        }
    }

    /// The last accepted correction number; 0 at end of load.
    pub fn last_number(&self) -> i128 {
        match self {
            State::Held { history, .. } => history.last().map_or(0, Correction::number),
            _ => 0,
        }
    }
}

/// "02, 03 or 04 while no load is running; 05, 06 or 07 while no building is held"; document 02, (xiii), of 0C: "02 with no building
/// held". By kind, since a broken frame has one too.
pub fn refused_02_kind(state: &State, kind: u8) -> bool {
    match kind {
        2..=4 => !matches!(state, State::Loading(_)),
        5..=7 | 0x0C => !matches!(state, State::Held { .. }),
        _ => false,
    }
}

/// The kind of a frame.
pub fn kind(frame: &Frame) -> u8 {
    match frame {
        Frame::Begin { .. } => 1,
        Frame::Point { .. } => 2,
        Frame::Polygon { .. } => 3,
        Frame::End => 4,
        Frame::Move { .. } => 5,
        Frame::Turn { .. } => 6,
        Frame::Question { .. } => 7,
        Frame::Across { .. } => 0x0C,
    }
}

/// "correction number not above the last accepted one (0 is always late)"
fn refused_07(state: &State, frame: &Frame) -> bool {
    match frame {
        Frame::Move { number, .. } | Frame::Turn { number, .. } => *number <= state.last_number(),
        _ => false,
    }
}

/// "a point or polygon number not below the present count"; document 02, (xiii): "05 for an unknown point; two equal numbers also 05."
fn refused_05(tables: &Tables, frame: &Frame) -> bool {
    match frame {
        Frame::Polygon { entries } => entries.iter().any(|&point| point >= tables.points.len()),
        Frame::Move { point, .. } => *point >= tables.points.len(),
        Frame::Turn { polygon, .. } | Frame::Question { polygon } => *polygon >= tables.polygons.len(),
        Frame::Across { ends } => ends[0] == ends[1] || ends.iter().any(|&point| point >= tables.points.len()),
        _ => false,
    }
}

/// "coordinate, in mm: -100,000 to 100,000, both included"
fn beyond(place: Place) -> bool {
    [place.x, place.y, place.z].iter().any(|&coordinate| !(-100_000..=100_000).contains(&coordinate))
}

/// "tolerance or coordinate beyond its bound"; "tolerance, in mm: 0 to 1,000"
fn refused_03(frame: &Frame) -> bool {
    match frame {
        Frame::Begin { tolerance } => *tolerance > 1_000,
        Frame::Point { place } | Frame::Move { place, .. } => beyond(*place),
        _ => false,
    }
}

/// "the 513th point, the 257th polygon, or entries above 1,024 in all"
fn refused_04(tables: &Tables, frame: &Frame) -> bool {
    match frame {
        Frame::Point { .. } => tables.points.len() + 1 > 512,
        Frame::Polygon { entries } => tables.polygons.len() + 1 > 256 || tables.entries() + entries.len() > 1_024,
        _ => false,
    }
}

/// "the place is that of another point"
fn refused_06(tables: &Tables, frame: &Frame) -> bool {
    match frame {
        Frame::Point { place } => tables.points.contains(place),
        Frame::Move { point, place, .. } => {
            tables.points.iter().enumerate().any(|(number, each)| number != *point && each == place)
        }
        _ => false,
    }
}

/// Every row of the table of refusals that applies to a frame, in the order of testing.
pub fn refusals(state: &State, frame: &Frame) -> Vec<u8> {
    let tables = state.tables();
    let rows = [
        (2, refused_02_kind(state, kind(frame))),
        (7, refused_07(state, frame)),
        (5, refused_05(&tables, frame)),
        (3, refused_03(frame)),
        (4, refused_04(&tables, frame)),
        (6, refused_06(&tables, frame)),
    ];
    rows.iter().filter(|(_, applies)| *applies).map(|(number, _)| *number).collect()
}

/// What an accepted frame does, and its answer line.
fn accept(state: &mut State, frame: Frame) -> String {
    match frame {
        // "Accepted begin drops all that was held and starts a load; it is allowed at any time."
        Frame::Begin { tolerance } => {
            *state = State::Loading(Tables { tolerance, points: vec![], polygons: vec![] });
            "00".to_string()
        }
        // "Points and polygons are numbered from 0 as they are accepted."
        Frame::Point { place } => {
            let State::Loading(tables) = state else { unreachable!("row 02") };
            tables.points.push(place);
            "00".to_string()
        }
        Frame::Polygon { entries } => {
            let State::Loading(tables) = state else { unreachable!("row 02") };
            tables.polygons.push(entries);
            "00".to_string()
        }
        // "End of load ends the load, checks the building and holds it with last correction number 0 and all stamps 0."
        Frame::End => {
            *state = State::Held { loaded: state.tables(), history: vec![] };
            report_line(report(&state.tables()))
        }
        // "Move to a point's own present place is accepted: it counts as a correction and sets stamps."
        Frame::Move { number, point, place } => correct(state, Correction::Move { number, point, place }),
        // "Turn reverses the polygon's whole list of entries, closing entry included."
        Frame::Turn { number, polygon } => correct(state, Correction::Turn { number, polygon }),
        Frame::Question { polygon } => {
            let State::Held { loaded, history } = state else { unreachable!("row 02") };
            question_line(&corrected(loaded, history), polygon, stamp(loaded, history, polygon))
        }
        // Document 02, (xiii): "After any correction it equals the list made afresh".
        Frame::Across { ends } => across_line(&state.tables(), ends),
    }
}

fn correct(state: &mut State, correction: Correction) -> String {
    let State::Held { history, .. } = state else { unreachable!("row 02") };
    history.push(correction);
    report_line(report(&state.tables()))
}

/// One frame: its answer, without the line feed. "Refused: the two digits below, and nothing held changes."
pub fn step(state: &mut State, line: &[u8]) -> String {
    let Some(frame) = crate::frame::decode(line) else { return "01".to_string() };
    match refusals(state, &frame).first() {
        Some(number) => format!("{number:02X}"),
        None => accept(state, frame),
    }
}
