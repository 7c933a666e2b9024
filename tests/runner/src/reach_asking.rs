//! What must be reached of frame 0C around its answers: its refusals, one and two at a time, and what came before it. By the oracle's
//! account.

use crate::reach_across;
use oracle::across::{across_line, users, Ends};
use oracle::frame::{decode, Frame};
use oracle::held::{refusals, State};
use oracle::report::findings;
use oracle::tables::Tables;
use std::collections::{BTreeMap, BTreeSet};

const REFUSED: &[&str] = &[
    "frame 0C refused 01, 2 digits",
    "frame 0C refused 01, 9 digits",
    "frame 0C refused 01, 11 digits",
    "frame 0C refused 01, 14 digits",
    "frame 0C refused 01, lower case in the kind",
    "frame 0C refused 01, lower case in a number",
    "frame 0C refused 01, a character that is no digit",
    "frame 0C refused 01 and 02",
    "frame 0C refused 01 and 05",
    "frame 0C refused 01, 02 and 05",
    "frame 0C refused 02, two points of the load",
    "frame 0C refused 02, a building was dropped",
    "frame 0C refused 02 and 05, unknown",
    "frame 0C refused 02 and 05, equal",
    "frame 0C refused 05, the first unknown",
    "frame 0C refused 05, the second unknown",
    "frame 0C refused 05, both unknown",
    "frame 0C refused 05, equal and known",
    "frame 0C refused 05, equal and unknown",
    "frame 0C refused 05, equal, a ring has a step to itself there",
    "frame 0C refused 05, the number is the count of points",
    "frame 0C refused 05, the number is 512 and so is the count of points",
    "frame 0C refused 05, number FFFF",
    "frame 0C refused 05, no points",
];

const BEFORE: &[&str] = &[
    "frame 0C after a move of one of its ends",
    "frame 0C after moves of other points alone",
    "frame 0C after a turn of a user without a finding",
    "frame 0C after a turn of a user of finding 01",
    "frame 0C after a turn of a user of finding 02",
    "frame 0C after a turn of a user of finding 03",
    "frame 0C after a turn of a user of finding 04 to 06",
    "frame 0C after a turn of another polygon alone",
    "frame 0C after a user was turned and turned back",
    "frame 0C after a move of one of its ends and a turn of a user",
    "frame 0C after a begin was refused",
    "frame 0C of a second building, the first would answer otherwise",
];

pub fn names() -> Vec<String> {
    let mut names: Vec<String> = [REFUSED, BEFORE].concat().iter().map(|name| name.to_string()).collect();
    names.extend((0..=0x0D).map(|check| format!("frame 0C while check {check:02X} is reported")));
    names.extend(reach_across::names());
    names
}

fn held<const N: usize>(holds: [bool; N], names: &[&str]) -> Vec<String> {
    assert_eq!(names.len(), N);
    holds.into_iter().zip(names).filter(|(holds, _)| *holds).map(|(_, name)| name.to_string()).collect()
}

/// What has been since the last accepted begin or end of load, and the building before.
#[derive(Default)]
pub struct Since {
    standing: Option<(Tables, Vec<u8>)>,
    check: u8,
    moved: BTreeSet<usize>,
    turned: BTreeMap<usize, usize>,
    begin_refused: bool,
    dropped: Option<Tables>,
}

impl Since {
    /// What a line reaches, given its answer and the state before it.
    pub fn line(&mut self, before: &State, line: &[u8], answer: &str) -> Vec<String> {
        if line.get(..2).is_some_and(|kind| kind.eq_ignore_ascii_case(b"0C")) {
            return match decode(line) {
                Some(Frame::Across { ends }) if answer.len() > 2 => self.answered(before, ends),
                Some(Frame::Across { ends }) => self.refused(before, ends, answer),
                _ => malformed(before, line),
            };
        }
        match decode(line) {
            Some(frame) if answer.starts_with("00") => self.accepted(before, frame, answer),
            Some(Frame::Begin { .. }) => self.begin_refused = true,
            _ => {}
        }
        vec![]
    }

    fn accepted(&mut self, before: &State, frame: Frame, answer: &str) {
        match frame {
            Frame::Begin { .. } => {
                let dropped = if matches!(before, State::Held { .. }) { Some(before.tables()) } else { self.dropped.take() };
                *self = Since { dropped, ..Since::default() };
            }
            Frame::Move { point, .. } => {
                self.moved.insert(point);
            }
            Frame::Turn { polygon, .. } => *self.turned.entry(polygon).or_insert(0) += 1,
            _ => {}
        }
        if matches!(frame, Frame::End | Frame::Move { .. } | Frame::Turn { .. }) {
            self.standing = None;
            self.begin_refused = false;
            self.check = u8::from_str_radix(&answer[2..4], 16).expect("a report is hexadecimal");
        }
    }

    fn answered(&mut self, state: &State, ends: Ends) -> Vec<String> {
        let standing = self.standing.take().unwrap_or_else(|| {
            let tables = state.tables();
            let findings = findings(&tables);
            (tables, findings)
        });
        let mut names = reach_across::of_answer(&standing.0, &standing.1, ends);
        let found = users(&standing.0, ends);
        if !found.is_empty() {
            names.extend(self.after(&standing.0, &standing.1, ends, &found));
        }
        self.standing = Some(standing);
        names
    }

    /// What came before a question for an edge that is used.
    fn after(&self, tables: &Tables, findings: &[u8], ends: Ends, found: &[usize]) -> Vec<String> {
        let moved = ends.iter().any(|end| self.moved.contains(end));
        let odd = |user: &usize| self.turned.get(user).is_some_and(|times| times % 2 == 1);
        let turned = |of: &[u8]| found.iter().any(|user| odd(user) && of.contains(&findings[*user]));
        let other = |of: &Tables| {
            let known = ends.iter().all(|&end| end < of.points.len());
            !known || across_line(of, ends) != across_line(tables, ends)
        };
        let holds = [
            moved,
            !self.moved.is_empty() && !moved,
            turned(&[0]),
            turned(&[1]),
            turned(&[2]),
            turned(&[3]),
            turned(&[4, 5, 6]),
            !self.turned.is_empty() && !found.iter().any(|user| self.turned.contains_key(user)),
            found.iter().any(|user| self.turned.get(user).is_some_and(|times| times % 2 == 0)),
            moved && found.iter().any(odd),
            self.begin_refused,
            self.dropped.as_ref().is_some_and(other),
        ];
        let mut names = held(holds, BEFORE);
        names.push(format!("frame 0C while check {:02X} is reported", self.check));
        names
    }

    /// Refusals 02 and 05 of a line that the frame table has.
    fn refused(&self, state: &State, ends: Ends, answer: &str) -> Vec<String> {
        let tables = state.tables();
        let count = tables.points.len();
        let (equal, unknown) = (ends[0] == ends[1], ends.map(|end| end >= count));
        let (no_building, nothing_known) = (answer == "02", answer == "05");
        let stays = |ring: &Vec<usize>| ring.windows(2).any(|two| two == ends);
        let holds = [
            no_building && !equal && unknown == [false; 2],
            no_building && self.dropped.is_some(),
            no_building && !equal && unknown != [false; 2],
            no_building && equal,
            nothing_known && unknown == [true, false],
            nothing_known && unknown == [false, true],
            nothing_known && unknown == [true, true] && !equal,
            nothing_known && equal && !unknown[0],
            nothing_known && equal && unknown[0],
            nothing_known && equal && tables.polygons.iter().any(stays),
            nothing_known && !equal && ends.contains(&count),
            nothing_known && !equal && ends.contains(&512) && count == 512,
            nothing_known && !equal && ends.contains(&0xFFFF),
            nothing_known && count == 0,
        ];
        held(holds, &REFUSED[10..])
    }
}

/// Refusal 01, and what would refuse the line if case and length did not.
fn malformed(state: &State, line: &[u8]) -> Vec<String> {
    let upper = line.to_ascii_uppercase();
    let read = decode(&upper[..upper.len().min(10)]);
    let rows = read.as_ref().map_or(vec![], |frame| refusals(state, frame));
    let digits = line.iter().all(|byte| b"0123456789ABCDEF".contains(byte));
    let cased = line.len() == 10 && read.is_some();
    let holds = [
        digits && line.len() == 2,
        digits && line.len() == 9,
        digits && line.len() == 11,
        digits && line.len() == 14,
        cased && line[1] == b'c',
        cased && line[1] == b'C',
        line.len() == 10 && line[1] == b'C' && read.is_none(),
        !matches!(state, State::Held { .. }),
        rows == [5],
        rows == [2, 5],
    ];
    held(holds, &REFUSED[..10])
}
