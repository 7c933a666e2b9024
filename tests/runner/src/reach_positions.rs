//! What must be reached of positions: where in a ring 03, 05 and 06 fail, what a wrong program would tell instead, and what turns and
//! moves do to it. By the oracle's account.

use oracle::ring::{self, fails_01, fails_02, fails_03, Flat};
use oracle::tables::{Place, Tables};

/// Of rings at the end of a load.
const RINGS: &[&str] = &[
    "03 at entry 1",
    "03 at an entry between",
    "03 at entry 126, 128 entries",
    "03, several entries stood earlier",
    "03, the earliest number that stands again does so at another entry",
    "05 at edge 124, 128 entries",
    "05, the other edge is the last one",
    "05, the other edge is 64 edges later or more",
    "06 at entry 1, four corners",
    "06 at entry 1, more than four corners",
    "06 at an entry between",
    "06 at the entry before the closing one",
    "06 at entry 126, 128 entries",
    "06, several entries fail",
    "06, the farthest entry is another",
    "06, an entry before it is off within the tolerance",
    "06, along the axis an entry before it would fail",
    "01, a number stands twice",
    "02, a number stands twice",
    "04, edges meet",
];

/// Of 05, for rings of at most 8 entries and for longer ones. No edge after the last but two is ever the least: the last edge meets
/// none after it, the last but one has the last as its neighbour, and where two neighbours go back over each other an edge before them
/// meets one of them, or their first meets the next but one.
const MEETINGS: &[&str] = &[
    "05 at edge 0",
    "05 at an edge between",
    "05 at the last edge but two",
    "05 at edge 0 by edge 1 alone, which goes back",
    "05 at edge 0 by the last edge alone, which it goes back over",
    "05, an edge after the position goes back over the one before it",
    "05, the edge after the position goes back over it, not at edge 0",
    "05, meetings of several edges",
    "05, the meeting whose later edge comes first has another first edge",
];

/// What reports and questions show.
const TOLD: &[&str] = &[
    "report of 03 with b above 0",
    "report of 05 with b 0",
    "report of 05 with b above 0",
    "report of 06 with b above 0",
    "report of a polygon above 0 with b above 0",
    "report, a polygon behind it has a lower position",
    "question: 03 with a position above 0",
    "question: 05 with position 0",
    "question: 05 with a position above 0",
    "question: 06 with a position above 0",
];

const CORRECTED: &[&str] = &[
    "a move makes the position of 05 greater",
    "a move makes the position of 05 less",
    "a move makes the position of 06 greater",
    "a move makes the position of 06 less",
    "a move of a listed point leaves the position of 03",
    "a move of a point that is not listed leaves a position",
    "a move from 05 to 06",
    "a move from 06 to 05",
    "a move from 05 to 04",
    "a move from 04 to 05",
    "a move from 05 to none",
    "a move from none to 05",
    "a move from 06 to none",
    "a move from none to 06",
];

const CHECKS: [u8; 3] = [3, 5, 6];

/// Whether the product has one way for rings of so many entries or the other.
fn length(entries: usize) -> &'static str {
    if entries <= 8 {
        "at most 8 entries"
    } else {
        "more than 8 entries"
    }
}

pub fn names() -> Vec<String> {
    let mut names: Vec<String> = [RINGS, TOLD, CORRECTED].concat().iter().map(|name| name.to_string()).collect();
    for entries in [8, 9] {
        names.extend(MEETINGS.iter().map(|name| format!("{name}, {}", length(entries))));
    }
    for remainder in 0..8 {
        names.push(format!("05 at an edge of remainder {remainder} by eight, more than 8 entries"));
        names.push(format!("05, the other edge of remainder {remainder} by eight, more than 8 entries"));
    }
    for check in CHECKS {
        names.push(format!("a turn changes the position of {check:02X}"));
        names.push(format!("a turn leaves the position of {check:02X}"));
        names.push(format!("turned and turned back with a position of {check:02X}"));
    }
    names
}

/// The names whose condition holds.
fn held(found: Vec<(bool, &str)>) -> Vec<String> {
    found.into_iter().filter(|(holds, _)| *holds).map(|(_, name)| name.to_string()).collect()
}

/// What a polygon of a fresh load shows; its finding is given.
pub fn of_ring(tables: &Tables, polygon: usize, finding: u8) -> Vec<String> {
    let (ring, places) = (&tables.polygons[polygon], tables.places(polygon));
    match finding {
        1 => held(vec![(fails_03(ring), "01, a number stands twice")]),
        2 => held(vec![(fails_03(ring), "02, a number stands twice")]),
        3 => of_03(ring),
        4 => {
            let flat: Vec<Flat> = places.iter().map(|place| (place.x, place.y)).collect();
            held(vec![(!meetings(&flat).is_empty(), "04, edges meet")])
        }
        5 => of_05(&ring::flattened(&places)),
        6 => of_06(&places, tables.tolerance),
        _ => vec![],
    }
}

fn of_03(ring: &[usize]) -> Vec<String> {
    let entries = &ring[..ring.len() - 1];
    let again: Vec<usize> = (0..entries.len()).filter(|&at| entries[..at].contains(&entries[at])).collect();
    let position = again[0];
    // A program that takes the entries in turn and looks for each behind it meets this one first.
    let by_earlier = (0..entries.len()).find_map(|i| (i + 1..entries.len()).find(|&j| entries[i] == entries[j]));
    held(vec![
        (position == 1, "03 at entry 1"),
        (position > 1 && position + 1 < entries.len(), "03 at an entry between"),
        (position == 126, "03 at entry 126, 128 entries"),
        (again.len() > 1, "03, several entries stood earlier"),
        (by_earlier != Some(position), "03, the earliest number that stands again does so at another entry"),
    ])
}

/// Every two edges that have a forbidden meeting, the earlier one first.
fn meetings(flat: &[Flat]) -> Vec<(usize, usize)> {
    let edges = flat.len() - 1;
    let all = (0..edges).flat_map(|i| (i + 1..edges).map(move |j| (i, j)));
    all.filter(|&(i, j)| ring::forbidden_meeting(flat, i, j)).collect()
}

fn of_05(flat: &[Flat]) -> Vec<String> {
    let (edges, all) = (flat.len() - 1, meetings(flat));
    let (position, other) = all[0];
    let with_0: Vec<usize> = all.iter().filter(|(i, _)| *i == 0).map(|(_, j)| *j).collect();
    let by_later = all.iter().min_by_key(|(i, j)| (*j, *i)).expect("some edges meet").0;
    let back = |i: usize| i + 1 < edges && ring::forbidden_meeting(flat, i, i + 1);
    let by_length = held(vec![
        (position == 0, "05 at edge 0"),
        (position > 0 && position + 3 < edges, "05 at an edge between"),
        (position + 3 == edges, "05 at the last edge but two"),
        (with_0 == [1], "05 at edge 0 by edge 1 alone, which goes back"),
        (with_0 == [edges - 1], "05 at edge 0 by the last edge alone, which it goes back over"),
        ((position + 1..edges).any(back), "05, an edge after the position goes back over the one before it"),
        (position > 0 && back(position), "05, the edge after the position goes back over it, not at edge 0"),
        (all.iter().any(|&(i, j)| i != position && i != other && j != other), "05, meetings of several edges"),
        (by_later != position, "05, the meeting whose later edge comes first has another first edge"),
    ]);
    let mut names: Vec<String> = by_length.iter().map(|name| format!("{name}, {}", length(flat.len()))).collect();
    names.extend(held(vec![
        (position == 124, "05 at edge 124, 128 entries"),
        (other == edges - 1, "05, the other edge is the last one"),
        (other >= position + 64, "05, the other edge is 64 edges later or more"),
    ]));
    if flat.len() > 8 {
        names.push(format!("05 at an edge of remainder {} by eight, more than 8 entries", position % 8));
        names.push(format!("05, the other edge of remainder {} by eight, more than 8 entries", other % 8));
    }
    names
}

fn of_06(places: &[Place], tolerance: i128) -> Vec<String> {
    let (normal, last) = (ring::normal(places), places.len() - 2);
    let along: Vec<i128> = places.iter().map(|place| normal.dot(place.minus(places[0])).abs()).collect();
    let fails = |entry: &usize| along[*entry].pow(2) > ring::square_of_reach(normal, tolerance);
    let failing: Vec<usize> = (0..places.len()).filter(fails).collect();
    let position = failing[0];
    let beyond_axis = |along: &i128| *along > tolerance * ring::largest_size(normal);
    held(vec![
        (position == 1 && last == 3, "06 at entry 1, four corners"),
        (position == 1 && last > 3, "06 at entry 1, more than four corners"),
        (position > 1 && position < last, "06 at an entry between"),
        (position == last, "06 at the entry before the closing one"),
        (position == 126, "06 at entry 126, 128 entries"),
        (failing.len() > 1, "06, several entries fail"),
        (failing.iter().any(|&entry| along[entry] > along[position]), "06, the farthest entry is another"),
        (along[..position].iter().any(|&each| each > 0), "06, an entry before it is off within the tolerance"),
        (along[..position].iter().any(beyond_axis), "06, along the axis an entry before it would fail"),
    ])
}

/// What a report of a polygon's finding shows; the positions of the polygons behind it are looked at where there are few.
pub fn of_report(tables: &Tables, check: u8, a: usize, b: usize) -> Vec<String> {
    if !CHECKS.contains(&check) {
        return vec![];
    }
    let behind = if b > 0 && tables.entries() < 200 { a + 1..tables.polygons.len() } else { 0..0 };
    let lower = |polygon: usize| CHECKS.contains(&ring::finding(tables, polygon)) && ring::position(tables, polygon) < b;
    held(vec![
        (check == 3 && b > 0, "report of 03 with b above 0"),
        (check == 5 && b == 0, "report of 05 with b 0"),
        (check == 5 && b > 0, "report of 05 with b above 0"),
        (check == 6 && b > 0, "report of 06 with b above 0"),
        (a > 0 && b > 0, "report of a polygon above 0 with b above 0"),
        (behind.into_iter().any(lower), "report, a polygon behind it has a lower position"),
    ])
}

/// What a question's answer shows.
pub fn of_question(line: &str) -> Vec<String> {
    let (finding, position) = (&line[2..4], &line[4..8]);
    held(vec![
        (finding == "03" && position > "0000", "question: 03 with a position above 0"),
        (finding == "05" && position == "0000", "question: 05 with position 0"),
        (finding == "05" && position > "0000", "question: 05 with a position above 0"),
        (finding == "06" && position > "0000", "question: 06 with a position above 0"),
    ])
}

/// What a turn shows; `again` where the polygon was turned before.
pub fn of_turn(old: &Tables, new: &Tables, polygon: usize, again: bool) -> Vec<String> {
    let check = ring::finding(old, polygon);
    if !CHECKS.contains(&check) {
        return vec![];
    }
    let changed = ring::position(old, polygon) != ring::position(new, polygon);
    let mut names = vec![format!("a turn {} the position of {check:02X}", if changed { "changes" } else { "leaves" })];
    if again {
        names.push(format!("turned and turned back with a position of {check:02X}"));
    }
    names
}

/// What a move shows of a polygon that lists the point, and of those that do not.
pub fn of_move(old: &Tables, new: &Tables, point: usize) -> Vec<String> {
    let mut names = vec![];
    for polygon in 0..new.polygons.len() {
        if new.polygons[polygon].contains(&point) {
            names.extend(of_listed(old, new, polygon));
        } else if names.is_empty() && new.entries() < 200 && ring::position(new, polygon) > 0 {
            names.push("a move of a point that is not listed leaves a position".to_string());
        }
    }
    names
}

fn of_listed(old: &Tables, new: &Tables, polygon: usize) -> Vec<String> {
    let ring = &new.polygons[polygon];
    if fails_01(ring) || fails_02(ring) {
        return vec![];
    }
    let (was, is) = (ring::finding(old, polygon), ring::finding(new, polygon));
    if was == is {
        let (before, after) = (ring::position(old, polygon), ring::position(new, polygon));
        return held(vec![
            (is == 3 && before == after, "a move of a listed point leaves the position of 03"),
            (is == 5 && after > before, "a move makes the position of 05 greater"),
            (is == 5 && after < before, "a move makes the position of 05 less"),
            (is == 6 && after > before, "a move makes the position of 06 greater"),
            (is == 6 && after < before, "a move makes the position of 06 less"),
        ]);
    }
    let name = |check: u8| if check == 0 { "none".to_string() } else { format!("{check:02X}") };
    vec![format!("a move from {} to {}", name(was), name(is))]
}
