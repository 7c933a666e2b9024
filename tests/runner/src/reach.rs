//! How often each thing was reached that the streams are meant to reach, by the oracle's account; what must be reached is listed.

use crate::reach_asking;
use crate::reach_marks;
use crate::reach_positions;
use crate::repeats;
use oracle::frame::{decode, Frame};
use oracle::held::{kind, refusals, refused_02_kind, step, State};
use oracle::report::findings;
use oracle::ring;
use oracle::shape;
use oracle::stream::lines;
use oracle::tables::{Place, Tables, ORIGIN};
use std::collections::{BTreeMap, BTreeSet};

#[derive(Default)]
pub struct Reach {
    counts: BTreeMap<String, u64>,
    largest: BTreeMap<&'static str, i128>,
}

/// Pairs of refusals that can apply at once, the one that is given first. A place beyond the bounds is no point's, so 03 and 06
/// never do; 07 and 04 belong to different kinds of frames.
const PAIRS: &[(u8, u8)] =
    &[(1, 2), (2, 7), (2, 5), (2, 3), (2, 4), (2, 6), (7, 5), (7, 3), (7, 6), (5, 3), (5, 4), (5, 6), (3, 4), (4, 6)];

const BOUNDS: &[&str] = &[
    "stream of 65,535 bytes",
    "stream of 65,536 bytes",
    "stream of 1,024 lines",
    "stream of 1,025 lines",
    "empty stream",
    "stream without last line feed",
    "point 512 accepted",
    "point 513 refused",
    "polygon 256 accepted",
    "polygon 257 refused",
    "polygon 257, empty, refused",
    "1,024 entries in all accepted",
    "more than 1,024 entries in all refused",
    "empty polygon accepted at 1,024 entries",
    "ring of 128 accepted",
    "ring of 129 refused 01",
    "coordinate 100,000 accepted",
    "coordinate -100,000 accepted",
    "coordinate 100,001 refused",
    "coordinate -100,001 refused",
    "tolerance 1,000 accepted",
    "tolerance 1,001 refused",
    "correction number FFFFFFFF accepted",
    "correction late after FFFFFFFF",
];

const RINGS: &[&str] = &[
    "plane without x",
    "plane without y",
    "plane without z",
    "tie of x and y",
    "tie of x and z",
    "tie of y and z",
    "tie of all three",
    "signed choice of the axis would differ",
    "edge that falls to one place in the plane",
    "straight corner passes",
    "05 fails by a touch, nothing crossing",
    "05 fails by edges along each other",
    "05 passes with edges on one line apart",
    "ring of 3 entries with a part",
];

/// Check 06 where it is decided. A step is the least by which N·(p - first) can differ, N being as it is; wrong programs that would
/// answer otherwise stand behind the comma. Squares are looked at where a point is beyond the tolerance along the axis.
const DISTANCES: &[&str] = &[
    "06 passes exactly at the tolerance, N upright",
    "06 passes exactly at the tolerance, N tilted",
    "06 passes by less than a step, N tilted",
    "06 fails by the least step, N upright",
    "06 fails by the least step, N tilted",
    "06 fails by less than a step of the tolerance",
    "06 passes, along the axis it would fail, four corners",
    "06 passes, along the axis it would fail, five to 38 corners",
    "06 passes, along the axis it would fail, 40 entries or more",
    "06 passes, along the axis it would fail, 128 entries",
    "06 fails by the least step, four corners",
    "06 fails by the least step, five to 38 corners",
    "06 fails by the least step, 40 entries or more",
    "06 fails by the least step, 128 entries",
    "06 passes at the tolerance, squares in two words",
    "06 passes, high words alike and above 0",
    "06 fails, high words alike and above 0",
    "06 passes, by the low words alone it would fail",
    "06 fails, by the low words alone it would pass",
    "06 passes, in floating point it would fail",
    "06 fails, in floating point it would pass",
];

const HISTORIES: &[&str] = &[
    "move to the own place",
    "move to a place that was left",
    "place taken by a point in no ring",
    "number used again after a refusal",
    "open ring turned",
    "open ring turned, part not negated",
    "turned and turned back",
    "a correction heals",
    "a correction breaks",
    "a stamp from a move, 2 or more polygons",
    "a stamp on a polygon with a finding",
    "begin while held",
    "begin while loading",
    "begin refused 03 while held",
    "begin refused 03 while loading",
    "begin refused 03 at the start",
    "0B, polygon 0 in the smaller piece",
    "0B, three pieces or more",
    "0C, two points or more",
    "08, several edges",
    "09, several edges",
    "0A, several edges",
    "0D with six-volume 0",
    "0D with a negative six-volume",
    "number above 7FFFFFFF",
    "a late number above a refused one",
    "a move by a millimetre makes 06 fail",
    "a move by a millimetre makes 06 pass",
    "a ring exactly at its tolerance turned, N tilted",
    "a ring that fails 06 by the least step turned, N tilted",
];

/// Everything that must be reached.
fn required() -> Vec<String> {
    let mut names = vec!["check 00 reported".to_string()];
    for check in 1..=0x0D {
        names.push(format!("check {check:02X} reported"));
        names.push(format!("check {check:02X} behind another"));
        // A ring with fewer than 4 entries also is open, or has no normal; nothing comes after 0D.
        if check != 1 {
            names.push(format!("check {check:02X} alone"));
        }
        if check != 0x0D {
            names.push(format!("check {check:02X} before others"));
        }
    }
    names.extend((0..=6).map(|finding| format!("finding {finding:02X} asked for")));
    names.extend((1..=7).map(|refusal| format!("refusal {refusal:02X}")));
    names.extend(PAIRS.iter().map(|(first, second)| format!("refusals {first:02X} and {second:02X}")));
    let states = ["nothing", "loading", "held"];
    for kind in (1..=7).chain([0x0C]) {
        for state in states {
            let meant = kind == 1 || (state == "loading" && kind <= 4) || (state == "held" && kind >= 5);
            names.push(format!("frame {kind:02X} {} while {state}", if meant { "accepted" } else { "refused 02" }));
        }
    }
    names.extend((1..=3).map(|number| format!("whole stream -{number}")));
    names.extend(["-1 before -2", "-1 before -3", "-2 before -3", "all three"].map(|name| format!("whole stream {name}")));
    names.extend([BOUNDS, RINGS, repeats::NAMES, DISTANCES, HISTORIES].concat().iter().map(|name| name.to_string()));
    names.extend(reach_positions::names());
    names.extend(reach_marks::names());
    names.extend(reach_asking::names());
    names
}

impl Reach {
    fn count(&mut self, name: impl Into<String>) {
        *self.counts.entry(name.into()).or_insert(0) += 1;
    }

    fn size(&mut self, name: &'static str, value: i128) {
        let largest = self.largest.entry(name).or_insert(0);
        *largest = value.abs().max(*largest);
    }

    fn count_all(&mut self, names: Vec<String>) {
        names.into_iter().for_each(|name| self.count(name));
    }

    fn count_if(&mut self, holds: bool, name: &str) {
        if holds {
            self.count(name);
        }
    }

    /// Goes through a stream and counts what it reaches.
    pub fn stream(&mut self, stream: &[u8]) {
        let all = lines(stream);
        let (long, many, has_lines) = (stream.len() > 65_535, all.len() > 1_024, !all.is_empty());
        self.count_if(stream.len() == 65_535 && !many, "stream of 65,535 bytes");
        self.count_if(stream.len() == 65_536 && !many, "stream of 65,536 bytes");
        self.count_if(all.len() == 1_024 && !long, "stream of 1,024 lines");
        self.count_if(all.len() == 1_025 && !long, "stream of 1,025 lines");
        self.count_if(stream.is_empty(), "empty stream");
        self.count_if(stream.last().is_some_and(|&byte| byte != b'\n'), "stream without last line feed");
        // Each stream is also given with no room and with a byte too few.
        self.count_if(long, "whole stream -1");
        self.count_if(!long && many, "whole stream -2");
        self.count_if(!long && !many && has_lines, "whole stream -3");
        self.count_if(long && many, "whole stream -1 before -2");
        self.count_if(long && has_lines, "whole stream -1 before -3");
        self.count_if(!long && many, "whole stream -2 before -3");
        self.count_if(long && many, "whole stream all three");
        if !long && !many {
            self.frames(&all);
        }
    }

    fn frames(&mut self, all: &[&[u8]]) {
        let mut state = State::Nothing;
        let mut past = Past::default();
        let mut since = reach_asking::Since::default();
        for line in all {
            let before = state.clone();
            let answer = step(&mut state, line);
            self.frame(&before, line, &answer);
            self.count_all(since.line(&before, line, &answer));
            if let Some(frame) = decode(line) {
                self.past(&mut past, &before, &state, &frame, &answer);
                match frame {
                    Frame::Question { .. } if answer.len() == 32 => self.count_all(reach_positions::of_question(&answer)),
                    _ if answer.len() == 32 => self.report(&state.tables(), Told::read(&answer)),
                    _ => {}
                }
                if frame == Frame::End && answer.len() == 32 {
                    self.rings(&state.tables());
                }
            }
        }
    }

    /// Refusals, alone and in pairs; kinds by state; bounds.
    fn frame(&mut self, state: &State, line: &[u8], answer: &str) {
        let name = match state {
            State::Nothing => "nothing",
            State::Loading(_) => "loading",
            State::Held { .. } => "held",
        };
        let Some(frame) = decode(line) else {
            self.count("refusal 01");
            let kind = line.get(..2).and_then(|two| std::str::from_utf8(two).ok()).and_then(|two| u8::from_str_radix(two, 16).ok());
            self.count_if(refused_02_kind(state, kind.unwrap_or(0)), "refusals 01 and 02");
            self.count_if(line.len() == 518 && line.starts_with(b"03"), "ring of 129 refused 01");
            return;
        };
        let rows = refusals(state, &frame);
        if let Some(first) = rows.first() {
            self.count(format!("refusal {first:02X}"));
            rows[1..].iter().for_each(|second| self.count(format!("refusals {first:02X} and {second:02X}")));
        }
        let verdict = if rows.is_empty() { "accepted".to_string() } else { format!("refused {:02X}", rows[0]) };
        self.count(format!("frame {:02X} {verdict} while {name}", kind(&frame)));
        self.bounds(state, &frame, &rows);
        if let (Frame::Question { .. }, 32) = (&frame, answer.len()) {
            self.count(format!("finding {} asked for", &answer[2..4]));
        }
    }

    fn bounds(&mut self, state: &State, frame: &Frame, rows: &[u8]) {
        // What is loaded matters while a load is running; else neither row 04 nor an acceptance is there.
        let (points, polygons, entries) = match state {
            State::Loading(tables) => (tables.points.len(), tables.polygons.len(), tables.entries()),
            _ => (0, 0, 0),
        };
        let (accepted, full) = (rows.is_empty(), rows.first() == Some(&4));
        match frame {
            Frame::Begin { tolerance } => {
                self.count_if(*tolerance == 1_000, "tolerance 1,000 accepted");
                self.count_if(*tolerance == 1_001, "tolerance 1,001 refused");
            }
            Frame::Point { .. } => {
                self.count_if(accepted && points == 511, "point 512 accepted");
                self.count_if(full, "point 513 refused");
            }
            Frame::Polygon { entries: ring } => {
                self.count_if(accepted && polygons == 255, "polygon 256 accepted");
                self.count_if(full && polygons == 256, "polygon 257 refused");
                self.count_if(full && polygons == 256 && ring.is_empty(), "polygon 257, empty, refused");
                self.count_if(accepted && entries + ring.len() == 1_024, "1,024 entries in all accepted");
                self.count_if(full && entries + ring.len() > 1_024, "more than 1,024 entries in all refused");
                self.count_if(accepted && entries == 1_024, "empty polygon accepted at 1,024 entries");
                self.count_if(accepted && ring.len() == 128, "ring of 128 accepted");
            }
            Frame::Move { number, .. } | Frame::Turn { number, .. } => {
                self.count_if(accepted && *number == 0xFFFF_FFFF, "correction number FFFFFFFF accepted");
                self.count_if(rows.first() == Some(&7) && state.last_number() == 0xFFFF_FFFF, "correction late after FFFFFFFF");
                self.count_if(accepted && *number > 0x7FFF_FFFF, "number above 7FFFFFFF");
            }
            _ => {}
        }
        if let Frame::Point { place } | Frame::Move { place, .. } = frame {
            let has = |value: i128| [place.x, place.y, place.z].contains(&value);
            self.count_if(accepted && has(100_000), "coordinate 100,000 accepted");
            self.count_if(accepted && has(-100_000), "coordinate -100,000 accepted");
            self.count_if(rows.first() == Some(&3) && has(100_001), "coordinate 100,001 refused");
            self.count_if(rows.first() == Some(&3) && has(-100_001), "coordinate -100,001 refused");
        }
    }

    /// Which checks fail, the one reported and those behind it.
    fn report(&mut self, tables: &Tables, given: Told) {
        self.size("six-volume", given.six_volume);
        self.count(format!("check {:02X} reported", given.check));
        self.count_all(reach_marks::of_report(tables, given.check, given.a));
        if given.check == 0 {
            return;
        }
        // Alone: of the same table of checks no other one fails.
        let (of_rings, of_shape) = (ring_failures(tables), shape_failures(tables));
        let others = if given.faulty > 0 { of_rings.len() > 1 } else { of_shape.len() > 1 };
        self.count(format!("check {:02X} {}", given.check, if others { "before others" } else { "alone" }));
        for check in of_rings.union(&of_shape).filter(|&&check| check != given.check) {
            self.count(format!("check {check:02X} behind another"));
        }
        self.several(tables, given.check);
        self.count_all(reach_positions::of_report(tables, given.check, given.a, given.b));
        self.count_if(given.check == 0x0D && given.six_volume == 0, "0D with six-volume 0");
        self.count_if(given.check == 0x0D && given.six_volume < 0, "0D with a negative six-volume");
    }

    /// Where more than one edge, piece or point could be named.
    fn several(&mut self, tables: &Tables, check: u8) {
        let edges = shape::edges(tables);
        let many = |fails: fn(&Vec<shape::Use>) -> bool| edges.values().filter(|uses| fails(uses)).count() > 1;
        match check {
            0x08 => self.count_if(many(|uses| uses.len() == 1), "08, several edges"),
            0x09 => self.count_if(many(|uses| uses.len() > 2), "09, several edges"),
            0x0A => self.count_if(many(|uses| uses.len() == 2 && uses[0].upward == uses[1].upward), "0A, several edges"),
            0x0B => {
                let (first, all) = (shape::reachable(&edges, 0), tables.polygons.len());
                self.count_if(2 * first.len() < all, "0B, polygon 0 in the smaller piece");
                let next = (0..all).find(|polygon| !first.contains(polygon)).expect("one is not reached");
                self.count_if(first.len() + shape::reachable(&edges, next).len() < all, "0B, three pieces or more");
            }
            0x0C => {
                let pinched = (0..tables.points.len()).filter(|&point| !shape::linked_at(&edges, tables, point)).count();
                self.count_if(pinched > 1, "0C, two points or more");
            }
            _ => {}
        }
    }

    /// What the rings of a fresh load show of checks 03 to 06, and of positions.
    fn rings(&mut self, tables: &Tables) {
        let findings = findings(tables);
        let mut before: &[usize] = &[];
        for (polygon, &finding) in findings.iter().enumerate() {
            let places = tables.places(polygon);
            repeats::reached(&tables.polygons[polygon], before).into_iter().for_each(|name| self.count(name));
            before = &tables.polygons[polygon];
            self.count_if(places.len() == 3 && ring::part(&places) != 0, "ring of 3 entries with a part");
            self.count_all(reach_positions::of_ring(tables, polygon, finding));
            if finding == 0 || finding >= 5 {
                self.ring(&places, tables.tolerance, finding);
            }
        }
    }

    fn ring(&mut self, places: &[Place], tolerance: i128, finding: u8) {
        let n = ring::normal(places);
        let largest = ring::largest_size(n);
        self.size("component of N", largest);
        let at = [n.x, n.y, n.z].map(|component| component.abs() == largest);
        let axis = at.iter().position(|&here| here).expect("some component is largest");
        self.count(["plane without x", "plane without y", "plane without z"][axis]);
        match at {
            [true, true, true] => self.count("tie of all three"),
            [true, true, false] => self.count("tie of x and y"),
            [true, false, true] => self.count("tie of x and z"),
            [false, true, true] => self.count("tie of y and z"),
            _ => {}
        }
        let signed = [n.x, n.y, n.z];
        let by_value = (0..3).rev().max_by_key(|&each| signed[each]).expect("three axes");
        self.count_if(by_value != axis, "signed choice of the axis would differ");
        let flat: Vec<ring::Flat> = places.iter().map(|&place| ring::drop_axis(n, place)).collect();
        self.meetings(&flat, finding);
        let distance = Distance::of(places, tolerance);
        self.size("N·(p - first)", distance.farthest);
        if finding != 5 {
            self.size("tolerance squared times the squares of N", distance.limit);
            self.steps(&distance, places.len(), finding == 6);
            self.words(&distance, finding == 6);
        }
    }

    /// How near to the tolerance check 06 was decided.
    fn steps(&mut self, distance: &Distance, entries: usize, fails: bool) {
        let lean = if distance.tilted() { "tilted" } else { "upright" };
        self.count_if(distance.at_tolerance(), &format!("06 passes exactly at the tolerance, N {lean}"));
        let less = !fails && distance.farthest.pow(2) < distance.limit && distance.beyond(distance.farthest + distance.step);
        self.count_if(less, &format!("06 passes by less than a step, N {lean}"));
        self.count_if(distance.by_least_step(), &format!("06 fails by the least step, N {lean}"));
        let next = ring::square_of_reach(distance.normal, distance.tolerance + 1);
        self.count_if(fails && distance.farthest.pow(2) < next, "06 fails by less than a step of the tolerance");
        let lengths = [
            (entries == 5, "four corners"),
            ((6..40).contains(&entries), "five to 38 corners"),
            (entries >= 40, "40 entries or more"),
            (entries == 128, "128 entries"),
        ];
        for (_, length) in lengths.into_iter().filter(|(has, _)| *has) {
            self.count_if(!fails && distance.beyond_axis(), &format!("06 passes, along the axis it would fail, {length}"));
            self.count_if(distance.by_least_step() && distance.tilted(), &format!("06 fails by the least step, {length}"));
        }
    }

    /// What the two words of the squares had to tell.
    fn words(&mut self, distance: &Distance, fails: bool) {
        if !distance.beyond_axis() {
            return;
        }
        let (square, limit) = (distance.farthest.pow(2), distance.limit);
        let high_alike = square >> 64 == limit >> 64 && limit >> 64 > 0;
        self.count_if(high_alike && square == limit, "06 passes at the tolerance, squares in two words");
        self.count_if(high_alike && square < limit, "06 passes, high words alike and above 0");
        self.count_if(high_alike && square > limit, "06 fails, high words alike and above 0");
        let by_low_words = distance.any(|along| (along.pow(2) as u64) > limit as u64);
        self.count_if(!fails && by_low_words, "06 passes, by the low words alone it would fail");
        self.count_if(fails && !by_low_words, "06 fails, by the low words alone it would pass");
        let n = distance.normal;
        let [x, y, z, tolerance] = [n.x, n.y, n.z, distance.tolerance].map(|number| number as f64);
        let by_floats = distance.any(|along| (along as f64) * (along as f64) > tolerance * tolerance * (x * x + y * y + z * z));
        self.count_if(!fails && by_floats, "06 passes, in floating point it would fail");
        self.count_if(fails && !by_floats, "06 fails, in floating point it would pass");
    }

    fn meetings(&mut self, flat: &[ring::Flat], finding: u8) {
        let edges = flat.len() - 1;
        let area = |a: ring::Flat, b: ring::Flat, c: ring::Flat| (b.0 - a.0) * (c.1 - a.1) - (b.1 - a.1) * (c.0 - a.0);
        self.count_if((0..edges).any(|i| flat[i] == flat[i + 1]), "edge that falls to one place in the plane");
        let straight = (1..edges).any(|i| area(flat[i - 1], flat[i], flat[i + 1]) == 0);
        self.count_if(finding != 5 && straight, "straight corner passes");
        let (mut crosses, mut along, mut apart_on_line) = (false, false, false);
        for i in 0..edges {
            for j in i + 2..edges {
                if i == 0 && j == edges - 1 {
                    continue;
                }
                let (a, b, c, d) = (flat[i], flat[i + 1], flat[j], flat[j + 1]);
                let sides = [area(a, b, c), area(a, b, d), area(c, d, a), area(c, d, b)];
                let meet = ring::share_a_point(a, b, c, d);
                crosses |= sides[0].signum() * sides[1].signum() < 0 && sides[2].signum() * sides[3].signum() < 0;
                along |= meet && sides == [0; 4] && a != b && c != d;
                apart_on_line |= !meet && sides == [0; 4] && a != b && c != d;
            }
        }
        self.count_if(finding == 5 && !crosses, "05 fails by a touch, nothing crossing");
        self.count_if(finding == 5 && along, "05 fails by edges along each other");
        self.count_if(finding != 5 && apart_on_line, "05 passes with edges on one line apart");
    }

    /// What shows only over several frames.
    fn past(&mut self, past: &mut Past, before: &State, after: &State, frame: &Frame, answer: &str) {
        let accepted = answer.starts_with("00");
        if let Frame::Begin { .. } = frame {
            match (before, accepted) {
                (State::Held { .. }, true) => self.count("begin while held"),
                (State::Loading(_), true) => self.count("begin while loading"),
                (State::Held { .. }, false) => self.count("begin refused 03 while held"),
                (State::Loading(_), false) => self.count("begin refused 03 while loading"),
                (State::Nothing, false) => self.count("begin refused 03 at the start"),
                _ => {}
            }
        }
        if accepted && matches!(frame, Frame::Begin { .. } | Frame::End) {
            *past = Past::default();
            past.check = if answer.len() == 32 { Told::read(answer).check } else { 0 };
        }
        if let Frame::Move { number, .. } | Frame::Turn { number, .. } = frame {
            if accepted {
                self.count_if(past.refused.contains(number), "number used again after a refusal");
                let is = Told::read(answer).check;
                self.count_if(past.check != 0 && is == 0, "a correction heals");
                self.count_if(past.check == 0 && is != 0, "a correction breaks");
                past.check = is;
            } else if matches!(before, State::Held { .. }) {
                self.count_if(past.refused.iter().any(|each| each < number) && answer == "07", "a late number above a refused one");
                past.refused.insert(*number);
            }
            self.corrected(past, &before.tables(), &after.tables(), frame, answer);
        }
    }

    /// What a move or a turn did.
    fn corrected(&mut self, past: &mut Past, old: &Tables, new: &Tables, frame: &Frame, answer: &str) {
        let accepted = answer.starts_with("00");
        match frame {
            Frame::Move { point, place, .. } if accepted => {
                self.count_if(old.points[*point] == *place, "move to the own place");
                self.count_if(old.points[*point] != *place && past.left.contains(place), "move to a place that was left");
                let listing = new.polygons.iter().filter(|ring| ring.contains(point)).count();
                self.count_if(listing >= 2, "a stamp from a move, 2 or more polygons");
                self.by_a_millimetre(old, new, *point);
                self.count_all(reach_positions::of_move(old, new, *point));
                let faulty = (0..new.polygons.len()).any(|k| new.polygons[k].contains(point) && ring::finding(new, k) != 0);
                self.count_if(faulty, "a stamp on a polygon with a finding");
                past.left.push(old.points[*point]);
            }
            Frame::Move { place, .. } if answer == "06" => {
                let taken = old.points.iter().position(|each| each == place).expect("it is taken");
                self.count_if(!old.polygons.iter().any(|ring| ring.contains(&taken)), "place taken by a point in no ring");
            }
            Frame::Turn { polygon, .. } if accepted => {
                let ring = &old.polygons[*polygon];
                let open = ring.len() >= 4 && ring.first() != ring.last();
                self.count_if(open, "open ring turned");
                let parts = (ring::part(&old.places(*polygon)), ring::part(&new.places(*polygon)));
                self.count_if(open && parts.0 != -parts.1, "open ring turned, part not negated");
                let again = !past.turned.insert(*polygon);
                self.count_if(again, "turned and turned back");
                self.count_all(reach_positions::of_turn(old, new, *polygon, again));
                self.turned_at_tolerance(old, *polygon);
            }
            _ => {}
        }
    }

    /// Findings that change with the least move there is.
    fn by_a_millimetre(&mut self, old: &Tables, new: &Tables, point: usize) {
        let by = new.points[point].minus(old.points[point]);
        if by.dot(by) != 1 {
            return;
        }
        for polygon in (0..new.polygons.len()).filter(|&polygon| new.polygons[polygon].contains(&point)) {
            let [was, is] = [old, new].map(|tables| ring::fails_06(&tables.places(polygon), tables.tolerance));
            // Findings take long to work out: only where 06 changes.
            let findings = if was == is { (0, 0) } else { (ring::finding(old, polygon), ring::finding(new, polygon)) };
            self.count_if(findings == (0, 6), "a move by a millimetre makes 06 fail");
            self.count_if(findings == (6, 0), "a move by a millimetre makes 06 pass");
        }
    }

    /// A turn right at the tolerance or right beyond it.
    fn turned_at_tolerance(&mut self, old: &Tables, polygon: usize) {
        let places = old.places(polygon);
        if places.len() < 4 {
            return;
        }
        let distance = Distance::of(&places, old.tolerance);
        let (at, beyond) = (distance.tilted() && distance.at_tolerance(), distance.tilted() && distance.by_least_step());
        if at || beyond {
            let finding = ring::finding(old, polygon);
            self.count_if(at && finding == 0, "a ring exactly at its tolerance turned, N tilted");
            self.count_if(beyond && finding == 6, "a ring that fails 06 by the least step turned, N tilted");
        }
    }

    /// Prints the counts; gives the names of what was not reached.
    pub fn tell(&self) -> Vec<String> {
        let required = required();
        println!("reached, by the oracle's account:");
        for name in &required {
            println!("  {:>9}  {name}", self.counts.get(name).copied().unwrap_or(0));
        }
        println!("reached beside these:");
        for (name, count) in self.counts.iter().filter(|(name, _)| !required.contains(name)) {
            println!("  {count:>9}  {name}");
        }
        for (name, size) in &self.largest {
            println!("  largest size of {name}: {size}");
        }
        required.into_iter().filter(|name| !self.counts.contains_key(name)).collect()
    }

    pub fn required_count() -> usize {
        required().len()
    }
}

/// What check 06 decides by: each size of N·(p - first), and the square that its square is compared with.
struct Distance {
    normal: Place,
    tolerance: i128,
    along: Vec<i128>,
    farthest: i128,
    limit: i128,
    step: i128,
}

impl Distance {
    fn of(places: &[Place], tolerance: i128) -> Distance {
        let normal = ring::normal(places);
        let along: Vec<i128> = places.iter().map(|place| normal.dot(place.minus(places[0])).abs()).collect();
        let farthest = along.iter().copied().max().unwrap_or(0);
        let step = divisor(divisor(normal.x.abs(), normal.y.abs()), normal.z.abs());
        Distance { normal, tolerance, along, farthest, limit: ring::square_of_reach(normal, tolerance), step }
    }

    fn any(&self, wrong: impl Fn(i128) -> bool) -> bool {
        self.along.iter().any(|&along| wrong(along))
    }

    fn beyond(&self, along: i128) -> bool {
        along.pow(2) > self.limit
    }

    /// The rule before request (ii).
    fn beyond_axis(&self) -> bool {
        self.farthest > self.tolerance * ring::largest_size(self.normal)
    }

    /// Whether more than one component of N is not zero.
    fn tilted(&self) -> bool {
        ring::largest_size(self.normal).pow(2) < self.normal.dot(self.normal)
    }

    fn at_tolerance(&self) -> bool {
        self.farthest > 0 && self.farthest.pow(2) == self.limit
    }

    fn by_least_step(&self) -> bool {
        self.beyond(self.farthest) && !self.beyond(self.farthest - self.step)
    }
}

fn divisor(a: i128, b: i128) -> i128 {
    if b == 0 {
        a
    } else {
        divisor(b, a % b)
    }
}

/// What a history has been through since its end of load.
#[derive(Default)]
struct Past {
    refused: BTreeSet<i128>,
    left: Vec<Place>,
    turned: BTreeSet<usize>,
    check: u8,
}

/// What a report's line tells.
#[derive(Clone, Copy)]
struct Told {
    check: u8,
    a: usize,
    b: usize,
    faulty: usize,
    six_volume: i128,
}

impl Told {
    fn read(line: &str) -> Told {
        let field = |from: usize, to: usize| u64::from_str_radix(&line[from..to], 16).expect("a report is hexadecimal");
        let [a, b, faulty] = [(4, 8), (8, 12), (12, 16)].map(|(from, to)| field(from, to) as usize);
        Told { check: field(2, 4) as u8, a, b, faulty, six_volume: i128::from(field(16, 32) as i64) }
    }
}

/// The checks of 01 to 06 that some polygon fails, taken one by one; 05 and 06 where there is a plane to speak of, 05 where no number
/// stands twice (it would always fail).
fn ring_failures(tables: &Tables) -> BTreeSet<u8> {
    let mut failing = BTreeSet::new();
    for (polygon, ring) in tables.polygons.iter().enumerate() {
        let places = tables.places(polygon);
        let plane = ring::normal(&places) != ORIGIN;
        let whole = !ring::fails_01(ring) && !ring::fails_02(ring) && !ring::fails_03(ring);
        let tests = [
            ring::fails_01(ring),
            ring::fails_02(ring),
            ring::fails_03(ring),
            !plane,
            plane && whole && ring::fails_05(&places),
            plane && ring::fails_06(&places, tables.tolerance),
        ];
        failing.extend((1..=6).filter(|&check| tests[check as usize - 1]));
    }
    failing
}

/// The checks of 07 to 0D that fail, taken one by one.
fn shape_failures(tables: &Tables) -> BTreeSet<u8> {
    let tests = [
        shape::fails_07(tables),
        shape::fails_08(tables),
        shape::fails_09(tables),
        shape::fails_0a(tables),
        shape::fails_0b(tables),
        shape::fails_0c(tables),
        shape::fails_0d(tables),
    ];
    tests.into_iter().flatten().map(|failure| failure.0).collect()
}
