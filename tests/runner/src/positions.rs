//! Rings whose position is easily got wrong: several numbers that stand again, edges that meet early, late and in several places,
//! neighbours that go back over each other, single corners off their plane; then turns and moves that change the position.

use crate::prng::Dice;
use crate::script::{Asking, Script};
use crate::solids::{outline, P};

/// How a stream's rings lie: axes exchanged and mirrored, slanted, set off. Rings are drawn over x and y, one above another.
struct Frame {
    axes: [usize; 3],
    signs: [i64; 3],
    slant: [i64; 2],
    off: P,
}

impl Frame {
    fn new(dice: &mut Dice) -> Frame {
        let mut axes = [0, 1, 2];
        dice.shuffle(&mut axes);
        let slant = [0; 2].map(|_: i64| if dice.once_in(2) { 0 } else { dice.between(-1, 1) });
        let off = [0; 3].map(|_: i64| dice.between(-20_000, 20_000));
        Frame { axes, signs: [0; 3].map(|_: i64| if dice.once_in(2) { -1 } else { 1 }), slant, off }
    }

    fn place(&self, p: P) -> P {
        let slanted = [p[0], p[1], p[2] + self.slant[0] * p[0] + self.slant[1] * p[1]];
        [0, 1, 2].map(|axis| self.off[axis] + self.signs[axis] * slanted[self.axes[axis]])
    }
}

/// A ring: where its corners would stand if it were sound, where they stand, and its entries, counted among the corners.
struct Drawn {
    sound: Vec<P>,
    corners: Vec<P>,
    entries: Vec<usize>,
    first: usize,
}

impl Drawn {
    fn new(sound: Vec<P>) -> Drawn {
        let entries = (0..sound.len()).chain([0]).collect();
        Drawn { corners: sound.clone(), sound, entries, first: 0 }
    }

    fn entry(&self, at: usize) -> usize {
        self.first + self.entries[at]
    }
}

/// A corner's or an edge's index: near either end, in the middle, or any.
fn index(dice: &mut Dice, count: usize) -> usize {
    let any = dice.below(count);
    *dice.pick(&[0, 0, 1, 2, count / 2, count - 3, count - 2, count - 2, count - 2, count - 1, count - 1, any, any, any])
}

fn between(a: P, b: P) -> P {
    [0, 1, 2].map(|axis| (a[axis] + b[axis]) / 2)
}

/// The place as far behind `a` as the middle of a and b is before it.
fn behind(a: P, b: P) -> P {
    [0, 1, 2].map(|axis| a[axis] + (a[axis] - b[axis]) / 2)
}

/// One corner moves so that edges meet: an edge goes back over the one before it, or past its start; or a corner comes to stand on an
/// edge or beyond it. The corner that moves, and where to.
fn meeting(dice: &mut Dice, corners: &[P]) -> (usize, P) {
    let count = corners.len();
    let (at, on) = (index(dice, count), index(dice, count));
    let corner = |k: usize| corners[k % count];
    let middle = between(corner(on), corner(on + 1));
    match dice.below(6) {
        0 | 1 => ((at + 1) % count, between(corner(at + count - 1), corner(at))),
        2 | 3 => ((at + 2) % count, behind(corner(at), corner(at + 1))),
        4 => (at, middle),
        _ => (at, between(middle, behind(middle, corner(at)))),
    }
}

/// Edges meet in one place or in several.
fn meeting_ring(dice: &mut Dice, count: usize, level: i64) -> Drawn {
    let flat = outline(dice, count);
    let mut ring = Drawn::new(flat.into_iter().map(|(x, y)| [160 * x, 160 * y, level]).collect());
    for _ in 0..*dice.pick(&[1, 1, 1, 2, 3]) {
        if dice.once_in(3) {
            let at = index(dice, count);
            ring.corners.swap(at, (at + 1) % count);
        } else {
            let (at, to) = meeting(dice, &ring.corners);
            ring.corners[at] = to;
        }
    }
    ring
}

/// The four corners of document 01's bow tie, whose last one decides between 04 and 05; begun at any of them.
fn bow_tie(dice: &mut Dice, level: i64) -> Drawn {
    let mut corners = vec![[0, 0, level], [1_000, 1_000, level], [1_000, 0, level], [0, 2_000, level]];
    let mut flat = corners.clone();
    flat[3] = [0, 1_000, level];
    let by = dice.below(4);
    corners.rotate_left(by);
    flat.rotate_left(by);
    let (sound, corners) = if dice.once_in(2) { (flat, corners) } else { (corners, flat) };
    Drawn { corners, ..Drawn::new(sound) }
}

/// A place on the outline of a large square, so far along it.
fn along_square(distance: i64, level: i64) -> P {
    const SIDE: i64 = 20_000;
    let (side, along) = (distance.rem_euclid(4 * SIDE) / SIDE, distance.rem_euclid(SIDE));
    let (x, y) = [(along, 0), (SIDE, along), (SIDE - along, SIDE), (0, SIDE - along)][side as usize];
    [x, y, level]
}

/// Corners round a large square, some of them with their neighbours near by: such a one leaves N nearly as it was when it is lifted.
fn lifted_ring(dice: &mut Dice, count: usize, level: i64, tolerance: usize) -> Drawn {
    let mut distances: Vec<i64> = (0..count as i64).map(|k| 80_000 * k / count as i64 + 5).collect();
    let tips: Vec<usize> = (0..1 + dice.below(2)).map(|_| 1 + index(dice, count - 1)).collect();
    if count > 6 {
        for &tip in &tips {
            distances[tip - 1] = distances[tip] - 12;
            distances[(tip + 1) % count] = distances[tip] + 12;
        }
    }
    let mut ring = Drawn::new(distances.iter().map(|&distance| along_square(distance, level)).collect());
    for tip in tips {
        ring.corners[tip][2] += height(dice, tolerance);
    }
    ring
}

/// About the tolerance, or well beyond it.
fn height(dice: &mut Dice, tolerance: usize) -> i64 {
    let tolerance = tolerance as i64;
    let high = dice.between(tolerance, tolerance + 2 + tolerance / 8);
    let high = *dice.pick(&[high, high, 2 * tolerance + 1, 5 * tolerance + 3]);
    if dice.once_in(2) {
        high
    } else {
        -high
    }
}

/// Numbers that stand again: back the way they came, at either end, or anywhere.
fn repeating_ring(dice: &mut Dice, count: usize, level: i64) -> Drawn {
    let mut ring = Drawn::new((0..count as i64).map(|k| [16 * k, k * k % 64, level]).collect());
    let last = count - 1;
    ring.entries.truncate(count);
    match dice.below(5) {
        0 => {
            let middle = count / 2 + 1;
            (middle..count).for_each(|at| ring.entries[at] = count - at);
        }
        1 => ring.entries[last] = dice.below(last),
        2 => ring.entries[1] = 0,
        3 => {
            let at = 1 + dice.below(last - 1);
            ring.entries[last] = 0;
            ring.entries[at] = at - 1;
        }
        _ => (0..2 + dice.below(4)).for_each(|_| {
            let at = 1 + index(dice, last);
            ring.entries[at] = dice.below(at);
        }),
    }
    ring.entries.push(0);
    // Seldom too short or open: then the numbers do not matter.
    match dice.below(12) {
        0 => ring.entries = vec![0, 0, dice.below(2)],
        1 => ring.entries[count] = count - 1,
        _ => {}
    }
    ring
}

fn ring(dice: &mut Dice, long: bool, level: i64, tolerance: usize) -> Drawn {
    let few = if dice.once_in(3) { 8 + dice.below(12) } else { 4 + dice.below(4) };
    let count = if long { *dice.pick(&[21, 40, 64, 65, 126, 127, 127, 127, 127, 127]) } else { few };
    match dice.below(9) {
        0 | 1 => repeating_ring(dice, count, level),
        2..=4 => meeting_ring(dice, count, level),
        5 if !long => bow_tie(dice, level),
        5..=7 => lifted_ring(dice, count, level, tolerance),
        _ => {
            let mut ring = meeting_ring(dice, count, level);
            ring.corners[index(dice, count)][2] += height(dice, tolerance);
            ring
        }
    }
}

/// One correction of a ring: a turn, or a move that makes edges meet, lifts a corner, puts one back or leaves all as it is.
fn correct(dice: &mut Dice, asking: &mut Asking, frame: &Frame, ring: &mut Drawn, tolerance: usize) {
    let at = index(dice, ring.corners.len());
    let (at, to) = match dice.below(8) {
        0..=2 => return asking.turn(),
        3 => (at, ring.corners[at]),
        4 => meeting(dice, &ring.corners),
        5 => {
            let [x, y, z] = ring.corners[at];
            (at, [x, y, z + height(dice, tolerance)])
        }
        _ => {
            let moved: Vec<usize> = (0..ring.corners.len()).filter(|&k| ring.corners[k] != ring.sound[k]).collect();
            let at = if moved.is_empty() { at } else { *dice.pick(&moved) };
            (at, ring.sound[at])
        }
    };
    ring.corners[at] = to;
    asking.shift(ring.first + at, frame.place(to));
}

/// Rings as they fail, a question on each; then corrections of one or two of them, each with a question after it, and a move of a
/// corner that another ring lists.
pub fn stream(dice: &mut Dice) -> Vec<u8> {
    let (mut script, frame, long) = (Script::default(), Frame::new(dice), dice.once_in(3));
    let tolerance = *dice.pick(&[0, 1, 10, 10, 100, 1_000]);
    let (mut rings, mut points): (Vec<Drawn>, Vec<P>) = (vec![], vec![]);
    for level in 0..if long { 1 + dice.below(2) } else { 2 + dice.below(4) } {
        let mut ring = ring(dice, long, 100 * level as i64, tolerance);
        ring.first = points.len();
        let taken = |k: &usize| points.contains(&ring.corners[*k]) || ring.corners[..*k].contains(&ring.corners[*k]);
        if !(0..ring.corners.len()).any(|k| taken(&k)) {
            points.extend(&ring.corners);
            rings.push(ring);
        }
    }
    script.begin(tolerance);
    points.iter().for_each(|&point| script.point(frame.place(point)));
    for ring in &rings {
        script.polygon(&(0..ring.entries.len()).map(|at| ring.entry(at)).collect::<Vec<_>>());
    }
    script.end();
    script.questions(dice, rings.len());
    let mut asking = Asking { script: &mut script, number: 0, polygon: 0 };
    for polygon in 0..rings.len().min(2) {
        asking.polygon = polygon;
        for _ in 0..if long { 2 + dice.below(2) } else { 3 + dice.below(6) } {
            correct(dice, &mut asking, &frame, &mut rings[polygon], tolerance);
        }
        if let Some(other) = rings.last().filter(|_| polygon + 1 < rings.len()) {
            let [x, y, z] = other.corners[0];
            asking.shift(other.first, frame.place([x, y, z - 1]));
        }
    }
    script.bytes(dice)
}
