//! Edges asked for by 0C, with none, one, two and many users: each edge of a building, pairs beside it, and lines that are refused;
//! before a load and in it, and after turns and moves.

use crate::across_rings::building;
use crate::prng::Dice;
use crate::script::Script;
use crate::solids::Solid;

/// A step of some ring, if there is one.
pub fn step(dice: &mut Dice, rings: &[Vec<usize>]) -> Option<[usize; 2]> {
    let long: Vec<&Vec<usize>> = rings.iter().filter(|ring| ring.len() > 1).collect();
    if long.is_empty() {
        return None;
    }
    let ring = dice.pick(&long);
    let at = dice.below(ring.len() - 1);
    Some([ring[at], ring[at + 1]])
}

/// A line that nearly asks for these ends.
pub fn malformed(dice: &mut Dice, script: &mut Script, ends: [usize; 2]) {
    let mut line = format!("0C{:04X}{:04X}", ends[0], ends[1]).into_bytes();
    match dice.below(9) {
        0 | 1 => line.truncate(9),
        2 => line.push(b'0'),
        3 => line.truncate(*dice.pick(&[2, 3, 6, 8])),
        4 => line.extend(b"0000"),
        5 => line.make_ascii_lowercase(),
        6 => line[9] = *dice.pick(b"abcdef"),
        7 => line[2 + dice.below(8)] = *dice.pick(b"gG /:@`\r\0"),
        _ => line.push(*dice.pick(b" \r")),
    }
    script.raw(line);
}

/// The first edge in ascending order, or the last one.
fn outermost(solid: &Solid, last: bool) -> Option<[usize; 2]> {
    let steps = solid.rings.iter().flat_map(|ring| ring.windows(2));
    let edges = steps.filter(|two| two[0] != two[1]).map(|two| [two[0].min(two[1]), two[0].max(two[1])]);
    if last {
        edges.max()
    } else {
        edges.min()
    }
}

/// Two points to be asked for: an edge, one beside it, any two, or such as are refused.
fn ends(dice: &mut Dice, solid: &Solid) -> [usize; 2] {
    let points = solid.points.len();
    let any = dice.below(points);
    let [mut p, mut q] = match dice.below(8) {
        0 => outermost(solid, dice.once_in(2)).unwrap_or([0, any]),
        _ => step(dice, &solid.rings).unwrap_or([any, 0]),
    };
    if dice.once_in(2) {
        (p, q) = (q, p);
    }
    let unknown = *dice.pick(&[points, points, points + 1, 512, 0xFFFF]);
    match dice.below(20) {
        0..=10 => [p, q],
        11 | 12 => [p, q + 1],
        13 => [p, q.saturating_sub(1)],
        14 => [any, q],
        15 | 16 => [any, dice.below(points)],
        17 => [p, p],
        18 => [p, unknown],
        _ => [unknown, *dice.pick(&[q, unknown])],
    }
}

/// Questions for edges, some of them from either end, now and then a malformed one among them.
fn asks(dice: &mut Dice, script: &mut Script, solid: &Solid, count: usize) {
    for _ in 0..count {
        let [p, q] = ends(dice, solid);
        match dice.below(12) {
            0 => malformed(dice, script, [p, q]),
            1 | 2 => [[p, q], [q, p]].into_iter().for_each(|ends| script.across(ends)),
            _ => script.across([p, q]),
        }
    }
}

/// A turn of a polygon, or a move of a point, mostly of one that a ring lists.
fn correct(dice: &mut Dice, script: &mut Script, solid: &Solid, number: u32) {
    if dice.once_in(2) {
        let long: Vec<usize> = (0..solid.rings.len()).filter(|&polygon| solid.rings[polygon].len() > 1).collect();
        let polygon = if long.is_empty() { 0 } else { *dice.pick(&long) };
        return script.turn(number, polygon);
    }
    let point = step(dice, &solid.rings).map_or(0, |ends| ends[0]);
    let [x, y, z] = solid.points.get(point).copied().unwrap_or([0; 3]);
    script.shift(number, point, [x, y, z + dice.between(-3, 3)]);
}

/// A load, with a question before it or in it; questions; corrections with questions after them; perhaps a begin, refused or not.
fn loaded(dice: &mut Dice, solid: &Solid) -> Script {
    let (mut script, mut early) = (Script::default(), Script::default());
    script.load(*dice.pick(&[0, 10, 1_000]), solid, dice);
    let count = dice.below(4);
    asks(dice, &mut early, solid, count);
    for line in early.lines {
        let at = if dice.once_in(3) { 0 } else { dice.below(script.lines.len()) };
        script.lines.insert(at, line);
    }
    let many = if script.lines.len() < 60 { 20 } else { 40 };
    asks(dice, &mut script, solid, many);
    for number in 1..=dice.below(6) as u32 {
        correct(dice, &mut script, solid, number);
        asks(dice, &mut script, solid, 5);
    }
    if dice.once_in(4) {
        script.begin(*dice.pick(&[0, 1_001]));
        asks(dice, &mut script, solid, 2);
    }
    script
}

/// One or two loads.
pub fn stream(dice: &mut Dice) -> Vec<u8> {
    let mut script = Script::default();
    for _ in 0..1 + usize::from(dice.once_in(3)) {
        let solid = building(dice);
        let next = loaded(dice, &solid);
        if script.lines.len() + next.lines.len() <= 1_024 {
            script.lines.extend(next.lines);
        }
    }
    script.bytes(dice)
}
