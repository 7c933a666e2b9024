//! Rings right at their tolerance by the true distance: the farthest corner is as far off the plane as it may be, or one step farther.
//!
//! N·(p - first) is a multiple of the greatest common divisor of N's components: that is the step. Corners are chosen so that N does
//! not depend on how far they are lifted; then the number at which 06 is decided is known beforehand, without the oracle.

use crate::prng::Dice;
use crate::solids::P;

/// Three exact numbers, a difference of places or a normal; products of three coordinates are beyond 64 bits.
type Exact = [i128; 3];

/// A ring's corners twice: with the greatest N·(p - first) that the tolerance allows, and with one step more.
pub struct Twice {
    pub within: Vec<P>,
    pub beyond: Vec<P>,
}

/// Directions of N. The first ones are as long as a whole number, so that the tolerance can be met exactly; of the last ones the
/// length is nearly one for some tolerances (985 and 408 times the root of 2 are nearly 1,393 and 577).
const LEANING: &[Exact] = &[
    [0, 0, 1],
    [0, 3, 4],
    [1, 2, 2],
    [2, 3, 6],
    [1, 4, 8],
    [4, 4, 7],
    [6, 6, 7],
    [5, 0, 12],
    [2, 10, 11],
    [0, 1, 1],
    [1, 1, 1],
    [1, 2, 3],
    [4, 5, 6],
];

fn exact(p: P) -> Exact {
    p.map(i128::from)
}

fn place(p: Exact) -> P {
    p.map(|c| i64::try_from(c).expect("a place is small"))
}

fn times(p: Exact, by: i128) -> Exact {
    p.map(|c| c * by)
}

fn plus(a: Exact, b: Exact) -> Exact {
    [a[0] + b[0], a[1] + b[1], a[2] + b[2]]
}

fn minus(a: Exact, b: Exact) -> Exact {
    plus(a, times(b, -1))
}

fn dot(a: Exact, b: Exact) -> i128 {
    a[0] * b[0] + a[1] * b[1] + a[2] * b[2]
}

fn cross(a: Exact, b: Exact) -> Exact {
    [a[1] * b[2] - a[2] * b[1], a[2] * b[0] - a[0] * b[2], a[0] * b[1] - a[1] * b[0]]
}

/// The greatest common divisor of a and b, and factors x and y with ax + by equal to it (Euclid).
fn euclid(a: i128, b: i128) -> (i128, i128, i128) {
    if b == 0 {
        return (a.abs(), a.signum(), 0);
    }
    let (divisor, x, y) = euclid(b, a.rem_euclid(b));
    (divisor, y, x - a.div_euclid(b) * y)
}

/// The step of a normal, and a vector that goes up by one step.
fn step(normal: Exact) -> (i128, Exact) {
    let (two, x, y) = euclid(normal[0], normal[1]);
    let (all, both, z) = euclid(two, normal[2]);
    (all, [x * both, y * both, z])
}

/// The greatest size of N·(p - first) that the tolerance allows, whatever the step.
fn reach(normal: Exact, tolerance: usize) -> i128 {
    let tolerance = tolerance as i128;
    (tolerance * tolerance * dot(normal, normal)).isqrt()
}

/// `w` less whole multiples of the diagonals, so that a corner there and the one a diagonal further make a convex quadrangle with the
/// ends of the other diagonal. Adding a diagonal changes nothing in N·w.
fn between(w: Exact, one: Exact, other: Exact) -> Exact {
    let normal = cross(one, other);
    let axis = (0..3).max_by_key(|&axis| normal[axis].abs()).expect("three axes");
    let flat = |a: Exact, b: Exact| cross(a, b)[axis];
    let floor = |above: i128| (above * normal[axis].signum()).div_euclid(normal[axis].abs());
    let (along_one, along_other) = (floor(flat(w, other)), floor(flat(one, w)));
    minus(minus(w, times(one, along_one)), times(other, along_other + 1))
}

/// A quadrangle with these diagonals. N is their cross product, wherever the second diagonal lies; so that is lifted to the reach and
/// a step beyond.
fn quadrangle(dice: &mut Dice, one: Exact, other: Exact, tolerance: usize) -> Option<Twice> {
    let normal = cross(one, other);
    let (step, up) = step(normal);
    if step == 0 {
        return None;
    }
    let sideways = exact([dice.between(-99_999, 99_999), dice.between(-99_999, 99_999), dice.between(-99_999, 99_999)]);
    let sideways = between(cross(normal.map(|c| c / step), sideways), one, other);
    let (up, steps) = (between(up, one, other), reach(normal, tolerance) / step);
    let corners = |steps: i128| {
        let second = between(plus(times(up, steps), sideways), one, other);
        [[0; 3], second, one, plus(second, other)].map(place).to_vec()
    };
    Some(Twice { within: corners(steps), beyond: corners(steps + 1) })
}

/// The place x, y of the plane through the origin whose normal is `leaning`, seen along z.
fn on_plane(leaning: Exact, (x, y): (i128, i128)) -> Exact {
    [leaning[2] * x, leaning[2] * y, -(leaning[0] * x + leaning[1] * y)]
}

fn a_leaning(dice: &mut Dice) -> Exact {
    let mut leaning = *dice.pick(LEANING);
    if dice.once_in(2) {
        leaning.swap(0, 1);
    }
    [leaning[0] * if dice.once_in(2) { -1 } else { 1 }, leaning[1], leaning[2]]
}

/// Two diagonals of about `size`: in a plane that leans in a known way, nearly upright, or at random.
fn diagonals(dice: &mut Dice, size: i64) -> (Exact, Exact) {
    let any = |dice: &mut Dice, size: i64| i128::from(dice.between(-size, size));
    match dice.below(6) {
        0..=2 => {
            let leaning = a_leaning(dice);
            let size = (size / leaning[2] as i64).max(2);
            let mut ends = || on_plane(leaning, (any(dice, size), any(dice, size)));
            (ends(), ends())
        }
        3 => {
            // The squares differ by a few units only, the numbers being billions.
            let (far, little) = (i128::from(dice.between(1, size)), i128::from(dice.between(1, 4)));
            let sign = if dice.once_in(2) { 1 } else { -1 };
            ([-sign, -far, little], [far, -1, i128::from(dice.between(0, 1))])
        }
        _ => {
            let mut ends = || [any(dice, size), any(dice, size), any(dice, size)];
            (ends(), ends())
        }
    }
}

/// A quadrangle right at its tolerance, of any size and leaning.
pub fn four_corners(dice: &mut Dice, tolerance: usize) -> Option<Twice> {
    let size = *dice.pick(&[300, 3_000, 10_000, 30_000, 60_000, 99_000, 150_000]);
    let (one, other) = diagonals(dice, size);
    quadrangle(dice, one, other, tolerance)
}

/// Half of the corners of an outline, in the order in which they are seen from the origin; the other half is opposite. So the outline
/// is simple; with `round` it is convex.
fn half_outline(dice: &mut Dice, pairs: usize, size: i64, round: bool) -> Vec<(i128, i128)> {
    let mut half: Vec<(i64, i64)> = (0..pairs).map(|_| (dice.between(-size, size), dice.between(1, size))).collect();
    half.sort_by(|a, b| 0.cmp(&(a.0 * b.1 - a.1 * b.0)));
    if round {
        // The edges go round in the order of their directions; the first corner is half their sum away from the middle.
        let sum = half.iter().fold((0, 0), |sum, edge| (sum.0 + edge.0, sum.1 + edge.1));
        let mut at = (-sum.0, -sum.1);
        for edge in &mut half {
            let next = (at.0 + 2 * edge.0, at.1 + 2 * edge.1);
            *edge = std::mem::replace(&mut at, next);
        }
    }
    half.into_iter().map(|(x, y)| (i128::from(x), i128::from(y))).collect()
}

/// A vector with this N·w, nearly along z, for a normal of small components.
fn lift(leaning: Exact, along: i128) -> Exact {
    let side = leaning[2].abs();
    let sideways = (0..side * side).map(|k| (k / side, k % side));
    let rest = |(x, y): (i128, i128)| along - leaning[0] * x - leaning[1] * y;
    let found = sideways.into_iter().find(|&xy| rest(xy) % leaning[2] == 0).expect("the components have no common divisor");
    [found.0, found.1, rest(found) / leaning[2]]
}

/// A ring of many corners that half a turn about its middle leaves as it is. Opposite corners are lifted alike, which leaves N as it
/// was: one pair to the reach or a step beyond, some others less.
pub fn opposite_pairs(dice: &mut Dice, pairs: usize, tolerance: usize) -> Twice {
    let (leaning, round) = (a_leaning(dice), dice.once_in(2));
    let widest = 80_000 / leaning[2] as i64 / if round { pairs as i64 } else { 1 };
    let size = (widest / *dice.pick(&[1, 1, 2, 5, 20])).max(9);
    let half: Vec<Exact> = half_outline(dice, pairs, size, round).into_iter().map(|corner| on_plane(leaning, corner)).collect();
    let (most, top) = (reach(leaning, tolerance), 1 + dice.below(pairs - 1));
    let less = if dice.once_in(2) { 0 } else { i128::from(dice.between(0, most as i64)) };
    let corners = |most: i128| {
        let up = |pair: usize| match pair {
            _ if pair == top => lift(leaning, most),
            _ if pair % 3 == 1 => lift(leaning, less),
            _ => [0; 3],
        };
        let near = (0..pairs).map(|pair| plus(up(pair), half[pair]));
        let opposite = (0..pairs).map(|pair| minus(up(pair), half[pair]));
        near.chain(opposite).map(place).collect()
    };
    Twice { within: corners(most), beyond: corners(most + 1) }
}

/// Puts two corners into the longest edge, which then swings out to both sides of itself; what is added to N on one side is taken away
/// on the other, exactly, whatever `half_way` is.
fn swing(dice: &mut Dice, corners: &mut Vec<P>, normal: [f64; 3]) {
    let count = corners.len();
    let edge = |k: usize| minus(exact(corners[(k + 1) % count]), exact(corners[k]));
    let at = (0..count).max_by_key(|&k| dot(edge(k), edge(k))).expect("a ring has corners");
    let (from, to, way) = (exact(corners[at]), exact(corners[(at + 1) % count]), edge(at).map(|c| c as f64));
    let out = dice.between(-120, 120) as f64 / 1_000.0;
    let aside = |i: usize| normal[(i + 1) % 3] * way[(i + 2) % 3] - normal[(i + 2) % 3] * way[(i + 1) % 3];
    let half_way: Vec<i128> = (0..3).map(|i| (way[i] * 0.66 + aside(i) * out).round() as i128).collect();
    let half_way = [half_way[0], half_way[1], half_way[2]];
    corners.splice(at + 1..at + 1, [place(minus(to, half_way)), place(plus(from, half_way))]);
}

/// A quadrangle right at its tolerance with two corners more, again and again: N stays as it was, and so does the farthest corner.
pub fn many_corners(dice: &mut Dice, corners: usize, tolerance: usize) -> Option<Vec<P>> {
    let size = *dice.pick(&[60_000, 99_000, 140_000]);
    let (one, other) = diagonals(dice, size);
    let quadrangle = quadrangle(dice, one, other, tolerance)?;
    let mut ring = if dice.once_in(2) { quadrangle.within } else { quadrangle.beyond };
    let normal = cross(one, other).map(|c| c as f64);
    let length = normal.iter().map(|c| c * c).sum::<f64>().sqrt();
    while ring.len() + 2 <= corners {
        swing(dice, &mut ring, normal.map(|c| c / length));
    }
    Some(ring)
}

/// Puts a corner half-way along an edge, if that is a place for some edge: N stays as it was.
pub fn straight(corners: &mut Vec<P>) {
    let ends = |k: usize| (corners[k], corners[(k + 1) % corners.len()]);
    let even = |k: &usize| (0..3).all(|axis| (ends(*k).0[axis] + ends(*k).1[axis]) % 2 == 0);
    if let Some(at) = (0..corners.len()).find(even) {
        let (from, to) = ends(at);
        corners.insert(at + 1, [0, 1, 2].map(|axis| (from[axis] + to[axis]) / 2));
    }
}

/// Both lists tumbled alike and set down within the bounds, often right at them; false where they are too large.
pub fn set_down(dice: &mut Dice, lists: &mut [&mut Vec<P>]) -> bool {
    let mut axes = [0, 1, 2];
    dice.shuffle(&mut axes);
    let signs = [0; 3].map(|_: i64| if dice.once_in(2) { -1 } else { 1 });
    for point in lists.iter_mut().flat_map(|list| list.iter_mut()) {
        *point = [0, 1, 2].map(|axis| signs[axis] * point[axes[axis]]);
    }
    for axis in 0..3 {
        let all = || lists.iter().flat_map(|list| list.iter().map(|point| point[axis]));
        let (low, high) = (all().min().unwrap_or(0), all().max().unwrap_or(0));
        let (least, most) = (-100_000 - low, 100_000 - high);
        if least > most {
            return false;
        }
        let between = dice.between(least, most);
        let by = *dice.pick(&[least, most, between, between]);
        lists.iter_mut().flat_map(|list| list.iter_mut()).for_each(|point| point[axis] += by);
    }
    true
}
