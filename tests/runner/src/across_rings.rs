//! Buildings in which edges have many users, or few, or are many: whole and broken ones, rings that run over a few points again and
//! again, from one point to many, or over as many steps as are allowed, and polygons of high numbers among empty ones.

use crate::families::disguise;
use crate::faults::{pinch, ring_fault, shape_fault};
use crate::prng::Dice;
use crate::reached::number_points;
use crate::solids::{self, closed, Solid, P};

/// Counts of steps in all, at the ends of what some way of sorting could be good for.
const STEPS: &[usize] = &[1, 1, 1, 63, 63, 63, 64, 64, 64, 65, 65, 127, 129, 257, 600, 1_016, 1_016];

/// Counts of edges from one point.
const SPOKES: &[usize] = &[31, 32, 32, 32, 32, 33, 33, 33, 33, 34, 64, 65, 200, 511];

/// So many different places: on one line, on a curve, or far from each other.
fn places(dice: &mut Dice, count: usize) -> Vec<P> {
    let how = dice.below(3);
    let place = |k: i64| match how {
        0 => [k, 0, 0],
        1 => [k, k * k % 97, k % 7],
        _ => [k, dice.between(-90_000, 90_000), dice.between(-90_000, 90_000)],
    };
    (0..count as i64).map(place).collect()
}

/// A ring as it comes: short or not, open or closed, with a step to itself, there and back.
fn tangled_ring(dice: &mut Dice, points: usize) -> Vec<usize> {
    let count = *dice.pick(&[0, 1, 2, 3, 3, 3, 4, 5, 9]);
    let mut ring: Vec<usize> = (0..points).collect();
    dice.shuffle(&mut ring);
    ring.truncate(count);
    if ring.is_empty() || dice.once_in(3) {
        ring = (0..count).map(|_| dice.below(points)).collect();
    }
    let at = dice.below(ring.len());
    match dice.below(8) {
        0 => return ring,
        1 | 2 if !ring.is_empty() => ring.insert(at, ring[at]),
        3 => ring.extend(ring.clone().iter().rev()),
        _ => {}
    }
    closed(&ring)
}

/// Rings over a few points: edges used by many polygons, and by one again and again.
fn tangled(dice: &mut Dice) -> Solid {
    let points = 2 + dice.below(7);
    let rings = (0..1 + dice.below(12)).map(|_| tangled_ring(dice, points)).collect();
    Solid { points: places(dice, points), rings }
}

/// Rings with an edge from one point to each of many: that come back to it each time, that go through it, pairs, or triangles.
fn spokes(dice: &mut Dice, hub: usize, others: &[usize]) -> Vec<Vec<usize>> {
    let most = if others.len() > 256 { 2 } else { 5 };
    let mut rings: Vec<Vec<usize>> = match dice.below(most) {
        0 => others.chunks(63).map(|some| [hub].into_iter().chain(some.iter().flat_map(|&k| [k, hub])).collect()).collect(),
        1 | 2 => others.chunks(2).map(|two| [&two[..1], &[hub], &two[1..]].concat()).collect(),
        3 => others.chunks(1).map(|one| vec![one[0], hub]).collect(),
        _ => others.windows(2).map(|two| closed(&[hub, two[0], two[1]])).collect(),
    };
    if dice.once_in(2) {
        rings.iter_mut().for_each(|ring| ring.reverse());
    }
    if dice.once_in(4) {
        let again = rings[dice.below(rings.len())].clone();
        (0..1 + dice.below(2)).for_each(|_| rings.push(again.clone()));
    }
    rings
}

/// Edges from one point or two to many others, of higher numbers or, seldom, of lower ones.
fn crowded(dice: &mut Dice) -> Solid {
    let (mut rings, mut points) = (vec![], 0);
    let hubs = [&[0][..], &[0, 1], &[0, 40], &[1, 2], &[7]][dice.below(5)];
    for &hub in hubs {
        let last = (hub + *dice.pick(SPOKES)).min(511);
        let mut others: Vec<usize> = (hub + 1..=last).collect();
        if dice.once_in(2) {
            dice.shuffle(&mut others);
        }
        rings.extend(spokes(dice, hub, &others));
        points = points.max(last + 1);
    }
    let mut solid = Solid { points: places(dice, points), rings };
    if dice.once_in(6) {
        solid.rings.iter_mut().flatten().for_each(|entry| *entry = points - 1 - *entry);
    }
    solid
}

/// A way of so many steps over the points, two or more: to and fro, along, anywhere, or staying now and then.
fn way(dice: &mut Dice, points: usize, steps: usize, stays: bool) -> Vec<usize> {
    let (from, how) = (dice.below(points), if stays { 4 } else { dice.below(4) });
    let mut ring = vec![from];
    for at in 0..steps {
        let last = ring[at];
        let by = match how {
            0 if last == from => 1,
            0 => points - 1,
            1 | 2 => 1,
            3 => 1 + dice.below(points - 1),
            _ => dice.below(points),
        };
        ring.push((last + by) % points);
    }
    ring
}

/// Rings of so many steps in all; as few rings as can be where they are many.
fn stepping(dice: &mut Dice) -> Solid {
    let steps = *dice.pick(STEPS);
    let (points, stays) = (*dice.pick(&[2, 2, 3, 9, 40, 130, 512]), dice.once_in(4));
    let (mut left, mut rings) = (steps, vec![]);
    while left > 0 {
        let most = if steps > 129 { 127 } else { *dice.pick(&[1, 3, 4, 20, 127]) };
        rings.push(way(dice, points, most.min(left), stays));
        left -= most.min(left);
    }
    Solid { points: places(dice, points), rings }
}

/// As many polygons as there can be, or nearly, most of them empty, the others over points of the highest and the lowest numbers.
fn sparse(dice: &mut Dice) -> Solid {
    let (points, polygons) = (*dice.pick(&[4, 8, 257, 512]), *dice.pick(&[256, 256, 255, 129, 65, 9]));
    let some: Vec<usize> = [0, 1, 2, 255, 256, points - 2, points - 1].into_iter().filter(|&number| number < points).collect();
    let mut rings = vec![vec![]; polygons];
    for _ in 0..2 + dice.below(12) {
        let any = dice.below(polygons);
        let at = *dice.pick(&[0, 1, any, any, polygons - 2, polygons - 1]);
        let ring: Vec<usize> = (0..2 + dice.below(3)).map(|_| *dice.pick(&some)).collect();
        rings[at] = if dice.once_in(2) { closed(&ring) } else { ring };
    }
    Solid { points: places(dice, points), rings }
}

/// A building that came from a valid solid, with faults of rings or of the shape, or without.
fn whole(dice: &mut Dice) -> Solid {
    let mut solid = match dice.below(12) {
        0 => solids::horseshoe(),
        1 => solids::triangles(dice),
        2 => solids::flattened(dice),
        3 => solids::one_sided(dice),
        4 => {
            let (mut two, mut other) = (solids::small(dice), solids::small(dice));
            let apart = *dice.pick(&[0, 1, 5, 2_000]);
            other.each_point(|p| [p[0] + apart, p[1], p[2]]);
            two.join(&other);
            two
        }
        5 => {
            let mut ball = solids::ball(dice, 1);
            pinch(dice, &mut ball);
            ball
        }
        _ => solids::small(dice),
    };
    match dice.below(9) {
        0..=2 => (0..1 + dice.below(2)).for_each(|_| ring_fault(dice, &mut solid)),
        3 | 4 => shape_fault(dice, &mut solid),
        5 => solid.turn_all(),
        6 => solid.rings.truncate(1 + dice.below(3)),
        _ => {}
    }
    let used = solid.points.len();
    let count = *dice.pick(&[used, used, used, used + 20, used + 20, 512]);
    number_points(dice, &mut solid, &[], count);
    disguise(dice, &mut solid);
    solid
}

/// A building for one load, sometimes with empty rings among the others.
pub fn building(dice: &mut Dice) -> Solid {
    let mut solid = match dice.below(16) {
        0..=4 => whole(dice),
        5..=7 => tangled(dice),
        8..=10 => crowded(dice),
        11..=13 => stepping(dice),
        _ => sparse(dice),
    };
    if solid.rings.len() < 40 && dice.once_in(4) {
        let at = if dice.once_in(2) { 0 } else { dice.below(solid.rings.len() + 1) };
        (0..1 + dice.below(3)).for_each(|_| solid.rings.insert(at, vec![]));
    }
    solid
}
