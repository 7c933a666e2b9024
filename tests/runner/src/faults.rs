//! Faults: what makes a ring or a shape fail a check.

use crate::prng::Dice;
use crate::solids::{closed, Solid, P};
use std::collections::BTreeSet;

/// One ring of the solid gets a fault that one of checks 01 to 06 is about.
pub fn ring_fault(dice: &mut Dice, solid: &mut Solid) {
    if solid.rings.is_empty() {
        return;
    }
    let at = dice.below(solid.rings.len());
    let points = solid.points.len();
    match dice.below(9) {
        0 => {
            let kept = dice.below(4);
            solid.rings[at].truncate(kept);
        }
        1 => {
            solid.rings[at].pop();
        }
        2 => {
            if let Some(last) = solid.rings[at].last_mut() {
                *last = dice.below(points);
            }
        }
        3 | 4 => repeat(dice, &mut solid.rings[at]),
        5 => thin(dice, solid, at),
        6 | 7 => exchange(dice, &mut solid.rings[at]),
        _ => lift(dice, solid, at),
    }
}

/// A number stands twice.
fn repeat(dice: &mut Dice, ring: &mut Vec<usize>) {
    if ring.is_empty() {
        return;
    }
    let again = *dice.pick(ring);
    let at = dice.below(ring.len());
    if dice.once_in(2) {
        ring.insert(at, again);
    } else {
        ring[at] = again;
    }
    ring.truncate(128);
}

/// The ring runs over new points on one line, or out and back.
fn thin(dice: &mut Dice, solid: &mut Solid, at: usize) {
    let Some(&first) = solid.rings[at].first() else { return };
    let from = solid.points[first];
    let step: P = [dice.between(-2, 2), dice.between(-2, 2), dice.between(1, 2)];
    let count = 2 + dice.below(4);
    let mut ring = vec![first];
    for k in 1..=count as i64 {
        let place = [from[0] + k * step[0], from[1] + k * step[1], from[2] + k * step[2]];
        match solid.points.iter().position(|&each| each == place) {
            Some(number) => ring.push(number),
            None => {
                solid.points.push(place);
                ring.push(solid.points.len() - 1);
            }
        }
    }
    dice.shuffle(&mut ring);
    solid.rings[at] = closed(&ring);
}

/// Two corners exchange their turn in the ring, so that it crosses itself.
fn exchange(dice: &mut Dice, ring: &mut Vec<usize>) {
    if ring.len() < 5 || ring.first() != ring.last() {
        return;
    }
    ring.pop();
    let at = dice.below(ring.len() - 1);
    ring.swap(at, at + 1);
    ring.push(ring[0]);
}

/// A corner leaves the plane.
fn lift(dice: &mut Dice, solid: &mut Solid, at: usize) {
    if solid.rings[at].is_empty() {
        return;
    }
    let corner = *dice.pick(&solid.rings[at]);
    solid.points[corner][dice.below(3)] += dice.between(-30, 30);
}

/// The solid's polygons as a whole get a fault that one of checks 07 to 0D is about.
pub fn shape_fault(dice: &mut Dice, solid: &mut Solid) {
    if solid.rings.is_empty() {
        return;
    }
    let at = dice.below(solid.rings.len());
    match dice.below(8) {
        0 => {
            solid.rings.swap_remove(at);
        }
        1 => {
            let kept = dice.below(5);
            dice.shuffle(&mut solid.rings);
            solid.rings.truncate(kept);
        }
        2 => solid.rings.push(solid.rings[at].clone()),
        3 => {
            let mut turned = solid.rings[at].clone();
            turned.reverse();
            solid.rings.push(turned);
        }
        4 | 5 => solid.rings[at].reverse(),
        6 => pinch(dice, solid),
        _ => solid.turn_all(),
    }
}

/// Two points become one, in every ring: two that have no neighbour in common if some are found, so that no edge is used more often.
pub fn pinch(dice: &mut Dice, solid: &mut Solid) {
    let around = |solid: &Solid, point: usize| -> BTreeSet<usize> {
        solid.rings.iter().filter(|ring| ring.contains(&point)).flatten().copied().collect()
    };
    for strict in [true, false] {
        for _ in 0..20 {
            let (kept, gone) = (dice.below(solid.points.len()), dice.below(solid.points.len()));
            let (near, far) = (around(solid, kept), around(solid, gone));
            let apart = if strict { near.is_disjoint(&far) } else { !near.contains(&gone) };
            if kept != gone && apart && !far.is_empty() {
                solid.rings.iter_mut().flatten().filter(|entry| **entry == gone).for_each(|entry| *entry = kept);
                return;
            }
        }
    }
}
