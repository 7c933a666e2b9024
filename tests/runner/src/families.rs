//! Families of streams: each aims at some part of the documents, and the seed decides the rest.

use crate::across;
use crate::distance::{self, Twice};
use crate::faults::{pinch, ring_fault, shape_fault};
use crate::positions;
use crate::prng::Dice;
use crate::reached;
use crate::repeats;
use crate::script::{Asking, Script};
use crate::solids::{self, closed, Solid, P};
use oracle::ring::fails_06;
use oracle::tables::Place;

/// A family: its name, its share, and how one of its streams is written.
pub struct Family {
    pub name: &'static str,
    pub share: usize,
    pub write: fn(&mut Dice) -> Vec<u8>,
}

pub const FAMILIES: &[Family] = &[
    Family { name: "solids", share: 4, write: valid_solids },
    Family { name: "ring faults", share: 5, write: ring_faults },
    Family { name: "shape faults", share: 5, write: shape_faults },
    Family { name: "cells and pinches", share: 3, write: cells_and_pinches },
    Family { name: "two solids", share: 3, write: two_solids },
    Family { name: "polygons and corners reached", share: 2, write: reached::stream },
    Family { name: "few polygons", share: 2, write: few_polygons },
    Family { name: "rings on a small grid", share: 4, write: grid_rings },
    Family { name: "rings of repeated numbers", share: 1, write: repeats::stream },
    Family { name: "rings with a position", share: 3, write: positions::stream },
    Family { name: "rings off their plane", share: 3, write: off_plane },
    Family { name: "rings at the true distance", share: 2, write: true_distance },
    Family { name: "large rings at the true distance", share: 1, write: large_at_true_distance },
    Family { name: "edges asked for", share: 3, write: across::stream },
    Family { name: "histories", share: 5, write: histories },
    Family { name: "refusals", share: 5, write: refusals },
    Family { name: "begins and ends", share: 3, write: begins },
    Family { name: "damage", share: 4, write: damage },
    Family { name: "noise", share: 1, write: noise },
    Family { name: "bounds of tables", share: 2, write: table_bounds },
    Family { name: "bounds of streams", share: 1, write: stream_bounds },
    Family { name: "large buildings", share: 1, write: large_buildings },
    Family { name: "largest numbers", share: 1, write: largest_numbers },
];

/// The family of stream `index`: shares taken in turn.
pub fn family_of(index: u64) -> usize {
    let shares: usize = FAMILIES.iter().map(|family| family.share).sum();
    let mut left = (index % shares as u64) as usize;
    for (number, family) in FAMILIES.iter().enumerate() {
        if left < family.share {
            return number;
        }
        left -= family.share;
    }
    unreachable!("the shares add up")
}

/// Stream `index` under `seed`.
pub fn stream(seed: u64, index: u64) -> Vec<u8> {
    (FAMILIES[family_of(index)].write)(&mut Dice::new(seed, index))
}

/// Tumbled, sheared, set down and renumbered.
pub fn disguise(dice: &mut Dice, solid: &mut Solid) {
    solid.tumble(dice);
    for _ in 0..dice.below(3) {
        solid.shear(dice);
    }
    if dice.once_in(5) {
        solid.points.push([dice.between(-9, 9), 40 + dice.between(0, 9), dice.between(-9, 9)]);
    }
    solid.set_down(dice);
    solid.renumber(dice);
}

fn tolerance(dice: &mut Dice) -> usize {
    *dice.pick(&[0, 0, 0, 1, 2, 10, 100, 1_000])
}

/// What the writer of a history believes to be held; only a guide, since the oracle decides.
struct Believed {
    solid: Solid,
    last: u32,
    left: Vec<P>,
}

impl Believed {
    fn new(solid: &Solid) -> Believed {
        Believed { solid: solid.clone(), last: 0, left: vec![] }
    }

    fn place(&mut self, dice: &mut Dice, point: usize) -> P {
        let own = *self.solid.points.get(point).unwrap_or(&[0; 3]);
        let near = |dice: &mut Dice, by: i64| {
            [own[0] + dice.between(-by, by), own[1] + dice.between(-by, by), own[2] + dice.between(-by, by)]
        };
        match dice.below(12) {
            0 => own,
            1 if !self.solid.points.is_empty() => *dice.pick(&self.solid.points),
            2 if !self.left.is_empty() => *dice.pick(&self.left),
            3 => {
                let mut beyond = own;
                beyond[dice.below(3)] = *dice.pick(&[100_001, -100_001, 100_000, -100_000, i32::MAX as i64, i32::MIN as i64]);
                beyond
            }
            4 => [dice.between(-100_000, 100_000), dice.between(-100_000, 100_000), dice.between(-100_000, 100_000)],
            5..=7 => near(dice, 1),
            8 | 9 => near(dice, 20),
            _ => {
                let mut straight = own;
                straight[dice.below(3)] += dice.between(-3, 3);
                straight
            }
        }
    }

    fn number(&mut self, dice: &mut Dice) -> u32 {
        match dice.below(16) {
            0 => 0,
            1 => self.last,
            2 => self.last.wrapping_sub(1),
            3 => dice.below(self.last as usize + 1) as u32,
            4 => self.last.saturating_add(dice.below(100_000) as u32),
            5 if dice.once_in(12) => u32::MAX - dice.below(3) as u32,
            6 if dice.once_in(6) => self.last.saturating_add(1 << 31),
            _ => self.last.saturating_add(1 + dice.below(3) as u32),
        }
    }

    fn element(&mut self, dice: &mut Dice, count: usize) -> usize {
        match dice.below(14) {
            0 => count,
            1 if dice.once_in(3) => 0xFFFF,
            2 if dice.once_in(3) => dice.below(0x10000),
            _ => dice.below(count),
        }
    }

    /// Two points to be asked for, mostly those of a step.
    fn ends(&mut self, dice: &mut Dice) -> [usize; 2] {
        let points = self.solid.points.len();
        if dice.once_in(3) {
            return [self.element(dice, points), self.element(dice, points)];
        }
        across::step(dice, &self.solid.rings).unwrap_or([0, 1])
    }

    /// One move, turn or question, as it comes.
    fn frame(&mut self, dice: &mut Dice, script: &mut Script) {
        let (points, polygons) = (self.solid.points.len(), self.solid.rings.len());
        match dice.below(12) {
            0..=3 => {
                let (number, point) = (self.number(dice), self.element(dice, points));
                let place = self.place(dice, point);
                script.shift(number, point, place);
                let free = !self.solid.points.iter().enumerate().any(|(i, each)| i != point && *each == place);
                let within = place.iter().all(|c| c.abs() <= 100_000);
                if number > self.last && point < points && free && within {
                    self.left.push(self.solid.points[point]);
                    self.solid.points[point] = place;
                    self.last = number;
                }
            }
            4..=6 => {
                let (number, polygon) = (self.number(dice), self.element(dice, polygons));
                script.turn(number, polygon);
                if number > self.last && polygon < polygons {
                    self.solid.rings[polygon].reverse();
                    self.last = number;
                }
            }
            7..=9 => {
                let polygon = self.element(dice, polygons);
                script.question(polygon);
            }
            _ => {
                let ends = self.ends(dice);
                script.across(ends);
            }
        }
    }
}

fn history(dice: &mut Dice, script: &mut Script, solid: &Solid, frames: usize) {
    let mut believed = Believed::new(solid);
    for _ in 0..frames {
        believed.frame(dice, script);
    }
}

fn valid_solids(dice: &mut Dice) -> Vec<u8> {
    let mut script = Script::default();
    let mut solid = solids::small(dice);
    disguise(dice, &mut solid);
    script.load(tolerance(dice), &solid, dice);
    let frames = dice.below(12);
    history(dice, &mut script, &solid, frames);
    if dice.once_in(2) {
        script.questions(dice, solid.rings.len());
    }
    script.bytes(dice)
}

fn ring_faults(dice: &mut Dice) -> Vec<u8> {
    let mut script = Script::default();
    let mut solid = solids::small(dice);
    if dice.once_in(2) {
        disguise(dice, &mut solid);
    }
    for _ in 0..1 + dice.below(3) {
        ring_fault(dice, &mut solid);
    }
    if dice.once_in(3) {
        shape_fault(dice, &mut solid);
    }
    script.load(tolerance(dice), &solid, dice);
    let frames = dice.below(10);
    history(dice, &mut script, &solid, frames);
    script.questions(dice, solid.rings.len());
    script.bytes(dice)
}

fn shape_faults(dice: &mut Dice) -> Vec<u8> {
    let mut script = Script::default();
    let mut solid = match dice.below(8) {
        0 => solids::one_sided(dice),
        1 => solids::triangles(dice),
        2 => solids::flattened(dice),
        _ => solids::small(dice),
    };
    for _ in 0..dice.below(3) {
        shape_fault(dice, &mut solid);
    }
    disguise(dice, &mut solid);
    script.load(tolerance(dice), &solid, dice);
    let frames = dice.below(10);
    history(dice, &mut script, &solid, frames);
    script.bytes(dice)
}

fn cells_and_pinches(dice: &mut Dice) -> Vec<u8> {
    let mut script = Script::default();
    let mut solid = match dice.below(4) {
        0 => solids::horseshoe(),
        1 => solids::random_cells(dice, 3, 9),
        2 => solids::random_cells(dice, 2, 8),
        _ => {
            let mut ball = solids::ball(dice, 1);
            (0..1 + dice.below(2)).for_each(|_| pinch(dice, &mut ball));
            ball
        }
    };
    if dice.once_in(4) {
        solid.triangulate();
    }
    if dice.once_in(5) {
        solid.turn_all();
    }
    if dice.once_in(3) {
        shape_fault(dice, &mut solid);
    }
    if dice.once_in(4) {
        let n = 3 + dice.below(3);
        let mut apart = solids::pyramid(&solids::outline(dice, n), [1, 1, 3]);
        for _ in 0..1 + dice.below(3) {
            apart.each_point(|p| [p[0] + 2_000, p[1], p[2]]);
            solid.join(&apart);
        }
    }
    disguise(dice, &mut solid);
    script.load(tolerance(dice), &solid, dice);
    let frames = dice.below(4);
    history(dice, &mut script, &solid, frames);
    script.bytes(dice)
}

/// Two solids apart, or with a point, an edge or a face in common.
fn two_solids(dice: &mut Dice) -> Vec<u8> {
    let mut script = Script::default();
    let mut solid = if dice.once_in(2) { solids::tetrahedron() } else { solids::cuboid(2, 2, 2) };
    let mut other = if dice.once_in(2) { solids::tetrahedron() } else { solids::cuboid(2, 2, 2) };
    if dice.once_in(2) {
        other.tumble(dice);
    }
    let by = *dice.pick(&[[2, 2, 2], [2, 2, 0], [2, 0, 0], [9, 0, 0], [0, 0, 2], [-2, 0, -2], [1, 1, 1]]);
    other.each_point(|p| [p[0] + by[0], p[1] + by[1], p[2] + by[2]]);
    if dice.once_in(3) {
        other.turn_all();
    }
    solid.join(&other);
    if dice.once_in(3) {
        shape_fault(dice, &mut solid);
    }
    disguise(dice, &mut solid);
    script.load(tolerance(dice), &solid, dice);
    let frames = dice.below(6);
    history(dice, &mut script, &solid, frames);
    script.bytes(dice)
}

/// Fewer than four polygons, some of them closed round a volume.
fn few_polygons(dice: &mut Dice) -> Vec<u8> {
    let mut script = Script::default();
    let mut solid = match dice.below(3) {
        0 => Solid {
            points: vec![[0, 0, 0], [10, 0, 0], [10, 10, 0], [0, 10, 3]],
            rings: vec![closed(&[0, 1, 2, 3]), closed(&[3, 2, 1, 0])],
        },
        1 => {
            let mut some = solids::small(dice);
            dice.shuffle(&mut some.rings);
            some.rings.truncate(dice.below(4));
            some
        }
        _ => Solid { points: vec![], rings: vec![vec![]; dice.below(4)] },
    };
    if dice.once_in(3) {
        solid.turn_all();
    }
    disguise(dice, &mut solid);
    script.load(*dice.pick(&[0, 10, 1_000]), &solid, dice);
    let frames = dice.below(8);
    history(dice, &mut script, &solid, frames);
    script.bytes(dice)
}

/// Rings over points of a small grid: ties, touches, straight corners, edges that fall to one place.
fn grid_rings(dice: &mut Dice) -> Vec<u8> {
    let mut script = Script::default();
    let flat = dice.once_in(2);
    let side = 2 + dice.below(3) as i64;
    let mut points: Vec<P> = Vec::new();
    for _ in 0..12 {
        let z = if flat { 0 } else { dice.between(0, side) };
        let point = [dice.between(0, side), dice.between(0, side), z];
        if !points.contains(&point) {
            points.push(point);
        }
    }
    let mut rings = Vec::new();
    for _ in 0..4 + dice.below(12) {
        let mut numbers: Vec<usize> = (0..points.len()).collect();
        dice.shuffle(&mut numbers);
        numbers.truncate(3 + dice.below(5));
        rings.push(closed(&numbers));
    }
    let mut solid = Solid { points, rings };
    match dice.below(3) {
        0 => solid.tumble(dice),
        1 => disguise(dice, &mut solid),
        _ => {}
    }
    script.load(*dice.pick(&[0, 1, 1, 2, 3, 1_000]), &solid, dice);
    script.questions(dice, solid.rings.len());
    let frames = dice.below(6);
    history(dice, &mut script, &solid, frames);
    script.bytes(dice)
}

/// Rectangles with a corner lifted by about twice the tolerance, saddles lifted by about the tolerance (their N is upright), and other
/// rings near their tolerance.
fn off_plane(dice: &mut Dice) -> Vec<u8> {
    let mut script = Script::default();
    let tolerance = *dice.pick(&[0, 1, 10, 500, 999, 1_000]);
    let mut solid = Solid::default();
    for k in 0..6 {
        let (side, base) = (1_000 * dice.between(1, 20), 1_500 * k);
        let (saddle, off) = (k % 2 == 1, dice.between(-1, 1));
        let height = if saddle { tolerance as i64 + off } else { 2 * tolerance as i64 + off };
        let second = if saddle { base + height } else { base };
        let corners = [[0, 0, base], [side, 0, second], [side, side, base], [0, side, base + height]];
        let first = solid.points.len();
        solid.points.extend(corners);
        let mut numbers: Vec<usize> = (first..first + 4).collect();
        numbers.rotate_left(dice.below(4));
        solid.rings.push(closed(&numbers));
    }
    for _ in 0..3 {
        let n = 4 + dice.below(5);
        let first = solid.points.len();
        let size = *dice.pick(&[10, 3_000]);
        for (x, y) in solids::outline(dice, n) {
            let off = dice.between(-2 * tolerance as i64 - 1, 2 * tolerance as i64 + 1);
            solid.points.push([x * size, y * size, -20_000 + 30 * first as i64 + off]);
        }
        solid.rings.push(closed(&(first..first + n).collect::<Vec<_>>()));
    }
    solid.tumble(dice);
    solid.renumber(dice);
    script.load(tolerance, &solid, dice);
    script.questions(dice, solid.rings.len());
    let frames = dice.below(6);
    history(dice, &mut script, &solid, frames);
    script.bytes(dice)
}

/// A tolerance for rings right at it: any, and some for which a length with a root is nearly a whole number.
fn met_tolerance(dice: &mut Dice) -> usize {
    let any = 1 + dice.below(1_000);
    *dice.pick(&[1, 1, 2, 10, 29, 408, 985, 1_000, 1_000, any, any, any])
}

/// Puts a ring's corners into the solid, begun at some entry, unless a place is taken; gives the number of its first corner.
fn put_ring(dice: &mut Dice, solid: &mut Solid, corners: &[P]) -> Option<usize> {
    let first = solid.points.len();
    if corners.iter().enumerate().any(|(k, corner)| solid.points.contains(corner) || corners[..k].contains(corner)) {
        return None;
    }
    solid.points.extend(corners);
    let mut numbers: Vec<usize> = (first..first + corners.len()).collect();
    numbers.rotate_left(*dice.pick(&[0, 1, corners.len() / 2]));
    if dice.once_in(2) {
        numbers.reverse();
    }
    solid.rings.push(closed(&numbers));
    Some(first)
}

impl Asking<'_> {
    /// From one side of the tolerance to the other and back: corner by corner, with a turn on each side.
    fn across(&mut self, first: usize, here: &[P], there: &[P]) {
        self.turn();
        for to in [there, here] {
            (0..here.len()).filter(|&k| here[k] != there[k]).for_each(|k| self.shift(first + k, to[k]));
            self.turn();
        }
    }

    /// One corner by one millimetre over the tolerance and back, if there is such a place up an axis.
    fn by_a_millimetre(&mut self, dice: &mut Dice, tolerance: usize, solid: &Solid) {
        let ring = &solid.rings[self.polygon];
        let (corner, axis) = (*dice.pick(ring), dice.below(3));
        let moved = |by: i64| {
            let mut to = solid.points[corner];
            to[axis] += by;
            to
        };
        let fails = |by: i64| {
            let at = |&entry: &usize| if entry == corner { moved(by) } else { solid.points[entry] };
            let places = ring.iter().map(at).map(|p| Place { x: p[0].into(), y: p[1].into(), z: p[2].into() });
            fails_06(&places.collect::<Vec<_>>(), tolerance as i128)
        };
        let (mut here, mut there) = (0, if dice.once_in(2) { 6_000 } else { -6_000 });
        if fails(here) == fails(there) {
            return;
        }
        while i64::abs(there - here) > 1 {
            let middle = (here + there) / 2;
            *if fails(middle) == fails(here) { &mut here } else { &mut there } = middle;
        }
        [here, there, here].into_iter().for_each(|by| self.shift(corner, moved(by)));
        self.turn();
        self.shift(corner, moved(there));
    }
}

/// Rings of up to 38 corners at the reach of their tolerance and one step beyond, moved from the one to the other.
fn true_distance(dice: &mut Dice) -> Vec<u8> {
    let mut script = Script::default();
    let tolerance = met_tolerance(dice);
    let (mut solid, mut rings) = (Solid::default(), Vec::new());
    for _ in 0..3 + dice.below(3) {
        let most = if dice.once_in(4) { 18 } else { 6 };
        let pairs = 2 + dice.below(most);
        let ring = if dice.once_in(3) {
            Some(distance::opposite_pairs(dice, pairs, tolerance))
        } else {
            distance::four_corners(dice, tolerance)
        };
        let Some(Twice { mut within, mut beyond }) = ring else { continue };
        if !distance::set_down(dice, &mut [&mut within, &mut beyond]) {
            continue;
        }
        let (here, there) = if dice.once_in(2) { (within, beyond) } else { (beyond, within) };
        if let Some(first) = put_ring(dice, &mut solid, &here) {
            rings.push((first, here, there));
        }
    }
    script.load(tolerance, &solid, dice);
    script.questions(dice, solid.rings.len());
    let mut number = 0;
    for (polygon, (first, here, there)) in rings.iter().enumerate().take(2) {
        let mut asking = Asking { script: &mut script, number, polygon };
        if dice.once_in(2) {
            asking.across(*first, here, there);
        } else {
            asking.by_a_millimetre(dice, tolerance, &solid);
        }
        number = asking.number;
    }
    script.bytes(dice)
}

/// Rings of 39 to 127 corners, near the bounds of coordinates, at the reach of their tolerance and one step beyond.
fn large_at_true_distance(dice: &mut Dice) -> Vec<u8> {
    let mut script = Script::default();
    let tolerance = met_tolerance(dice);
    let mut solid = Solid::default();
    let rings = if dice.once_in(4) { 2 } else { 1 };
    for _ in 0..rings {
        let corners = *dice.pick(&[39, 40, 41, 42, 44, 50, 63, 64, 65, 126, 127, 127, 127]);
        let ring = if dice.once_in(2) {
            let Twice { within, beyond } = distance::opposite_pairs(dice, corners / 2, tolerance);
            Some(if dice.once_in(2) { within } else { beyond })
        } else {
            distance::many_corners(dice, corners, tolerance)
        };
        let Some(mut ring) = ring else { continue };
        if corners % 2 == 1 {
            distance::straight(&mut ring);
        }
        if distance::set_down(dice, &mut [&mut ring]) {
            put_ring(dice, &mut solid, &ring);
        }
    }
    script.load(tolerance, &solid, dice);
    script.questions(dice, solid.rings.len());
    // The oracle looks at all edges of such rings again after each correction, which takes its time: often there are none.
    if !solid.rings.is_empty() && (solid.points.len() < 66 || dice.once_in(5)) {
        let mut asking = Asking { script: &mut script, number: 0, polygon: 0 };
        asking.turn();
        asking.by_a_millimetre(dice, tolerance, &solid);
    }
    script.bytes(dice)
}

fn histories(dice: &mut Dice) -> Vec<u8> {
    let mut script = Script::default();
    let mut solid = match dice.below(4) {
        0 => solids::tetrahedron(),
        1 => solids::cuboid(3, 4, 5),
        _ => solids::small(dice),
    };
    if dice.once_in(3) {
        ring_fault(dice, &mut solid);
    }
    if dice.once_in(3) {
        solid.turn_all();
    }
    disguise(dice, &mut solid);
    script.load(tolerance(dice), &solid, dice);
    let frames = if dice.once_in(10) { 150 } else { 10 + dice.below(40) };
    history(dice, &mut script, &solid, frames);
    script.questions(dice, solid.rings.len());
    script.bytes(dice)
}

/// Frames to which one refusal applies, or two at once, in every state.
fn refusals(dice: &mut Dice) -> Vec<u8> {
    let mut script = Script::default();
    let solid = solids::tetrahedron();
    if dice.once_in(3) {
        (0..3).for_each(|_| awkward(dice, &mut script, &solid, 0));
    }
    script.begin(tolerance(dice));
    for &point in &solid.points {
        if dice.once_in(3) {
            awkward(dice, &mut script, &solid, 0);
        }
        script.point(point);
    }
    for ring in &solid.rings {
        if dice.once_in(3) {
            awkward(dice, &mut script, &solid, 0);
        }
        script.polygon(ring);
    }
    script.end();
    let mut last = 0;
    for _ in 0..6 + dice.below(10) {
        if dice.once_in(3) {
            last += 1 + dice.below(5) as u32;
            script.turn(last, dice.below(4));
        } else {
            awkward(dice, &mut script, &solid, last);
        }
    }
    script.questions(dice, 4);
    script.bytes(dice)
}

/// A frame that is refused, mostly, for one or more reasons.
fn awkward(dice: &mut Dice, script: &mut Script, solid: &Solid, last: u32) {
    let late = *dice.pick(&[0, last, last / 2, last + 1, last + 9]);
    let unknown = *dice.pick(&[0, 1, 3, 4, 5, 255, 256, 512, 0xFFFF]);
    let beyond = {
        let mut place = *dice.pick(&solid.points);
        place[dice.below(3)] = *dice.pick(&[100_001, -100_001, 0x7FFF_FFFF, -0x8000_0000, 0x1_0000, 0x10_0000]);
        place
    };
    let taken = *dice.pick(&solid.points);
    let free = [dice.between(-9, 9), dice.between(5, 9), dice.between(-9, 9)];
    let place = *dice.pick(&[beyond, taken, taken, free]);
    match dice.below(17) {
        0..=4 => script.shift(late, unknown, place),
        5 | 6 => script.turn(late, unknown),
        7 => script.question(unknown),
        8 => script.point(beyond),
        9 => script.point(taken),
        10 => script.polygon(&[0, unknown, 1, 0]),
        11 => script.begin(*dice.pick(&[1_001, 0xFFFF, 0x8000])),
        12 if dice.once_in(4) => script.end(),
        13 | 14 => script.across([unknown, *dice.pick(&[0, 1, 3, 4, unknown])]),
        15 => across::malformed(dice, script, [unknown, 1]),
        _ => {
            let broken: &[&str] =
                &["", "04 ", "040", "4", "00", "08", "07000g", "070", "0100", "02", "0300", "030000000", "06", "05", "FF"];
            script.raw(dice.pick(broken));
        }
    }
}

/// Begins in the middle, refused begins, frames in the wrong state, ends that come twice.
fn begins(dice: &mut Dice) -> Vec<u8> {
    let mut script = Script::default();
    for _ in 0..2 + dice.below(4) {
        let mut solid = solids::small(dice);
        if dice.once_in(3) {
            disguise(dice, &mut solid);
        }
        let at = script.lines.len();
        script.load(tolerance(dice), &solid, dice);
        if dice.once_in(3) {
            let kept = at + 1 + dice.below(script.lines.len() - at);
            script.lines.truncate(kept);
        }
        if dice.once_in(3) {
            let kept = at + dice.below(script.lines.len() - at);
            script.lines.insert(kept, format!("01{:04X}", dice.pick(&[1_001, 1_000, 0, 0xFFFF])).into_bytes());
        }
        if dice.once_in(4) {
            script.end();
        }
        if dice.once_in(3) {
            script.point([7, 7, 7]);
        }
        if dice.once_in(3) {
            script.polygon(&[0, 1, 2, 0]);
        }
        let frames = dice.below(8);
        history(dice, &mut script, &solid, frames);
    }
    script.bytes(dice)
}

/// A stream of another family with some of its bytes damaged.
fn damage(dice: &mut Dice) -> Vec<u8> {
    let write = *dice.pick(&[valid_solids, ring_faults, shape_faults, histories, refusals, begins]);
    let mut bytes = write(dice);
    for _ in 0..1 + dice.below(6) {
        if bytes.is_empty() {
            break;
        }
        let at = dice.below(bytes.len());
        match dice.below(12) {
            0 => bytes[at] = bytes[at].to_ascii_lowercase(),
            1 => bytes[at] = *dice.pick(b"abcdef"),
            2 => bytes.insert(at, b'\r'),
            3 => bytes.insert(at, b' '),
            4 => bytes[at] = 0,
            5 => bytes.insert(at, b'\n'),
            6 => bytes[at] = *dice.pick(b"/:@G`g"),
            7 => bytes[at] = dice.below(256) as u8,
            8 => {
                bytes.remove(at);
            }
            9 => bytes.insert(at, *dice.pick(b"0123456789ABCDEF")),
            10 => bytes[at] = *dice.pick(b"0123456789ABCDEF"),
            _ => {
                let carriage = bytes.iter().position(|&byte| byte == b'\n').unwrap_or(0);
                bytes.insert(carriage, b'\r');
            }
        }
    }
    if dice.once_in(6) {
        bytes.truncate(dice.below(bytes.len() + 1));
    }
    bytes
}

/// Lines of random kinds and lengths, random hexadecimal, random bytes.
fn noise(dice: &mut Dice) -> Vec<u8> {
    let mut bytes = Vec::new();
    if dice.once_in(3) {
        let mut start = Script::default();
        start.load(0, &solids::tetrahedron(), dice);
        bytes = start.lines.join(&b'\n');
        bytes.push(b'\n');
    }
    for _ in 0..dice.below(60) {
        match dice.below(4) {
            0 => bytes.extend((0..dice.below(40)).map(|_| dice.below(256) as u8)),
            1 => bytes.extend((0..dice.below(530)).map(|_| *dice.pick(b"0123456789ABCDEF"))),
            _ => {
                let kind = *dice.pick(&[0, 1, 2, 3, 4, 5, 6, 7, 8, 0x0C]);
                let (entries, any) = (4 * dice.below(130), dice.below(40));
                let length = *dice.pick(&[0, 4, 24, 12, 36, 8, entries, any]);
                bytes.extend(format!("{kind:02X}").bytes());
                bytes.extend((0..length).map(|_| *dice.pick(b"00000000000000001F")));
            }
        }
        bytes.push(b'\n');
    }
    bytes
}

/// Distinct places, as many as are wanted.
fn many_points(script: &mut Script, count: usize) {
    (0..count).for_each(|k| script.point([k as i64, (k * k % 97) as i64, (k % 7) as i64]));
}

/// 512 and 513 points, 256 and 257 polygons, 1,024 entries and more, rings of 128 and 129, and what comes with them.
fn table_bounds(dice: &mut Dice) -> Vec<u8> {
    let mut script = Script::default();
    script.begin(1_000);
    match dice.below(4) {
        0 => {
            many_points(&mut script, 511 + dice.below(3));
            for _ in 0..2 + dice.below(4) {
                match dice.below(4) {
                    0 => script.point([100_001, 0, 0]),
                    1 => script.point([0, 0, 0]),
                    2 => script.point([-5, -5, dice.between(-9, 9)]),
                    _ => script.polygon(&[0, dice.below(514), 1, 0]),
                }
            }
            script.polygon(&[0, 510, 511, 0]);
            script.polygon(&[0, 512, 511, 0]);
        }
        1 => {
            many_points(&mut script, 6);
            for _ in 0..255 + dice.below(3) {
                let rings: [&[usize]; 3] = [&[0, 1, 2, 0], &[], &[0, 3, 2, 1]];
                script.polygon(rings[dice.below(rings.len())]);
            }
            for _ in 0..1 + dice.below(3) {
                let rings: [&[usize]; 4] = [&[], &[0, 1, 2, 0], &[0, 9, 9, 0], &[6]];
                script.polygon(rings[dice.below(rings.len())]);
            }
            if dice.once_in(3) {
                script.point([500, 500, 500]);
            }
        }
        2 => {
            many_points(&mut script, 128);
            let mut left = 1_024;
            while left > 0 {
                let n = [128, 127, 120, 100, 64][dice.below(5)].min(left);
                left -= n;
                let from = dice.below(128);
                script.polygon(&(0..n).map(|k| (from + k) % 128).collect::<Vec<_>>());
                if dice.once_in(6) {
                    script.polygon(&vec![0; left + 1]);
                }
            }
            for _ in 0..1 + dice.below(4) {
                match dice.below(4) {
                    0 => script.polygon(&[]),
                    1 => script.polygon(&[0]),
                    2 => script.polygon(&[128, 0]),
                    _ => script.polygon(&[0; 128]),
                }
            }
        }
        _ => {
            many_points(&mut script, 130);
            for _ in 0..4 {
                let n = 126 + dice.below(5);
                let mut ring: Vec<usize> = (0..n).collect();
                if dice.once_in(2) {
                    ring[n - 1] = 0;
                }
                script.polygon(&ring);
            }
            script.polygon(&[999; 129]);
        }
    }
    script.end();
    let number = 1 + dice.below(5) as u32;
    if dice.once_in(3) {
        script.point([0, 0, 0]);
        script.point([1, 2, 100_000]);
    }
    script.turn(number, *dice.pick(&[0, 255, 256]));
    script.shift(number + 1, *dice.pick(&[0, 5, 511, 512]), [-50, -50, -50]);
    script.question(*dice.pick(&[0, 255, 256]));
    script.across([*dice.pick(&[0, 510, 512]), *dice.pick(&[1, 511, 512])]);
    script.bytes(dice)
}

/// Streams of 65,535 and 65,536 bytes, of 1,024 and 1,025 lines, empty ones, and several refusals of the whole at once.
fn stream_bounds(dice: &mut Dice) -> Vec<u8> {
    let around = |dice: &mut Dice, n: usize| n - 1 + dice.below(3);
    match dice.below(8) {
        0 => Vec::new(),
        1 => vec![b'\n'; around(dice, 1_024)],
        2 => vec![b'\n'; *dice.pick(&[1_025, 2_000, 65_535, 65_536, 65_537, 70_000])],
        3 => {
            // Few lines, the full length.
            let length = around(dice, 65_535);
            (0..length).map(|k| if k % 200 == 199 { b'\n' } else { b'0' }).collect()
        }
        4 => vec![b'0'; *dice.pick(&[65_535, 65_536, 100_000, 514, 515])],
        5 => {
            // A long history with exactly so many lines.
            let mut script = Script::default();
            let mut solid = solids::tetrahedron();
            solid.set_down(dice);
            script.load(0, &solid, dice);
            let lines = around(dice, 1_024);
            let mut believed = Believed::new(&solid);
            while script.lines.len() < lines {
                believed.frame(dice, &mut script);
            }
            script.bytes(dice)
        }
        6 => {
            // Moves up to 65,535 bytes or a little more, in at most 1,024 lines.
            let mut script = Script::default();
            script.load(0, &solids::tetrahedron(), dice);
            let mut bytes = script.lines.join(&b'\n');
            bytes.push(b'\n');
            let length = around(dice, 65_535);
            let line = format!("03{}\n", "0000".repeat(100));
            while bytes.len() + line.len() < length {
                bytes.extend(line.bytes());
            }
            bytes.resize(length, b'0');
            bytes
        }
        _ => {
            let mut bytes = vec![b'\n'; dice.below(1_100)];
            bytes.resize(bytes.len() + dice.below(65_000), b'F');
            bytes
        }
    }
}

fn large_buildings(dice: &mut Dice) -> Vec<u8> {
    let mut script = Script::default();
    let mut solid = solids::large(dice);
    match dice.below(4) {
        0 => shape_fault(dice, &mut solid),
        1 => pinch(dice, &mut solid),
        2 => ring_fault(dice, &mut solid),
        _ => {}
    }
    disguise(dice, &mut solid);
    script.load(tolerance(dice), &solid, dice);
    let frames = dice.below(6);
    history(dice, &mut script, &solid, frames);
    if dice.once_in(3) {
        script.questions(dice, solid.rings.len());
    }
    script.bytes(dice)
}

/// Points at the corners of what is allowed, and rings that run round them again and again.
fn largest_numbers(dice: &mut Dice) -> Vec<u8> {
    let mut script = Script::default();
    let far: i64 = 100_000;
    let mut solid = Solid::default();
    for k in 0..344 {
        let sign = |bit: i64| if k >> bit & 1 == 0 { far } else { -far };
        let inward = k / 8;
        let point = [sign(0), sign(1), sign(2)];
        solid.points.push([point[0] - inward * point[0].signum(), point[1], point[2]]);
    }
    let corner = |x: i64, y: i64, z: i64| ((x < 0) as usize) | ((y < 0) as usize) << 1 | ((z < 0) as usize) << 2;
    // The three corners next to -1,-1,-1 span the largest determinants with 1,1,1.
    let around = [corner(1, -1, -1), corner(-1, 1, -1), corner(-1, -1, 1)];
    match dice.below(4) {
        0 => {
            // The largest six-volume: every ring runs round the three corners as often as it can.
            let ring: Vec<usize> = (0..128).map(|k| if k == 0 { 0 } else { around[k % 3] }).collect();
            solid.rings = vec![ring; 8];
        }
        1 => {
            // The largest normals without a repeated number: the same, each time a little further in.
            let mut ring: Vec<usize> = (0..*dice.pick(&[126, 39, 20, 7])).map(|k| around[k % 3] + 8 * (k / 3)).collect();
            ring.push(*dice.pick(&[corner(1, 1, 1), corner(-1, -1, -1)]));
            solid.rings = vec![closed(&ring); 1 + dice.below(4)];
        }
        2 => {
            let mut all: Vec<usize> = (0..solid.points.len()).collect();
            dice.shuffle(&mut all);
            solid.rings.push(closed(&all[..127]));
            solid.rings.push(closed(&all[60..70]));
            solid.rings.push(closed(&all[..4]));
        }
        _ => {
            let mut around_cube = solids::cuboid(2, 2, 2);
            around_cube.each_point(|p| [(p[0] - 1) * far, (p[1] - 1) * far, (p[2] - 1) * far]);
            solid = around_cube;
        }
    }
    if dice.once_in(2) {
        solid.turn_all();
    }
    script.load(*dice.pick(&[0, 1_000]), &solid, dice);
    script.questions(dice, solid.rings.len());
    let frames = dice.below(4);
    history(dice, &mut script, &solid, frames);
    script.bytes(dice)
}
