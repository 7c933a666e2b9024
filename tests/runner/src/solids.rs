//! Valid solids, and how they are set down somewhere else, renumbered and joined.

use crate::prng::Dice;
use std::collections::{BTreeMap, BTreeSet};

pub type P = [i64; 3];

/// Points and closed rings, outward.
#[derive(Clone, Debug, Default)]
pub struct Solid {
    pub points: Vec<P>,
    pub rings: Vec<Vec<usize>>,
}

/// A ring with its closing entry.
pub fn closed(corners: &[usize]) -> Vec<usize> {
    let mut ring = corners.to_vec();
    ring.extend(corners.first());
    ring
}

pub fn tetrahedron() -> Solid {
    Solid {
        points: vec![[0, 0, 0], [1, 0, 0], [0, 1, 0], [0, 0, 1]],
        rings: vec![vec![0, 2, 1, 0], vec![0, 1, 3, 0], vec![0, 3, 2, 0], vec![1, 2, 3, 1]],
    }
}

/// A prism over a simple outline that runs counter-clockwise.
pub fn prism(outline: &[(i64, i64)], height: i64) -> Solid {
    let n = outline.len();
    let low = outline.iter().map(|&(x, y)| [x, y, 0]);
    let high = outline.iter().map(|&(x, y)| [x, y, height]);
    let mut rings = vec![closed(&(0..n).rev().collect::<Vec<_>>()), closed(&(n..2 * n).collect::<Vec<_>>())];
    for i in 0..n {
        let j = (i + 1) % n;
        rings.push(closed(&[i, j, n + j, n + i]));
    }
    Solid { points: low.chain(high).collect(), rings }
}

/// A pyramid over a simple outline that runs counter-clockwise.
pub fn pyramid(outline: &[(i64, i64)], apex: P) -> Solid {
    let n = outline.len();
    let mut points: Vec<P> = outline.iter().map(|&(x, y)| [x, y, 0]).collect();
    points.push(apex);
    let mut rings = vec![closed(&(0..n).rev().collect::<Vec<_>>())];
    rings.extend((0..n).map(|i| closed(&[i, (i + 1) % n, n])));
    Solid { points, rings }
}

/// A square tower of many storeys: from its floor to its top is as many steps across edges as it has storeys.
pub fn tower(storeys: usize) -> Solid {
    let mut points = Vec::new();
    for z in 0..=storeys as i64 {
        points.extend([[0, 0, z], [1, 0, z], [1, 1, z], [0, 1, z]]);
    }
    let top = 4 * storeys;
    let mut rings = vec![closed(&[3, 2, 1, 0]), closed(&[top, top + 1, top + 2, top + 3])];
    for storey in 0..storeys {
        for side in 0..4 {
            let (i, j) = (4 * storey + side, 4 * storey + (side + 1) % 4);
            rings.push(closed(&[i, j, j + 4, i + 4]));
        }
    }
    Solid { points, rings }
}

pub fn cuboid(x: i64, y: i64, z: i64) -> Solid {
    prism(&[(0, 0), (x, 0), (x, y), (0, y)], z)
}

pub fn l_prism() -> Solid {
    prism(&[(0, 0), (4, 0), (4, 2), (2, 2), (2, 5), (0, 5)], 3)
}

/// A house with a gabled roof: floor, two walls, two gables, two roofs.
pub fn house() -> Solid {
    Solid {
        points: vec![
            [0, 0, 0],
            [8, 0, 0],
            [8, 10, 0],
            [0, 10, 0],
            [0, 0, 5],
            [8, 0, 5],
            [8, 10, 5],
            [0, 10, 5],
            [4, 0, 9],
            [4, 10, 9],
        ],
        rings: vec![
            closed(&[0, 3, 2, 1]),
            closed(&[1, 2, 6, 5]),
            closed(&[3, 0, 4, 7]),
            closed(&[0, 1, 5, 8, 4]),
            closed(&[2, 3, 7, 9, 6]),
            closed(&[5, 6, 9, 8]),
            closed(&[7, 4, 8, 9]),
        ],
    }
}

/// An outline of n corners, counter-clockwise, simple since each of its two chains goes one way in x.
pub fn outline(dice: &mut Dice, n: usize) -> Vec<(i64, i64)> {
    let lower = n / 2;
    let upper = n - lower;
    let mut corners: Vec<(i64, i64)> = (0..lower).map(|i| (2 * i as i64, -dice.between(1, 6))).collect();
    corners.extend((0..upper).rev().map(|i| (2 * i as i64 - 1, dice.between(1, 6))));
    corners
}

/// An octahedron whose triangles are cut in four `times` times, its points pulled outward a little.
pub fn ball(dice: &mut Dice, times: usize) -> Solid {
    let mut points: Vec<P> = vec![[64, 0, 0], [-64, 0, 0], [0, 64, 0], [0, -64, 0], [0, 0, 64], [0, 0, -64]];
    let mut triangles: Vec<[usize; 3]> =
        vec![[0, 2, 4], [2, 1, 4], [1, 3, 4], [3, 0, 4], [2, 0, 5], [1, 2, 5], [3, 1, 5], [0, 3, 5]];
    for _ in 0..times {
        let mut halves: BTreeMap<(usize, usize), usize> = BTreeMap::new();
        let mut cut = Vec::new();
        for [a, b, c] in triangles {
            let mut half = |p: usize, q: usize| {
                *halves.entry((p.min(q), p.max(q))).or_insert_with(|| {
                    let (u, v) = (points[p], points[q]);
                    points.push([(u[0] + v[0]) / 2, (u[1] + v[1]) / 2, (u[2] + v[2]) / 2]);
                    points.len() - 1
                })
            };
            let (ab, bc, ca) = (half(a, b), half(b, c), half(c, a));
            cut.extend([[a, ab, ca], [ab, b, bc], [ca, bc, c], [ab, bc, ca]]);
        }
        triangles = cut;
    }
    for point in &mut points {
        let pull = dice.between(8, 10);
        *point = [point[0] * pull, point[1] * pull, point[2] * pull];
    }
    Solid { points, rings: triangles.iter().map(|corners| closed(corners)).collect() }
}

/// The boundary of a set of unit cells: a square for each side between a cell in the set and one that is not.
pub fn cells(set: &BTreeSet<P>) -> Solid {
    let mut numbers: BTreeMap<P, usize> = BTreeMap::new();
    let mut solid = Solid::default();
    for &cell in set {
        for axis in 0..3 {
            for up in [false, true] {
                let mut beside = cell;
                beside[axis] += if up { 1 } else { -1 };
                if set.contains(&beside) {
                    continue;
                }
                let (u, v) = ((axis + 1) % 3, (axis + 2) % 3);
                let mut corners: Vec<usize> = [(0, 0), (1, 0), (1, 1), (0, 1)]
                    .iter()
                    .map(|&(du, dv)| {
                        let mut corner = cell;
                        corner[axis] += i64::from(up);
                        corner[u] += du;
                        corner[v] += dv;
                        *numbers.entry(corner).or_insert_with(|| {
                            solid.points.push(corner);
                            solid.points.len() - 1
                        })
                    })
                    .collect();
                if !up {
                    corners.reverse();
                }
                solid.rings.push(closed(&corners));
            }
        }
    }
    solid
}

/// A horseshoe of cells whose ends touch at one point and which hangs together across edges.
pub fn horseshoe() -> Solid {
    let path = [[0, 0, 0], [0, -1, 0], [0, -1, 1], [0, -1, 2], [1, -1, 2], [1, 0, 2], [1, 1, 2], [1, 1, 1]];
    cells(&path.into_iter().collect())
}

/// A ring of eight cells round a hole.
pub fn ring_of_cells() -> Solid {
    cells(&(0..9).filter(|&k| k != 4).map(|k| [k % 3, k / 3, 0]).collect())
}

pub fn random_cells(dice: &mut Dice, side: usize, most: usize) -> Solid {
    let wanted = 1 + dice.below(most);
    let set: BTreeSet<P> =
        (0..wanted).map(|_| [dice.below(side) as i64, dice.below(side) as i64, dice.below(side) as i64]).collect();
    cells(&set)
}

impl Solid {
    pub fn each_point(&mut self, f: impl Fn(P) -> P) {
        self.points.iter_mut().for_each(|point| *point = f(*point));
    }

    pub fn turn_all(&mut self) {
        self.rings.iter_mut().for_each(|ring| ring.reverse());
    }

    /// Axes exchanged and mirrored at random; the rings are turned where that mirrors the solid.
    pub fn tumble(&mut self, dice: &mut Dice) {
        let mut axes = [0, 1, 2];
        dice.shuffle(&mut axes);
        let signs: Vec<i64> = (0..3).map(|_| if dice.once_in(2) { -1 } else { 1 }).collect();
        self.each_point(|p| [signs[0] * p[axes[0]], signs[1] * p[axes[1]], signs[2] * p[axes[2]]]);
        let exchanged = axes != [0, 1, 2] && axes != [1, 2, 0] && axes != [2, 0, 1];
        if exchanged != (signs.iter().product::<i64>() < 0) {
            self.turn_all();
        }
    }

    /// A shear: keeps planes planes and volumes as they are, and slants the normals.
    pub fn shear(&mut self, dice: &mut Dice) {
        let (to, from) = *dice.pick(&[(0, 1), (0, 2), (1, 0), (1, 2), (2, 0), (2, 1)]);
        let by = dice.between(-2, 2);
        self.each_point(|mut p| {
            p[to] += by * p[from];
            p
        });
    }

    /// Scaled and set down somewhere within the bounds, sometimes right at them.
    pub fn set_down(&mut self, dice: &mut Dice) {
        let reach = self.points.iter().flatten().map(|c| c.abs()).max().unwrap_or(0).max(1);
        let most = 100_000 / reach;
        let scale = match dice.below(4) {
            0 => 1,
            1 => dice.between(1, most.min(10)),
            2 => dice.between(1, most.min(1_000)),
            _ => dice.between(1, most),
        };
        self.each_point(|p| [p[0] * scale, p[1] * scale, p[2] * scale]);
        for axis in 0..3 {
            let low = self.points.iter().map(|p| p[axis]).min().unwrap_or(0);
            let high = self.points.iter().map(|p| p[axis]).max().unwrap_or(0);
            let (least, most) = (-100_000 - low, 100_000 - high);
            let by = match dice.below(6) {
                0 => least,
                1 => most,
                2 => dice.between(least, most),
                3 => 0,
                _ => dice.between(least.max(-50), most.min(50)),
            };
            self.points.iter_mut().for_each(|p| p[axis] += by);
        }
    }

    /// Points and polygons numbered another way, rings begun at another entry.
    pub fn renumber(&mut self, dice: &mut Dice) {
        let mut place: Vec<usize> = (0..self.points.len()).collect();
        dice.shuffle(&mut place);
        let mut points = vec![[0; 3]; self.points.len()];
        for (old, &new) in place.iter().enumerate() {
            points[new] = self.points[old];
        }
        self.points = points;
        self.rings.iter_mut().flatten().for_each(|entry| *entry = place[*entry]);
        for ring in &mut self.rings {
            if ring.len() > 1 && ring.first() == ring.last() {
                ring.pop();
                let by = dice.below(ring.len());
                ring.rotate_left(by);
                ring.push(ring[0]);
            }
        }
        dice.shuffle(&mut self.rings);
    }

    /// Both solids; points of `other` that stand where one of this solid stands become that one.
    pub fn join(&mut self, other: &Solid) {
        let numbers: Vec<usize> = other
            .points
            .iter()
            .map(|point| {
                self.points.iter().position(|each| each == point).unwrap_or_else(|| {
                    self.points.push(*point);
                    self.points.len() - 1
                })
            })
            .collect();
        let rings = other.rings.iter().map(|ring| ring.iter().map(|&entry| numbers[entry]).collect());
        self.rings.extend(rings.collect::<Vec<Vec<usize>>>());
    }

    /// A polygon cut in two along a diagonal (planar rings only).
    pub fn cut_polygon(&mut self, dice: &mut Dice) {
        let long: Vec<usize> = (0..self.rings.len()).filter(|&i| self.rings[i].len() == 5).collect();
        if long.is_empty() {
            return;
        }
        let ring = self.rings.swap_remove(*dice.pick(&long));
        let k = dice.below(2);
        self.rings.push(closed(&[ring[k], ring[k + 1], ring[k + 2]]));
        self.rings.push(closed(&[ring[k + 2], ring[k + 3], ring[(k + 4) % 4]]));
    }

    /// Every ring cut into triangles from its first entry.
    pub fn triangulate(&mut self) {
        let cut = |ring: &Vec<usize>| -> Vec<Vec<usize>> {
            (1..ring.len() - 2).map(|i| closed(&[ring[0], ring[i], ring[i + 1]])).collect()
        };
        self.rings = self.rings.iter().flat_map(cut).collect();
    }
}

/// Ten triangles over six points, every edge used twice, that no turning makes agree in direction (the projective plane).
pub fn one_sided(dice: &mut Dice) -> Solid {
    let corners = [[0, 1, 2], [0, 2, 3], [0, 3, 4], [0, 4, 5], [0, 5, 1], [1, 2, 4], [2, 3, 5], [3, 4, 1], [4, 5, 2], [5, 1, 3]];
    let points = (0..6).map(|k| [k, k * k, k * k * k + dice.between(0, 9)]).collect();
    Solid { points, rings: corners.iter().map(|each| closed(each)).collect() }
}

/// Triangles at random over a few points, none of them on one line: edges used once, twice and more.
pub fn triangles(dice: &mut Dice) -> Solid {
    let count = 4 + dice.below(4);
    let points: Vec<P> = (0..count as i64).map(|k| [k, k * k, k * k * k]).collect();
    let mut numbers: Vec<usize> = (0..count).collect();
    let mut rings = Vec::new();
    for _ in 0..4 + dice.below(8) {
        dice.shuffle(&mut numbers);
        rings.push(closed(&numbers[..3]));
    }
    Solid { points, rings }
}

/// A solid squeezed flat, its triangles still triangles: six-volume 0.
pub fn flattened(dice: &mut Dice) -> Solid {
    let mut solid = tetrahedron();
    solid.points = vec![[0, 0, 0], [4, 0, 0], [0, 4, 0], [dice.between(1, 9), dice.between(1, 9), 0]];
    solid
}

/// A small valid solid.
pub fn small(dice: &mut Dice) -> Solid {
    let mut solid = match dice.below(9) {
        0 | 1 => tetrahedron(),
        2 => cuboid(dice.between(1, 5), dice.between(1, 5), dice.between(1, 5)),
        3 => house(),
        4 => l_prism(),
        5 => {
            let n = 3 + dice.below(6);
            prism(&outline(dice, n), 4)
        }
        6 => {
            let n = 3 + dice.below(6);
            let corners = outline(dice, n);
            pyramid(&corners, [dice.between(-3, 9), dice.between(-3, 3), dice.between(1, 9)])
        }
        7 => ball(dice, 0),
        _ => ring_of_cells(),
    };
    if dice.once_in(4) {
        solid.cut_polygon(dice);
    }
    solid
}

/// A solid near the bounds on polygons, entries and the length of a ring.
pub fn large(dice: &mut Dice) -> Solid {
    match dice.below(6) {
        0 => ball(dice, 2),
        1 => {
            let n = 20 + dice.below(70);
            prism(&outline(dice, n), 9)
        }
        2 => {
            let n = *dice.pick(&[30, 100, 126, 127]);
            pyramid(&outline(dice, n), [9, 0, 9])
        }
        3 => random_cells(dice, 4, 40),
        4 => tower(30 + dice.below(21)),
        _ => ball(dice, 1),
    }
}
