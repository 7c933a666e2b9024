//! The geometry and the reachability of the oracle once more, by other means, on seeded random input.

use crate::held::{corrected, Correction};
use crate::ring::{failing_entry, meeting_edge, repeated_entry};
use crate::ring::{fails_03, fails_05, fails_06, finding, largest_size, normal, part, share_a_point, share_more_than_end, Flat};
use crate::shape::{edges, fails_0b, fails_0c};
use crate::tables::{Place, Tables, ORIGIN};
use std::collections::{BTreeMap, BTreeSet, HashSet};

/// Small numbers from a linear congruence.
pub struct Dice(pub u64);

impl Dice {
    pub fn below(&mut self, bound: u64) -> u64 {
        self.0 = self.0.wrapping_mul(6364136223846793005).wrapping_add(1442695040888963407);
        (self.0 >> 33) % bound
    }

    fn within(&mut self, size: i128) -> i128 {
        self.below(2 * size as u64 + 1) as i128 - size
    }

    fn flat(&mut self, size: i128) -> Flat {
        (self.within(size), self.within(size))
    }

    fn place(&mut self, size: i128) -> Place {
        Place { x: self.within(size), y: self.within(size), z: self.within(size) }
    }
}

/// A fraction with a divisor above 0.
#[derive(Clone, Copy, Debug)]
struct Fraction(i128, i128);

impl Fraction {
    fn new(above: i128, below: i128) -> Fraction {
        assert_ne!(below, 0);
        Fraction(above * below.signum(), below.abs())
    }

    fn at_most(self, other: Fraction) -> bool {
        self.0 * other.1 <= other.0 * self.1
    }

    fn less(self, other: Fraction) -> bool {
        !other.at_most(self)
    }
}

const ZERO: Fraction = Fraction(0, 1);
const ONE: Fraction = Fraction(1, 1);

fn minus(a: Flat, b: Flat) -> Flat {
    (a.0 - b.0, a.1 - b.1)
}

fn cross(a: Flat, b: Flat) -> i128 {
    a.0 * b.1 - a.1 * b.0
}

fn dot(a: Flat, b: Flat) -> i128 {
    a.0 * b.0 + a.1 * b.1
}

/// What two closed segments have in common.
#[derive(Debug, PartialEq, Eq)]
enum Common {
    Nothing,
    OnePlace,
    More,
}

/// Two segments a + t(b - a) and c + u(d - c), t and u from 0 to 1, solved in fractions.
fn common(a: Flat, b: Flat, c: Flat, d: Flat) -> Common {
    let (along, other, gap) = (minus(b, a), minus(d, c), minus(c, a));
    let divisor = cross(along, other);
    if divisor != 0 {
        let t = Fraction::new(cross(gap, other), divisor);
        let u = Fraction::new(cross(gap, along), divisor);
        let inside = |f: Fraction| ZERO.at_most(f) && f.at_most(ONE);
        return if inside(t) && inside(u) { Common::OnePlace } else { Common::Nothing };
    }
    if along == (0, 0) {
        // A single place: it is on the other segment, or not.
        let there = if other == (0, 0) {
            a == c
        } else {
            let u = Fraction::new(-dot(gap, other), dot(other, other));
            cross(gap, other) == 0 && ZERO.at_most(u) && u.at_most(ONE)
        };
        return if there { Common::OnePlace } else { Common::Nothing };
    }
    if cross(gap, along) != 0 {
        return Common::Nothing;
    }
    // On one line: the interval of t that the second segment covers, cut to 0..1.
    let length = dot(along, along);
    let (t1, t2) = (Fraction::new(dot(gap, along), length), Fraction::new(dot(minus(d, a), along), length));
    let (low, high) = if t1.at_most(t2) { (t1, t2) } else { (t2, t1) };
    let low = if low.less(ZERO) { ZERO } else { low };
    let high = if ONE.less(high) { ONE } else { high };
    if high.less(low) {
        Common::Nothing
    } else if low.less(high) {
        Common::More
    } else {
        Common::OnePlace
    }
}

#[test]
fn segments_by_fractions() {
    let mut dice = Dice(1);
    let mut met = 0;
    for round in 0..400_000 {
        let size = [1, 2, 3, 5, 200_000][round % 5];
        let [a, b, c, d] = [dice.flat(size), dice.flat(size), dice.flat(size), dice.flat(size)];
        let by_fractions = common(a, b, c, d);
        assert_eq!(share_a_point(a, b, c, d), by_fractions != Common::Nothing, "{a:?} {b:?} {c:?} {d:?}");
        assert_eq!(share_more_than_end(a, b, d), common(a, b, b, d) == Common::More, "{a:?} {b:?} {d:?}");
        met += usize::from(by_fractions != Common::Nothing);
    }
    assert!(met > 10_000);
}

#[test]
fn segments_on_a_small_grid() {
    // With all ends on a grid of 3 by 3 two lines cross at fractions whose divisor is at most 8, and 840 is a multiple of 1 to 8: the
    // segments meet exactly if they share one of the places k/840 of the way along.
    let places: Vec<Flat> = (0..9).map(|k| (k % 3, k / 3)).collect();
    let ends: Vec<(Flat, Flat)> = places.iter().flat_map(|&a| places.iter().map(move |&b| (a, b))).collect();
    let along = |(a, b): (Flat, Flat)| -> HashSet<Flat> {
        (0..=840).map(|k| (840 * a.0 + k * (b.0 - a.0), 840 * a.1 + k * (b.1 - a.1))).collect()
    };
    let segments: Vec<HashSet<Flat>> = ends.iter().map(|&two| along(two)).collect();
    for (i, &(a, b)) in ends.iter().enumerate() {
        for (j, &(c, d)) in ends.iter().enumerate() {
            assert_eq!(share_a_point(a, b, c, d), !segments[i].is_disjoint(&segments[j]), "{a:?} {b:?} {c:?} {d:?}");
        }
    }
}

/// The corners in the plane that check 05 looks at, its axis told in another way.
fn flat_again(places: &[Place]) -> Vec<Flat> {
    let n = normal(places);
    let sizes = [n.x.abs(), n.y.abs(), n.z.abs()];
    let axis = (0..3).rev().max_by_key(|&axis| sizes[axis]).unwrap();
    let kept = |p: &Place| -> Vec<i128> { (0..3).filter(|&each| each != axis).map(|each| [p.x, p.y, p.z][each]).collect() };
    places.iter().map(|p| (kept(p)[0], kept(p)[1])).collect()
}

/// Every edge that has a forbidden meeting, by fractions; with or without the clause on neighbours.
fn meeting_edges_again(places: &[Place], neighbours: bool) -> BTreeSet<usize> {
    let flat = flat_again(places);
    let count = flat.len() - 1;
    let mut meeting = BTreeSet::new();
    for i in 0..count {
        for j in (0..count).filter(|&j| j != i) {
            let shared = common(flat[i], flat[i + 1], flat[j], flat[j + 1]);
            let apart = (i + count - j) % count;
            let next = apart == 1 || apart == count - 1;
            if (next && neighbours && shared == Common::More) || (!next && shared != Common::Nothing) {
                meeting.extend([i, j]);
            }
        }
    }
    meeting
}

/// A closed ring of distinct points with a normal that is not zero, as check 05 is given them.
fn ring_for_05(dice: &mut Dice, size: i128, corners: usize) -> Option<Vec<Place>> {
    let mut places: Vec<Place> = Vec::new();
    for _ in 0..corners {
        let place = dice.place(size);
        if places.contains(&place) {
            return None;
        }
        places.push(place);
    }
    places.push(places[0]);
    (normal(&places) != ORIGIN).then_some(places)
}

#[test]
fn check_05_again() {
    let mut dice = Dice(2);
    let mut seen = [0, 0];
    for round in 0..300_000 {
        let size = [1, 1, 2, 4, 50, 100_000][round % 6];
        let corners = 3 + dice.below(6) as usize;
        let Some(places) = ring_for_05(&mut dice, size, corners) else { continue };
        let fails = fails_05(&places);
        // Without the clause on neighbours, which is implied for every ring that comes so far.
        assert_eq!(fails, !meeting_edges_again(&places, false).is_empty(), "{places:?}");
        assert!(corners > 3 || !fails);
        seen[usize::from(fails)] += 1;
    }
    assert!(seen[0] > 10_000 && seen[1] > 10_000, "{seen:?}");
}

#[test]
fn the_edge_of_05_again() {
    let mut dice = Dice(9);
    let (mut later, mut by_neighbours) = (0, 0);
    for round in 0..200_000 {
        let size = [1, 1, 2, 4, 50, 100_000][round % 6];
        let corners = 4 + dice.below(6) as usize;
        let Some(mut places) = ring_for_05(&mut dice, size, corners) else { continue };
        let meeting = meeting_edges_again(&places, true);
        let least = meeting.first().copied();
        assert_eq!(meeting_edge(&places), least, "{places:?}");
        // Turned, edge i is the one with as many behind it as it had before it.
        places.reverse();
        assert_eq!(meeting_edge(&places), meeting.last().map(|edge| corners - 1 - edge), "{places:?}");
        places.reverse();
        // The clause on neighbours tells at edge 0 or not at all.
        let by_others = meeting_edges_again(&places, false).first().copied();
        assert!(least == by_others || least == Some(0), "{places:?}");
        later += usize::from(least.is_some_and(|edge| edge > 0));
        by_neighbours += usize::from(least != by_others);
    }
    assert!(later > 10_000 && by_neighbours > 500, "{later} {by_neighbours}");
}

/// The entries that fail 06, by Pythagoras: the square of the way from the first point to p, less the square of its shadow on the plane,
/// is the square of the distance to the plane; the shadow is as long as N × (p - first) divided by N's length. All of it times N's
/// length squared.
fn failing_entries_again(places: &[Place], tolerance: i128) -> Vec<usize> {
    let n = normal(places);
    let fails = |place: &Place| {
        let way = place.minus(places[0]);
        let across = n.cross(way);
        way.dot(way) * n.dot(n) - across.dot(across) > tolerance * tolerance * n.dot(n)
    };
    (0..places.len()).filter(|&entry| fails(&places[entry])).collect()
}

/// Check 06 before request (ii): the distance along the axis where N is largest.
fn failed_06_along_an_axis(places: &[Place], tolerance: i128) -> bool {
    let n = normal(places);
    places.iter().any(|place| n.dot(place.minus(places[0])).abs() > tolerance * largest_size(n))
}

#[test]
fn check_06_again() {
    let mut dice = Dice(8);
    let (mut seen, mut forgiven, mut later) = ([0, 0], 0, 0);
    for round in 0..200_000 {
        let size = [2, 4, 50, 2_000, 100_000][round % 5];
        let corners = 4 + dice.below(4) as usize;
        let Some(mut places) = ring_for_05(&mut dice, size, corners) else { continue };
        // A tolerance of about the ring's size, where both answers come.
        let tolerance = dice.below(size as u64).min(1_000) as i128;
        let fails = fails_06(&places, tolerance);
        let failing = failing_entries_again(&places, tolerance);
        assert_eq!(fails, !failing.is_empty(), "{places:?} at {tolerance}");
        assert_eq!(failing_entry(&places, tolerance), failing.first().copied(), "{places:?} at {tolerance}");
        later += usize::from(failing.first().is_some_and(|&entry| entry > 1));
        let failed = failed_06_along_an_axis(&places, tolerance);
        assert!(failed || !fails, "the true distance is never the longer one: {places:?} at {tolerance}");
        seen[usize::from(fails)] += 1;
        forgiven += usize::from(failed && !fails);
        // Turned, entry i is the one with as many behind it as it had before it.
        places.reverse();
        assert_eq!(failing_entry(&places, tolerance), failing.last().map(|entry| corners - entry), "{places:?} at {tolerance}");
    }
    assert!(seen[0] > 10_000 && seen[1] > 10_000 && forgiven > 5_000 && later > 5_000, "{seen:?} {forgiven} {later}");
}

#[test]
fn the_entry_of_03_again() {
    let mut dice = Dice(10);
    let mut seen = [0, 0];
    for _ in 0..100_000 {
        let mut ring: Vec<usize> = (0..3 + dice.below(9)).map(|_| dice.below(12) as usize).collect();
        ring.push(ring[0]);
        // Numbers with their entries in order: of each number that stands again, its second entry.
        let second = |entries: &[usize]| -> Option<usize> {
            let mut stands: BTreeMap<usize, Vec<usize>> = BTreeMap::new();
            entries.iter().enumerate().for_each(|(entry, &number)| stands.entry(number).or_default().push(entry));
            stands.values().filter_map(|entries| entries.get(1).copied()).min()
        };
        let last = ring.len() - 1;
        let found = repeated_entry(&ring);
        assert_eq!(found, second(&ring[..last]), "{ring:?}");
        assert_eq!(found.is_some(), fails_03(&ring), "{ring:?}");
        seen[usize::from(found.is_some())] += 1;
        // Turned, the entry is the last whose number stands again behind it, entry 0 being the closing one then.
        let again = (1..last).rev().find(|&entry| ring[entry + 1..].contains(&ring[entry]));
        ring.reverse();
        assert_eq!(repeated_entry(&ring), again.map(|entry| last - entry), "{ring:?}");
    }
    assert!(seen[0] > 10_000 && seen[1] > 10_000, "{seen:?}");
}

#[test]
fn a_turn_keeps_the_finding_and_negates_a_closed_part() {
    let mut dice = Dice(3);
    for round in 0..60_000 {
        let points: Vec<Place> = (0..8).map(|_| dice.place([2, 5, 100_000][round % 3])).collect();
        let mut ring: Vec<usize> = (0..dice.below(8)).map(|_| dice.below(8) as usize).collect();
        if dice.below(4) > 0 && !ring.is_empty() {
            ring.push(ring[0]);
        }
        let turned: Vec<usize> = ring.iter().rev().copied().collect();
        let closed = ring.first() == ring.last();
        let tables = Tables { tolerance: dice.below(4) as i128, points, polygons: vec![ring, turned] };
        assert_eq!(finding(&tables, 0), finding(&tables, 1));
        if closed {
            assert_eq!(part(&tables.places(0)), -part(&tables.places(1)));
        }
    }
}

#[test]
fn the_normal_and_the_part_again() {
    let mut dice = Dice(4);
    for round in 0..20_000 {
        let mut places: Vec<Place> = (0..1 + dice.below(9)).map(|_| dice.place([3, 100_000][round % 2])).collect();
        // The part is the first point's dot product with the sum of the cross products of the points as they are.
        let sum = places.windows(2).fold(ORIGIN, |sum, two| sum.plus(two[0].cross(two[1])));
        assert_eq!(part(&places), places[0].dot(sum));
        // For a closed ring the normal is that of Newell's formula, whatever is taken as first.
        places.push(places[0]);
        let newell = places.windows(2).fold(ORIGIN, |sum, two| {
            let (p, q) = (two[0], two[1]);
            sum.plus(Place { x: (p.y - q.y) * (p.z + q.z), y: (p.z - q.z) * (p.x + q.x), z: (p.x - q.x) * (p.y + q.y) })
        });
        assert_eq!(normal(&places), newell);
    }
}

/// Sets that are joined two and two.
struct Union(Vec<usize>);

impl Union {
    fn root(&self, mut of: usize) -> usize {
        while self.0[of] != of {
            of = self.0[of];
        }
        of
    }

    fn join(&mut self, a: usize, b: usize) {
        let (a, b) = (self.root(a), self.root(b));
        self.0[a] = b;
    }
}

/// The polygons joined across the edges that end at `point`, or across all edges; edges compared two and two.
fn joined(tables: &Tables, point: Option<usize>) -> Union {
    let mut union = Union((0..tables.polygons.len()).collect());
    let sides: Vec<(usize, [usize; 2])> = tables
        .polygons
        .iter()
        .enumerate()
        .flat_map(|(polygon, ring)| ring.windows(2).map(move |two| (polygon, [two[0], two[1]])))
        .filter(|(_, ends)| point.is_none_or(|point| ends.contains(&point)))
        .collect();
    for &(one, [a, b]) in &sides {
        for &(other, ends) in &sides {
            if ends == [a, b] || ends == [b, a] {
                union.join(one, other);
            }
        }
    }
    union
}

/// Asserts that 0B and 0C name what the joined sets tell; gives whether each fails.
fn assert_joined(tables: &Tables) -> [bool; 2] {
    let union = joined(tables, None);
    let apart = (0..tables.polygons.len()).find(|&polygon| union.root(polygon) != union.root(0));
    assert_eq!(fails_0b(tables).map(|failure| failure.1), apart);
    let pinched = (0..tables.points.len()).find(|&point| {
        let union = joined(tables, Some(point));
        let there = (0..tables.polygons.len()).filter(|&polygon| tables.polygons[polygon].contains(&point));
        let roots: Vec<usize> = there.map(|polygon| union.root(polygon)).collect();
        roots.iter().any(|&root| root != roots[0])
    });
    assert_eq!(fails_0c(tables).map(|failure| failure.1), pinched);
    [apart.is_some(), pinched.is_some()]
}

#[test]
fn reachability_by_joined_sets() {
    let mut dice = Dice(5);
    let mut seen = [0; 4];
    for _ in 0..20_000 {
        let points = 4 + dice.below(8);
        let polygons: Vec<Vec<usize>> = (0..1 + dice.below(9))
            .map(|_| {
                let mut ring: Vec<usize> = (0..3 + dice.below(2)).map(|_| dice.below(points) as usize).collect();
                ring.push(ring[0]);
                ring
            })
            .collect();
        let [apart, pinched] = assert_joined(&Tables { tolerance: 0, points: vec![ORIGIN; points as usize], polygons });
        seen[usize::from(apart) * 2 + usize::from(pinched)] += 1;
    }
    assert!(seen.iter().all(|&count| count > 100), "{seen:?}");
}

/// The boundary of a row of tetrahedra over points in a row, each four in turn: 2 * points - 4 triangles.
fn row_of_triangles(first: usize, points: usize) -> Vec<Vec<usize>> {
    let mut rings = vec![vec![0, 2, 1, 0], vec![points - 3, points - 2, points - 1, points - 3]];
    rings.extend((0..points - 3).flat_map(|k| [vec![k, k + 1, k + 3, k], vec![k + 2, k, k + 3, k + 2]]));
    rings.iter_mut().flatten().for_each(|entry| *entry += first);
    rings
}

/// A list in another order, by chance.
fn shuffled<T>(dice: &mut Dice, mut list: Vec<T>) -> Vec<T> {
    (1..list.len()).rev().for_each(|k| list.swap(k, dice.below(k as u64 + 1) as usize));
    list
}

#[test]
fn reachability_of_many_polygons_by_joined_sets() {
    let mut dice = Dice(11);
    let mut seen = [0; 4];
    for _ in 0..120 {
        // One to three closed rows, now and then two points of them made one, all numbered by chance.
        let (mut points, mut polygons) = (0, vec![]);
        for _ in 0..1 + dice.below(3) {
            let more = 4 + dice.below(39) as usize;
            polygons.extend(row_of_triangles(points, more));
            points += more;
        }
        let mut numbers = shuffled(&mut dice, (0..points).collect());
        for _ in 0..dice.below(3) {
            let (kept, gone) = (dice.below(points as u64) as usize, dice.below(points as u64) as usize);
            numbers[gone] = numbers[kept];
        }
        polygons.iter_mut().flatten().for_each(|entry: &mut usize| *entry = numbers[*entry]);
        let polygons = shuffled(&mut dice, polygons);
        let [apart, pinched] = assert_joined(&Tables { tolerance: 0, points: vec![ORIGIN; points], polygons });
        seen[usize::from(apart) * 2 + usize::from(pinched)] += 1;
    }
    assert!(seen.iter().all(|&count| count > 5), "{seen:?}");
}

#[test]
fn edges_are_counted_once_a_use() {
    let mut dice = Dice(6);
    for _ in 0..2_000 {
        let polygons: Vec<Vec<usize>> =
            (0..dice.below(9)).map(|_| (0..dice.below(7)).map(|_| dice.below(6) as usize).collect()).collect();
        let tables = Tables { tolerance: 0, points: vec![ORIGIN; 6], polygons };
        let all = edges(&tables);
        for a in 0..6 {
            for b in a..6 {
                let count = |p: usize, q: usize| -> usize {
                    tables.polygons.iter().map(|ring| ring.windows(2).filter(|two| *two == [p, q]).count()).sum()
                };
                let uses = all.get(&(a, b)).map_or(0, Vec::len);
                let upward = all.get(&(a, b)).map_or(0, |uses| uses.iter().filter(|each| each.upward).count());
                assert_eq!(uses, if a == b { count(a, a) } else { count(a, b) + count(b, a) });
                assert_eq!(upward, if a == b { 0 } else { count(a, b) });
            }
        }
    }
}

#[test]
fn the_corrected_tables_step_by_step() {
    let mut dice = Dice(7);
    for _ in 0..2_000 {
        let loaded = Tables {
            tolerance: 3,
            points: (0..5).map(|_| dice.place(9)).collect(),
            polygons: (0..4).map(|_| (0..dice.below(6)).map(|_| dice.below(5) as usize).collect()).collect(),
        };
        let (mut stepwise, mut history) = (loaded.clone(), Vec::new());
        for number in 1..20 {
            if dice.below(2) == 0 {
                let (point, place) = (dice.below(5) as usize, dice.place(9));
                stepwise.points[point] = place;
                history.push(Correction::Move { number, point, place });
            } else {
                let polygon = dice.below(4) as usize;
                stepwise.polygons[polygon].reverse();
                history.push(Correction::Turn { number, polygon });
            }
            assert_eq!(corrected(&loaded, &history), stepwise);
        }
    }
}
