//! What must be reached of the marks of 0B and 0C: polygons and points whose marks are at the ends of words of 64, what a program would
//! tell that takes one mark for another, and what a sweep over the edges leaves unmarked. By the oracle's account.

use crate::reached::{COUNTS, NUMBERS};
use oracle::shape::{self, Edge, Use};
use oracle::tables::Tables;
use std::collections::{BTreeMap, BTreeSet};

type Edges = BTreeMap<Edge, Vec<Use>>;

/// Buildings of fewer polygons have all their marks in one word, and many of them are asked for: they are passed over.
const LEAST: usize = 60;

/// A sweep goes over the edges in their order, up and down in turn, and marks what is across an edge from a mark.
const OTHERS: &[&str] = &[
    "0B, with marks taken for those 64 further another would be named, or none",
    "0B, a polygon of a later word has a lower place in it",
    "0B, after two sweeps another would be named",
    "0B passes, ten sweeps are not enough",
    "0C names a point below 64",
    "0C names a point from 64 to 255",
    "0C names a point from 256 on",
    "0C, a point of a later word has a lower place in it",
    "0C, corners of two fans 512 entries apart",
    "0C passes, one sweep is not enough",
];

pub fn names() -> Vec<String> {
    let mut names: Vec<String> = NUMBERS.iter().map(|number| format!("0B names polygon {number}")).collect();
    for count in COUNTS {
        names.push(format!("0B of {count} polygons"));
        names.push(format!("0B passes, {count} polygons"));
    }
    names.extend(OTHERS.iter().map(|name| name.to_string()));
    names
}

/// What a report shows of 0B and 0C, if it comes so far.
pub fn of_report(tables: &Tables, check: u8, a: usize) -> Vec<String> {
    if tables.polygons.len() < LEAST || (1..0x0B).contains(&check) {
        return vec![];
    }
    let edges = shape::edges(tables);
    match check {
        0x0B => of_0b(&edges, tables.polygons.len(), a),
        0x0C => [of_0b_passed(&edges, tables.polygons.len()), of_0c(&edges, tables, a)].concat(),
        _ => [of_0b_passed(&edges, tables.polygons.len()), of_0c_passed(&edges)].concat(),
    }
}

fn held(found: Vec<(bool, &str)>) -> Vec<String> {
    found.into_iter().filter(|(holds, _)| *holds).map(|(_, name)| name.to_string()).collect()
}

/// The polygons marked by so many sweeps, polygon 0 being marked at the start.
fn swept(edges: &Edges, sweeps: usize) -> BTreeSet<usize> {
    let mut marked = BTreeSet::from([0]);
    for sweep in 0..sweeps {
        let mut step = |uses: &Vec<Use>| {
            if uses.iter().any(|each| marked.contains(&each.polygon)) {
                marked.extend(uses.iter().map(|each| each.polygon));
            }
        };
        if sweep % 2 == 0 {
            edges.values().for_each(&mut step);
        } else {
            edges.values().rev().for_each(&mut step);
        }
    }
    marked
}

/// Whether an element of a later word has a lower place in it than the lowest one.
fn lower_place(elements: &[usize]) -> bool {
    elements.iter().any(|element| element / 64 > elements[0] / 64 && element % 64 < elements[0] % 64)
}

fn of_0b(edges: &Edges, polygons: usize, named: usize) -> Vec<String> {
    let reached = shape::reachable(edges, 0);
    let missing: Vec<usize> = (0..polygons).filter(|polygon| !reached.contains(polygon)).collect();
    let places: BTreeSet<usize> = reached.iter().map(|polygon| polygon % 64).collect();
    let after_two = swept(edges, 2);
    let mut names = held(vec![
        (places.contains(&(named % 64)), "0B, with marks taken for those 64 further another would be named, or none"),
        (lower_place(&missing), "0B, a polygon of a later word has a lower place in it"),
        ((0..named).any(|polygon| !after_two.contains(&polygon)), "0B, after two sweeps another would be named"),
    ]);
    if NUMBERS.contains(&named) {
        names.push(format!("0B names polygon {named}"));
    }
    if COUNTS.contains(&polygons) {
        names.push(format!("0B of {polygons} polygons"));
    }
    names
}

fn of_0b_passed(edges: &Edges, polygons: usize) -> Vec<String> {
    let mut names = held(vec![(swept(edges, 10).len() < polygons, "0B passes, ten sweeps are not enough")]);
    if COUNTS.contains(&polygons) {
        names.push(format!("0B passes, {polygons} polygons"));
    }
    names
}

/// The edges that end at a point.
fn ending_at(edges: &Edges, point: usize) -> Edges {
    edges.iter().filter(|((a, b), _)| *a == point || *b == point).map(|(edge, uses)| (*edge, uses.clone())).collect()
}

/// Where a point stands in the rings, all entries counted on, by the fans that its polygons fall into.
fn fans(edges: &Edges, tables: &Tables, point: usize) -> Vec<Vec<usize>> {
    let mut corners: BTreeMap<usize, usize> = BTreeMap::new();
    let mut before = 0;
    for (polygon, ring) in tables.polygons.iter().enumerate() {
        corners.extend(ring.iter().position(|&entry| entry == point).map(|at| (polygon, before + at)));
        before += ring.len();
    }
    let (here, mut fans) = (ending_at(edges, point), vec![]);
    while let Some((&polygon, _)) = corners.first_key_value() {
        fans.push(shape::reachable(&here, polygon).iter().filter_map(|each| corners.remove(each)).collect());
    }
    fans
}

fn of_0c(edges: &Edges, tables: &Tables, named: usize) -> Vec<String> {
    let pinched: Vec<usize> = (named..tables.points.len()).filter(|&point| !shape::linked_at(edges, tables, point)).collect();
    let fans = fans(edges, tables, named);
    let apart = |by: usize| {
        let other = |fan: &Vec<usize>, corner: usize| fans.iter().any(|other| other != fan && other.contains(&(corner + by)));
        fans.iter().any(|fan| fan.iter().any(|&corner| other(fan, corner)))
    };
    held(vec![
        (named < 64, "0C names a point below 64"),
        ((64..256).contains(&named), "0C names a point from 64 to 255"),
        (named >= 256, "0C names a point from 256 on"),
        (lower_place(&pinched), "0C, a point of a later word has a lower place in it"),
        (apart(512), "0C, corners of two fans 512 entries apart"),
        (fans.len() > 2, "0C, three fans"),
        (fans.concat().iter().all(|&corner| corner >= 512), "0C, all corners from entry 512 on"),
    ])
}

/// Whether one sweep up, which marks both corners at the first edge that it meets at a point, marks all corners there.
fn swept_round(edges: &Edges) -> bool {
    let (mut marked, mut met): (BTreeSet<(usize, usize)>, BTreeSet<usize>) = Default::default();
    for ((a, b), uses) in edges {
        for point in [*a, *b] {
            let first = met.insert(point);
            if first || uses.iter().any(|each| marked.contains(&(point, each.polygon))) {
                marked.extend(uses.iter().map(|each| (point, each.polygon)));
            }
        }
    }
    edges.iter().all(|((a, b), uses)| uses.iter().all(|each| [*a, *b].iter().all(|&point| marked.contains(&(point, each.polygon)))))
}

fn of_0c_passed(edges: &Edges) -> Vec<String> {
    held(vec![(!swept_round(edges), "0C passes, one sweep is not enough")])
}
