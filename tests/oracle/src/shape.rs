//! Checks 07 to 0D, on a building none of whose polygons has a finding.

use crate::report::six_volume;
use crate::tables::Tables;
use std::collections::{BTreeMap, BTreeSet};

/// One use of an edge: the polygon, and whether it goes from the smaller number to the larger.
#[derive(Clone, Copy, Debug, PartialEq, Eq)]
pub struct Use {
    pub polygon: usize,
    pub upward: bool,
}

/// An edge: "the smaller number a and the larger b".
pub type Edge = (usize, usize);

/// Every edge with all its uses, in the order "least a, then least b".
pub fn edges(tables: &Tables) -> BTreeMap<Edge, Vec<Use>> {
    let mut all: BTreeMap<Edge, Vec<Use>> = BTreeMap::new();
    for (polygon, ring) in tables.polygons.iter().enumerate() {
        for two in ring.windows(2) {
            let edge = (two[0].min(two[1]), two[0].max(two[1]));
            all.entry(edge).or_default().push(Use { polygon, upward: two[0] < two[1] });
        }
    }
    all
}

/// A failed check with its elements.
pub type Failure = (u8, usize, usize);

/// "Only if none has one are these tried, in this order".
pub fn failure(tables: &Tables) -> Option<Failure> {
    fails_07(tables)
        .or_else(|| fails_08(tables))
        .or_else(|| fails_09(tables))
        .or_else(|| fails_0a(tables))
        .or_else(|| fails_0b(tables))
        .or_else(|| fails_0c(tables))
        .or_else(|| fails_0d(tables))
}

/// "fewer than 4 polygons | a = their count"
pub fn fails_07(tables: &Tables) -> Option<Failure> {
    (tables.polygons.len() < 4).then_some((0x07, tables.polygons.len(), 0))
}

/// "the edge reported is the one with least a, then least b."
fn least_edge(tables: &Tables, check: u8, fails: impl Fn(&[Use]) -> bool) -> Option<Failure> {
    edges(tables).into_iter().find(|(_, uses)| fails(uses)).map(|((a, b), _)| (check, a, b))
}

/// "an edge is used once"
pub fn fails_08(tables: &Tables) -> Option<Failure> {
    least_edge(tables, 0x08, |uses| uses.len() == 1)
}

/// "an edge is used more than twice"
pub fn fails_09(tables: &Tables) -> Option<Failure> {
    least_edge(tables, 0x09, |uses| uses.len() > 2)
}

/// "an edge is used twice in the same direction"
pub fn fails_0a(tables: &Tables) -> Option<Failure> {
    least_edge(tables, 0x0A, |uses| uses.len() == 2 && uses[0].upward == uses[1].upward)
}

/// The polygons that use an edge which the given one uses too.
fn next_across(edges: &BTreeMap<Edge, Vec<Use>>, polygon: usize) -> BTreeSet<usize> {
    let uses_of_its_edges = edges.values().filter(|uses| uses.iter().any(|each| each.polygon == polygon));
    uses_of_its_edges.flat_map(|uses| uses.iter().map(|each| each.polygon)).collect()
}

/// The polygons reachable from one, step by step, across the given edges.
pub fn reachable(edges: &BTreeMap<Edge, Vec<Use>>, from: usize) -> BTreeSet<usize> {
    let mut reached = BTreeSet::from([from]);
    let mut waiting = vec![from];
    while let Some(polygon) = waiting.pop() {
        for next in next_across(edges, polygon) {
            if reached.insert(next) {
                waiting.push(next);
            }
        }
    }
    reached
}

/// "polygons not all reachable from polygon 0 across shared edges | a = lowest one not reached"
pub fn fails_0b(tables: &Tables) -> Option<Failure> {
    if tables.polygons.is_empty() {
        return None;
    }
    let reached = reachable(&edges(tables), 0);
    (0..tables.polygons.len()).find(|polygon| !reached.contains(polygon)).map(|polygon| (0x0B, polygon, 0))
}

/// "at some used point, the polygons there aren't all linked across edges that end at it | a = lowest such point"
pub fn fails_0c(tables: &Tables) -> Option<Failure> {
    let edges = edges(tables);
    (0..tables.points.len()).find(|&point| !linked_at(&edges, tables, point)).map(|point| (0x0C, point, 0))
}

/// Whether the polygons at a point are all linked across edges that end at it (so too where no polygon is).
pub fn linked_at(edges: &BTreeMap<Edge, Vec<Use>>, tables: &Tables, point: usize) -> bool {
    let there: Vec<usize> = (0..tables.polygons.len()).filter(|&polygon| tables.polygons[polygon].contains(&point)).collect();
    let Some(&first) = there.first() else { return true };
    let ends_here: BTreeMap<Edge, Vec<Use>> =
        edges.iter().filter(|((a, b), _)| *a == point || *b == point).map(|(edge, uses)| (*edge, uses.clone())).collect();
    let linked = reachable(&ends_here, first);
    there.iter().all(|polygon| linked.contains(polygon))
}

/// "six-volume is zero or negative | 0, 0"
pub fn fails_0d(tables: &Tables) -> Option<Failure> {
    (six_volume(tables) <= 0).then_some((0x0D, 0, 0))
}
