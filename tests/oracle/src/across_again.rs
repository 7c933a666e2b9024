//! The users of edges once more, by other means, on seeded random rings.

use crate::across::users;
use crate::second_look::Dice;
use crate::shape::{edges, fails_08, fails_09, fails_0a, Edge};
use crate::tables::{Tables, ORIGIN};
use std::collections::BTreeMap;

/// Rings at random over a few points: short, open, with steps to themselves, with edges used again.
fn rings(dice: &mut Dice, points: usize) -> Tables {
    let most = 1 + dice.below(9);
    let mut ring = |_| -> Vec<usize> { (0..dice.below(most)).map(|_| dice.below(points as u64) as usize).collect() };
    let polygons = (0..8).map(&mut ring).collect();
    Tables { tolerance: 0, points: vec![ORIGIN; points], polygons }
}

/// Every two different points, in both orders.
fn pairs(points: usize) -> Vec<[usize; 2]> {
    (0..points).flat_map(|a| (0..points).map(move |b| [a, b])).filter(|[a, b]| a != b).collect()
}

/// The list of the request: each edge "in ascending order with the number of users and the two lowest users", by sorting all steps.
fn sorted_list(tables: &Tables) -> BTreeMap<Edge, (usize, usize, Option<usize>)> {
    let mut steps = vec![];
    for (polygon, ring) in tables.polygons.iter().enumerate() {
        for at in 1..ring.len() {
            steps.push((ring[at - 1].min(ring[at]), ring[at - 1].max(ring[at]), polygon));
        }
    }
    steps.retain(|(a, b, _)| a < b);
    steps.sort_unstable();
    let mut list = BTreeMap::new();
    let mut at = 0;
    while at < steps.len() {
        let (a, b, first) = steps[at];
        let end = steps.partition_point(|&(p, q, _)| (p, q) <= (a, b));
        list.insert((a, b), (end - at, first, steps[at..end].get(1).map(|step| step.2)));
        at = end;
    }
    list
}

#[test]
fn users_by_the_sorted_list() {
    let mut dice = Dice(12);
    let mut seen = [0; 5];
    for round in 0..6_000 {
        let tables = rings(&mut dice, 2 + round % 7);
        let list = sorted_list(&tables);
        for [a, b] in pairs(tables.points.len()) {
            let found = users(&tables, [a, b]);
            let told = found.first().map(|&first| (found.len(), first, found.get(1).copied()));
            assert_eq!(told, list.get(&(a.min(b), a.max(b))).copied(), "{a} {b} of {tables:?}");
            assert!(found.is_sorted());
            seen[found.len().min(4)] += 1;
        }
    }
    assert!(seen.iter().all(|&count| count > 2_000), "{seen:?}");
}

#[test]
fn users_by_the_edges_of_the_checks() {
    let mut dice = Dice(13);
    for round in 0..4_000 {
        let tables = rings(&mut dice, 2 + round % 7);
        let all = edges(&tables);
        for [a, b] in pairs(tables.points.len()) {
            let uses = all.get(&(a.min(b), a.max(b))).map_or(vec![], |uses| uses.iter().map(|each| each.polygon).collect());
            assert_eq!(users(&tables, [a, b]), uses, "{a} {b} of {tables:?}");
        }
    }
}

#[test]
fn the_edges_named_by_checks() {
    let mut dice = Dice(14);
    let mut seen = [0; 3];
    for round in 0..4_000 {
        let mut tables = rings(&mut dice, 3 + round % 6);
        // Those checks come after 03, behind which there is no step to itself.
        tables.polygons.iter_mut().for_each(|ring| ring.dedup());
        let count = |a: usize, b: usize| users(&tables, [a, b]).len();
        let least = |is: fn(usize) -> bool| pairs(tables.points.len()).into_iter().find(|&[a, b]| a < b && is(count(a, b)));
        let named = [fails_08(&tables), fails_09(&tables)].map(|failure| failure.map(|(_, a, b)| [a, b]));
        assert_eq!(named, [least(|users| users == 1), least(|users| users > 2)], "{tables:?}");
        // 0A speaks of edges with two users.
        let same_way = fails_0a(&tables);
        assert!(same_way.is_none_or(|(_, a, b)| count(a, b) == 2), "{tables:?}");
        [named[0].is_some(), named[1].is_some(), same_way.is_some()]
            .iter()
            .enumerate()
            .for_each(|(k, &is)| seen[k] += usize::from(is));
    }
    assert!(seen.iter().all(|&count| count > 500), "{seen:?}");
}

#[test]
fn turns_alter_no_users() {
    let mut dice = Dice(15);
    for round in 0..3_000 {
        let tables = rings(&mut dice, 2 + round % 7);
        let mut turned = tables.clone();
        for ring in &mut turned.polygons {
            if dice.below(2) == 0 {
                ring.reverse();
            }
        }
        for [a, b] in pairs(tables.points.len()) {
            assert_eq!(users(&tables, [a, b]), users(&turned, [b, a]), "{a} {b} of {tables:?}");
        }
    }
}

#[test]
fn uses_at_a_point() {
    let mut dice = Dice(16);
    for round in 0..3_000 {
        let tables = rings(&mut dice, 2 + round % 7);
        for point in 0..tables.points.len() {
            // Each entry has a step before it and one behind it, but for the two ends of a ring; a step to itself is no edge, twice.
            let ends = |ring: &Vec<usize>| -> usize {
                let here = ring.iter().filter(|&&entry| entry == point).count();
                let outer = usize::from(ring.first() == Some(&point)) + usize::from(ring.last() == Some(&point));
                let still = ring.windows(2).filter(|two| two == &[point, point]).count();
                2 * here - outer - 2 * still
            };
            let others = (0..tables.points.len()).filter(|&other| other != point);
            let uses: usize = others.map(|other| users(&tables, [point, other]).len()).sum();
            assert_eq!(uses, tables.polygons.iter().map(ends).sum::<usize>(), "{point} of {tables:?}");
        }
    }
}
