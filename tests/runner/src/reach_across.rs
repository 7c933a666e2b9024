//! What must be reached of the answers to 0C: how many users and which, what a wrong program would tell instead, where the edge stands
//! in the list, and how many others stand beside it. By the oracle's account.

use oracle::across::{edge_steps, users, Ends};
use oracle::shape::Edge;
use oracle::tables::Tables;
use std::collections::BTreeSet;

const USERS: &[&str] = &[
    "frame 0C, no users",
    "frame 0C, 1 user",
    "frame 0C, 2 users",
    "frame 0C, 3 users",
    "frame 0C, 4 users or more",
    "frame 0C, more than 255 users",
    "frame 0C, first user and second user are one",
    "frame 0C, first user and second user are one, the third is another",
    "frame 0C, one polygon is the user four times or more",
    "frame 0C, first user 0",
    "frame 0C, first user 255",
    "frame 0C, second user 255",
    "frame 0C, the smaller number asked for first",
    "frame 0C, the larger number asked for first",
    "frame 0C, points 0 and 511",
    "frame 0C, an empty ring before its first user",
    "frame 0C, none but empty rings before its first user",
    "frame 0C, an empty ring between its users",
    "frame 0C, a ring of 2 entries uses it",
    "frame 0C, a ring of 3 entries uses it",
    "frame 0C, a ring of 128 entries uses it",
];

/// A program that goes so would give another answer.
const WRONG: &[&str] = &[
    "counting a polygon once",
    "counting a step from an end to itself",
    "taking the third user for the second",
    "taking the highest user for the second",
    "taking another polygon than the first for the second",
    "counting steps in the order asked alone",
    "counting steps against the order asked alone",
    "taking users that step up before the others",
    "leaving out rings of finding 01",
    "leaving out rings of finding 02",
    "leaving out rings of finding 03",
    "leaving out rings of finding 04 to 06",
    "leaving out all rings that have a finding",
    "leaving out the last step of each ring",
    "leaving out the first step of each ring",
    "closing open rings",
    "taking numbers that are 256 apart for one",
];

const PLACES: &[&str] = &[
    "frame 0C, the first edge of the list",
    "frame 0C, the last edge of the list",
    "frame 0C, the only edge of the list",
    "frame 0C, an edge whose smaller end has a step to itself",
    "frame 0C, no edge, before the first",
    "frame 0C, no edge, behind the last",
    "frame 0C, no edge, between two of one smaller end",
    "frame 0C, no edge, the smaller number is the larger end of some",
    "frame 0C, no edge, both numbers in one ring",
    "frame 0C, no edge, a point in no ring",
    "frame 0C, no edge, the list is empty",
];

/// Counts of steps in all; none of them a step to itself.
const STEPS: &[usize] = &[1, 63, 64, 65, 1_016];

/// Counts of edges and of uses of edges whose smaller end is that of the one asked for.
const BESIDE: &[usize] = &[1, 32, 33];

/// Few and many steps in all, and a smaller end that is crowded or not.
fn crowd(steps: usize, beside: usize) -> String {
    let all = if steps <= 64 { "at most 64" } else { "more than 64" };
    let here = if beside <= 32 { "at most 32" } else { "more than 32" };
    format!("frame 0C, {all} steps, {here} at its smaller end")
}

pub fn names() -> Vec<String> {
    let mut names: Vec<String> = [USERS, PLACES].concat().iter().map(|name| name.to_string()).collect();
    names.extend(WRONG.iter().map(|program| format!("frame 0C, {program} would tell otherwise")));
    names.extend(STEPS.iter().map(|steps| format!("frame 0C, steps in all: {steps}")));
    for end in ["0", "above 0"] {
        names.extend(BESIDE.iter().map(|count| format!("frame 0C, edges that begin at its smaller end, {end}: {count}")));
        names.extend(BESIDE.iter().map(|count| format!("frame 0C, uses that begin at its smaller end, {end}: {count}")));
    }
    names.extend([(64, 32), (64, 33), (65, 32), (65, 33)].map(|(steps, beside)| crowd(steps, beside)));
    names
}

fn held(found: Vec<(bool, &str)>) -> Vec<String> {
    found.into_iter().filter(|(holds, _)| *holds).map(|(_, name)| name.to_string()).collect()
}

/// What is told of users.
fn told(users: &[usize]) -> (usize, Option<usize>, Option<usize>) {
    (users.len(), users.first().copied(), users.get(1).copied())
}

/// What an accepted question shows; `findings` are those of the polygons.
pub fn of_answer(tables: &Tables, findings: &[u8], ends: Ends) -> Vec<String> {
    let found = users(tables, ends);
    [of_users(tables, ends, &found), of_wrong(tables, findings, ends, &found), of_places(tables, ends, &found)].concat()
}

fn of_users(tables: &Tables, ends: Ends, found: &[usize]) -> Vec<String> {
    let used = !found.is_empty();
    let (first, last) = (found.first().copied().unwrap_or(0), found.last().copied().unwrap_or(0));
    let again = found.len() > 1 && found[0] == found[1];
    let empty = |polygon: usize| tables.polygons[polygon].is_empty();
    let of_length = |entries: usize| found.iter().any(|&user| tables.polygons[user].len() == entries);
    let holds = [
        !used,
        found.len() == 1,
        found.len() == 2,
        found.len() == 3,
        found.len() >= 4,
        found.len() > 255,
        again,
        again && found.len() > 2 && found[2] != found[1],
        found.windows(4).any(|four| four[0] == four[3]),
        used && first == 0,
        used && first == 255,
        found.get(1) == Some(&255),
        used && ends[0] < ends[1],
        used && ends[0] > ends[1],
        used && ends.contains(&0) && ends.contains(&511),
        used && (0..first).any(empty),
        used && first > 1 && (0..first).all(empty),
        (first..last).any(empty),
        of_length(2),
        of_length(3),
        of_length(128),
    ];
    held(holds.into_iter().zip(USERS.iter().copied()).collect())
}

/// The users by a program that counts the steps that it chooses: by the polygon, its ring, the step's index in it and its two numbers.
fn counted(tables: &Tables, uses: impl Fn(usize, &[usize], usize, Ends) -> bool) -> Vec<usize> {
    let mut found = vec![];
    for (polygon, ring) in tables.polygons.iter().enumerate() {
        let steps = ring.windows(2).enumerate().filter(|(at, two)| uses(polygon, ring, *at, [two[0], two[1]]));
        found.extend(steps.map(|_| polygon));
    }
    found
}

fn of_wrong(tables: &Tables, findings: &[u8], ends: Ends, found: &[usize]) -> Vec<String> {
    let [a, b] = ends;
    let edge = |step: Ends| step == [a, b] || step == [b, a];
    let without = |left_out: &[u8]| counted(tables, |polygon, _, _, step| edge(step) && !left_out.contains(&findings[polygon]));
    let of_way = |way: Ends| counted(tables, |_, _, _, step| step == way);
    let second = |user: Option<&usize>| (found.len(), found.first().copied(), user.copied());
    let once: Vec<usize> = found.iter().copied().collect::<BTreeSet<_>>().into_iter().collect();
    let open = |ring: &Vec<usize>| ring.len() > 2 && ring.first() != ring.last() && edge([ring[0], ring[ring.len() - 1]]);
    let low = |step: Ends| edge(step) || edge([step[0] ^ 256, step[1]]) || edge([step[0], step[1] ^ 256]);
    let answers = [
        told(&once),
        told(&counted(tables, |_, _, _, step| edge(step) || (step[0] == step[1] && ends.contains(&step[0])))),
        if found.len() > 2 { second(found.get(2)) } else { told(found) },
        if found.len() > 1 { second(found.last()) } else { told(found) },
        second(once.get(1)),
        told(&of_way([a, b])),
        told(&of_way([b, a])),
        told(&[of_way([a.min(b), a.max(b)]), of_way([a.max(b), a.min(b)])].concat()),
        told(&without(&[1])),
        told(&without(&[2])),
        told(&without(&[3])),
        told(&without(&[4, 5, 6])),
        told(&without(&[1, 2, 3, 4, 5, 6])),
        told(&counted(tables, |_, ring, at, step| edge(step) && at + 2 < ring.len())),
        told(&counted(tables, |_, _, at, step| edge(step) && at > 0)),
        (found.len() + tables.polygons.iter().filter(|ring| open(ring)).count(), found.first().copied(), found.get(1).copied()),
        told(&counted(tables, |_, _, _, step| low(step))),
    ];
    let otherwise = answers.into_iter().map(|answer| answer != told(found)).zip(WRONG);
    otherwise.filter(|(differs, _)| *differs).map(|(_, program)| format!("frame 0C, {program} would tell otherwise")).collect()
}

/// The uses of edges, each as its smaller number and its larger one, in ascending order.
fn ascending(tables: &Tables) -> Vec<Edge> {
    let steps = tables.polygons.iter().flat_map(|ring| edge_steps(ring));
    let mut all: Vec<Edge> = steps.map(|[p, q]| (p.min(q), p.max(q))).collect();
    all.sort_unstable();
    all
}

fn of_places(tables: &Tables, ends: Ends, found: &[usize]) -> Vec<String> {
    let uses = ascending(tables);
    let edge = (ends[0].min(ends[1]), ends[0].max(ends[1]));
    let beside: Vec<Edge> = uses.iter().copied().filter(|each| each.0 == edge.0).collect();
    let (first, last) = (uses.first().copied(), uses.last().copied());
    let used = !found.is_empty();
    let stays = tables.polygons.iter().any(|ring| ring.windows(2).any(|two| two == [edge.0, edge.0]));
    let in_ring = |ring: &Vec<usize>| ends.iter().all(|end| ring.contains(end));
    let in_none = |end: &usize| !tables.polygons.iter().any(|ring| ring.contains(end));
    let holds = [
        used && first == Some(edge),
        used && last == Some(edge),
        used && first == last,
        used && stays,
        first.is_some_and(|first| edge < first),
        last.is_some_and(|last| edge > last),
        !used && beside.iter().any(|each| *each < edge) && beside.iter().any(|each| *each > edge),
        beside.is_empty() && uses.iter().any(|each| each.1 == edge.0),
        !used && tables.polygons.iter().any(in_ring),
        ends.iter().any(in_none),
        uses.is_empty(),
    ];
    let mut names = held(holds.into_iter().zip(PLACES.iter().copied()).collect());
    if used {
        let all: usize = tables.polygons.iter().map(|ring| ring.len().saturating_sub(1)).sum();
        names.extend(of_counts(all, &uses, &beside));
    }
    names
}

/// Where the edge is in the list: how many steps there are in all, and how many edges and uses beside it.
fn of_counts(all: usize, uses: &[Edge], beside: &[Edge]) -> Vec<String> {
    let mut names = vec![crowd(all, beside.len())];
    if all == uses.len() && STEPS.contains(&all) {
        names.push(format!("frame 0C, steps in all: {all}"));
    }
    let end = if beside[0].0 == 0 { "0" } else { "above 0" };
    let edges = beside.iter().collect::<BTreeSet<_>>().len();
    for (count, what) in [(edges, "edges"), (beside.len(), "uses")] {
        if BESIDE.contains(&count) {
            names.push(format!("frame 0C, {what} that begin at its smaller end, {end}: {count}"));
        }
    }
    names
}
