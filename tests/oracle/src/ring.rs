//! Checks 01 to 06, on one polygon, where in the ring they fail, and its part of the six-volume. Check 06 is that of document 02,
//! request (ii), the position that of request (iii).

use crate::tables::{Place, Tables, ORIGIN};

/// "A polygon's finding is the first of checks 01 to 06 that fails." 0 when none does.
pub fn finding(tables: &Tables, polygon: usize) -> u8 {
    let ring = &tables.polygons[polygon];
    let places = tables.places(polygon);
    if fails_01(ring) {
        return 1;
    }
    if fails_02(ring) {
        return 2;
    }
    if fails_03(ring) {
        return 3;
    }
    if fails_04(&places) {
        return 4;
    }
    if fails_05(&places) {
        return 5;
    }
    if fails_06(&places, tables.tolerance) {
        return 6;
    }
    0
}

/// Document 02, (iii): "A polygon's finding shall carry a position: for 03 [...]; for 05 [...]; for 06 [...]; else 0."
pub fn position(tables: &Tables, polygon: usize) -> usize {
    let places = tables.places(polygon);
    let found = match finding(tables, polygon) {
        3 => repeated_entry(&tables.polygons[polygon]),
        5 => meeting_edge(&places),
        6 => failing_entry(&places, tables.tolerance),
        _ => Some(0),
    };
    found.expect("where a check fails some entry or edge fails it")
}

/// "the ring has fewer than 4 entries"
pub fn fails_01(ring: &[usize]) -> bool {
    ring.len() < 4
}

/// "last entry differs from first"
pub fn fails_02(ring: &[usize]) -> bool {
    ring.last() != ring.first()
}

/// "with the last entry left aside, some number stands twice (the first entry's number too)"
pub fn fails_03(ring: &[usize]) -> bool {
    let Some((_, kept)) = ring.split_last() else { return false };
    (0..kept.len()).any(|i| (i + 1..kept.len()).any(|j| kept[i] == kept[j]))
}

/// "for 03 the least entry index whose number stood earlier, the closing entry aside"
pub fn repeated_entry(ring: &[usize]) -> Option<usize> {
    let (_, kept) = ring.split_last()?;
    (0..kept.len()).find(|&i| kept[..i].contains(&kept[i]))
}

/// "Write the points relative to the ring's first point; the normal N is the sum, over consecutive entries, of the cross product of
/// the two."
pub fn normal(places: &[Place]) -> Place {
    let relative: Vec<Place> = places.iter().map(|place| place.minus(places[0])).collect();
    relative.windows(2).map(|two| two[0].cross(two[1])).fold(ORIGIN, Place::plus)
}

/// "N is zero in all three components"
pub fn fails_04(places: &[Place]) -> bool {
    normal(places) == ORIGIN
}

/// "the largest size of N's components"
pub fn largest_size(normal: Place) -> i128 {
    normal.x.abs().max(normal.y.abs()).max(normal.z.abs())
}

/// A place in the plane left by dropping an axis.
pub type Flat = (i128, i128);

/// "in the plane left by dropping the axis where N is largest in size (ties: x, then y)"
pub fn drop_axis(normal: Place, place: Place) -> Flat {
    let largest = largest_size(normal);
    if normal.x.abs() == largest {
        (place.y, place.z)
    } else if normal.y.abs() == largest {
        (place.z, place.x)
    } else {
        (place.x, place.y)
    }
}

/// Twice the signed area of the triangle a, b, c.
fn area(a: Flat, b: Flat, c: Flat) -> i128 {
    (b.0 - a.0) * (c.1 - a.1) - (b.1 - a.1) * (c.0 - a.0)
}

/// Whether c is one of the places of the segment from a to b, its ends included (a and b may be one place).
fn on_segment(a: Flat, b: Flat, c: Flat) -> bool {
    let between = |p: i128, q: i128, r: i128| p.min(q) <= r && r <= p.max(q);
    area(a, b, c) == 0 && between(a.0, b.0, c.0) && between(a.1, b.1, c.1)
}

/// Whether c and d lie strictly on different sides of the line through a and b.
fn strictly_apart(a: Flat, b: Flat, c: Flat, d: Flat) -> bool {
    area(a, b, c).signum() * area(a, b, d).signum() == -1
}

/// "two edges [...] share a point": the segments, ends included, have a place in common.
pub fn share_a_point(a: Flat, b: Flat, c: Flat, d: Flat) -> bool {
    let cross_inside = strictly_apart(a, b, c, d) && strictly_apart(c, d, a, b);
    cross_inside || on_segment(a, b, c) || on_segment(a, b, d) || on_segment(c, d, a) || on_segment(c, d, b)
}

/// "two neighbours share more than their common end": a to b and b to c run along each other from b on.
pub fn share_more_than_end(a: Flat, b: Flat, c: Flat) -> bool {
    let same_way = (a.0 - b.0) * (c.0 - b.0) + (a.1 - b.1) * (c.1 - b.1) > 0;
    area(a, b, c) == 0 && same_way
}

/// The ring's entries "in the plane left by dropping the axis where N is largest in size (ties: x, then y)".
pub fn flattened(places: &[Place]) -> Vec<Flat> {
    let normal = normal(places);
    places.iter().map(|&place| drop_axis(normal, place)).collect()
}

/// "two edges that aren't neighbours share a point, or two neighbours share more than their common end". n entries give n-1 edges, each
/// with the index of its first entry; the last edge and the first are neighbours. The two may come in either order.
pub fn forbidden_meeting(flat: &[Flat], i: usize, j: usize) -> bool {
    let edges = flat.len() - 1;
    if j == (i + 1) % edges {
        share_more_than_end(flat[i], flat[j], flat[j + 1])
    } else if i == (j + 1) % edges {
        share_more_than_end(flat[j], flat[i], flat[i + 1])
    } else {
        share_a_point(flat[i], flat[i + 1], flat[j], flat[j + 1])
    }
}

/// Check 05: two edges of the ring have a forbidden meeting.
pub fn fails_05(places: &[Place]) -> bool {
    let flat = flattened(places);
    let edges = flat.len() - 1;
    (0..edges).any(|i| (i + 1..edges).any(|j| forbidden_meeting(&flat, i, j)))
}

/// "for 05 the least edge index, counted from 0, that has a forbidden meeting": with any other edge, before or after it.
pub fn meeting_edge(places: &[Place]) -> Option<usize> {
    let flat = flattened(places);
    let edges = flat.len() - 1;
    (0..edges).find(|&i| (0..edges).any(|j| j != i && forbidden_meeting(&flat, i, j)))
}

/// "tolerance squared times the sum of the squares of N's components": below 2^109, since N's components are below 2^44.
pub fn square_of_reach(normal: Place, tolerance: i128) -> i128 {
    tolerance * tolerance * normal.dot(normal)
}

/// Document 02, (ii): "the square of N·(p - first) exceeds tolerance squared times the sum of the squares of N's components". N·(p -
/// first) is below 2^63 in size, its square below 2^126.
fn exceeds(normal: Place, way: Place, tolerance: i128) -> bool {
    let along = normal.dot(way);
    along * along > square_of_reach(normal, tolerance)
}

/// Check 06: it does "for some point p".
pub fn fails_06(places: &[Place], tolerance: i128) -> bool {
    let normal = normal(places);
    places.iter().any(|place| exceeds(normal, place.minus(places[0]), tolerance))
}

/// "for 06 the least failing entry index"
pub fn failing_entry(places: &[Place], tolerance: i128) -> Option<usize> {
    let normal = normal(places);
    places.iter().position(|place| exceeds(normal, place.minus(places[0]), tolerance))
}

/// "the determinant of first, p, q, the three points taken as three rows of three numbers"
pub fn determinant(rows: [Place; 3]) -> i128 {
    rows[0].dot(rows[1].cross(rows[2]))
}

/// "a polygon's part is the sum, over consecutive entries p, q, of the determinant of first, p, q [...]; a ring of fewer than 3
/// entries has part 0."
pub fn part(places: &[Place]) -> i128 {
    if places.len() < 3 {
        return 0;
    }
    places.windows(2).map(|two| determinant([places[0], two[0], two[1]])).sum()
}
