//! The examples of document 01, those of its "Run" line, and those of document 02's requests.

use crate::answer;
use crate::report::{report, Report};
use crate::ring::{finding, position};
use crate::tables::{Place, Tables};

pub const TETRAHEDRON: &str = "010000
02000000000000000000000000
02000003E80000000000000000
0200000000000003E800000000
020000000000000000000003E8
030000000200010000
030000000100030000
030000000300020000
030001000200030001
04
";

/// The answers to a stream, line by line.
pub fn ask(stream: &str) -> Vec<String> {
    let mut room = vec![b'?'; 33 * 1_024];
    let length = answer(stream.as_bytes(), &mut room);
    let length = usize::try_from(length).expect("no whole-stream refusal");
    let text = String::from_utf8(room[..length].to_vec()).unwrap();
    assert!(text.is_empty() || text.ends_with('\n'));
    text.lines().map(String::from).collect()
}

fn place(x: i128, y: i128, z: i128) -> Place {
    Place { x, y, z }
}

/// The finding of a ring and its position.
fn at(tolerance: i128, corners: &[(i128, i128, i128)], entries: &[usize]) -> (u8, usize) {
    let points = corners.iter().map(|&(x, y, z)| place(x, y, z)).collect();
    let tables = Tables { tolerance, points, polygons: vec![entries.to_vec()] };
    (finding(&tables, 0), position(&tables, 0))
}

fn one_ring(tolerance: i128, corners: &[(i128, i128, i128)], entries: &[usize]) -> u8 {
    at(tolerance, corners, entries).0
}

fn tetrahedron() -> Tables {
    Tables {
        tolerance: 0,
        points: vec![place(0, 0, 0), place(1000, 0, 0), place(0, 1000, 0), place(0, 0, 1000)],
        polygons: vec![vec![0, 2, 1, 0], vec![0, 1, 3, 0], vec![0, 3, 2, 0], vec![1, 2, 3, 1]],
    }
}

#[test]
fn one_stream_in_full() {
    let corrections = "050000000500030000000000000000000007D0
050000000400030000000000000000000003E8
070000
070003
06000000060003
";
    let expected = "00\n".repeat(9)
        + "0000000000000000000000003B9ACA00
00000000000000000000000077359400
07
00000000000000000000000000000000
00000000000000050000000077359400
000A000100020000FFFFFFFF88CA6C00
";
    let stream = TETRAHEDRON.to_string() + corrections;
    let mut room = vec![b'?'; 33 * 15];
    let length = answer(stream.as_bytes(), &mut room) as usize;
    assert_eq!(&room[..length], expected.as_bytes());
    assert!(room[length..].iter().all(|&byte| byte == b'?'));
    // The last line feed may be missing; the answers are the same.
    let mut again = vec![b'?'; 33 * 15];
    assert_eq!(answer(&stream.as_bytes()[..stream.len() - 1], &mut again), length as i64);
    assert_eq!(room, again);
}

#[test]
fn tolerance_at_the_edge() {
    let ring = |h| one_ring(10, &[(0, 0, 0), (1000, 0, 0), (1000, 1000, 0), (0, 1000, h)], &[0, 1, 2, 3, 0]);
    assert_eq!(ring(20), 0);
    assert_eq!(ring(21), 6);
}

#[test]
fn true_distance() {
    // The request's ring: it failed while the distance was taken along an axis. N = (1000h - 2000000, -1000h, 2000000) and N·p is
    // 1000000h, so that it is 28 that passes and 29 that fails.
    let steep = |h| one_ring(10, &[(0, 0, 0), (1000, 0, 1000), (1000, 1000, 1000), (0, 1000, h)], &[0, 1, 2, 3, 0]);
    assert_eq!(steep(20), 0);
    assert_eq!(steep(21), 0);
    assert_eq!(steep(28), 0);
    assert_eq!(steep(29), 6);
    // Two opposite corners of a square lifted alike: N stays upright and their distance is h, so that 10 is at the tolerance.
    let saddle = |h| one_ring(10, &[(0, 0, 0), (1000, 0, h), (1000, 1000, 0), (0, 1000, h)], &[0, 1, 2, 3, 0]);
    assert_eq!(saddle(10), 0);
    assert_eq!(saddle(11), 6);
    assert_eq!(saddle(-10), 0);
    assert_eq!(saddle(-11), 6);
}

#[test]
fn crossing_rings() {
    let ring = |y| one_ring(0, &[(0, 0, 0), (1000, 1000, 0), (1000, 0, 0), (0, y, 0)], &[0, 1, 2, 3, 0]);
    assert_eq!(ring(1000), 4);
    assert_eq!(ring(2000), 5);
}

#[test]
fn where_a_number_stood_earlier() {
    let corners: Vec<(i128, i128, i128)> = (0..6).map(|k| (k, k * k, 0)).collect();
    let again = |entries: &[usize]| at(0, &corners, entries);
    assert_eq!(again(&[0, 1, 2, 1, 0]), (3, 3));
    // The least of two; the number that stands again last stood first.
    assert_eq!(again(&[0, 1, 1, 2, 2, 0]), (3, 2));
    assert_eq!(again(&[0, 1, 2, 2, 1, 0, 0]), (3, 3));
    // Right behind the first entry, and right before the closing one.
    assert_eq!(again(&[0, 0, 1, 2, 0]), (3, 1));
    assert_eq!(again(&[0, 1, 2, 3, 4, 5, 0, 0]), (3, 6));
    // Turned, the ring 0 1 2 3 1 4 0 is 0 4 1 3 2 1 0.
    assert_eq!(again(&[0, 1, 2, 3, 1, 4, 0]), (3, 4));
    assert_eq!(again(&[0, 4, 1, 3, 2, 1, 0]), (3, 5));
    // "else 0": 01 and 02 come first, whatever stands twice.
    assert_eq!(again(&[0, 0, 0]), (1, 0));
    assert_eq!(again(&[0, 1, 1, 2]), (2, 0));
}

#[test]
fn where_edges_meet() {
    // Document 01's bow tie: edges 0 and 2 cross. Begun one corner later they are edges 1 and 3, and turned edges 0 and 2 again.
    let bow_tie = [(0, 0, 0), (1000, 1000, 0), (1000, 0, 0), (0, 2000, 0)];
    assert_eq!(at(0, &bow_tie, &[0, 1, 2, 3, 0]), (5, 0));
    assert_eq!(at(0, &bow_tie, &[3, 0, 1, 2, 3]), (5, 1));
    assert_eq!(at(0, &bow_tie, &[3, 2, 1, 0, 3]), (5, 0));
    // Edges 2 and 4 cross; turned, edge 4 has become edge 1.
    let late = [(0, 0, 0), (1000, 0, 0), (1000, 500, 0), (0, 1000, 0), (1000, 1000, 0), (0, 500, 0)];
    assert_eq!(at(0, &late, &[0, 1, 2, 3, 4, 5, 0]), (5, 2));
    assert_eq!(at(0, &late, &[0, 5, 4, 3, 2, 1, 0]), (5, 1));
    // Corner 1 stands on the last edge: edge 0 goes back over it. Of edges that are no neighbours, the last meets edge 1 alone.
    let back = [(0, 0, 0), (200, 0, 0), (400, 300, 0), (400, 0, 0)];
    assert_eq!(at(0, &back, &[0, 1, 2, 3, 0]), (5, 0));
    // Edge 1 goes back over edge 0 and past its start, on which the last edge ends.
    let past = [(0, 0, 0), (400, 0, 0), (-200, 0, 0), (-200, 300, 0)];
    assert_eq!(at(0, &past, &[0, 1, 2, 3, 0]), (5, 0));
    // "else 0": 04 comes first, though edges 0 and 2 cross.
    assert_eq!(at(0, &[(0, 0, 0), (1000, 1000, 0), (1000, 0, 0), (0, 1000, 0)], &[0, 1, 2, 3, 0]), (4, 0));
}

#[test]
fn where_a_point_is_off_the_plane() {
    // The square with one corner lifted: entries 1 and 3 are as far off, entry 2 is not.
    let lifted = [(0, 0, 0), (1000, 0, 0), (1000, 1000, 0), (0, 1000, 21)];
    assert_eq!(at(10, &lifted, &[0, 1, 2, 3, 0]), (6, 1));
    assert_eq!(at(10, &lifted, &[3, 0, 1, 2, 3]), (6, 1));
    // A square with three corners more on its far side, the middle one lifted by h: N = (0, -20h, 2000000), so that N·p is 1980000h for
    // the lifted one and -20000h for the others of that side. From the lifted one, all others are off.
    let tip = |h| [(0, 0, 0), (1000, 0, 0), (1000, 1000, 0), (510, 1000, 0), (500, 1000, h), (490, 1000, 0), (0, 1000, 0)];
    assert_eq!(at(10, &tip(10), &[0, 1, 2, 3, 4, 5, 6, 0]), (0, 0));
    assert_eq!(at(10, &tip(11), &[0, 1, 2, 3, 4, 5, 6, 0]), (6, 4));
    assert_eq!(at(10, &tip(11), &[0, 6, 5, 4, 3, 2, 1, 0]), (6, 3));
    assert_eq!(at(10, &tip(1000), &[0, 1, 2, 3, 4, 5, 6, 0]), (6, 4));
    assert_eq!(at(10, &tip(1011), &[0, 1, 2, 3, 4, 5, 6, 0]), (6, 2));
    assert_eq!(at(10, &tip(11), &[4, 5, 6, 0, 1, 2, 3, 4]), (6, 1));
    // 05 comes first, whatever is off the plane.
    let late = [(0, 0, 0), (1000, 0, 0), (1000, 500, 0), (0, 1000, 0), (1000, 1000, 0), (0, 500, 900)];
    assert_eq!(at(0, &late, &[0, 1, 2, 3, 4, 5, 0]), (5, 2));
}

#[test]
fn short_and_open_rings() {
    let corners = [(0, 0, 0), (1000, 0, 0), (0, 1000, 0), (7, 7, 7)];
    assert_eq!(one_ring(0, &corners, &[]), 1);
    assert_eq!(one_ring(0, &corners, &[0, 1, 2]), 1);
    assert_eq!(one_ring(0, &corners, &[0, 1, 0]), 1);
    assert_eq!(one_ring(0, &corners, &[0, 1, 2, 3]), 2);
    assert_eq!(one_ring(0, &corners, &[0, 1, 0, 1]), 2);
    assert_eq!(one_ring(0, &corners, &[0, 1, 0, 0]), 3);
    assert_eq!(one_ring(0, &corners, &[0, 0, 0, 0]), 3);
    assert_eq!(one_ring(0, &corners, &[0, 1, 1, 0]), 3);
    assert_eq!(one_ring(0, &corners, &[0, 1, 2, 0]), 0);
}

#[test]
fn the_tetrahedron() {
    let expected = Report { check: 0, a: 0, b: 0, faulty: 0, six_volume: 1_000_000_000 };
    assert_eq!(report(&tetrahedron()), expected);
    let mut turned = tetrahedron();
    turned.polygons.iter_mut().for_each(|ring| ring.reverse());
    assert_eq!(report(&turned), Report { check: 0x0D, six_volume: -1_000_000_000, ..expected });
}

#[test]
fn too_few_polygons() {
    let mut three = tetrahedron();
    three.polygons.pop();
    assert_eq!(report(&three).check, 0x07);
    assert_eq!(report(&three).a, 3);
    three.polygons.clear();
    assert_eq!(report(&three), Report { check: 0x07, a: 0, b: 0, faulty: 0, six_volume: 0 });
    // A finding comes before the count of polygons.
    three.polygons = vec![vec![]; 3];
    assert_eq!(report(&three), Report { check: 0x01, a: 0, b: 0, faulty: 3, six_volume: 0 });
}

#[test]
fn coordinates_at_the_bound() {
    assert_eq!(ask("010000\n02000186A0000186A0000186A0\n02FFFE7960FFFE7960FFFE7960\n"), ["00", "00", "00"]);
    assert_eq!(ask("010000\n02000186A10000000000000000\n0200000000FFFE795F00000000\n"), ["00", "03", "03"]);
    assert_eq!(ask("010000\n02800000000000000000000000\n0200000000000000007FFFFFFF\n"), ["00", "03", "03"]);
    let held = TETRAHEDRON.to_string();
    let asked = ask(&(held + "05000000010000FFFE7960FFFE7960FFFE7960\n05000000020000FFFE7960FFFE7960FFFE795F\n"));
    assert_eq!(&asked[10][..2], "00");
    assert_eq!(asked[11], "03");
}

#[test]
fn tolerance_at_the_bound() {
    assert_eq!(ask("0103E8\n0103E9\n01FFFF\n04\n"), ["00", "03", "03", "00070000000000000000000000000000"]);
}

#[test]
fn ring_lengths_at_the_bound() {
    let polygon = |n: usize| format!("03{}\n", "0000".repeat(n));
    let stream = "010000\n02000000000000000000000000\n".to_string() + &polygon(128) + &polygon(129) + &polygon(0) + "04\n";
    assert_eq!(ask(&stream), ["00", "00", "00", "01", "00", "00030000000100020000000000000000"]);
}

#[test]
fn the_last_correction_number() {
    let corrections =
        "06FFFFFFFE0000\n05FFFFFFFF0000000000000000000000000000\n06FFFFFFFF0000\n0600000001FFFF\n06000000000000\n070000\n070003\n";
    let asked = ask(&(TETRAHEDRON.to_string() + corrections));
    let report = "000A00000001000000000000";
    assert_eq!(asked[10], format!("{report}3B9ACA00"));
    assert_eq!(asked[11], format!("{report}3B9ACA00"));
    assert_eq!(asked[12..15], ["07", "07", "07"]);
    assert_eq!(asked[15], "00000000FFFFFFFF0000000000000000");
    assert_eq!(asked[16], "0000000000000000000000003B9ACA00");
    // "holds it with last correction number 0": a new load takes small numbers again.
    let again = ask(&(TETRAHEDRON.to_string() + corrections + TETRAHEDRON + "06000000010000\n"));
    assert_eq!(again[27], format!("{report}3B9ACA00"));
}

#[test]
fn whole_streams() {
    let mut room = vec![b'?'; 33 * 1_024];
    assert_eq!(answer(b"", &mut []), 0);
    assert_eq!(answer(&[b'\n'; 65_536], &mut room), -1);
    assert_eq!(answer(&[b'\n'; 65_535], &mut room), -2);
    assert_eq!(answer(&[b'\n'; 1_025], &mut room), -2);
    assert_eq!(answer(&[b'\n'; 1_024], &mut room[1..]), -3);
    assert_eq!(answer(b"\n", &mut room[..32]), -3);
    assert!(room.iter().all(|&byte| byte == b'?'));
    assert_eq!(answer(&[b'\n'; 1_024], &mut room), 3 * 1_024);
    assert_eq!(ask("04"), ["02"]);
    assert_eq!(ask("04\n\n"), ["02", "01"]);
    assert_eq!(ask("04\r\n04 \n0A\n010\n0a\n\0\n0100000"), ["01"; 7]);
}

#[test]
fn parts_of_open_rings() {
    // The part of an open ring is not negated by a turn; a ring of 3 entries may have a part.
    let stream = "010000
02000000000000000000000000
02000000010000000000000005
02000000010000000100000007
02000000050000000900000001
030001000200030000
03000100020003
04
070000
070001
06000000010000
070000
";
    let asked = ask(stream);
    assert_eq!(asked[8], "0002000000000000FFFFFFFFFFFFFFD6");
    assert_eq!(asked[9], "0001000000000000FFFFFFFFFFFFFFD6");
    assert_eq!(asked[11], "00020000000000010000000000000000");
}
