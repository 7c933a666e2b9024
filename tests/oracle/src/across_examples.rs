//! The examples of document 02's request (xiii) and of its reading.

use crate::across::{across_line, users};
use crate::examples::{ask, TETRAHEDRON};
use crate::tables::{Tables, ORIGIN};

/// The six edges of document 01's tetrahedron, some from the larger number to the smaller, and what they answer.
const EDGES: &str = "0C00000001\n0C00020000\n0C00000003\n0C00010002\n0C00030001\n0C00020003\n";
const ACROSS: [&str; 6] =
    ["00000200000001", "00000200000002", "00000200010002", "00000200000003", "00000200010003", "00000200020003"];

/// The answers to lines that come after the tetrahedron's load.
fn ask_tetrahedron(lines: &str) -> Vec<String> {
    ask(&(TETRAHEDRON.to_string() + lines)).split_off(10)
}

/// Rings over points whose places do not matter.
fn over(points: usize, polygons: &[&[usize]]) -> Tables {
    Tables { tolerance: 0, points: vec![ORIGIN; points], polygons: polygons.iter().map(|ring| ring.to_vec()).collect() }
}

#[test]
fn the_edges_of_the_tetrahedron() {
    assert_eq!(ask_tetrahedron(EDGES), ACROSS);
}

#[test]
fn corrections_alter_no_users() {
    // A turn, a move of a point, the turn taken back.
    let asked =
        ask_tetrahedron(&format!("06000000010003\n{EDGES}050000000200030000000000000000000007D0\n{EDGES}06000000030003\n{EDGES}"));
    assert_eq!(asked[0], "000A000100020000FFFFFFFFC4653600");
    assert_eq!(asked[1..7], ACROSS);
    assert_eq!(asked[7], "000A000100020000FFFFFFFF88CA6C00");
    assert_eq!(asked[8..14], ACROSS);
    assert_eq!(asked[14], "00000000000000000000000077359400");
    assert_eq!(asked[15..], ACROSS);
}

#[test]
fn it_changes_nothing() {
    // Neither the last number nor a stamp: 1 is not late afterwards.
    let asked = ask_tetrahedron("0C00000001\n0C00040001\n06000000010003\n070000\n070003\n");
    let expected = ["00000200000001", "05", "000A000100020000FFFFFFFFC4653600"];
    assert_eq!(asked[..3], expected);
    assert_eq!(asked[3..], ["00000000000000000000000000000000", "0000000000000001FFFFFFFFC4653600"]);
}

#[test]
fn unknown_and_equal_points() {
    let asked = ask_tetrahedron("0C00040000\n0C00000004\n0C00040005\n0C0000FFFF\n0C00000000\n0C00030003\n0C00040004\n0CFFFFFFFF\n");
    assert_eq!(asked, ["05"; 8]);
}

#[test]
fn lengths_and_characters() {
    let asked = ask_tetrahedron("0C\n0C0000\n0C0000000\n0C000000010\n0C0000000100\n0c00000001\n0C0000000G\n0C00000001\n");
    assert_eq!(asked[..7], ["01"; 7]);
    assert_eq!(asked[7], "00000200000001");
    // 01 before 02 and 05.
    assert_eq!(ask("0C000000000\n0C0000000a\n010000\n0C000100010\n"), ["01", "01", "00", "01"]);
}

#[test]
fn no_building_held() {
    // Before a load, in it, and after a begin; 02 before 05. A refused begin leaves the building.
    let loading =
        "0C00000001\n0C00000000\n010000\n0C00000001\n02000000000000000000000000\n02000003E80000000000000000\n0C00000001\n\
                   0C00050006\n0300000001\n0C00000001\n04\n0C00010000\n01FFFF\n0C00000001\n010000\n0C00000001\n";
    let expected = ["02", "02", "00", "02", "00", "00", "02", "02", "00", "02"];
    let asked = ask(loading);
    assert_eq!(asked[..10], expected);
    assert_eq!(asked[11..], ["0000010000FFFF", "03", "0000010000FFFF", "00", "02"]);
}

#[test]
fn an_edge_used_again() {
    // The reading's: twice by polygon 3 and once by 5. Then once by 3 and twice by 5, and three times by 5 alone.
    let twice = over(3, &[&[], &[0, 2], &[], &[0, 1, 2, 1, 0], &[2, 0], &[1, 0]]);
    assert_eq!(users(&twice, [0, 1]), [3, 3, 5]);
    assert_eq!(across_line(&twice, [0, 1]), "00000300030003");
    let once = over(3, &[&[], &[], &[], &[1, 0], &[2, 0], &[0, 1, 0]]);
    assert_eq!(across_line(&once, [1, 0]), "00000300030005");
    let alone = over(3, &[&[], &[], &[], &[], &[], &[0, 1, 0, 1]]);
    assert_eq!(across_line(&alone, [0, 1]), "00000300050005");
    // The third lowest is not told.
    assert_eq!(across_line(&over(2, &[&[0, 1], &[1, 0], &[0, 1], &[0, 1]]), [1, 0]), "00000400000001");
}

#[test]
fn a_step_to_itself() {
    let tables = over(4, &[&[0, 0, 1, 1, 2, 0], &[3, 3, 3]]);
    for ends in [[0, 1], [1, 2], [2, 0]] {
        assert_eq!(across_line(&tables, ends), "0000010000FFFF");
    }
    assert_eq!(across_line(&tables, [0, 3]), "000000FFFFFFFF");
}

#[test]
fn short_open_and_empty_rings() {
    // 1 2 has no step but one; an open ring is not closed by one; a single entry has none.
    let tables = over(5, &[&[], &[1, 2], &[0, 1, 2, 3], &[4]]);
    assert_eq!(across_line(&tables, [2, 1]), "00000200010002");
    assert_eq!(across_line(&tables, [0, 1]), "0000010002FFFF");
    assert_eq!(across_line(&tables, [3, 0]), "000000FFFFFFFF");
    assert_eq!(across_line(&tables, [4, 3]), "000000FFFFFFFF");
    assert_eq!(across_line(&over(2, &[]), [0, 1]), "000000FFFFFFFF");
}

#[test]
fn the_highest_numbers() {
    let mut rings: Vec<Vec<usize>> = vec![vec![]; 256];
    rings[255] = vec![511, 510];
    let tables = Tables { tolerance: 0, points: vec![ORIGIN; 512], polygons: rings };
    assert_eq!(across_line(&tables, [510, 511]), "00000100FFFFFF");
    // As many uses as there can be: eight rings of 128 entries.
    let there_and_back: Vec<usize> = (0..128).map(|k| k % 2).collect();
    assert_eq!(across_line(&over(2, &[&there_and_back[..]; 8]), [0, 1]), "0003F800000000");
}
