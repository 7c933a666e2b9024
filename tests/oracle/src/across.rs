//! Document 02, request (xiii): "which polygon is across an edge". The list that the request speaks of is not kept: the users of an
//! edge are counted anew from the tables.

use crate::tables::Tables;

/// A step from one entry of a ring to the next, or the two numbers that are asked for.
pub type Ends = [usize; 2];

/// The steps of a ring that are edges: "a step from a number to itself is no edge."
pub fn edge_steps(ring: &[usize]) -> Vec<Ends> {
    ring.windows(2).filter(|two| two[0] != two[1]).map(|two| [two[0], two[1]]).collect()
}

/// "two point numbers (4 each) in either order"
fn same_edge(step: Ends, asked: Ends) -> bool {
    step == asked || step == [asked[1], asked[0]]
}

/// "A polygon counts once for each time its rings use the edge": the users in ascending order, each as often as it uses the edge; none
/// where "two points [...] share no edge". A ring that is short, open or has another finding has edges too.
pub fn users(tables: &Tables, asked: Ends) -> Vec<usize> {
    let uses = |ring: &Vec<usize>| edge_steps(ring).into_iter().filter(|&step| same_edge(step, asked)).count();
    let all = tables.polygons.iter().enumerate();
    all.flat_map(|(polygon, ring)| vec![polygon; uses(ring)]).collect()
}

/// "`FFFF` where there is none"
fn user(of: Option<&usize>) -> String {
    of.map_or("FFFF".to_string(), |polygon| format!("{polygon:04X}"))
}

/// "answers `00`, users 4 digits, first user 4, second user 4", the two being "the two lowest users".
pub fn across_line(tables: &Tables, asked: Ends) -> String {
    let users = users(tables, asked);
    format!("00{:04X}{}{}", users.len(), user(users.first()), user(users.get(1)))
}
