//! Buildings in which the marks of 0B and 0C decide: their rings pass 01 to 06, and each edge is used twice, once in each direction.
//! Closed pieces numbered so that a chosen polygon is the lowest one not reached; one piece of about as many polygons as whole words
//! of marks hold; pieces that hang together and are pinched at points of chosen numbers.

use crate::faults::pinch;
use crate::prng::Dice;
use crate::script::Script;
use crate::solids::{self, closed, Solid};

/// The ends of words of 64 marks, to be the lowest polygon not reached. 254 is the highest that can be: 255 would be a piece of one
/// polygon, which uses no edge twice unless it fails 03.
pub const NUMBERS: &[usize] = &[1, 62, 63, 64, 65, 126, 127, 128, 129, 190, 191, 192, 193, 254];

/// Counts of polygons about the ends of words.
pub const COUNTS: &[usize] = &[63, 64, 65, 127, 128, 129, 191, 192, 193, 255, 256];

/// Points whose marks are at the ends of words of 64.
const POINTS: &[usize] = &[0, 1, 62, 63, 64, 65, 127, 128, 191, 192, 255, 256, 257, 319, 320, 383, 384, 447, 448, 510, 511];

/// A triangular tower whose points go round and up, one at a time: from its floor to its top is a long way across edges. Any count from
/// 4 on; all triangles, which take the fewest entries, but for one parallelogram where the count is odd.
fn spiral(dice: &mut Dice, polygons: usize) -> Solid {
    let points = polygons.div_ceil(2) + 2;
    let column = |k: usize| [(0, 0), (3, 0), (0, 3)][k % 3];
    let mut solid = Solid { points: (0..points).map(|k| [column(k).0, column(k).1, k as i64]).collect(), rings: vec![] };
    let joined = (polygons % 2 == 1).then(|| dice.below(points - 4));
    solid.rings.push(closed(&[0, 2, 1]));
    for k in 0..points - 3 {
        if joined == Some(k) {
            solid.rings.push(closed(&[k, k + 1, k + 4, k + 3]));
        } else {
            solid.rings.push(closed(&[k, k + 1, k + 3]));
        }
        if k == 0 || joined != Some(k - 1) {
            solid.rings.push(closed(&[k + 2, k, k + 3]));
        }
    }
    solid.rings.push(closed(&[points - 3, points - 2, points - 1]));
    solid
}

/// A pyramid up and one down over the same outline: two points with a corner of half of the polygons each.
fn two_pyramids(dice: &mut Dice, corners: usize) -> Solid {
    let mut solid = solids::pyramid(&solids::outline(dice, corners), [1, 0, 5]);
    solid.rings.remove(0);
    let below: Vec<Vec<usize>> = (0..corners).map(|i| closed(&[(i + 1) % corners, i, corners + 1])).collect();
    solid.points.push([1, 0, -5]);
    solid.rings.extend(below);
    solid
}

/// A triangle from both sides, or a parallelogram of which one side is two triangles: closed, without volume.
fn leaf(polygons: usize) -> Solid {
    let points = vec![[0, 0, 0], [2, 0, 0], [2, 2, 0], [0, 2, 0]];
    let rings: &[&[usize]] = if polygons == 2 { &[&[0, 1, 2], &[2, 1, 0]] } else { &[&[0, 1, 2], &[0, 2, 3], &[3, 2, 1, 0]] };
    Solid { points, rings: rings.iter().map(|corners| closed(corners)).collect() }
}

/// A closed piece of so many polygons, 2 or more; `lean` where its rings must be short.
fn piece(dice: &mut Dice, polygons: usize, lean: bool) -> Solid {
    let storeys = polygons / 4;
    match dice.below(8) {
        _ if polygons < 4 => leaf(polygons),
        0 if polygons % 2 == 0 && polygons > 4 => two_pyramids(dice, polygons / 2),
        1 if !lean && (5..130).contains(&polygons) => solids::prism(&solids::outline(dice, polygons - 2), 4),
        2 if !lean && polygons < 129 => solids::pyramid(&solids::outline(dice, polygons - 1), [1, 0, 5]),
        3 | 4 if !lean && polygons == 4 * storeys + 2 => solids::tower(storeys),
        _ if polygons == 32 || polygons == 128 => solids::ball(dice, if polygons == 32 { 1 } else { 2 }),
        _ => spiral(dice, polygons),
    }
}

/// A list along, backwards or at random.
fn ordered<T>(dice: &mut Dice, list: &mut [T]) {
    match dice.below(4) {
        0 => {}
        1 => list.reverse(),
        _ => dice.shuffle(list),
    }
}

/// The sizes of pieces that have `polygons` together, polygon 0 being in the first, of at least `first`; all even where no ring may have
/// more than 4 entries.
fn sizes(dice: &mut Dice, polygons: usize, first: usize) -> Vec<usize> {
    let step = if polygons == 256 { 2 } else { 1 };
    let least = first.max(2).next_multiple_of(step);
    let between = least + step * dice.below((polygons - 2 - least) / step + 1);
    let own = *dice.pick(&[least, polygons - 2, between]);
    let (mut sizes, mut left, most) = (vec![own], polygons - own, if polygons > 140 { 3 } else { 12 });
    while left > 5 && sizes.len() < most && !dice.once_in(3) {
        let any = 2 + step * dice.below((left - 4) / step + 1);
        let next = *dice.pick(&[2, 4, any]);
        sizes.push(next);
        left -= next;
    }
    sizes.push(left);
    sizes
}

/// Pieces side by side, and the rings of each.
fn side_by_side(dice: &mut Dice, sizes: &[usize]) -> (Solid, Vec<Vec<Vec<usize>>>) {
    let lean = sizes.iter().sum::<usize>() > 140;
    let (mut all, mut rings, mut from) = (Solid::default(), vec![], 0);
    for &size in sizes {
        let mut next = piece(dice, size, lean);
        let low = next.points.iter().map(|point| point[0]).min().unwrap_or(0);
        next.each_point(|p| [p[0] - low + from, p[1], p[2]]);
        from = next.points.iter().map(|point| point[0]).max().unwrap_or(0) + 2;
        let before = all.rings.len();
        all.join(&next);
        rings.push(all.rings[before..].to_vec());
    }
    (all, rings)
}

/// A building of several pieces in which `named` is the lowest polygon not reached from polygon 0.
fn in_pieces(dice: &mut Dice, polygons: usize, named: usize) -> Solid {
    let sizes = sizes(dice, polygons, named);
    let (mut solid, mut rings) = side_by_side(dice, &sizes);
    rings.iter_mut().for_each(|of_piece| ordered(dice, of_piece));
    let mut own = rings.remove(0);
    let mut others = rings.concat();
    if dice.once_in(2) {
        dice.shuffle(&mut others);
    }
    let mut later = own.split_off(named);
    own.push(others.remove(0));
    match dice.below(3) {
        0 => later.extend(others),
        1 => later = [others, later].concat(),
        _ => {
            later.extend(others);
            dice.shuffle(&mut later);
        }
    }
    solid.rings = [own, later].concat();
    solid
}

/// Each point in a table of `count`, the first ones at the given numbers, the others along, backwards or at random among those left;
/// what is between them is in no ring.
pub fn number_points(dice: &mut Dice, solid: &mut Solid, first: &[(usize, usize)], count: usize) {
    let mut left: Vec<usize> = (0..count).filter(|number| first.iter().all(|(_, taken)| taken != number)).collect();
    dice.shuffle(&mut left);
    left.truncate(solid.points.len() - first.len());
    left.sort_unstable();
    ordered(dice, &mut left);
    let chosen = |point: usize| first.iter().find(|(each, _)| *each == point).map(|(_, number)| *number);
    let numbers: Vec<usize> = (0..solid.points.len()).map(|k| chosen(k).unwrap_or_else(|| left.pop().expect("enough"))).collect();
    let mut points: Vec<_> = (0..count as i64).map(|k| [-10 - k, k % 7, k % 5]).collect();
    numbers.iter().zip(&solid.points).for_each(|(&number, &point)| points[number] = point);
    solid.points = points;
    solid.rings.iter_mut().flatten().for_each(|entry| *entry = numbers[*entry]);
}

/// As many points as there are, or some more.
fn count_of_points(dice: &mut Dice, solid: &Solid) -> usize {
    let used = solid.points.len();
    *dice.pick(&[used, used, used, (used + 70).min(512)])
}

/// Polygons in another order, rings begun at another entry.
fn number_polygons(dice: &mut Dice, solid: &mut Solid) {
    ordered(dice, &mut solid.rings);
    for ring in &mut solid.rings {
        ring.pop();
        ring.rotate_left(dice.below(3));
        ring.push(ring[0]);
    }
}

/// One piece: nothing to be named by 0B.
fn whole(dice: &mut Dice, polygons: usize) -> Solid {
    let mut solid = piece(dice, polygons, polygons > 140);
    number_polygons(dice, &mut solid);
    let count = count_of_points(dice, &solid);
    number_points(dice, &mut solid, &[], count);
    solid
}

/// A spiral pinched at one to three points, two or three points of one column becoming one: far enough from each other to have no
/// neighbour in common, and with no triangle on one line. Their numbers are chosen, and so are two corners of the lowest one.
fn pinched(dice: &mut Dice) -> Solid {
    let polygons = *dice.pick(&[64, 64, 128, 128, 192, 256, 256]);
    let mut solid = spiral(dice, polygons);
    number_polygons(dice, &mut solid);
    let mut far: Vec<usize> = (dice.below(3)..solid.points.len()).step_by(9).collect();
    dice.shuffle(&mut far);
    let count = *dice.pick(&[solid.points.len(), solid.points.len() + 140, 512]);
    let mut numbers: Vec<usize> = POINTS.iter().copied().filter(|&number| number < count).collect();
    dice.shuffle(&mut numbers);
    numbers.truncate(1 + dice.below(3));
    numbers.sort_unstable();
    let mut first = vec![];
    for number in numbers {
        let fans = if dice.once_in(4) { 3 } else { 2 };
        if far.len() < fans {
            break;
        }
        let at: Vec<usize> = far.drain(..fans).collect();
        if first.is_empty() {
            place_corners(dice, &mut solid, [at[0], at[1]]);
        }
        solid.rings.iter_mut().flatten().filter(|entry| at[1..].contains(*entry)).for_each(|entry| *entry = at[0]);
        first.push((at[0], number));
    }
    number_points(dice, &mut solid, &first, count);
    solid
}

/// All polygons at two points last, or a corner of each so many entries apart that they are at the same place in two words: half of
/// all, or 64. All rings are triangles.
fn place_corners(dice: &mut Dice, solid: &mut Solid, points: [usize; 2]) {
    if dice.once_in(3) {
        return solid.rings.sort_by_key(|ring| points.iter().any(|point| ring.contains(point)));
    }
    let mut corners = vec![];
    for point in points {
        let there: Vec<usize> = (0..solid.rings.len()).filter(|&k| solid.rings[k].contains(&point)).collect();
        let mut ring = solid.rings.remove(*dice.pick(&there));
        ring.pop();
        let at = ring.iter().position(|&entry| entry == point).expect("it is there");
        ring.rotate_left(at);
        corners.push(closed(&ring));
    }
    let apart = *dice.pick(&[128, 128, 16]).min(&(solid.rings.len() / 2 + 1));
    let from = dice.below(solid.rings.len() + 2 - apart);
    for (k, ring) in corners.into_iter().enumerate() {
        solid.rings.insert(from + k * apart, ring);
    }
}

/// A ball pinched somewhere, numbered at random.
fn pinched_ball(dice: &mut Dice) -> Solid {
    let mut solid = solids::ball(dice, 2);
    (0..1 + dice.below(3)).for_each(|_| pinch(dice, &mut solid));
    number_polygons(dice, &mut solid);
    let count = *dice.pick(&[66, 130, 260, 320]);
    number_points(dice, &mut solid, &[], count);
    solid
}

/// A building in pieces, of a count at the end of a word with a polygon named not far from it, or of a few polygons more than the one
/// that is to be named.
fn some_pieces(dice: &mut Dice) -> Solid {
    let count = *dice.pick(COUNTS);
    let fitting: Vec<usize> = NUMBERS.iter().rev().copied().filter(|named| named + 2 <= count).take(4).collect();
    let (named, polygons) = match dice.below(9) {
        0 => (1 + dice.below(count - 2), count),
        1..=4 => (*dice.pick(&fitting), count),
        _ => {
            let named = *dice.pick(NUMBERS);
            (named, (named + 2 + dice.below(20)).clamp(4, 256))
        }
    };
    let mut solid = in_pieces(dice, polygons, named);
    let count = count_of_points(dice, &solid);
    number_points(dice, &mut solid, &[], count);
    solid
}

/// A building for one load.
fn building(dice: &mut Dice) -> Solid {
    match dice.below(12) {
        0..=3 => {
            let count = *dice.pick(COUNTS);
            whole(dice, count)
        }
        4 | 5 => pinched(dice),
        6 if dice.once_in(3) => pinched_ball(dice),
        _ => some_pieces(dice),
    }
}

/// One or more loads, some with a turn there and back, a move and a question.
pub fn stream(dice: &mut Dice) -> Vec<u8> {
    let mut script = Script::default();
    for _ in 0..1 + dice.below(3) {
        let mut solid = building(dice);
        solid.tumble(dice);
        if dice.once_in(2) {
            solid.shear(dice);
        }
        solid.set_down(dice);
        if dice.once_in(8) {
            solid.turn_all();
        }
        let mut next = Script::default();
        next.load(*dice.pick(&[0, 0, 10]), &solid, dice);
        if dice.once_in(4) {
            let (polygon, point) = (dice.below(solid.rings.len()), dice.below(solid.points.len()));
            next.turn(1, polygon);
            next.turn(2, polygon);
            next.shift(3, point, solid.points[point]);
            next.question(polygon);
        }
        if script.lines.len() + next.lines.len() <= 1_024 {
            script.lines.extend(next.lines);
        }
    }
    script.bytes(dice)
}
