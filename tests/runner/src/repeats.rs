//! Rings whose numbers stand twice, or nearly: where a program that marks the points it has met could take one for another, mark the
//! closing entry, or keep the marks of the ring before.

use crate::prng::Dice;
use crate::script::Script;
use oracle::ring::{fails_01, fails_02, fails_03};

/// What must be reached of check 03, in rings that pass 01 and 02.
pub const NAMES: &[&str] = &[
    "03 passes, 128 entries",
    "03 passes, numbers 64 apart",
    "03 passes, numbers 256 apart",
    "03 passes, 64 numbers in a row",
    "03 passes, the ring before it has all its numbers",
    "03 fails, the ring before it has all its numbers and passes",
    "03 fails, ring of 4 entries",
    "03 fails, 128 entries, one number twice",
    "03 fails by the first number alone",
    "03 fails by two entries next to each other alone",
    "03 fails at the entry before the closing one alone",
    "03 fails by number 511 alone",
    "03 fails by a number that stands three times",
];

/// What a ring reaches, by the oracle's account; `before` is the ring before it.
pub fn reached(ring: &[usize], before: &[usize]) -> Vec<&'static str> {
    if fails_01(ring) || fails_02(ring) {
        return vec![];
    }
    let entries = &ring[..ring.len() - 1];
    let known = entries.iter().all(|entry| before.contains(entry));
    let again: Vec<usize> = (0..entries.len()).filter(|&at| entries[..at].contains(&entries[at])).collect();
    let apart = |by: usize| entries.iter().any(|entry| entries.contains(&(entry + by)));
    let found = if fails_03(ring) {
        let (at, number) = (again[0], entries[again[0]]);
        let once = again.len() == 1;
        vec![
            (
                known && !fails_01(before) && !fails_02(before) && !fails_03(before),
                "03 fails, the ring before it has all its numbers and passes",
            ),
            (ring.len() == 4, "03 fails, ring of 4 entries"),
            (once && ring.len() == 128, "03 fails, 128 entries, one number twice"),
            (once && number == entries[0], "03 fails by the first number alone"),
            (once && entries[at - 1] == number, "03 fails by two entries next to each other alone"),
            (at == entries.len() - 1, "03 fails at the entry before the closing one alone"),
            (once && number == 511, "03 fails by number 511 alone"),
            (entries.iter().filter(|&&entry| entry == number).count() == 3, "03 fails by a number that stands three times"),
        ]
    } else {
        let row = |from: usize| (from..from + 64).all(|number| entries.contains(&number));
        vec![
            (ring.len() == 128, "03 passes, 128 entries"),
            (apart(64), "03 passes, numbers 64 apart"),
            (apart(256), "03 passes, numbers 256 apart"),
            (ring.len() > 64 && (0..8).any(|word| row(64 * word)), "03 passes, 64 numbers in a row"),
            (known, "03 passes, the ring before it has all its numbers"),
        ]
    };
    found.into_iter().filter(|(holds, _)| *holds).map(|(_, name)| name).collect()
}

/// Different numbers below `count`, which is 192 or more: at least three.
fn numbers(dice: &mut Dice, count: usize, last: &[usize]) -> Vec<usize> {
    let mut all: Vec<usize> = match dice.below(6) {
        0 => (dice.below(64)..count).step_by(64).collect(),
        1 => {
            let word = dice.below(count / 64);
            (64 * word..64 * word + 64).collect()
        }
        2 if last.len() >= 3 => last.to_vec(),
        3 => [0, 1, 62, 63, 64, 65, 127, 128, 255, 256, 447, 448, 510, 511].into_iter().filter(|&each| each < count).collect(),
        4 => (0..count).collect(),
        _ => (0..count).skip(dice.below(count - 8)).take(3 + dice.below(5)).collect(),
    };
    dice.shuffle(&mut all);
    if all.len() > 127 || dice.once_in(3) {
        all.truncate(*dice.pick(&[3, 4, 7, 39, 126, 127]));
    }
    all
}

/// One number, seldom two, takes the place of another.
fn repeat(dice: &mut Dice, entries: &mut [usize]) {
    let last = entries.len() - 1;
    for _ in 0..1 + usize::from(dice.once_in(5)) {
        let (from, to) = match dice.below(4) {
            0 => (0, 1 + dice.below(last)),
            1 => (dice.below(last), last),
            2 => {
                let at = dice.below(last);
                (at, at + 1)
            }
            _ => (dice.below(last), 1 + dice.below(last)),
        };
        entries[to] = entries[from];
    }
}

/// A load of many points and rings over them; some polygons turned; questions.
pub fn stream(dice: &mut Dice) -> Vec<u8> {
    let mut script = Script::default();
    script.begin(*dice.pick(&[0, 10, 1_000]));
    let count = *dice.pick(&[512, 512, 512, 256, 200]);
    let line = dice.once_in(3);
    for at in 0..count as i64 {
        let side = |dice: &mut Dice| if line { 0 } else { dice.between(-100_000, 100_000) };
        script.point([side(dice), side(dice), 7 * at - 1_700]);
    }
    let (mut entries, mut polygons, mut last) = (0, 0, vec![]);
    while polygons < 60 {
        let mut ring = numbers(dice, count, &last);
        last = ring.clone();
        if dice.once_in(2) {
            repeat(dice, &mut ring);
        }
        ring.push(ring[0]);
        entries += ring.len();
        if entries > 1_024 {
            break;
        }
        script.polygon(&ring);
        polygons += 1;
    }
    script.end();
    script.questions(dice, polygons);
    for number in 1..=3 {
        let polygon = dice.below(polygons);
        script.turn(number, polygon);
        script.question(polygon);
    }
    script.bytes(dice)
}
