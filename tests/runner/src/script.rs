//! Writing frames.

use crate::prng::Dice;
use crate::solids::{Solid, P};

/// A stream in the making: its lines without their line feeds.
#[derive(Clone, Debug, Default)]
pub struct Script {
    pub lines: Vec<Vec<u8>>,
}

fn place(p: P) -> String {
    format!("{:08X}{:08X}{:08X}", p[0] as i32, p[1] as i32, p[2] as i32)
}

impl Script {
    pub fn raw(&mut self, line: impl AsRef<[u8]>) {
        self.lines.push(line.as_ref().to_vec());
    }

    pub fn begin(&mut self, tolerance: usize) {
        self.raw(format!("01{tolerance:04X}"));
    }

    pub fn point(&mut self, p: P) {
        self.raw(format!("02{}", place(p)));
    }

    pub fn polygon(&mut self, ring: &[usize]) {
        let entries: String = ring.iter().map(|entry| format!("{entry:04X}")).collect();
        self.raw(format!("03{entries}"));
    }

    pub fn end(&mut self) {
        self.raw("04");
    }

    pub fn shift(&mut self, number: u32, point: usize, p: P) {
        self.raw(format!("05{number:08X}{point:04X}{}", place(p)));
    }

    pub fn turn(&mut self, number: u32, polygon: usize) {
        self.raw(format!("06{number:08X}{polygon:04X}"));
    }

    pub fn question(&mut self, polygon: usize) {
        self.raw(format!("07{polygon:04X}"));
    }

    pub fn across(&mut self, ends: [usize; 2]) {
        self.raw(format!("0C{:04X}{:04X}", ends[0], ends[1]));
    }

    /// Points, then polygons; sometimes each polygon as soon as its points are there.
    pub fn tables(&mut self, dice: &mut Dice, solid: &Solid) {
        if dice.once_in(4) {
            self.interleaved(solid);
            return;
        }
        solid.points.iter().for_each(|&point| self.point(point));
        solid.rings.iter().for_each(|ring| self.polygon(ring));
    }

    fn interleaved(&mut self, solid: &Solid) {
        let mut given = 0;
        for ring in &solid.rings {
            let needed = ring.iter().map(|entry| entry + 1).max().unwrap_or(0);
            while given < needed.min(solid.points.len()) {
                self.point(solid.points[given]);
                given += 1;
            }
            self.polygon(ring);
        }
        solid.points[given..].iter().for_each(|&point| self.point(point));
    }

    pub fn load(&mut self, tolerance: usize, solid: &Solid, dice: &mut Dice) {
        self.begin(tolerance);
        self.tables(dice, solid);
        self.end();
    }

    /// Questions on every polygon, or on some of many.
    pub fn questions(&mut self, dice: &mut Dice, polygons: usize) {
        if polygons <= 40 {
            (0..polygons).for_each(|polygon| self.question(polygon));
        } else {
            (0..20).for_each(|_| self.question(dice.below(polygons)));
        }
    }

    /// The bytes; the last line feed is sometimes left out.
    pub fn bytes(&self, dice: &mut Dice) -> Vec<u8> {
        let mut bytes = self.lines.join(&b'\n');
        let needs_feed = self.lines.last().is_some_and(|last| last.is_empty());
        if !self.lines.is_empty() && (needs_feed || !dice.once_in(4)) {
            bytes.push(b'\n');
        }
        bytes
    }
}

/// Corrections of one ring, each with a question after it.
pub struct Asking<'a> {
    pub script: &'a mut Script,
    pub number: u32,
    pub polygon: usize,
}

impl Asking<'_> {
    pub fn shift(&mut self, point: usize, to: P) {
        self.number += 1;
        self.script.shift(self.number, point, to);
        self.script.question(self.polygon);
    }

    pub fn turn(&mut self) {
        self.number += 1;
        self.script.turn(self.number, self.polygon);
        self.script.question(self.polygon);
    }
}
