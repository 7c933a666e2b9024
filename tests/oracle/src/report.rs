//! The report and the answer to a question.

use crate::ring::{finding, part, position};
use crate::shape::failure;
use crate::tables::Tables;

/// "check 2 digits, element a 4, element b 4, number of polygons with a finding of their own 4, six-volume 16"
#[derive(Clone, Copy, Debug, PartialEq, Eq)]
pub struct Report {
    pub check: u8,
    pub a: usize,
    pub b: usize,
    pub faulty: usize,
    pub six_volume: i128,
}

/// "The building's six-volume is the sum of the parts, whether it is accepted or not."
pub fn six_volume(tables: &Tables) -> i128 {
    (0..tables.polygons.len()).map(|polygon| part(&tables.places(polygon))).sum()
}

/// The finding of every polygon, in order.
pub fn findings(tables: &Tables) -> Vec<u8> {
    (0..tables.polygons.len()).map(|polygon| finding(tables, polygon)).collect()
}

/// "If any polygon has a finding, the report names the lowest such polygon as a, with its check". Document 02, (iii): "Reports show the
/// position as element b for these checks, in place of 0." "Only if none has one are these tried [...] Check 00 with 0, 0 is acceptance."
pub fn report(tables: &Tables) -> Report {
    let findings = findings(tables);
    let (check, a, b) = match findings.iter().position(|&finding| finding != 0) {
        Some(polygon) => (findings[polygon], polygon, position(tables, polygon)),
        None => failure(tables).unwrap_or((0, 0, 0)),
    };
    let faulty = findings.iter().filter(|&&finding| finding != 0).count();
    Report { check, a, b, faulty, six_volume: six_volume(tables) }
}

/// "six-volume 16 (two's complement)"
fn signed_16(value: i128) -> String {
    let value = i64::try_from(value).expect("every exact quantity fits a signed 64-bit number");
    format!("{:016X}", value as u64)
}

/// "04, 05, 06 accepted, the report"
pub fn report_line(report: Report) -> String {
    let Report { check, a, b, faulty, six_volume } = report;
    format!("00{check:02X}{a:04X}{b:04X}{faulty:04X}{}", signed_16(six_volume))
}

/// "07 accepted: `00`, the polygon's finding 2, its stamp 8, its part of the six-volume 16." Document 02, (iii): "The question's answer
/// grows by 4 digits after the finding, to 32 digits."
pub fn question_line(tables: &Tables, polygon: usize, stamp: i128) -> String {
    let finding = finding(tables, polygon);
    let position = position(tables, polygon);
    let part = part(&tables.places(polygon));
    format!("00{finding:02X}{position:04X}{stamp:08X}{}", signed_16(part))
}
