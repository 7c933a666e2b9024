//! One building: points, polygons of one ring each, one tolerance.

/// A place in mm, or a difference of two places.
#[derive(Clone, Copy, Debug, PartialEq, Eq)]
pub struct Place {
    pub x: i128,
    pub y: i128,
    pub z: i128,
}

impl Place {
    pub fn minus(self, other: Place) -> Place {
        Place { x: self.x - other.x, y: self.y - other.y, z: self.z - other.z }
    }

    pub fn plus(self, other: Place) -> Place {
        Place { x: self.x + other.x, y: self.y + other.y, z: self.z + other.z }
    }

    pub fn dot(self, other: Place) -> i128 {
        self.x * other.x + self.y * other.y + self.z * other.z
    }

    pub fn cross(self, other: Place) -> Place {
        Place {
            x: self.y * other.z - self.z * other.y,
            y: self.z * other.x - self.x * other.z,
            z: self.x * other.y - self.y * other.x,
        }
    }
}

pub const ORIGIN: Place = Place { x: 0, y: 0, z: 0 };

/// "One building is held at a time: points, polygons of one ring each, one tolerance." A ring is its list of point numbers.
#[derive(Clone, Debug, Default, PartialEq, Eq)]
pub struct Tables {
    pub tolerance: i128,
    pub points: Vec<Place>,
    pub polygons: Vec<Vec<usize>>,
}

impl Tables {
    /// The places of a polygon's entries, in order.
    pub fn places(&self, polygon: usize) -> Vec<Place> {
        self.polygons[polygon].iter().map(|&number| self.points[number]).collect()
    }

    /// "entries [...] in all rings"
    pub fn entries(&self) -> usize {
        self.polygons.iter().map(|ring| ring.len()).sum()
    }
}
