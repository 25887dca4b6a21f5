//! The stations that are worked.

use crate::ring::{PLACES, ring, spot_at};

/// The smallest station, with one route, or the largest, with 96 elements and 64 routes.
#[derive(Clone, Copy, Debug)]
pub enum Site {
    Small,
    Full,
}

/// Routes that begin at one signal and run over one point.
#[derive(Clone, Copy, Debug)]
pub struct Place {
    pub signal: u8,
    /// The signal whose lamp is lit and darkened.
    pub lamp: u8,
    pub point: u8,
    /// The point that shields the flank of the other.
    pub shield: u8,
    /// The section of the point.
    pub section: u8,
    pub first_route: u8,
    pub last_route: u8,
}

/// Signals 1 and 3 with point 2 between them, and point 5 at its flank; a train route from 1 to 3.
const SMALL: &[u8] = b"\
    \x08\x01\
    \x03\x04\x01\x00\
    \x47\x03\x00\x00\x02\x00\x01\
    \x1F\x01\x01\x01\x03\x00\x05\x02\x00\
    \x47\x03\x02\x01\x04\x00\x01\
    \x03\x04\x03\x01\
    \x1F\x01\x06\x00\x07\x00\x02\x02\x01\
    \x03\x04\x05\x00\
    \x03\x04\x05\x01\
    \x03\x01\x03\x01\x02\x03";

/// The only place of the smallest station.
const ONLY_PLACE: Place = Place {
    signal: 1,
    lamp: 3,
    point: 2,
    shield: 5,
    section: 0,
    first_route: 0,
    last_route: 0,
};

/// A place of the ring.
fn ring_place(number: u8) -> Place {
    let spot = spot_at(number);
    Place {
        signal: spot.signal,
        lamp: spot.signal,
        point: spot.point,
        shield: spot.shield,
        section: spot.point_section,
        first_route: number * 4,
        last_route: number * 4 + 3,
    }
}

impl Site {
    /// The plan file of the station.
    pub fn bytes(self) -> Vec<u8> {
        match self {
            Site::Small => SMALL.to_vec(),
            Site::Full => ring(),
        }
    }

    /// Its places.
    pub fn places(self) -> Vec<Place> {
        match self {
            Site::Small => vec![ONLY_PLACE],
            Site::Full => (0..PLACES).map(ring_place).collect(),
        }
    }
}
