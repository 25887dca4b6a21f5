//! The bytes of a plan file, read into a drawing.

use crate::fault::{Cause, Fault};
use crate::layout::{Class, Drawing, Dual, Element, Kind, Marks, Port, Position, Route, Sort};
use std::ops::RangeInclusive;

/// Steps through bytes.
struct Reader<'a> {
    bytes: &'a [u8],
    next: usize,
}

impl Reader<'_> {
    fn byte(&mut self) -> Result<u8, Fault> {
        let byte = self.bytes.get(self.next).ok_or(Fault {
            cause: Cause::Ended,
            place: self.next,
        })?;
        self.next += 1;
        Ok(*byte)
    }

    /// The next byte, which has a range.
    fn byte_in(&mut self, range: RangeInclusive<u8>) -> Result<u8, Fault> {
        let place = self.next;
        let byte = self.byte()?;
        if range.contains(&byte) {
            Ok(byte)
        } else {
            Err(Fault {
                cause: Cause::OutOfRange,
                place,
            })
        }
    }

    fn port(&mut self) -> Result<Port, Fault> {
        Ok(Port {
            element: self.byte()?,
            port: self.byte_in(0..=2)?,
        })
    }

    /// A count that has a range, then as many bytes.
    fn list(&mut self, counts: RangeInclusive<u8>) -> Result<Vec<u8>, Fault> {
        let count = self.byte_in(counts)?;
        (0..count).map(|_| self.byte()).collect()
    }

    /// A field of a record, if its map has the bit.
    fn field<T>(
        &mut self,
        map: u8,
        bit: u8,
        read: impl FnOnce(&mut Self) -> Result<T, Fault>,
    ) -> Result<Option<T>, Fault> {
        if map >> bit & 1 == 1 {
            read(self).map(Some)
        } else {
            Ok(None)
        }
    }

    fn element(&mut self) -> Result<Element, Fault> {
        let map = self.byte()?;
        let kind = self.field(map, 0, |reader| reader.byte_in(1..=4))?;
        let joins = [
            self.field(map, 1, Self::port)?,
            self.field(map, 2, Self::port)?,
            self.field(map, 3, Self::port)?,
        ];
        let section = self.field(map, 4, |reader| reader.byte_in(0..=63))?;
        let dual = self.field(map, 5, |reader| reader.byte_in(0..=2))?;
        let sort = self.field(map, 6, |reader| reader.byte_in(0..=2))?;
        let marks = self.field(map, 7, |reader| reader.byte_in(1..=3))?;
        Ok(Element {
            kind: kind.map_or(Kind::Track, kind_with),
            joins,
            section,
            dual: dual.map(dual_with),
            sort: sort.map(sort_with),
            marks: marks.map(marks_with),
        })
    }

    fn route(&mut self) -> Result<Route, Fault> {
        let map = self.byte_in(0..=15)?;
        let class = self.field(map, 0, |reader| reader.byte_in(1..=1))?;
        let path = self.field(map, 1, |reader| reader.list(3..=24))?;
        let overlap = self.field(map, 2, |reader| reader.list(1..=8))?;
        let zero_overlap = self.field(map, 3, |reader| reader.byte_in(1..=1))?;
        Ok(Route {
            class: class.map_or(Class::Shunting, |_| Class::Train),
            path: path.unwrap_or_default(),
            overlap: overlap.unwrap_or_default(),
            zero_overlap: zero_overlap.is_some(),
        })
    }

    fn end(&self) -> Result<(), Fault> {
        if self.next == self.bytes.len() {
            return Ok(());
        }
        Err(Fault {
            cause: Cause::LeftOver,
            place: self.next,
        })
    }
}

fn kind_with(number: u8) -> Kind {
    match number {
        1 => Kind::Point,
        2 => Kind::Derailer,
        3 => Kind::Signal,
        _ => Kind::PlanEnd,
    }
}

fn dual_with(number: u8) -> Dual {
    match number {
        0 => Dual::NoPreference,
        1 => Dual::Prefers(Position::Plus),
        _ => Dual::Prefers(Position::Minus),
    }
}

fn sort_with(number: u8) -> Sort {
    match number {
        0 => Sort::Shunting,
        1 => Sort::Train,
        _ => Sort::Entry,
    }
}

/// The marks whose sum this is.
fn marks_with(sum: u8) -> Marks {
    Marks {
        requested: sum & 1 != 0,
        lamp_spared: sum & 2 != 0,
    }
}

/// The drawing that the bytes say, or the first fault in the order of the bytes.
pub fn read_drawing(bytes: &[u8]) -> Result<Drawing, Fault> {
    let mut reader = Reader { bytes, next: 0 };
    let element_count = reader.byte_in(1..=96)?;
    let route_count = reader.byte_in(0..=64)?;
    let elements = (0..element_count)
        .map(|_| reader.element())
        .collect::<Result<_, _>>()?;
    let routes = (0..route_count)
        .map(|_| reader.route())
        .collect::<Result<_, _>>()?;
    reader.end()?;
    Ok(Drawing { elements, routes })
}
