//! The checks of the elements of a drawing.

use crate::fault::{Cause, Fault};
use crate::layout::{Drawing, Element, Port, Sort};

/// Whether there is a join for each port of the kind and no other, and just the fields that the kind has.
fn has_its_fields(element: &Element) -> bool {
    let kind = element.kind;
    let has_its_joins = (0..)
        .zip(&element.joins)
        .all(|(port, join)| join.is_some() == (port < kind.port_count()));
    has_its_joins
        && element.section.is_some() == kind.has_section()
        && element.sort.is_some() == element.is_signal()
        && (element.dual.is_none() || element.is_point())
        && (element.marks.is_none() || element.is_signal())
}

/// Whether no two joins of an element go to the same other element.
fn are_joins_apart(element: &Element) -> bool {
    let joins = &element.joins;
    (1..joins.len()).all(|port| {
        joins[port].is_none_or(|join| {
            joins[..port]
                .iter()
                .flatten()
                .all(|earlier| earlier.element != join.element)
        })
    })
}

fn is_marked_entry(element: &Element) -> bool {
    element.sort == Some(Sort::Entry) && element.marks.is_some_and(|marks| marks.requested)
}

impl Drawing {
    /// Whether the join of a port goes to a port of another element that is joined back.
    fn is_joined_back(&self, here: Port, join: Port) -> bool {
        self.elements
            .get(usize::from(join.element))
            .is_some_and(|other| {
                join.element != here.element
                    && join.port < other.kind.port_count()
                    && other.joins[usize::from(join.port)] == Some(here)
            })
    }

    fn has_sound_joins(&self, number: usize) -> bool {
        let element = &self.elements[number];
        let are_joined_back = (0..).zip(&element.joins).all(|(port, join)| {
            let here = Port {
                element: number as u8,
                port,
            };
            join.is_none_or(|join| self.is_joined_back(here, join))
        });
        are_joined_back && are_joins_apart(element)
    }

    /// The first element that does not meet a demand is at fault.
    fn demand(&self, cause: Cause, is_met: impl Fn(usize, &Element) -> bool) -> Result<(), Fault> {
        let mut elements = self.elements.iter().enumerate();
        match elements.find(|(number, element)| !is_met(*number, element)) {
            Some((place, _)) => Err(Fault { cause, place }),
            None => Ok(()),
        }
    }

    /// Each demand over all elements.
    pub fn check_elements(&self) -> Result<(), Fault> {
        self.demand(Cause::Fields, |_, element| has_its_fields(element))?;
        self.demand(Cause::Join, |number, _| self.has_sound_joins(number))?;
        self.demand(Cause::EntryMarked, |_, element| !is_marked_entry(element))
    }
}
