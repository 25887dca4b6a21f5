//! The checked plan.

use crate::fault::{Cause, Fault};
use crate::layout::{Drawing, Element, Kind, Port};
use crate::numbers::Numbers;
use crate::reading::read_drawing;
use crate::sheet::Sheet;

/// A drawing that passed all checks, with a sheet for each route.
#[derive(Clone, Debug)]
pub struct Plan {
    drawing: Drawing,
    sheets: Vec<Sheet>,
    /// The sections in which some element lies.
    sections: Numbers,
}

/// A plan end joined to another one.
fn end_to(element: u8) -> Element {
    Element {
        kind: Kind::PlanEnd,
        joins: [Some(Port { element, port: 0 }), None, None],
        section: None,
        dual: None,
        sort: None,
        marks: None,
    }
}

/// The sheets of all routes in turn, or the first fault of a route.
fn checked_sheets(drawing: &Drawing) -> Result<Vec<Sheet>, Fault> {
    let mut sheets = Vec::with_capacity(drawing.routes.len());
    for (place, route) in drawing.routes.iter().enumerate() {
        let fault = |cause| Err(Fault { cause, place });
        if !drawing.has_sound_path(route) {
            return fault(Cause::Path);
        }
        if !drawing.has_allowed_overlap(route) {
            return fault(Cause::Overlap);
        }
        let flanks = drawing.flanks(route);
        if drawing.asks_both_ways(&flanks.requests) {
            return fault(Cause::BothWays);
        }
        sheets.push(drawing.sheet(route, flanks));
    }
    Ok(sheets)
}

impl Plan {
    /// A plan of two plan ends joined to each other, with no route.
    pub fn fresh() -> Plan {
        Plan {
            drawing: Drawing {
                elements: vec![end_to(1), end_to(0)],
                routes: Vec::new(),
            },
            sheets: Vec::new(),
            sections: Numbers::default(),
        }
    }

    /// Takes up what the bytes draw; on a fault the plan keeps its content.
    pub fn read(&mut self, bytes: &[u8]) -> Result<(), Fault> {
        let drawing = read_drawing(bytes)?;
        drawing.check_elements()?;
        self.sheets = checked_sheets(&drawing)?;
        self.sections = drawing
            .elements
            .iter()
            .filter_map(|element| element.section)
            .collect();
        self.drawing = drawing;
        Ok(())
    }

    pub fn drawing(&self) -> &Drawing {
        &self.drawing
    }

    /// The kind of an element, if the plan has it.
    pub fn kind(&self, element: u8) -> Option<Kind> {
        let element = self.drawing.elements.get(usize::from(element))?;
        Some(element.kind)
    }

    pub fn has_section(&self, section: u8) -> bool {
        self.sections.contains(section)
    }

    pub fn sheets(&self) -> &[Sheet] {
        &self.sheets
    }

    /// The sheet of a route, if the plan has it.
    pub fn sheet(&self, route: u8) -> Option<&Sheet> {
        self.sheets.get(usize::from(route))
    }
}
