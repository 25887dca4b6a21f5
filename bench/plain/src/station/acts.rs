//! The acts of a station.

use super::{RouteState, Station};
use crate::layout::{Kind, Position};
use crate::sheet::Sheet;

/// What the outdoor equipment tells, with the number of an element or section and a value.
#[derive(Clone, Copy, Debug, PartialEq, Eq)]
pub enum Event {
    /// A point or derailer reports plus (0), minus (1) or no control (2).
    Report { element: u8, value: u8 },
    /// A point or derailer is blocked (1) or not (0).
    Block { element: u8, value: u8 },
    /// The stop lamp of a signal burns (1) or is dark (0).
    Lamp { signal: u8, value: u8 },
    /// A section is occupied (1) or free (0).
    Occupation { section: u8, value: u8 },
}

/// What can be done with an open station.
#[derive(Clone, Copy, Debug, PartialEq, Eq)]
pub enum Act {
    Set { route: u8 },
    Clear { route: u8 },
    Release { route: u8 },
    Tell { event: Event },
}

/// Why an act is refused, with its number.
#[derive(Clone, Copy, Debug, PartialEq, Eq)]
pub enum Refusal {
    NoSuchRoute = 10,
    StandsAlready,
    SectionInUse,
    HeldOtherwise,
    NotStanding,
    PathOccupied,
    NotOfThePlan,
    ListTooShort,
}

impl Refusal {
    pub fn number(self) -> u8 {
        self as u8
    }
}

impl Station {
    /// Performs an act, or says why not. After an accepted act all settles; a refused one changes nothing.
    pub fn perform(&mut self, act: Act) -> Result<(), Refusal> {
        match act {
            Act::Set { route } => self.set(route),
            Act::Clear { route } => self.clear(route),
            Act::Release { route } => self.release(route),
            Act::Tell { event } => self.take(event),
        }?;
        self.settle();
        Ok(())
    }

    /// The sheet of a route of the plan, and its state.
    fn route(&self, route: u8) -> Result<(&Sheet, RouteState), Refusal> {
        let sheet = self.plan.sheet(route).ok_or(Refusal::NoSuchRoute)?;
        Ok((sheet, self.states[usize::from(route)]))
    }

    /// Whether no standing route uses a section of the route with no excuse.
    fn is_apart(&self, sheet: &Sheet) -> bool {
        self.plan
            .sheets()
            .iter()
            .zip(&self.states)
            .all(|(other, state)| !state.stands() || !sheet.clashes_with(other))
    }

    /// Whether what a route needs itself may be held so.
    fn fits(&self, sheet: &Sheet) -> bool {
        sheet
            .needs
            .iter()
            .all(|need| self.hold(need.element).is_open_to(need.position))
    }

    fn set(&mut self, route: u8) -> Result<(), Refusal> {
        let (sheet, state) = self.route(route)?;
        if state.stands() {
            return Err(Refusal::StandsAlready);
        }
        if !self.is_apart(sheet) {
            return Err(Refusal::SectionInUse);
        }
        if !self.fits(sheet) {
            return Err(Refusal::HeldOtherwise);
        }
        self.change(route, RouteState::Waiting);
        self.grant_needs(route);
        self.grant_requests(route);
        self.send_orders(route);
        Ok(())
    }

    fn clear(&mut self, route: u8) -> Result<(), Refusal> {
        let (_, state) = self.route(route)?;
        if !state.stands() {
            return Err(Refusal::NotStanding);
        }
        if state == RouteState::Dropped {
            self.change(route, RouteState::Waiting);
        }
        self.grant_requests(route);
        self.send_orders(route);
        Ok(())
    }

    fn release(&mut self, route: u8) -> Result<(), Refusal> {
        let (sheet, state) = self.route(route)?;
        if !state.stands() {
            return Err(Refusal::NotStanding);
        }
        if !self.field.are_free(sheet.path_sections) {
            return Err(Refusal::PathOccupied);
        }
        self.change(route, RouteState::Absent);
        self.leave_all(route);
        Ok(())
    }

    /// Whether the plan has something of the kind with the number, and the value is in its range.
    fn is_event(&self, event: Event) -> bool {
        match event {
            Event::Report { element, value } => self.moves(element) && value < 3,
            Event::Block { element, value } => self.moves(element) && value < 2,
            Event::Lamp { signal, value } => {
                self.plan.kind(signal) == Some(Kind::Signal) && value < 2
            }
            Event::Occupation { section, value } => self.plan.has_section(section) && value < 2,
        }
    }

    fn moves(&self, element: u8) -> bool {
        self.plan.kind(element).is_some_and(Kind::moves)
    }

    fn take(&mut self, event: Event) -> Result<(), Refusal> {
        if !self.is_event(event) {
            return Err(Refusal::NotOfThePlan);
        }
        match event {
            Event::Report { element, value } => {
                self.field.tell_report(element, Position::with(value));
            }
            Event::Block { element, value } => self.field.tell_block(element, value == 1),
            Event::Lamp { signal, value } => self.field.tell_lamp(signal, value == 1),
            Event::Occupation { section, value } => {
                self.field.tell_occupation(section, value == 1);
            }
        }
        Ok(())
    }
}
