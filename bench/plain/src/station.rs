//! A station at work: holds by element, states by route, and the acts that change them.

mod acts;
mod holds;
mod settling;

pub use acts::{Act, Event, Refusal};

use crate::field::TableField;
use crate::flanks::Branch;
use crate::layout::{Kind, Position};
use crate::plan::Plan;
use crate::sheet::Aspect;
use holds::Hold;

/// What has become of a route.
#[derive(Clone, Copy, Debug, PartialEq, Eq)]
pub enum RouteState {
    /// Not set.
    Absent,
    /// Set, and not ready yet.
    Waiting,
    /// Ready: its start signal is permissive.
    Clear,
    /// No longer ready: its start signal is at stop until the route is cleared again.
    Dropped,
}

impl RouteState {
    pub fn number(self) -> u8 {
        self as u8
    }

    /// Whether the route stands: all but absent do.
    pub fn stands(self) -> bool {
        self != RouteState::Absent
    }
}

/// A request of a route, and whether the route holds the element as requested.
#[derive(Clone, Copy, Debug, PartialEq, Eq)]
pub struct Shield {
    pub element: u8,
    pub position: Position,
    pub is_held: bool,
}

/// An open station: it has its plan and its field to itself until it is closed.
pub struct Station {
    plan: Plan,
    field: TableField,
    /// By element.
    holds: Vec<Hold>,
    /// By route.
    states: Vec<RouteState>,
}

impl Station {
    /// Opens a station: nothing is held, and all routes are absent.
    pub fn open(plan: Plan, field: TableField) -> Station {
        Station {
            holds: vec![Hold::default(); plan.drawing().elements.len()],
            states: vec![RouteState::Absent; plan.sheets().len()],
            plan,
            field,
        }
    }

    /// Closes the station and hands plan and field back.
    pub fn close(self) -> (Plan, TableField) {
        (self.plan, self.field)
    }

    pub fn plan(&self) -> &Plan {
        &self.plan
    }

    pub fn field(&self) -> &TableField {
        &self.field
    }

    pub fn state(&self, route: u8) -> Result<RouteState, Refusal> {
        let state = self.states.get(usize::from(route));
        state.copied().ok_or(Refusal::NoSuchRoute)
    }

    /// What a signal shows.
    pub fn aspect(&self, signal: u8) -> Result<Aspect, Refusal> {
        if self.plan.kind(signal) == Some(Kind::Signal) {
            Ok(self.shown(signal))
        } else {
            Err(Refusal::NotOfThePlan)
        }
    }

    /// What the clear route shows that begins at a signal; stop where there is none.
    fn shown(&self, signal: u8) -> Aspect {
        self.plan
            .sheets()
            .iter()
            .zip(&self.states)
            .find(|(sheet, state)| **state == RouteState::Clear && sheet.start == signal)
            .map_or(Aspect::Stop, |(sheet, _)| sheet.showing)
    }

    /// The requests of a route, each held by it or not, and its open branches.
    pub fn protection(&self, route: u8) -> Result<(Vec<Shield>, &[Branch]), Refusal> {
        let sheet = self.plan.sheet(route).ok_or(Refusal::NoSuchRoute)?;
        let shields = sheet
            .requests
            .iter()
            .map(|request| Shield {
                element: request.element,
                position: request.position,
                is_held: self.hold(request.element).is_in(route, request.position),
            })
            .collect();
        Ok((shields, &sheet.branches))
    }
}
