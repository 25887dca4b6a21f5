//! Who holds an element, and how a route comes into holds and out of them.

use super::{RouteState, Station};
use crate::layout::Position;
use crate::numbers::Numbers;

/// The position in which an element is held, and the routes that hold it.
#[derive(Clone, Copy, Debug)]
pub struct Hold {
    pub position: Position,
    pub routes: Numbers,
}

impl Default for Hold {
    fn default() -> Hold {
        Hold {
            position: Position::Plus,
            routes: Numbers::default(),
        }
    }
}

impl Hold {
    /// The route joins, in this position.
    fn join(&mut self, route: u8, position: Position) {
        self.position = position;
        self.routes.insert(route);
    }

    /// Whether the route holds the element in this position.
    pub fn is_in(&self, route: u8, position: Position) -> bool {
        self.position == position && self.routes.contains(route)
    }

    /// Whether nobody holds the element, or it is held in this position.
    pub fn is_open_to(&self, position: Position) -> bool {
        self.position == position || self.routes.is_empty()
    }
}

impl Station {
    pub(super) fn hold(&self, element: u8) -> &Hold {
        &self.holds[usize::from(element)]
    }

    /// The route joins the holds of what it needs itself.
    pub(super) fn grant_needs(&mut self, route: u8) {
        for need in &self.plan.sheets()[usize::from(route)].needs {
            self.holds[usize::from(need.element)].join(route, need.position);
        }
    }

    /// The route joins the holds of what it requests, where they are open to it.
    pub(super) fn grant_requests(&mut self, route: u8) {
        for request in &self.plan.sheets()[usize::from(route)].requests {
            let hold = &mut self.holds[usize::from(request.element)];
            if hold.is_open_to(request.position) {
                hold.join(route, request.position);
            }
        }
    }

    /// The route leaves all holds.
    pub(super) fn leave_all(&mut self, route: u8) {
        for hold in &mut self.holds {
            hold.routes.remove(route);
        }
    }

    pub(super) fn change(&mut self, route: u8, state: RouteState) {
        self.states[usize::from(route)] = state;
    }

    /// Sends the orders of a route: to each point and derailer that it holds, that does not report its position, whose
    /// section is free, and that is not blocked.
    pub(super) fn send_orders(&mut self, route: u8) {
        for ordered in &self.plan.sheets()[usize::from(route)].ordered {
            let hold = &self.holds[usize::from(ordered.element)];
            let device = self.field.device(ordered.element);
            let is_free = ordered
                .section
                .is_none_or(|section| !self.field.is_occupied(section));
            if hold.routes.contains(route)
                && device.report != Some(hold.position)
                && is_free
                && !device.blocked
            {
                self.field.order(ordered.element, hold.position);
            }
        }
    }
}
