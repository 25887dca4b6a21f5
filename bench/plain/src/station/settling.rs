//! When a route is ready, and how routes settle.

use super::{RouteState, Station};
use crate::flanks::Request;
use crate::layout::Kind;
use crate::sheet::{Aspect, Need, Sheet};

impl Station {
    /// Whether a point or derailer that the route needs is held by it and reported right.
    fn is_need_met(&self, route: u8, need: &Need) -> bool {
        !need.moves
            || self.hold(need.element).is_in(route, need.position)
                && self.field.device(need.element).report == Some(need.position)
    }

    /// Whether a request is granted, and the element shields: a signal by its burning lamp, any other by its report.
    fn is_request_met(&self, route: u8, request: &Request) -> bool {
        let device = self.field.device(request.element);
        let is_shielding = if self.plan.kind(request.element) == Some(Kind::Signal) {
            device.burning
        } else {
            device.report == Some(request.position)
        };
        is_shielding && self.hold(request.element).is_in(route, request.position)
    }

    /// Whether the end lamp, if there is one, burns or its signal is permissive.
    fn is_lamp_proved(&self, sheet: &Sheet) -> bool {
        sheet.end_lamp.is_none_or(|signal| {
            self.field.device(signal).burning || self.shown(signal) != Aspect::Stop
        })
    }

    fn is_ready(&self, route: u8) -> bool {
        let sheet = &self.plan.sheets()[usize::from(route)];
        sheet.needs.iter().all(|need| self.is_need_met(route, need))
            && sheet
                .requests
                .iter()
                .all(|request| self.is_request_met(route, request))
            && self.field.are_free(sheet.sections)
            && self.is_lamp_proved(sheet)
    }

    /// Moves each route on that is in one state and is ready or not, and says whether there was any.
    fn pass(&mut self, from: RouteState, ready: bool, to: RouteState) -> bool {
        let mut has_moved = false;
        for route in 0..self.states.len() {
            if self.states[route] == from && self.is_ready(route as u8) == ready {
                self.states[route] = to;
                has_moved = true;
            }
        }
        has_moved
    }

    /// Drops clear routes until every clear route is ready, then raises waiting routes until none of them is ready.
    pub(super) fn settle(&mut self) {
        while self.pass(RouteState::Clear, false, RouteState::Dropped) {}
        while self.pass(RouteState::Waiting, true, RouteState::Clear) {}
    }
}
