//! A plan that is read from its bytes, over and over.

use crate::sites::Site;
use crate::tally::Tally;
use plain::plan::Plan;
use std::hint::black_box;

/// Sees what a route requests at its flanks, and its open branches, in lists of eight places each.
fn see_flanks(tally: &mut Tally, plan: &Plan, route: u8) {
    let Some(sheet) = plan.sheet(route) else {
        return;
    };
    let mut requests = [(0, 0); 8];
    for (place, request) in requests.iter_mut().zip(&sheet.requests) {
        *place = (request.element, request.position.number());
    }
    let mut branches = [(0, 0); 8];
    for (place, branch) in branches.iter_mut().zip(&sheet.branches) {
        *place = (branch.from, branch.last);
    }
    for (first, second) in requests.into_iter().chain(branches) {
        tally.see(first);
        tally.see(second);
    }
}

/// Sees the section of each element, and the last element of the path of each route.
fn see_plan(tally: &mut Tally, plan: &Plan) {
    for element in &plan.drawing().elements {
        tally.see(element.section.unwrap_or(64));
    }
    for route in &plan.drawing().routes {
        tally.see(route.path.last().copied().unwrap_or(96));
    }
}

/// Reads the plan of a station a number of times.
pub fn read_over(site: Site, times: u32) -> Tally {
    let bytes = site.bytes();
    let mut plan = Plan::fresh();
    let mut tally = Tally::default();
    for _ in 0..times {
        match plan.read(black_box(&bytes)) {
            Ok(()) => tally.accept(),
            Err(fault) => tally.refuse(fault.cause.number()),
        }
    }
    see_plan(&mut tally, &plan);
    for route in 0..64 {
        see_flanks(&mut tally, &plan, route);
    }
    tally
}
