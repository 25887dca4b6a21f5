//! Rounds of work on a station: in each, every place sees its routes set, reported, dropped, cleared and released.

use crate::sites::{Place, Site};
use crate::tally::Tally;
use plain::field::TableField;
use plain::plan::Plan;
use plain::station::{Act, Event, Station};

impl Place {
    /// The routes of a place take turns.
    fn route(&self, turn: u32) -> u8 {
        let count = self.last_route - self.first_route + 1;
        self.first_route + (turn % u32::from(count)) as u8
    }
}

/// A station at work, and what came of it so far.
struct Bench {
    places: Vec<Place>,
    station: Station,
    tally: Tally,
}

impl Bench {
    fn act(&mut self, act: Act) {
        match self.station.perform(act) {
            Ok(()) => self.tally.accept(),
            Err(refusal) => self.tally.refuse(refusal.number()),
        }
    }

    fn take(&mut self, event: Event) {
        self.act(Act::Tell { event });
    }

    fn report(&mut self, element: u8, value: u8) {
        self.take(Event::Report { element, value });
    }

    fn light(&mut self, signal: u8, value: u8) {
        self.take(Event::Lamp { signal, value });
    }

    fn occupy(&mut self, section: u8, value: u8) {
        self.take(Event::Occupation { section, value });
    }

    /// Sets a route of a place, and reports its points. The next route over the same point is refused.
    fn set(&mut self, place: Place, turn: u32) {
        let route = place.route(turn);
        self.act(Act::Set { route });
        let next_route = place.route(turn.wrapping_add(1));
        self.act(Act::Set { route: next_route });
        self.report(place.point, 0);
        self.report(place.shield, 0);
        self.light(place.lamp, 1);
    }

    /// The shielding point of a place loses its control and has it again: the route drops, and is cleared.
    fn disturb(&mut self, place: Place, turn: u32) {
        let route = place.route(turn);
        self.report(place.shield, 2);
        self.report(place.shield, 0);
        self.act(Act::Clear { route });
    }

    /// A train passes, and the route is not released under it. Then it is, its signal goes dark, and its point is no longer reported.
    fn release(&mut self, place: Place, turn: u32) {
        let route = place.route(turn);
        self.occupy(place.section, 1);
        self.act(Act::Release { route });
        self.occupy(place.section, 0);
        self.act(Act::Release { route });
        self.light(place.lamp, 0);
        self.report(place.point, 2);
    }

    /// Sees the aspect of the signal of each place, and the states of its routes.
    fn look(&mut self) {
        for place in &self.places {
            if let Ok(aspect) = self.station.aspect(place.signal) {
                self.tally.see(aspect.number());
            }
            for route in place.first_route..=place.last_route {
                if let Ok(state) = self.station.state(route) {
                    self.tally.see(state.number());
                }
            }
        }
    }

    /// One step of a round, at all places in turn.
    fn everywhere(&mut self, step: impl Fn(&mut Bench, Place)) {
        for number in 0..self.places.len() {
            step(self, self.places[number]);
        }
        self.look();
    }

    fn round(&mut self, turn: u32) {
        self.everywhere(|bench, place| bench.set(place, turn));
        self.everywhere(|bench, place| bench.disturb(place, turn));
        self.everywhere(|bench, place| bench.release(place, turn));
    }
}

/// Works a station for a number of rounds.
pub fn worked(site: Site, rounds: u32) -> Tally {
    let mut plan = Plan::fresh();
    let _ = plan.read(&site.bytes());
    let mut bench = Bench {
        places: site.places(),
        station: Station::open(plan, TableField::fresh()),
        tally: Tally::default(),
    };
    for turn in 0..rounds {
        bench.round(turn);
    }
    bench.tally
}
