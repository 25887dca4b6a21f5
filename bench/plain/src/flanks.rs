//! The search out of the flanks of a route: what it requests to shield them, and the branches that stay open.

use crate::layout::{Class, Drawing, Dual, Element, Kind, Port, Position, Route};

/// An element, and the position in which a route requests it to shield a flank.
#[derive(Clone, Copy, Debug, PartialEq, Eq, PartialOrd, Ord)]
pub struct Request {
    pub element: u8,
    pub position: Position,
}

/// A used point, and the last point of a walk out of its flank that ends open.
#[derive(Clone, Copy, Debug, PartialEq, Eq, PartialOrd, Ord)]
pub struct Branch {
    pub from: u8,
    pub last: u8,
}

/// What the walks out of the flanks of a route come to, each once and ascending.
#[derive(Clone, Debug, Default)]
pub struct Flanks {
    pub requests: Vec<Request>,
    pub branches: Vec<Branch>,
}

/// A point that a route uses, and the leg by which the route passes it.
#[derive(Clone, Copy, Debug)]
pub struct UsedPoint {
    pub point: u8,
    pub leg: Position,
    /// How many points that count end a walk out of its flank.
    reach: u8,
}

fn is_able_signal(signal: &Element, met: u8) -> bool {
    met == 1 && signal.marks.is_some_and(|marks| marks.requested)
}

/// Whether a point may shield in a position.
fn may_shield(point: &Element, position: Position) -> bool {
    match point.dual {
        None => true,
        Some(dual) => dual == Dual::Prefers(position),
    }
}

/// The used points of a way, each with its neighbours.
fn points_on<'a>(
    drawing: &'a Drawing,
    way: impl Iterator<Item = &'a u8> + Clone + 'a,
    reach: u8,
) -> impl Iterator<Item = UsedPoint> + 'a {
    let neighbours = way.clone().zip(way.clone().skip(2));
    way.skip(1)
        .zip(neighbours)
        .filter(|(point, _)| drawing.element(**point).is_point())
        .map(move |(&point, (&before, &after))| {
            let plus = drawing.beyond(point, Position::Plus.leg()).element;
            let leg = if plus == before || plus == after {
                Position::Plus
            } else {
                Position::Minus
            };
            UsedPoint { point, leg, reach }
        })
}

impl Drawing {
    /// The points that a route uses in its path and in its overlap.
    pub fn used_points<'a>(&'a self, route: &'a Route) -> impl Iterator<Item = UsedPoint> + 'a {
        let reach = match route.class {
            Class::Train => 3,
            Class::Shunting => 1,
        };
        let last = route.path.last().into_iter();
        let path = points_on(self, route.path.iter(), reach);
        path.chain(points_on(self, last.chain(&route.overlap), 1))
    }

    /// What the walks out of the flanks of a route come to.
    pub fn flanks(&self, route: &Route) -> Flanks {
        let mut search = Search::of(self, route);
        for used in self.used_points(route) {
            let flank = self.beyond(used.point, used.leg.other().leg());
            search.walk(used.point, flank, used.reach);
        }
        search.found()
    }

    /// Whether a point without the dual field is requested both ways.
    pub fn asks_both_ways(&self, requests: &[Request]) -> bool {
        requests.windows(2).any(|pair| {
            let element = self.element(pair[0].element);
            pair[0].element == pair[1].element && element.is_point() && element.dual.is_none()
        })
    }
}

/// A search out of the flanks of one route.
struct Search<'a> {
    drawing: &'a Drawing,
    /// Whether the route uses an element, by its number.
    used: Vec<bool>,
    flanks: Flanks,
}

impl<'a> Search<'a> {
    fn of(drawing: &'a Drawing, route: &Route) -> Search<'a> {
        let mut used = vec![false; drawing.elements.len()];
        for number in route.passed() {
            used[usize::from(number)] = drawing.element(number).kind.has_section();
        }
        Search {
            drawing,
            used,
            flanks: Flanks::default(),
        }
    }

    fn is_used(&self, element: u8) -> bool {
        self.used[usize::from(element)]
    }

    /// The first port met, from a port on, whose element is no signal.
    fn beyond_signals(&self, mut met: Port) -> Port {
        while self.drawing.element(met.element).is_signal() {
            met = self.drawing.beyond(met.element, 1 - met.port);
        }
        met
    }

    fn request(&mut self, element: u8, position: Position) {
        self.flanks.requests.push(Request { element, position });
    }

    /// Walks on from a port that is met; `reach` more points that count end the walk.
    fn walk(&mut self, from: u8, met: Port, reach: u8) {
        if self.is_used(met.element) {
            return;
        }
        let element = self.drawing.element(met.element);
        match element.kind {
            Kind::Track | Kind::PlanEnd => {}
            Kind::Derailer => self.request(met.element, Position::Plus),
            Kind::Signal if is_able_signal(element, met.port) => {
                self.request(met.element, Position::Plus);
            }
            Kind::Signal => {
                let beyond = self.drawing.beyond(met.element, 1 - met.port);
                self.walk(from, beyond, reach);
            }
            Kind::Point if met.port == 0 => self.count(from, met.element, &[1, 2], reach),
            Kind::Point => self.meet_leg(from, met, reach),
        }
    }

    /// Meets a point at a leg. Where the route lies beyond its toe, signals left out, the walk ends.
    fn meet_leg(&mut self, from: u8, met: Port, reach: u8) {
        let toe = self.beyond_signals(self.drawing.beyond(met.element, 0));
        if self.is_used(toe.element) {
            return;
        }
        let position = if met.port == Position::Plus.leg() {
            Position::Minus
        } else {
            Position::Plus
        };
        if may_shield(self.drawing.element(met.element), position) {
            self.request(met.element, position);
        } else {
            self.count(from, met.element, &[0], reach);
        }
    }

    /// Counts a point: the walk ends open at it, or goes on by some of its ports.
    fn count(&mut self, from: u8, point: u8, ports: &[u8], reach: u8) {
        if reach == 1 {
            self.flanks.branches.push(Branch { from, last: point });
            return;
        }
        for port in ports {
            let beyond = self.drawing.beyond(point, *port);
            self.walk(from, beyond, reach - 1);
        }
    }

    fn found(mut self) -> Flanks {
        self.flanks.requests.sort_unstable();
        self.flanks.requests.dedup();
        self.flanks.branches.sort_unstable();
        self.flanks.branches.dedup();
        self.flanks
    }
}
