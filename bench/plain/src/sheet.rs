//! What a station has to know of a route, worked out when a plan is read.

use crate::flanks::{Branch, Flanks, Request};
use crate::layout::{Class, Drawing, Kind, Position, Route};
use crate::numbers::Numbers;

/// What a signal shows.
#[derive(Clone, Copy, Debug, PartialEq, Eq)]
pub enum Aspect {
    Stop,
    Shunting,
    Slow,
    Proceed,
}

impl Aspect {
    pub fn number(self) -> u8 {
        self as u8
    }
}

/// An element that a route itself needs, and the position in which it does.
#[derive(Clone, Copy, Debug)]
pub struct Need {
    pub element: u8,
    pub position: Position,
    /// It is a point or derailer, and reports.
    pub moves: bool,
}

/// A point or derailer that a route may order.
#[derive(Clone, Copy, Debug, PartialEq, Eq, PartialOrd, Ord)]
pub struct Ordered {
    pub element: u8,
    pub section: Option<u8>,
}

/// All that a station has to know of a route.
#[derive(Clone, Debug)]
pub struct Sheet {
    /// What the start signal shows when the route is clear.
    pub showing: Aspect,
    pub start: u8,
    /// The signal at which the path ends, if it ends at one.
    pub last_signal: Option<u8>,
    /// The signal whose stop lamp is to be proved at the end, if any.
    pub end_lamp: Option<u8>,
    pub needs: Vec<Need>,
    pub requests: Vec<Request>,
    pub branches: Vec<Branch>,
    /// The points and derailers among what it needs and requests, ascending.
    pub ordered: Vec<Ordered>,
    pub path_sections: Numbers,
    pub sections: Numbers,
}

fn showing(route: &Route) -> Aspect {
    match (route.class, route.zero_overlap) {
        (Class::Shunting, _) => Aspect::Shunting,
        (Class::Train, true) => Aspect::Slow,
        (Class::Train, false) => Aspect::Proceed,
    }
}

impl Drawing {
    /// The used points as they are passed, the used derailers off, the start signal in use.
    fn needs(&self, route: &Route) -> Vec<Need> {
        let start = Need {
            element: route.path[0],
            position: Position::Minus,
            moves: false,
        };
        let points = self.used_points(route).map(|used| Need {
            element: used.point,
            position: used.leg,
            moves: true,
        });
        let derailers = route
            .passed()
            .filter(|number| self.element(*number).kind == Kind::Derailer)
            .map(|element| Need {
                element,
                position: Position::Minus,
                moves: true,
            });
        let mut needs = vec![start];
        needs.extend(points.chain(derailers));
        needs
    }

    fn ordered(&self, needs: &[Need], requests: &[Request]) -> Vec<Ordered> {
        let needed = needs.iter().map(|need| need.element);
        let requested = requests.iter().map(|request| request.element);
        let mut ordered: Vec<Ordered> = needed
            .chain(requested)
            .filter(|number| self.element(*number).kind.moves())
            .map(|element| Ordered {
                element,
                section: self.element(element).section,
            })
            .collect();
        ordered.sort_unstable();
        ordered
    }

    /// The sections of some elements.
    fn sections(&self, way: &[u8]) -> Numbers {
        way.iter()
            .filter_map(|number| self.element(*number).section)
            .collect()
    }

    /// The sheet of a route with these flanks.
    pub fn sheet(&self, route: &Route, flanks: Flanks) -> Sheet {
        let last = route.path[route.path.len() - 1];
        let last_signal = self.element(last).is_signal().then_some(last);
        let is_spared = self
            .element(last)
            .marks
            .is_some_and(|marks| marks.lamp_spared);
        let needs = self.needs(route);
        let path_sections = self.sections(route.inner_path());
        Sheet {
            showing: showing(route),
            start: route.path[0],
            last_signal,
            end_lamp: last_signal.filter(|_| !route.zero_overlap && !is_spared),
            ordered: self.ordered(&needs, &flanks.requests),
            needs,
            requests: flanks.requests,
            branches: flanks.branches,
            path_sections,
            sections: path_sections.union(self.sections(&route.overlap)),
        }
    }
}

impl Sheet {
    /// The sections in which this route, set first, allows one that prolongs it: those of its overlap but not of its path.
    fn excuses(&self, prolonging: &Sheet) -> Numbers {
        if self.last_signal == Some(prolonging.start) {
            self.sections.without(self.path_sections)
        } else {
            Numbers::default()
        }
    }

    /// Whether both routes use some section with no excuse.
    pub fn clashes_with(&self, other: &Sheet) -> bool {
        let shared = self.sections.shared_with(other.sections);
        let excused = self.excuses(other).union(other.excuses(self));
        !shared.without(excused).is_empty()
    }
}
