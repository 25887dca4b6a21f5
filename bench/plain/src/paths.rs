//! Sound paths and overlaps of routes.

use crate::layout::{Class, Drawing, Element, Kind, Port, Route, Sort};

/// Whether a route of a class may start at an element.
fn may_start(class: Class, element: &Element) -> bool {
    matches!(
        (class, element.sort),
        (Class::Train, Some(Sort::Train | Sort::Entry))
            | (Class::Shunting, Some(Sort::Shunting | Sort::Train))
    )
}

/// Whether a path may end at an element that it enters at a port.
fn may_end(kind: Kind, entered: u8) -> bool {
    match kind {
        Kind::Track => true,
        Kind::Signal => entered == 0,
        Kind::Point | Kind::Derailer | Kind::PlanEnd => false,
    }
}

/// Whether an element entered at a port may be left by another; a point never from leg to leg.
fn may_turn(kind: Kind, entered: u8, left: u8) -> bool {
    left != entered && (kind != Kind::Point || entered == 0 || left == 0)
}

/// Whether no number of a way stands earlier in it or in the way before it.
fn are_all_new(before: &[u8], way: &[u8]) -> bool {
    way.iter()
        .enumerate()
        .all(|(place, number)| !before.contains(number) && !way[..place].contains(number))
}

impl Drawing {
    fn has_all(&self, way: &[u8]) -> bool {
        way.iter()
            .all(|number| usize::from(*number) < self.elements.len())
    }

    /// Where the next element is entered, if it is joined to the element and may be reached from where that was entered.
    fn step(&self, entered: Port, next: u8) -> Option<Port> {
        let element = self.element(entered.element);
        let (left, join) = (0..)
            .zip(&element.joins)
            .find_map(|(left, join)| Some((left, join.filter(|join| join.element == next)?)))?;
        may_turn(element.kind, entered.port, left).then_some(join)
    }

    /// Where the last element of a way is entered that leaves its first element, a signal, by the front.
    fn follow(&self, first: u8, way: &[u8]) -> Option<Port> {
        let rear = Port {
            element: first,
            port: 0,
        };
        way.iter()
            .try_fold(rear, |entered, next| self.step(entered, *next))
    }

    fn is_signal(&self, number: u8) -> bool {
        self.element(number).is_signal()
    }

    /// Whether the route has a path, and a sound one.
    pub fn has_sound_path(&self, route: &Route) -> bool {
        let [first, way @ ..] = route.path.as_slice() else {
            return false;
        };
        self.has_all(&route.path)
            && are_all_new(&[], &route.path)
            && may_start(route.class, self.element(*first))
            && !route
                .inner_path()
                .iter()
                .all(|number| self.is_signal(*number))
            && self
                .follow(*first, way)
                .is_some_and(|end| may_end(self.element(end.element).kind, end.port))
    }

    /// Whether the overlap of a route begins at the front of the last signal and can be followed to its end, which is no point.
    fn has_sound_overlap(&self, route: &Route) -> bool {
        let Some(&last) = route.path.last() else {
            return false;
        };
        self.is_signal(last)
            && self.has_all(&route.overlap)
            && are_all_new(&route.path, &route.overlap)
            && self
                .follow(last, &route.overlap)
                .is_some_and(|end| !self.element(end.element).is_point())
    }

    /// Whether the route has no overlap, a sound one or a zero overlap, as its class allows.
    pub fn has_allowed_overlap(&self, route: &Route) -> bool {
        let has_overlap = !route.overlap.is_empty();
        match (route.class, has_overlap, route.zero_overlap) {
            (_, false, false) => true,
            (Class::Train, false, true) => true,
            (Class::Train, true, false) => self.has_sound_overlap(route),
            _ => false,
        }
    }
}
