//! A drawn station: elements and how their ports are joined, and the routes over them.

/// Plus for a point, on for a derailer, kept at stop for a signal; or minus, off, in use as a start.
#[derive(Clone, Copy, Debug, PartialEq, Eq, PartialOrd, Ord)]
pub enum Position {
    Plus,
    Minus,
}

impl Position {
    pub fn number(self) -> u8 {
        self as u8
    }

    /// The position with a number, if one has it.
    pub fn with(number: u8) -> Option<Position> {
        match number {
            0 => Some(Position::Plus),
            1 => Some(Position::Minus),
            _ => None,
        }
    }

    pub fn other(self) -> Position {
        match self {
            Position::Plus => Position::Minus,
            Position::Minus => Position::Plus,
        }
    }

    /// The port of the leg of a point that lies in this position.
    pub fn leg(self) -> u8 {
        match self {
            Position::Plus => 1,
            Position::Minus => 2,
        }
    }
}

/// What an element is.
#[derive(Clone, Copy, Debug, PartialEq, Eq)]
pub enum Kind {
    Track,
    Point,
    Derailer,
    Signal,
    PlanEnd,
}

impl Kind {
    pub fn port_count(self) -> u8 {
        match self {
            Kind::Point => 3,
            Kind::Track | Kind::Derailer | Kind::Signal => 2,
            Kind::PlanEnd => 1,
        }
    }

    /// Whether an element of the kind lies in a section.
    pub fn has_section(self) -> bool {
        matches!(self, Kind::Track | Kind::Point | Kind::Derailer)
    }

    /// Whether an element of the kind is moved by orders, and reports.
    pub fn moves(self) -> bool {
        matches!(self, Kind::Point | Kind::Derailer)
    }
}

/// A port of an element.
#[derive(Clone, Copy, Debug, PartialEq, Eq)]
pub struct Port {
    pub element: u8,
    pub port: u8,
}

/// The position that a point with the dual field prefers: it may shield in that one only.
#[derive(Clone, Copy, Debug, PartialEq, Eq)]
pub enum Dual {
    NoPreference,
    Prefers(Position),
}

/// What a signal is for.
#[derive(Clone, Copy, Debug, PartialEq, Eq)]
pub enum Sort {
    Shunting,
    Train,
    Entry,
}

/// The marks of a signal.
#[derive(Clone, Copy, Debug, Default, PartialEq, Eq)]
pub struct Marks {
    /// The signal is requested at a flank.
    pub requested: bool,
    /// The lamp of the signal is not proved at the end of a route.
    pub lamp_spared: bool,
}

/// An element: its kind, what its ports are joined to, and the fields that its kind has.
#[derive(Clone, Copy, Debug)]
pub struct Element {
    pub kind: Kind,
    pub joins: [Option<Port>; 3],
    pub section: Option<u8>,
    pub dual: Option<Dual>,
    pub sort: Option<Sort>,
    pub marks: Option<Marks>,
}

impl Element {
    pub fn is_signal(&self) -> bool {
        self.kind == Kind::Signal
    }

    pub fn is_point(&self) -> bool {
        self.kind == Kind::Point
    }
}

/// What a route is for.
#[derive(Clone, Copy, Debug, PartialEq, Eq)]
pub enum Class {
    Shunting,
    Train,
}

/// A route: its class, the elements of its path and of its overlap, and whether it has a zero overlap.
#[derive(Clone, Debug)]
pub struct Route {
    pub class: Class,
    pub path: Vec<u8>,
    pub overlap: Vec<u8>,
    pub zero_overlap: bool,
}

impl Route {
    /// The elements strictly between the first and the last of the path.
    pub fn inner_path(&self) -> &[u8] {
        match self.path.as_slice() {
            [_, inner @ .., _] => inner,
            _ => &[],
        }
    }

    /// The elements that the route may use: those inside its path, and those of its overlap.
    pub fn passed(&self) -> impl Iterator<Item = u8> {
        self.inner_path().iter().chain(&self.overlap).copied()
    }
}

/// Elements and routes, each numbered from 0 in their order.
#[derive(Clone, Debug)]
pub struct Drawing {
    pub elements: Vec<Element>,
    pub routes: Vec<Route>,
}

impl Drawing {
    pub fn element(&self, number: u8) -> &Element {
        &self.elements[usize::from(number)]
    }

    /// The port that a port is joined to. Each port of a checked drawing is joined.
    pub fn beyond(&self, element: u8, port: u8) -> Port {
        self.element(element).joins[usize::from(port)]
            .expect("each port of a checked drawing is joined")
    }
}
