//! Plays well-formed commands of the console on a table field, in the console's words, to be compared with it.

use plain::field::TableField;
use plain::flanks::Branch;
use plain::layout::Position;
use plain::plan::Plan;
use plain::station::{Act, Event, Refusal, RouteState, Station};
use std::fmt::Display;
use std::io::{self, BufRead};

/// A station that is closed or open.
enum Session {
    Closed(Plan, TableField),
    Open(Station),
}

fn refused(refusal: Refusal) -> String {
    let words = match refusal {
        Refusal::NoSuchRoute => "no such route",
        Refusal::StandsAlready => "the route stands already",
        Refusal::SectionInUse => "another route uses a section of it",
        Refusal::HeldOtherwise => "an element is held in the other position",
        Refusal::NotStanding => "the route does not stand",
        Refusal::PathOccupied => "a section of its path is occupied",
        Refusal::NotOfThePlan => "the plan has no such number, or there is no such value",
        Refusal::ListTooShort => "a list is too short",
    };
    format!("refused {}, {words}", refusal.number())
}

/// What was answered, or why nothing was.
fn answered<T: Display>(answer: Result<T, Refusal>) -> String {
    answer.map_or_else(refused, |answer| answer.to_string())
}

fn state_word(state: RouteState) -> &'static str {
    match state {
        RouteState::Absent => "absent",
        RouteState::Waiting => "waiting",
        RouteState::Clear => "clear",
        RouteState::Dropped => "dropped",
    }
}

/// A report or a standing order in numbers: 2 for none.
fn number_of(position: Option<Position>) -> u8 {
    position.map_or(2, Position::number)
}

fn bytes_of(words: &[&str]) -> Vec<u8> {
    let digits: Vec<u8> = words
        .concat()
        .bytes()
        .filter(|sign| *sign != b'|')
        .collect();
    digits
        .chunks(2)
        .map(|pair| {
            let pair = std::str::from_utf8(pair).expect("digits are text");
            u8::from_str_radix(pair, 16).expect("a byte is two hexadecimal digits")
        })
        .collect()
}

/// The act that a command asks for, if it asks for one.
fn act_of(name: &str, numbers: &[u8]) -> Option<Act> {
    let event = match (name, numbers) {
        ("set", &[route]) => return Some(Act::Set { route }),
        ("clear", &[route]) => return Some(Act::Clear { route }),
        ("release", &[route]) => return Some(Act::Release { route }),
        ("report", &[element, value]) => Event::Report { element, value },
        ("block", &[element, value]) => Event::Block { element, value },
        ("lamp", &[signal, value]) => Event::Lamp { signal, value },
        ("occupy", &[section, value]) => Event::Occupation { section, value },
        _ => return None,
    };
    Some(Act::Tell { event })
}

fn read_plan(plan: &mut Plan, bytes: &[u8]) {
    match plan.read(bytes) {
        Ok(()) => {
            let elements = plan.drawing().elements.len();
            let routes = plan.drawing().routes.len();
            println!("plan: accepted, {elements} elements, {routes} routes");
        }
        Err(fault) => {
            let (number, layer) = (fault.cause.number(), fault.cause.layer());
            println!("plan: fault {number}, layer {layer}, place {}", fault.place);
        }
    }
}

fn tell(field: &mut TableField, news: &str, number: u8, value: u8) {
    match (news, value) {
        ("report", 0..=2) => field.tell_report(number, Position::with(value)),
        ("block", 0..=1) => field.tell_block(number, value == 1),
        ("lamp", 0..=1) => field.tell_lamp(number, value == 1),
        ("occupied", 0..=1) => field.tell_occupation(number, value == 1),
        _ => {}
    }
    println!("tell {news} {number} {value}: told");
}

fn order(field: &mut TableField, element: u8, position: u8) {
    if let Some(position) = Position::with(position) {
        field.order(element, position);
    }
    println!("order {element} {position}: sent");
}

fn show_element(field: &TableField, element: u8) {
    let device = field.device(element);
    let report = number_of(device.report);
    let blocked = u8::from(device.blocked);
    let lamp = u8::from(device.burning);
    let order = number_of(device.order);
    println!("element {element}: report {report}, blocked {blocked}, lamp {lamp}, order {order}");
}

fn show_section(field: &TableField, section: u8) {
    let occupied = u8::from(field.is_occupied(section));
    println!("section {section}: occupied {occupied}");
}

fn print_flanks(requests: &[String], branches: &[Branch]) {
    println!(
        "{} requests, {} open branches",
        requests.len(),
        branches.len()
    );
    for request in requests {
        println!("  request {request}");
    }
    for branch in branches {
        println!("  open {} {}", branch.from, branch.last);
    }
}

fn show_flanks(plan: &Plan, route: u8) {
    print!("flanks {route}: ");
    match plan.sheet(route) {
        Some(sheet) => {
            let requests: Vec<String> = sheet
                .requests
                .iter()
                .map(|request| format!("{} {}", request.element, request.position.number()))
                .collect();
            print_flanks(&requests, &sheet.branches);
        }
        None => println!("{}", refused(Refusal::NoSuchRoute)),
    }
}

fn show_protection(station: &Station, route: u8) {
    print!("protection {route}: ");
    match station.protection(route) {
        Ok((shields, branches)) => {
            let requests: Vec<String> = shields
                .iter()
                .map(|shield| {
                    let held = if shield.is_held { "held" } else { "not held" };
                    format!("{} {} {held}", shield.element, shield.position.number())
                })
                .collect();
            print_flanks(&requests, branches);
        }
        Err(refusal) => println!("{}", refused(refusal)),
    }
}

fn show_state(station: &Station, route: u8) {
    println!(
        "state {route}: {}",
        answered(station.state(route).map(state_word))
    );
}

fn show_aspect(station: &Station, signal: u8) {
    let number = station.aspect(signal).map(|aspect| aspect.number());
    println!("aspect {signal}: {}", answered(number));
}

fn show_station(station: &Station) {
    let drawing = station.plan().drawing();
    for (route, _) in (0..).zip(&drawing.routes) {
        show_state(station, route);
    }
    for (number, element) in (0..).zip(&drawing.elements) {
        if element.is_signal() {
            show_aspect(station, number);
        }
    }
}

impl Session {
    fn plan(&self) -> &Plan {
        match self {
            Session::Closed(plan, _) => plan,
            Session::Open(station) => station.plan(),
        }
    }

    fn field(&self) -> &TableField {
        match self {
            Session::Closed(_, field) => field,
            Session::Open(station) => station.field(),
        }
    }

    fn show(&self) {
        if let Session::Open(station) = self {
            show_station(station);
        }
        for (element, _) in (0..).zip(&self.plan().drawing().elements) {
            show_element(self.field(), element);
        }
        for section in 0..64 {
            show_section(self.field(), section);
        }
    }

    /// Does what is done at any time; answers whether the command was such a one.
    fn looks(&self, name: &str, numbers: &[u8]) -> bool {
        match (name, numbers) {
            ("element", &[element]) => show_element(self.field(), element),
            ("section", &[section]) => show_section(self.field(), section),
            ("flanks", &[route]) => show_flanks(self.plan(), route),
            ("show", []) => self.show(),
            _ => return false,
        }
        true
    }

    /// Carries out a command that a closed or an open station takes.
    fn carry_out(self, name: &str, words: &[&str], numbers: &[u8]) -> Session {
        match self {
            Session::Closed(plan, field) => closed(plan, field, name, words, numbers),
            Session::Open(station) => open(station, name, words, numbers),
        }
    }
}

fn closed(
    mut plan: Plan,
    mut field: TableField,
    name: &str,
    words: &[&str],
    numbers: &[u8],
) -> Session {
    match (name, words, numbers) {
        ("plan", digits, _) => read_plan(&mut plan, &bytes_of(digits)),
        ("field", ["table"], _) => {
            field = TableField::fresh();
            println!("field: table");
        }
        ("tell", [news, ..], &[number, value]) => tell(&mut field, news, number, value),
        ("order", _, &[element, position]) => order(&mut field, element, position),
        ("open", ..) => {
            println!("station: open");
            return Session::Open(Station::open(plan, field));
        }
        _ => println!("error: the station is closed"),
    }
    Session::Closed(plan, field)
}

fn open(mut station: Station, name: &str, words: &[&str], numbers: &[u8]) -> Session {
    if let Some(act) = act_of(name, numbers) {
        let answer = station.perform(act).map(|()| "accepted");
        println!("{name} {}: {}", words.join(" "), answered(answer));
        return Session::Open(station);
    }
    match (name, numbers) {
        ("state", &[route]) => show_state(&station, route),
        ("aspect", &[signal]) => show_aspect(&station, signal),
        ("protection", &[route]) => show_protection(&station, route),
        ("close", _) => {
            println!("station: closed");
            let (plan, field) = station.close();
            return Session::Closed(plan, field);
        }
        _ => println!("error: the station is open"),
    }
    Session::Open(station)
}

fn main() -> io::Result<()> {
    let mut session = Session::Closed(Plan::fresh(), TableField::fresh());
    for line in io::stdin().lock().lines() {
        let line = line?;
        let words: Vec<&str> = line.split_whitespace().collect();
        let [name, words @ ..] = words.as_slice() else {
            continue;
        };
        if name.starts_with('#') {
            continue;
        }
        let numbers: Vec<u8> = words.iter().filter_map(|word| word.parse().ok()).collect();
        if !session.looks(name, &numbers) {
            session = session.carry_out(name, words, &numbers);
        }
    }
    Ok(())
}
