"""A model of plan files and flanks, written from docs/plan-file.md and docs/flank-protection.md alone.

`read` makes a drawing of bytes or raises the fault that answers them. Each route of a drawing has its sheet.
"""

from dataclasses import dataclass, field

TRACK, POINT, DERAILER, SIGNAL, END = range(5)
PORTS = (2, 3, 2, 2, 1)
PLUS, MINUS = 0, 1
FRONT, REAR, TOE = 1, 0, 0
SHUNTING, SLOW, PROCEED = 1, 2, 3


class Fault(Exception):
    def __init__(self, number, layer, place):
        super().__init__(number, layer, place)
        self.number, self.layer, self.place = number, layer, place


@dataclass
class Element:
    kind_field: int | None = None
    joins: list = field(default_factory=lambda: [None, None, None])
    section: int | None = None
    dual: int | None = None
    sort: int | None = None
    marks: int | None = None

    @property
    def kind(self):
        return TRACK if self.kind_field is None else self.kind_field

    def requested_at_flank(self):
        return self.marks in (1, 3)

    def lamp_spared(self):
        return self.marks in (2, 3)


@dataclass
class Route:
    train: bool = False
    path: list | None = None
    overlap: list | None = None
    zero: bool = False


class Bytes:
    """The bytes of a file, taken strictly in order (layer 1)."""

    def __init__(self, content):
        self.content, self.at = content, 0

    def take(self, low=0, high=255):
        if self.at == len(self.content):
            raise Fault(1, 1, len(self.content))
        value = self.content[self.at]
        if not low <= value <= high:
            raise Fault(2, 1, self.at)
        self.at += 1
        return value

    def end(self):
        if self.at < len(self.content):
            raise Fault(3, 1, self.at)

    def element(self):
        mapped, element = self.take(), Element()
        if mapped & 1:
            element.kind_field = self.take(1, 4)
        for port in range(3):
            if mapped & (2 << port):
                element.joins[port] = (self.take(), self.take(0, 2))
        if mapped & 16:
            element.section = self.take(0, 63)
        if mapped & 32:
            element.dual = self.take(0, 2)
        if mapped & 64:
            element.sort = self.take(0, 2)
        if mapped & 128:
            element.marks = self.take(1, 3)
        return element

    def numbers(self, low, high):
        return [self.take() for _ in range(self.take(low, high))]

    def route(self):
        mapped, route = self.take(0, 15), Route()
        if mapped & 1:
            route.train = self.take(1, 1) == 1
        if mapped & 2:
            route.path = self.numbers(3, 24)
        if mapped & 4:
            route.overlap = self.numbers(1, 8)
        if mapped & 8:
            route.zero = self.take(1, 1) == 1
        return route


class Drawing:
    """The elements and routes of a file; `sheets` once all checks are passed."""

    def __init__(self, elements, routes):
        self.elements, self.routes, self.sheets = elements, routes, []

    def kind(self, number):
        return self.elements[number].kind

    def is_kind(self, number, *kinds):
        return number < len(self.elements) and self.kind(number) in kinds

    def sections(self):
        return {element.section for element in self.elements if element.section is not None}

    # Layer 2

    def check_elements(self):
        for check, number in ((self.fields_misfit, 4), (self.join_unsound, 5), (self.marked_entry, 6)):
            for place in range(len(self.elements)):
                if check(place):
                    raise Fault(number, 2, place)

    def fields_misfit(self, place):
        element = self.elements[place]
        kind = element.kind
        joined = [join is not None for join in element.joins]
        return (
            joined != [port < PORTS[kind] for port in range(3)]
            or (element.section is not None) != (kind in (TRACK, POINT, DERAILER))
            or (element.sort is not None) != (kind == SIGNAL)
            or (element.dual is not None and kind != POINT)
            or (element.marks is not None and kind != SIGNAL)
        )

    def join_unsound(self, place):
        joins = [(port, join) for port, join in enumerate(self.elements[place].joins) if join]
        others = [join[0] for _, join in joins]
        if len(set(others)) < len(others):
            return True
        return any(not self.joined_back(place, port, join) for port, join in joins)

    def joined_back(self, place, port, join):
        other, other_port = join
        if other >= len(self.elements) or other == place or other_port >= PORTS[self.kind(other)]:
            return False
        return self.elements[other].joins[other_port] == (place, port)

    def marked_entry(self, place):
        element = self.elements[place]
        return element.kind == SIGNAL and element.sort == 2 and element.requested_at_flank()

    # Layer 3

    def check_routes(self):
        for place, route in enumerate(self.routes):
            if not self.path_sound(route):
                raise Fault(7, 3, place)
            if not self.overlap_allowed(route):
                raise Fault(8, 3, place)
            sheet = Sheet(self, route)
            if sheet.both_ways:
                raise Fault(9, 3, place)
            self.sheets.append(sheet)

    def steps(self, numbers):
        """For each number but the last, the port by which the next is reached and the port met there; None past a gap."""
        found = []
        for here, there in zip(numbers, numbers[1:]):
            ports = [(port, join[1]) for port, join in enumerate(self.elements[here].joins) if join and join[0] == there]
            if not ports:
                return None
            found.append(ports[0])
        return found

    def passes(self, number, entered, left):
        if entered == left:
            return False
        return self.kind(number) != POINT or TOE in (entered, left)

    def numbers_sound(self, numbers):
        return all(number < len(self.elements) for number in numbers) and len(set(numbers)) == len(numbers)

    def path_sound(self, route):
        path = route.path
        if path is None or not self.numbers_sound(path):
            return False
        steps = self.steps(path)
        if steps is None or not self.begins_well(route, steps[0][0]):
            return False
        last_kind = self.kind(path[-1])
        if not (last_kind == TRACK or last_kind == SIGNAL and steps[-1][1] == REAR):
            return False
        inner = path[1:-1]
        if all(self.kind(number) == SIGNAL for number in inner):
            return False
        return all(self.passes(number, steps[at][1], steps[at + 1][0]) for at, number in enumerate(inner))

    def begins_well(self, route, left):
        first = self.elements[route.path[0]]
        sorts = (1, 2) if route.train else (0, 1)
        return first.kind == SIGNAL and left == FRONT and first.sort in sorts

    def overlap_allowed(self, route):
        if route.overlap is None:
            return not route.zero or route.train
        last = route.path[-1]
        if not route.train or route.zero or self.kind(last) != SIGNAL:
            return False
        numbers = route.overlap
        if not self.numbers_sound(numbers) or set(numbers) & set(route.path):
            return False
        beyond, entered = self.elements[last].joins[FRONT]
        steps = self.steps(numbers)
        if beyond != numbers[0] or steps is None or self.kind(numbers[-1]) == POINT:
            return False
        entries = [entered] + [step[1] for step in steps]
        return all(self.passes(numbers[at], entries[at], step[0]) for at, step in enumerate(steps))


class Sheet:
    """What a station knows of a route: what it needs, requests and uses, and its open branches."""

    def __init__(self, drawing, route):
        self.drawing = drawing
        self.need, self.requests, self.branches = {}, set(), set()
        self.path_sections, self.overlap_sections = set(), set()
        self.first, last = route.path[0], route.path[-1]
        self.last_signal = last if drawing.kind(last) == SIGNAL else None
        spared = self.last_signal is None or route.zero or drawing.elements[last].lamp_spared()
        self.end_lamp = None if spared else last
        self.showing = SHUNTING if not route.train else SLOW if route.zero else PROCEED
        ways = self.ways(route)
        self.used = {number for number, *_ in ways}
        flanks = [self.use(*way) for way in ways]
        self.need[self.first] = MINUS
        for number, leg, reach in filter(None, flanks):
            self.walk(number, leg, reach)
        wanted = [number for number, _ in self.requests]
        self.both_ways = len(set(wanted)) < len(wanted)
        self.requests = sorted(self.requests)
        self.branches = sorted(self.branches)
        self.sections = self.path_sections | self.overlap_sections

    def ways(self, route):
        """The used elements, each with the port entered, the port left, the reach of its flank and whether the path has it."""
        drawing, path = self.drawing, route.path
        steps = drawing.steps(path)
        ways = [(number, steps[at][1], steps[at + 1][0], 3 if route.train else 1, True) for at, number in enumerate(path[1:-1])]
        if route.overlap:
            steps = drawing.steps(route.overlap)
            entries = [drawing.elements[path[-1]].joins[FRONT][1]] + [step[1] for step in steps]
            exits = [step[0] for step in steps] + [None]
            ways += [(number, entries[at], exits[at], 1, False) for at, number in enumerate(route.overlap)]
        return [way for way in ways if drawing.kind(way[0]) in (TRACK, POINT, DERAILER)]

    def use(self, number, entered, left, reach, in_path):
        element = self.drawing.elements[number]
        (self.path_sections if in_path else self.overlap_sections).add(element.section)
        if element.kind == DERAILER:
            self.need[number] = MINUS
        if element.kind != POINT:
            return None
        leg = left if entered == TOE else entered
        self.need[number] = leg - 1
        return number, 3 - leg, reach

    def walk(self, start, leg, reach):
        ahead = [(start, leg, 0)]
        while ahead:
            number, port, count = ahead.pop()
            met, entered = self.drawing.elements[number].joins[port]
            ahead += self.meet(start, met, entered, count, reach)

    def meet(self, start, met, entered, count, reach):
        """What happens where a walk meets an element; answers the walks that go on."""
        element = self.drawing.elements[met]
        kind = element.kind
        if met in self.used or kind in (TRACK, END):
            return []
        if kind == DERAILER or kind == SIGNAL and element.requested_at_flank() and entered == FRONT:
            self.requests.add((met, PLUS))
            return []
        if kind == SIGNAL:
            return [(met, 1 - entered, count)]
        onward = (1, 2) if entered == TOE else (TOE,)
        if entered != TOE:
            if self.beyond(met) in self.used:
                return []
            shielding = (3 - entered) - 1
            if element.dual is None or element.dual == shielding + 1:
                self.requests.add((met, shielding))
                return []
        if count + 1 == reach:
            self.branches.add((start, met))
            return []
        return [(met, port, count + 1) for port in onward]

    def beyond(self, point):
        """The first element beyond the toe of a point, all signals left out."""
        met, entered = self.drawing.elements[point].joins[TOE]
        while self.drawing.kind(met) == SIGNAL:
            met, entered = self.drawing.elements[met].joins[1 - entered]
        return met


def read(content):
    taken = Bytes(content)
    elements, routes = taken.take(1, 96), taken.take(0, 64)
    drawing = Drawing([taken.element() for _ in range(elements)], [])
    drawing.routes = [taken.route() for _ in range(routes)]
    taken.end()
    drawing.check_elements()
    drawing.check_routes()
    return drawing


FRESH = bytes.fromhex("02 00 03 04 01 00 03 04 00 00")
