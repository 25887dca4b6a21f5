"""A model of the two fields and of an open station, written from docs/field.md and docs/acts.md alone."""

from drawing import DERAILER, MINUS, PLUS, POINT, SIGNAL

NO_CONTROL, NO_ORDER = 2, 2
ELEMENTS, SECTIONS = 96, 64
ABSENT, WAITING, CLEAR, DROPPED = range(4)


class Table:
    """Keeps four values for each element and one for each section."""

    def __init__(self):
        self.elements = [[NO_CONTROL, 0, 0, NO_ORDER] for _ in range(ELEMENTS)]
        self.sections = [0] * SECTIONS

    def duplicate(self):
        other = Table()
        other.elements = [list(element) for element in self.elements]
        other.sections = list(self.sections)
        return other

    def element(self, number):
        return tuple(self.elements[number]) if number < ELEMENTS else (NO_CONTROL, 1, 0, NO_ORDER)

    def occupied(self, section):
        return self.sections[section] if section < SECTIONS else 1

    def order(self, number, position):
        if number < ELEMENTS and position <= 1:
            element = self.elements[number]
            element[3] = position
            if element[0] != position:
                element[0] = NO_CONTROL

    def tell(self, what, number, value):
        if what == "occupied":
            if number < SECTIONS and value <= 1:
                self.sections[number] = value
        elif number < ELEMENTS and value <= (2 if what == "report" else 1):
            self.elements[number][("report", "block", "lamp").index(what)] = value


class Contacts:
    """Keeps 104 bytes, as contacts would show them."""

    def __init__(self, content):
        self.content = bytearray(content)

    def duplicate(self):
        return Contacts(self.content)

    def element(self, number):
        if number >= ELEMENTS:
            return NO_CONTROL, 1, 0, NO_ORDER
        byte = self.content[number]
        report = {1: PLUS, 2: MINUS}.get(byte & 3, NO_CONTROL)
        order = {1: PLUS, 2: MINUS}.get(byte >> 4 & 3, NO_ORDER)
        return report, byte >> 2 & 1, byte >> 3 & 1, order

    def occupied(self, section):
        return self.content[96 + section // 8] >> section % 8 & 1 if section < SECTIONS else 1

    def write(self, place, mask, value):
        self.content[place] = self.content[place] & ~mask | value

    def order(self, number, position):
        if number < ELEMENTS and position <= 1:
            if self.element(number)[0] != position:
                self.write(number, 3, 0)
            self.write(number, 0x30, position + 1 << 4)

    def tell(self, what, number, value):
        if what == "occupied":
            if number < SECTIONS and value <= 1:
                bit = 1 << number % 8
                self.write(96 + number // 8, bit, bit * value)
        elif number < ELEMENTS and what == "report" and value <= 2:
            self.write(number, 3, (1, 2, 0)[value])
        elif number < ELEMENTS and value <= 1:
            bit = {"block": 4, "lamp": 8}.get(what)
            if bit:
                self.write(number, bit, bit * value)


class Station:
    """An open station: what each route has come to, and who holds what."""

    def __init__(self, drawing, field):
        self.drawing, self.field = drawing, field
        self.sheets = drawing.sheets
        self.states = [ABSENT] * len(self.sheets)
        self.positions = [PLUS] * ELEMENTS
        self.holders = [set() for _ in range(ELEMENTS)]
        self.of_plan = drawing.sections()

    # Acts. Each answers 0 where it is accepted, else its refusal.

    def perform(self, act, *numbers):
        answer = getattr(self, act)(*numbers)
        if answer == 0:
            self.settle()
        return answer

    def set(self, route):
        if route >= len(self.sheets):
            return 10
        if self.states[route] != ABSENT:
            return 11
        if any(self.clash(route, other) for other in range(len(self.sheets)) if self.states[other] != ABSENT):
            return 12
        need = self.sheets[route].need
        if any(self.holders[number] and self.positions[number] != position for number, position in need.items()):
            return 13
        self.states[route] = WAITING
        for number, position in need.items():
            self.join(route, number, position)
        self.request(route)
        self.send_orders(route)
        return 0

    def clear(self, route):
        if route >= len(self.sheets):
            return 10
        if self.states[route] == ABSENT:
            return 14
        if self.states[route] == DROPPED:
            self.states[route] = WAITING
        self.request(route)
        self.send_orders(route)
        return 0

    def release(self, route):
        if route >= len(self.sheets):
            return 10
        if self.states[route] == ABSENT:
            return 14
        if any(self.field.occupied(section) for section in self.sheets[route].path_sections):
            return 15
        self.states[route] = ABSENT
        for holders in self.holders:
            holders.discard(route)
        return 0

    def report(self, number, value):
        return self.event("report", number, value, self.drawing.is_kind(number, POINT, DERAILER), 2)

    def block(self, number, value):
        return self.event("block", number, value, self.drawing.is_kind(number, POINT, DERAILER), 1)

    def lamp(self, number, value):
        return self.event("lamp", number, value, self.drawing.is_kind(number, SIGNAL), 1)

    def occupy(self, section, value):
        return self.event("occupied", section, value, section in self.of_plan, 1)

    def event(self, what, number, value, of_that_kind, highest):
        if not of_that_kind or value > highest:
            return 16
        self.field.tell(what, number, value)
        return 0

    # What acts are made of

    def clash(self, one, other):
        a, b = self.sheets[one], self.sheets[other]
        return any(not excused(a, b, section) and not excused(b, a, section) for section in a.sections & b.sections)

    def join(self, route, number, position):
        self.positions[number] = position
        self.holders[number].add(route)

    def request(self, route):
        for number, position in self.sheets[route].requests:
            if not self.holders[number] or self.positions[number] == position:
                self.join(route, number, position)

    def send_orders(self, route):
        for number, element in enumerate(self.drawing.elements):
            if route not in self.holders[number] or element.kind not in (POINT, DERAILER):
                continue
            report, blocked, _, _ = self.field.element(number)
            position = self.positions[number]
            if report != position and not self.field.occupied(element.section) and not blocked:
                self.field.order(number, position)

    def holds(self, route, number, position):
        return route in self.holders[number] and self.positions[number] == position

    def ready(self, route):
        sheet, field = self.sheets[route], self.field
        if any(field.occupied(section) for section in sheet.sections):
            return False
        for number, position in sheet.need.items():
            if number == sheet.first:
                continue
            if not self.holds(route, number, position) or field.element(number)[0] != position:
                return False
        return all(self.shields(route, *request) for request in sheet.requests) and self.end_proved(sheet)

    def shields(self, route, number, position):
        if not self.holds(route, number, position):
            return False
        report, _, lamp, _ = self.field.element(number)
        return lamp == 1 if self.drawing.kind(number) == SIGNAL else report == position

    def end_proved(self, sheet):
        if sheet.end_lamp is None or self.field.element(sheet.end_lamp)[2]:
            return True
        return self.shown(sheet.end_lamp) != 0

    def shown(self, signal):
        for route, sheet in enumerate(self.sheets):
            if sheet.first == signal and self.states[route] == CLEAR:
                return sheet.showing
        return 0

    def settle(self):
        self.change_all(CLEAR, False, DROPPED)
        self.change_all(WAITING, True, CLEAR)

    def change_all(self, state, readiness, becomes):
        changing = True
        while changing:
            changing = False
            for route in range(len(self.states)):
                if self.states[route] == state and self.ready(route) == readiness:
                    self.states[route] = becomes
                    changing = True

    # Questions

    def aspect(self, signal):
        return self.shown(signal) if self.drawing.is_kind(signal, SIGNAL) else None


def excused(first, second, section):
    """Whether the second route prolongs the first, which has the section in its overlap but not in its path."""
    if first.last_signal is None or first.last_signal != second.first:
        return False
    return section in first.overlap_sections and section not in first.path_sections
