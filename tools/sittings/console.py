"""A model of the console, written from docs/console.md alone: the lines of a script in, the lines of the console out.

    python3 tools/sittings/console.py < SCRIPT      prints what the console is to print
"""

import re
import sys

import drawing
from drawing import SIGNAL
from station import Contacts, Station, Table

STATES = ("absent", "waiting", "clear", "dropped")
REFUSALS = {
    10: "no such route",
    11: "the route stands already",
    12: "another route uses a section of it",
    13: "an element is held in the other position",
    14: "the route does not stand",
    15: "a section of its path is occupied",
    16: "the plan has no such number, or there is no such value",
    17: "a list is too short",
}
ONE, TWO, ONE_OR_THREE, NONE = (1,), (2,), (1, 3), (0,)
WANTED = {
    NONE: "a word too many",
    ONE: "one number is wanted, 0 to 255",
    TWO: "two numbers are wanted, 0 to 255",
    ONE_OR_THREE: "one number is wanted or three, 0 to 255",
}
ACTS = {"set": ONE, "clear": ONE, "release": ONE, "report": TWO, "block": TWO, "lamp": TWO, "occupy": TWO}
CLOSED = {"plan": None, "field": None, "tell": TWO, "order": TWO, "open": NONE}
OPEN = ACTS | {"state": ONE, "aspect": ONE, "protection": ONE_OR_THREE, "replay": NONE, "close": NONE}
ALWAYS = {"element": ONE, "section": ONE, "contacts": NONE, "flanks": ONE, "show": NONE}
COUNTS = CLOSED | OPEN | ALWAYS


class Wrong(Exception):
    """A line that cannot be carried out, with what is wrong in words."""


def read_numbers(words, counts):
    if len(words) not in counts or not all(re.fullmatch("0*[0-9]{1,3}", word) and int(word[-3:]) <= 255 for word in words):
        raise Wrong(WANTED[counts])
    return [int(word[-3:]) for word in words]


def read_bytes(text):
    end = re.match(r"(?:[0-9A-Fa-f]{2}|[ \t|]+)*", text).end()
    if re.match(r"[0-9A-Fa-f](?:[ \t|]|\Z)", text[end:]):
        raise Wrong("a byte has two digits")
    if end < len(text):
        raise Wrong("a byte is written in hexadecimal digits, and between bytes stand only blanks and bars")
    return bytes.fromhex(re.sub(r"[ \t|]+", "", text))


def refused(number):
    return f"refused {number}, {REFUSALS[number]}"


class Console:
    def __init__(self):
        self.plan, self.field = drawing.read(drawing.FRESH), Table()
        self.station, self.journal, self.opening = None, [], None

    def line(self, line):
        """The lines that the console prints for one line."""
        try:
            text = line.decode()
        except UnicodeDecodeError:
            return ["error: the line is no text"]
        text = text.strip(" \t")
        if not text or text.startswith("#"):
            return []
        try:
            return list(self.carry_out(text))
        except Wrong as wrong:
            return [f"error: {wrong}"]

    def carry_out(self, text):
        command, *rest = re.split("[ \t]+", text, 1)
        if command not in COUNTS:
            raise Wrong("no such command")
        rest = rest[0] if rest else ""
        if command == "plan":
            self.want_closed()
            return self.read_plan(read_bytes(rest))
        if command == "field":
            return self.take_field(rest)
        words = re.split("[ \t]+", rest) if rest else []
        if command == "tell":
            return self.tell(words)
        numbers = read_numbers(words, COUNTS[command])
        if command in CLOSED:
            self.want_closed()
        if command in OPEN and self.station is None:
            raise Wrong("the station is closed")
        if command in ACTS:
            return self.act(command, numbers)
        return getattr(self, command)(*numbers)

    def want_closed(self):
        if self.station is not None:
            raise Wrong("the station is open")

    # A closed station

    def read_plan(self, content):
        try:
            self.plan = drawing.read(content)
        except drawing.Fault as fault:
            return [f"plan: fault {fault.number}, layer {fault.layer}, place {fault.place}"]
        return [f"plan: accepted, {len(self.plan.elements)} elements, {len(self.plan.routes)} routes"]

    def take_field(self, rest):
        form, *content = re.split("[ \t]+", rest, 1)
        if form != "contacts" and (form != "table" or content):
            raise Wrong("a field is a table, or contacts with their bytes")
        self.want_closed()
        if form == "table":
            self.field = Table()
        else:
            content = read_bytes(content[0] if content else "")
            if len(content) != 104:
                raise Wrong("a contact picture has 104 bytes")
            self.field = Contacts(content)
        return [f"field: {form}"]

    def tell(self, words):
        if not words or words[0] not in ("report", "block", "lamp", "occupied"):
            raise Wrong("a field is told of a report, block, lamp or occupied")
        number, value = read_numbers(words[1:], TWO)
        self.want_closed()
        self.field.tell(words[0], number, value)
        return [f"tell {words[0]} {number} {value}: told"]

    def order(self, number, position):
        self.field.order(number, position)
        return [f"order {number} {position}: sent"]

    def open(self):
        self.opening, self.journal = self.field.duplicate(), []
        self.station = Station(self.plan, self.field)
        return ["station: open"]

    # An open station

    def close(self):
        self.station = None
        return ["station: closed"]

    def act(self, command, numbers):
        self.journal.append((command, numbers))
        return [self.perform(self.station, command, numbers)]

    def perform(self, station, command, numbers):
        answer = station.perform(command, *numbers)
        words = " ".join([command, *map(str, numbers)])
        return f"{words}: {refused(answer) if answer else 'accepted'}"

    def state(self, route):
        if route >= len(self.plan.sheets):
            return [f"state {route}: {refused(10)}"]
        return [f"state {route}: {STATES[self.station.states[route]]}"]

    def aspect(self, signal):
        shown = self.station.aspect(signal)
        return [f"aspect {signal}: {refused(16) if shown is None else shown}"]

    def protection(self, route, *places):
        words = " ".join(map(str, ("protection", route, *places)))
        if route >= len(self.plan.sheets):
            return [f"{words}: {refused(10)}"]
        sheet = self.plan.sheets[route]
        if places and (places[0] < len(sheet.requests) or places[1] < len(sheet.branches)):
            return [f"{words}: {refused(17)}"]
        held = ["held" if self.station.holds(route, *request) else "not held" for request in sheet.requests]
        return self.shielding(words, sheet, [f" {word}" for word in held])

    def replay(self):
        second = Station(self.plan, self.opening.duplicate())
        lines = ["  " + self.perform(second, *act) for act in self.journal]
        return lines + ["replay: " + ("same" if same(self.station, second) else "different")]

    # At any time

    def element(self, number):
        report, blocked, lamp, order = self.field.element(number)
        return [f"element {number}: report {report}, blocked {blocked}, lamp {lamp}, order {order}"]

    def section(self, number):
        return [f"section {number}: occupied {self.field.occupied(number)}"]

    def contacts(self):
        if isinstance(self.field, Table):
            raise Wrong("the field is a table")
        return [f"contacts: {self.field.content.hex()}"]

    def flanks(self, route):
        if route >= len(self.plan.sheets):
            return [f"flanks {route}: {refused(10)}"]
        sheet = self.plan.sheets[route]
        return self.shielding(f"flanks {route}", sheet, [""] * len(sheet.requests))

    def shielding(self, words, sheet, endings):
        head = f"{words}: {len(sheet.requests)} requests, {len(sheet.branches)} open branches"
        requests = [f"  request {number} {position}{end}" for (number, position), end in zip(sheet.requests, endings)]
        return [head, *requests, *(f"  open {used} {last}" for used, last in sheet.branches)]

    def show(self):
        lines = []
        if self.station:
            for route in range(len(self.plan.routes)):
                lines += self.state(route)
            for number in range(len(self.plan.elements)):
                lines += self.aspect(number) if self.plan.kind(number) == SIGNAL else []
        for number in range(len(self.plan.elements)):
            lines += self.element(number)
        return lines + [line for section in range(64) for line in self.section(section)]


def same(one, other):
    def seen(station):
        aspects = [station.aspect(number) for number in range(len(station.drawing.elements))]
        answers = [station.field.element(number) for number in range(96)]
        return station.states, aspects, answers, [station.field.occupied(number) for number in range(64)]

    return seen(one) == seen(other)


def play(script):
    """All that the console prints for a script, as pairs of a line of the script and the lines printed for it."""
    console = Console()
    *ended, last = script.split(b"\n")
    lines = [line.removesuffix(b"\r") for line in ended] + ([last] if last else [])
    return [(line, console.line(line)) for line in lines]


def printed(played):
    return "".join(f"{line}\n" for _, lines in played for line in lines).encode()


if __name__ == "__main__":
    sys.stdout.buffer.write(printed(play(sys.stdin.buffer.read())))
