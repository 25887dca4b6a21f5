"""Writes random scripts for the console, each from its seed: valid and invalid lines over real and random stations.

    python3 tools/sittings/scripts.py KIND SEED      prints one; KIND is long, mixed or plans
"""

import random as randomness
import sys
from pathlib import Path

import drawing
import stations
from drawing import DERAILER, POINT, SIGNAL

ROOT = Path(__file__).resolve().parents[2]
WRONG = [
    b"sett 0", b"SET 0", b"set", b"set 0 0", b"set x", b"set -1", b"set +1", b"set 256", b"set 0x1", b"set 1_0", b"set 1.", b"set 0\r",
    b"set 18446744073709551616", b"set 99999999999999999999999999", b"report 0", b"report 0 0 0", b"report 0 256", b"lamp", b"occupy 1",
    b"protection", b"protection 0 1", b"protection 0 1 2 3", b"protection 0 1 256", b"open x", b"close x", b"replay x", b"show x",
    b"contacts x", b"field", b"field smoke", b"field table x", b"field contacts", b"field contacts 0", b"field contacts 0G",
    b"tell", b"tell smoke 0 0", b"tell report", b"tell report 0", b"tell report 0 0 0", b"tell block 0 256", b"order", b"order 0",
    b"plan 0", b"plan 0 0", b"plan 0G", b"plan G", b"plan |0|", b"plan|00", b"plan 00,00", b"plan 0x00", b"plan", b"element", b"element 256",
    b"section", b"section 256", b"flanks", b"flanks 0 0", b"\xff", b"set \x80", b"set 0\x00", b"\x00", b"set\xc2\xa00", b"\xef\xbb\xbfset 0",
    b"set \xd9\xa1", b"\xc0\xafset 0", b"\xed\xa0\x80", b"\xf0\x9f\x9a\x82 0", b"plan 0\xc3\xa9", b"plan \xc2\xa000", b"set\x0b0", b"set\x0c0", b"|", b"# \xc3\xa9",
    b" \t ", b"", b"#", b"\t# set 0", b"set #0", b"set 0 # now",
]
CHOICES = {"set": 12, "clear": 6, "release": 7, "prove": 5, "event": 30, "ask": 6, "look": 4, "wrong": 3, "misplaced": 1}
MISPLACED = ("open", "plan 00", "plan 0G", "field table", "field contacts 0", "tell lamp 1 1", "order 1 1")


def hexadecimal(random, content):
    """The bytes as a line may have them: in either case, with blanks, tabs and bars between them or none."""
    between = random.choice((("",), (" ",), ("", " ", "|", " | ", "\t")))
    text = "".join(f"{byte:02x}" + random.choice(between) for byte in content)
    return text.upper() if random.random() < 0.5 else text


def real_plans():
    """The plans in the console's own script that are accepted."""
    found = []
    for line in (ROOT / "crates/console/stdin").read_text().splitlines():
        if line.strip().startswith("plan"):
            digits = line.strip()[4:].translate(str.maketrans("", "", " \t|"))
            found += accepted(digits)
    return found


def accepted(digits):
    try:
        content = bytes.fromhex(digits)
        drawing.read(content)
        return [content]
    except (ValueError, drawing.Fault):
        return []


class Writer:
    def __init__(self, seed, plans):
        self.random = randomness.Random(seed)
        self.plans = plans
        self.lines, self.drawn = [], drawing.read(drawing.FRESH)

    def say(self, *words):
        random = self.random
        line = " ".join(map(str, words))
        if random.random() < 0.05:
            line = line.replace(" ", random.choice((" ", "  ", "\t", " \t "))) + random.choice(("", " ", "\t"))
            line = random.choice(("", " ", "\t")) + line
        self.lines.append(line.encode())

    def wrong(self):
        random = self.random
        if random.random() < 0.9:
            self.lines.append(random.choice(WRONG))
        else:
            line = bytes(random.randrange(256) for _ in range(random.randrange(1, 40)))
            self.lines.append(b"x" + line.replace(b"\n", b"\t"))

    # A closed station

    def plan(self):
        random = self.random
        content = random.choice(self.plans) if random.random() < 0.3 else stations.draw(random)
        for _ in range(random.randrange(7)):
            self.say("plan", hexadecimal(random, self.spoilt(content)))
            self.say("flanks", self.number(3))
        self.say("plan", hexadecimal(random, content))
        self.drawn = drawing.read(content)
        for route in range(len(self.drawn.routes)):
            self.say("flanks", route)

    def spoilt(self, content):
        """Most often bytes with something wrong. They may pass all checks all the same."""
        way = self.random.choices(("bytes", "fields", "flanks"), (5, 12, 1))[0]
        if way == "bytes":
            return self.spoilt_bytes(content)
        return stations.spoil(self.random, content) if way == "fields" else stations.draw(self.random, careful=False)

    def spoilt_bytes(self, content):
        """The bytes with one or two of them changed, left out or put in."""
        random, changed = self.random, bytearray(content)
        for _ in range(random.choice((1, 1, 2))):
            at, other = random.randrange(len(changed)), random.randrange(len(changed))
            change = random.randrange(6)
            if change == 0:
                changed[at] ^= 1 << random.randrange(8)
            elif change == 1:
                changed[at] = random.choice((0, 1, 2, 3, 4, 255, random.choice(content)))
            elif change == 2:
                changed[at : at + random.choice((1, 2, 50))] = b""
            elif change == 3:
                changed.insert(at, random.randrange(256))
            else:
                changed[at], changed[other] = changed[other], changed[at]
            changed = changed or bytearray(1)
        return bytes(changed)

    def field(self):
        random = self.random
        if random.random() < 0.4:
            self.say("field table")
        elif random.random() < 0.8:
            mask = random.choice((0x00, 0x0F, 0x3B, 0xFF))
            content = bytes(random.randrange(256) & mask for _ in range(96))
            occupied = random.choice((0, 0, 1, 255))
            content += bytes(random.randrange(256) & occupied for _ in range(8))
            self.say("field contacts", hexadecimal(random, content))
        else:
            self.say("field contacts", hexadecimal(random, bytes(random.choice((0, 103, 105, 200)))))
        for _ in range(random.randrange(12)):
            what = random.choice(("report", "block", "lamp", "occupied"))
            self.say("tell", what, self.number(100), self.number(3))
            self.say("order", self.number(100), self.number(2))
            self.look()

    # An open station

    def number(self, below):
        """Mostly a number below this one."""
        random = self.random
        return random.randrange(256) if random.random() < 0.03 else random.randrange(max(below, 1))

    def one_of(self, *kinds):
        numbers = [number for number in range(len(self.drawn.elements)) if self.drawn.kind(number) in kinds]
        return self.random.choice(numbers) if numbers and self.random.random() < 0.95 else self.number(97)

    def section(self):
        sections = sorted(self.drawn.sections())
        return self.random.choice(sections) if sections and self.random.random() < 0.95 else self.number(65)

    def route(self):
        return self.number(len(self.drawn.routes))

    def event(self):
        random = self.random
        what = random.choices(("report", "block", "lamp", "occupy"), (5, 1, 4, 3))[0]
        if what == "report":
            self.say(what, self.one_of(POINT, DERAILER), self.number(3))
        elif what == "block":
            self.say(what, self.one_of(POINT, DERAILER), self.number(2))
        elif what == "lamp":
            self.say(what, self.one_of(SIGNAL), self.number(2))
        else:
            self.say(what, self.section(), int(random.random() < 0.3))

    def prove(self, first=None):
        """What makes a route ready, with a little left out, and then often the same for a route that prolongs it."""
        random, sheets = self.random, self.drawn.sheets
        begin = [route for route, sheet in enumerate(sheets) if first in (None, sheet.first)]
        if not begin:
            return
        route = random.choice(begin)
        sheet = sheets[route]
        if random.random() < 0.6:
            self.say("set", route)
        wanted = self.wanted(sheet)
        random.shuffle(wanted)
        for words in wanted:
            if random.random() < 0.97:
                self.say(*words)
        if random.random() < 0.5:
            self.say("clear", route)
        self.say("state", route)
        self.say("aspect", sheet.first)
        if sheet.last_signal is not None and random.random() < 0.6:
            self.prove(sheet.last_signal)

    def wanted(self, sheet):
        wanted = [("report", number, position) for number, position in sheet.need.items() if number != sheet.first]
        for number, position in sheet.requests:
            signal = self.drawn.kind(number) == SIGNAL
            wanted.append(("lamp", number, 1) if signal else ("report", number, position))
        wanted += [("occupy", section, 0) for section in sheet.sections]
        if sheet.end_lamp is not None:
            wanted.append(("lamp", sheet.end_lamp, self.random.randrange(2)))
        return wanted

    def look(self):
        random = self.random
        what = random.choice(("element", "section", "contacts", "flanks"))
        numbers = {"element": [self.number(100)], "section": [self.number(66)], "contacts": [], "flanks": [self.route()]}
        self.say(what, *numbers[what])

    def ask(self):
        what = self.random.choice(("state", "aspect", "protection", "short"))
        if what == "short":
            self.say("protection", self.route(), self.number(5), self.number(5))
        else:
            self.say(what, self.one_of(SIGNAL) if what == "aspect" else self.route())

    def act(self):
        choice = self.random.choices(list(CHOICES), CHOICES.values())[0]
        if choice in ("set", "clear", "release"):
            self.say(choice, self.route())
        elif choice == "misplaced":
            self.say(self.random.choice(MISPLACED))
        else:
            getattr(self, choice)()

    def sitting(self, acts, replays):
        self.plan()
        self.field()
        self.say("open")
        start = len(self.lines)
        while len(self.lines) < start + acts:
            self.act()
        self.say("show")
        for _ in range(replays):
            self.say("replay")
        self.say(self.random.choice(("set", "state", "release")), 0)
        self.say("close")
        self.say("show")
        self.say("contacts")


def script(kind, seed, plans=None):
    writer = Writer(f"{kind} {seed}", plans or real_plans())
    if kind == "long":
        writer.sitting(14000, 1)
    elif kind == "mixed":
        for _ in range(10):
            writer.sitting(writer.random.randrange(300), writer.random.randrange(3))
            for _ in range(3):
                writer.wrong()
    else:
        for _ in range(60):
            writer.plan()
    ending = b"" if writer.random.random() < 0.3 else b"\n"
    return b"\n".join(writer.lines) + ending


if __name__ == "__main__":
    sys.stdout.buffer.write(script(sys.argv[1], int(sys.argv[2])))
