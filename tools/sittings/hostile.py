"""Feeds the console what nobody would type, and sees that it ends well and prints what its model prints.

    python3 tools/sittings/hostile.py [--console FILE] [--megabytes N]

Each input must end with status 0, nothing on standard error, and the lines of the model. Then the output is taken away
in several ways. N is the size of the longest lines, 64 if it is not given.
"""

import argparse
import random as randomness
import subprocess
import sys
from concurrent.futures import ProcessPoolExecutor

import compare
import scripts

SMALLEST = bytes.fromhex(
    "0801 03040100 47030000020001 1F0101010300050200 47030201040001 03040301 1F0106000700020201 03040500 03040501 030103010203"
)
BAD_TEXT = [
    b"\xc3", b"\xe2\x82", b"\xf0\x9f\x9a", b"\xc0\x80", b"\xc1\xbf", b"\xe0\x80\x80", b"\xe0\x9f\xbf", b"\xf0\x80\x80\x80", b"\xf0\x8f\xbf\xbf",
    b"\xed\xa0\x80", b"\xed\xbf\xbf", b"\xf4\x90\x80\x80", b"\xf5\x80\x80\x80", b"\xf8\x88\x80\x80\x80", b"\xfe", b"\xff\xff",
]
GOOD_TEXT = ["é", "ß", "ſ", "K", "０", "٣", "²", "🚂", "\u00a0", "\u2003", "\u3000", "\u2028", "\u0085", "\ufeff", "\u200b", "\ufffd", "\U0010ffff", "e\u0301"]
NUMBERS = [
    "0", "00", "007", "0000000001", "255", "0255", "256", "0256", "999", "1000", "65536", "4294967296", "4294967297", "18446744073709551615",
    "18446744073709551616", "18446744073709551617", "340282366920938463463374607431768211456", "0" * 5000, "0" * 5000 + "1", "1" * 5000,
    "-0", "-1", "+0", "+1", "--1", "0x1", "0x", "1_0", "_1", "1_", "1e1", "1.0", "1.", ".1", "1,0", "0b1", "0o7", "1u8", "a", "f", "1h", "'1'", "\\1",
]
ONE_NUMBER = ["set", "clear", "release", "state", "aspect", "protection", "element", "section", "flanks"]
TWO_NUMBERS = ["report", "block", "lamp", "occupy", "order", "tell report", "tell block", "tell lamp", "tell occupied"]
NO_NUMBER = ["open", "close", "replay", "show", "contacts", "field table"]


def small_inputs():
    """Inputs of ends, signs and numbers, each with its name."""
    opened = b"plan " + SMALLEST.hex().encode() + b"\nopen\n"
    yield "nothing", b""
    yield "an empty line", b"\n"
    yield "only line ends", b"\n" * 100000
    yield "no last line end", b"open\nset 0"
    yield "a blank for a last line", b"open\n "
    yield "other line ends", b"open\r\n\r\nset 0\r\n#\r\nplan 00\r\n \r\nclose\r\n\ropen\r"
    yield "separators", b"\t open\t\x0b\nopen\x0c\nset\x1f0\nset\t0\t\n  \t set \t 0\n\x85\n\x1c\n"
    for byte in range(256):
        sign = bytes([byte])
        lines = [sign, b"#" + sign, b"set 0" + sign, b"set " + sign + b"0", b"set 0 " + sign, sign + b"set 0", b"plan 00" + sign, b"plan " + sign + b"0"]
        yield f"the byte {byte:02x}", opened + b"\n".join([*lines, b"close", *lines, b"open"])
    for text in BAD_TEXT + [text.encode() for text in GOOD_TEXT]:
        lines = [text, b"# " + text, b"set " + text, b"set 0" + text, text + b"set 0", b"plan 00" + text, b"plan 0" + text, b"field contacts" + text]
        yield f"the text {text.hex()}", opened + b"\n".join([*lines, b"close", *lines, b"open"])
    for number in NUMBERS:
        lines = [f"{command} {number}" for command in ONE_NUMBER]
        lines += [f"{command} {pair}" for command in TWO_NUMBERS for pair in (f"{number} 0", f"1 {number}", f"{number} {number}")]
        lines += [f"protection 0 {number} 9", f"protection 0 9 {number}", f"{number}", f"{number} 0"]
        text = "\n".join(lines).encode()
        yield f"the number {number:.50}", text + b"\n" + opened + text + b"\nshow\nreplay\n"


def word_inputs():
    """Every command with too few and too many words, and written otherwise, at both times."""
    commands = ONE_NUMBER + TWO_NUMBERS + NO_NUMBER + ["field", "tell", "field contacts", "plan", "tell smoke"]
    lines = []
    for command in commands:
        lines += [command + " 0" * number for number in range(5)]
        lines += [command.upper(), command + "x", command[:-1], "#" + command, command + "#", command + " #", "|" + command, command + "|"]
        lines += [command + " x", command + " 0 x", command + " x 0", command + " 0 0 x", command + " 0G", command + " table"]
    text = "\n".join(lines).encode()
    yield "words while closed and while open", text.replace(b"\nopen\n", b"\n") + b"\nclose\nopen\n" + text + b"\nclose\n" + text


def plan_inputs():
    """The smallest station, changed in every bit and every byte, cut off and prolonged; odd digits; and many bytes."""
    def line(content):
        return b"plan " + bytes(content).hex().encode() + b"\nflanks 0"

    changes = []
    for at in range(len(SMALLEST)):
        values = [SMALLEST[at] ^ 1 << bit for bit in range(8)] + [0, 255]
        changes += [SMALLEST[:at] + bytes([value]) + SMALLEST[at + 1 :] for value in values]
    yield "each bit and each byte of a plan", b"\n".join(map(line, changes))
    every = [SMALLEST[:at] + bytes([value]) + SMALLEST[at + 1 :] for at in range(len(SMALLEST)) for value in range(256)]
    yield "each byte of a plan with each value", b"\n".join(map(line, every))
    lengths = [SMALLEST[:at] for at in range(len(SMALLEST))] + [SMALLEST + bytes(at) for at in (1, 2, 300)]
    yield "a plan cut off and prolonged", b"\n".join(map(line, lengths))
    digits = SMALLEST.hex().encode()
    yield "odd digits", b"\n".join(b"plan " + digits[:at] + rest for at in range(len(digits)) for rest in (b"", b" ", b"|0", b"G", b" " + digits[at:]))
    many = [bytes(100000), b"\xff" * 100000, SMALLEST + bytes(100000), b"\x60\x40" + b"\x10\x00" * 50000]
    yield "100000 bytes", b"\n".join(map(line, many))
    for length in (0, 1, 103, 104, 105, 100000):
        yield f"a contact picture of {length} bytes", b"field contacts " + b"a5" * length + b"\ncontacts\nopen\nshow"


def long_inputs(megabytes):
    """Lines of one megabyte, and a few longer ones."""
    commands = (b"", b"plan ", b"set ", b"field contacts ", b"#", b"plan 0", b"field ", b"tell report ", b"protection 0 ")
    all_signs = (b" ", b"0", b"a", b"x", b"\t", b"9", b"|", b"0 ", "é".encode(), b"\xff")
    for size, before, signs in ((1, commands, all_signs), (megabytes, commands[:4], all_signs[:4])):
        for command in before:
            for sign in signs:
                line = command + sign * ((size << 20) // len(sign))
                yield f"{size} megabytes of {sign!r} behind {command!r}", line + b"\nsection 0\n"


def random_inputs():
    for seed in range(300):
        random = randomness.Random(seed)
        signs = (bytes(range(256)), b"\n 0129aFg|#\t\r\x00\xc3\xa9", b"\nopen set 0 1 close plan 00|\t")[seed % 3]
        yield f"random signs {seed}", bytes(random.choices(signs, k=10000))


def feed(entry):
    built, (name, script) = entry
    return name, *compare.compare(built, script)


WAYS = {
    "the reader goes after a line": "$console < $script | head -1 > /dev/null; exit ${PIPESTATUS[0]}",
    "standard output closed": "$console < $script >&-",
    "a full device": "$console < $script > /dev/full",
    "a full device, standard error closed": "$console < $script > /dev/full 2>&-",
    "standard input closed": "$console <&- > /dev/null",
    "all three closed": "$console <&- >&- 2>&-",
    "a folder as input": "$console < / > /dev/null",
    "input that can only be written": "$console 0> $(mktemp) > /dev/null",
    "input that ends in the middle": "head -c 1000 $script | $console > /dev/null",
    "a word for the program": "$console word < $script > /dev/null",
}


def take_away(built):
    """What becomes of the console where its input or output is taken away: no signal and no hang."""
    script, wrong = scripts.ROOT / "crates/console/stdin", 0
    for name, way in WAYS.items():
        command = way.replace("$console", f"timeout 10 '{built}'").replace("$script", f"'{script}'")
        done = subprocess.run(["bash", "-c", command], capture_output=True, check=False)
        end = {124: "no end after 10 seconds"}.get(done.returncode, f"status {done.returncode}")
        print(f"{name}: {end}, on standard error {done.stderr.decode()[:200]!r}", flush=True)
        wrong += done.returncode >= 124
    return wrong


def main():
    parser = argparse.ArgumentParser(description=__doc__, formatter_class=argparse.RawDescriptionHelpFormatter)
    parser.add_argument("--console", default=str(compare.BUILT))
    parser.add_argument("--megabytes", type=int, default=64)
    parser.add_argument("--jobs", type=int, default=2)
    asked = parser.parse_args()
    tally = dict.fromkeys(("inputs", "lines", "different"), 0)
    with ProcessPoolExecutor(asked.jobs) as pool:
        for inputs in (small_inputs(), word_inputs(), plan_inputs(), random_inputs(), long_inputs(asked.megabytes)):
            for name, counted, differs in pool.map(feed, ((asked.console, named) for named in inputs)):
                tally["inputs"] += 1
                tally["lines"] += counted["lines"]
                tally["different"] += bool(differs)
                if differs:
                    print(f"{name}: {differs}", flush=True)
            print(tally, flush=True)
    tally["ways that do not end well"] = take_away(asked.console)
    print(", ".join(f"{number} {word}" for word, number in tally.items()))
    return 1 if tally["different"] or tally["ways that do not end well"] else 0


if __name__ == "__main__":
    sys.exit(main())
