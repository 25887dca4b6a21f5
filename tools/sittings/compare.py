"""Plays random scripts on the console and on its model, and compares what they print, line by line.

    python3 tools/sittings/compare.py [KIND=COUNT ..] [--first SEED] [--console FILE] [--jobs N]

KIND is long (14000 lines on one open station, and all its acts again), mixed (ten stations one after another) or plans
(60 random plans and what is wrong with them when they are spoilt). Each script comes from its seed alone. Prove and build
the console first: ./console < /dev/null. The exit status is 1 where something differs.
"""

import argparse
import subprocess
import sys
from collections import Counter
from concurrent.futures import ProcessPoolExecutor
from itertools import zip_longest

import console
import scripts

BUILT = scripts.ROOT / "crates/console/out/console"


def run(built, script, seconds=300):
    done = subprocess.run([built], input=script, capture_output=True, timeout=seconds, check=False)
    return done.stdout, done.returncode, done.stderr


def compare(built, script):
    """What was counted, and the first difference in words, or none."""
    played = console.play(script)
    try:
        out, status, err = run(built, script)
    except subprocess.TimeoutExpired:
        return count(played), "no end after 300 seconds"
    if out != console.printed(played):
        return count(played), difference(played, out)
    if status or err:
        return count(played), f"status {status}, on standard error {err[:200]}"
    return count(played), None


def difference(played, out):
    wanted = ((line, answer.encode()) for line, answers in played for answer in answers)
    for at, (want, got) in enumerate(zip_longest(wanted, out.split(b"\n")[:-1])):
        line, answer = want or (None, None)
        if answer != got:
            return f"output line {at + 1}, for {line!r:.300}: the model has {answer!r:.300}, the console {got!r:.300}"
    return "the last line has another end"


def count(played):
    counted = Counter(scripts=1, lines=len(played))
    for line, answers in played:
        counted["answers"] += len(answers)
        word = line.split()[0].decode(errors="replace") if line.split() else ""
        if word in console.ACTS and not answers[0].startswith("error"):
            counted["acts"] += 1
            counted["accepted"] += answers[0].endswith("accepted")
        counted["errors"] += bool(answers) and answers[0].startswith("error")
        counted["faults"] += bool(answers) and answers[0].startswith("plan: fault")
        counted["replays"] += word == "replay" and len(answers) > 0 and answers[-1] == "replay: same"
    return counted


def job(entry):
    built, kind, seed, plans = entry
    return kind, seed, *compare(built, scripts.script(kind, seed, plans))


def main():
    parser = argparse.ArgumentParser(description=__doc__, formatter_class=argparse.RawDescriptionHelpFormatter)
    parser.add_argument("kinds", nargs="*", default=["long=20", "mixed=100", "plans=100"])
    parser.add_argument("--first", type=int, default=0)
    parser.add_argument("--console", default=str(BUILT))
    parser.add_argument("--jobs", type=int, default=2)
    asked = parser.parse_args()
    wanted = [(kind, int(number)) for kind, number in (word.split("=") for word in asked.kinds)]
    plans = scripts.real_plans()
    entries = [(asked.console, kind, asked.first + at, plans) for kind, number in wanted for at in range(number)]
    total, different = Counter(), 0
    with ProcessPoolExecutor(asked.jobs) as pool:
        for at, (kind, seed, counted, differs) in enumerate(pool.map(job, entries)):
            total += counted
            if differs:
                different += 1
                print(f"{kind} {seed}: {differs}", flush=True)
            if at % 50 == 49 or at + 1 == len(entries):
                print(", ".join(f"{number} {word}" for word, number in total.items()) + f", {different} scripts differ", flush=True)
    return 1 if different else 0


if __name__ == "__main__":
    sys.exit(main())
