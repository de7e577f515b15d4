#!/usr/bin/env python3
"""Tries `dock keep` on made-up sheets with made-up calls against a board and a planner of its own.

usage: tests/try_keep.py [HOW_MANY] [SEED]     (default: 500 sheets, made from the number 1; DOCK names the program, else crates/dock/out/dock)

Every line that is printed has to be the reckoned one. Where a plan answers, every choice of the unmarked transfers is
tried besides (of at most 12 of them), each with its least lateness, and none may be cheaper; reserves are found by trying
every delay of every event.
"""

import collections
import itertools
import os
import random
import subprocess
import sys
import tempfile

import reference as ref
from try_dock import DOCK, busy, made_up_reports, relay, relay_reports

TRANSFER = 2
WORDS = ("report", "hold", "release", "strike", "clear", "trial", "plan", "reserve")


def minutes_charge(kind, parcels, minutes):
    return (parcels * minutes,)


def ranked_charge(kind, parcels, minutes):
    return (parcels * minutes, 0) if kind == 1 else (0, parcels * minutes)


TARIFFS = {
    "parcel-minutes": (minutes_charge, (0,), lambda toll: str(toll[0])),
    "ranked": (ranked_charge, (0, 0), lambda toll: f"({toll[0]}, {toll[1]})"),
}


def number(word):
    try:
        return ref.number(word)
    except ref.BadLine:
        return None


class Night:
    """A sheet with noted delays and marks, under a rule and a tariff."""

    def __init__(self, sheet, rule, tariff):
        self.sheet, self.rule = sheet, ref.RULES[rule]
        self.charge, self.nought, self.spelled = TARIFFS[tariff]
        self.delays = [0] * len(sheet.events)
        self.marks = [None] * len(sheet.activities)

    def least(self, gone, delays=None):
        """The least lateness where these activities go: begun at the delays, and raised until nothing asks for more."""
        late, raised = list(self.delays if delays is None else delays), True
        while raised:
            raised = False
            for a, (_, tail, head, margin) in enumerate(self.sheet.activities):
                if a not in gone and self.rule(margin, late[tail]) > late[head]:
                    late[head], raised = self.rule(margin, late[tail]), True
        return late

    def struck(self):
        return {a for a, mark in enumerate(self.marks) if mark == "struck"}

    def unmarked(self):
        return [a for a, act in enumerate(self.sheet.activities) if act[0] == TRANSFER and self.marks[a] is None]

    def live(self, worst, a):
        _, tail, _, margin = self.sheet.activities[a]
        return self.marks[a] != "struck" and self.rule(margin, worst[tail]) > 0

    def end(self, lot):
        return self.sheet.activities[lot[2][-1]][2]

    def tangled(self, worst, lot):
        steps = lot[2]
        if any(self.marks[s] == "struck" for s in steps):
            return False
        hot = [self.sheet.activities[s][0] == TRANSFER and self.live(worst, s) for s in steps]
        for first, gap in itertools.combinations(range(len(steps)), 2):
            if hot[first] and not self.live(worst, steps[gap]) and (any(hot[gap + 1 :]) or worst[self.end(lot)] > 0):
                return True
        return False

    def hindrance(self, worst):
        for e in range(len(self.sheet.events)):
            sources = sum(1 for a, act in enumerate(self.sheet.activities) if act[2] == e and self.live(worst, a))
            if sources + (self.delays[e] > 0) >= 2:
                return f"refused 16 event {e}"
        for i, lot in enumerate(self.sheet.lots):
            if self.tangled(worst, lot):
                return f"refused 17 lot {i}"
        return None

    def total(self, charges):
        return tuple(map(sum, zip(self.nought, *charges)))

    def toll(self, gone, late):
        return self.total(
            self.charge(kind, parcels, self.sheet.period if gone & set(steps) else late[self.end((kind, parcels, steps))])
            for kind, parcels, steps in self.sheet.lots
        )

    def bills(self, worst):
        """The miss bill of each transfer, and the bill of each event, from the last event up."""
        whole = [lot for lot in self.sheet.lots if not self.struck() & set(lot[2])]
        miss = {a: self.total(self.charge(k, p, self.sheet.period) for k, p, steps in whole if a in steps) for a in self.unmarked()}
        bill = {}
        for e in reversed(range(len(self.sheet.events))):
            parts = [self.charge(lot[0], lot[1], worst[e]) for lot in whole if self.end(lot) == e]
            for a, act in enumerate(self.sheet.activities):
                if act[1] == e and self.live(worst, a):
                    parts.append(min(bill[act[2]], miss[a]) if a in miss else bill[act[2]])
            bill[e] = self.total(parts)
        return miss, bill

    def plan(self):
        """Which activities go, how late each event is and the toll, or the refusal."""
        worst = self.least(self.struck())
        refusal = self.hindrance(worst)
        if refusal:
            return refusal
        miss, bill = self.bills(worst)
        gone = self.struck()
        for a in sorted(miss, key=lambda a: self.sheet.activities[a][1]):
            _, tail, head, _ = self.sheet.activities[a]
            if self.live(worst, a) and self.least(gone)[tail] > 0 and miss[a] <= bill[head]:
                gone.add(a)
        late = self.least(gone)
        return gone, late, self.toll(gone, late)

    def cheapest(self, toll):
        """No choice with its least lateness is cheaper: tried one by one, where they are few."""
        free = self.unmarked()
        if len(free) > 12:
            return None
        for some in itertools.product((False, True), repeat=len(free)):
            gone = self.struck() | {a for a, goes in zip(free, some) if goes}
            if self.toll(gone, self.least(gone)) < toll:
                return False
        return True

    def reserve(self, event):
        for minutes in range(self.sheet.period, -1, -1):
            alone = [minutes if e == event else 0 for e in range(len(self.sheet.events))]
            if all(late <= e[3] for late, e in zip(self.least(self.struck(), alone), self.sheet.events)):
                return minutes
        return None


class Console:
    """What `dock keep` has to print."""

    def __init__(self, night, number, counts):
        self.night, self.number, self.counts, self.slips = night, number, counts, []

    def free(self, a):
        night = self.night
        if a >= len(night.marks):
            return "refused 9"
        if night.sheet.activities[a][0] != TRANSFER:
            return "refused 11"
        return "refused 12" if night.marks[a] else None

    def answer(self, word, numbers):
        night = self.night
        if word == "report":
            event, minutes = numbers
            if event >= len(night.delays):
                return "refused 9"
            if minutes > night.sheet.period:
                return "refused 10"
            night.delays[event] = minutes
            return "done"
        if word == "plan":
            return self.planned()
        if word == "reserve":
            return " ".join(str(night.reserve(e)) for e in range(len(night.delays)))
        (a,) = numbers
        if word == "release":
            if a not in self.slips:
                return "no slip"
            self.slips.remove(a)
            night.marks[a] = None
            return "done"
        if word == "clear":
            if a < len(night.marks) and night.marks[a] == "struck":
                night.marks[a] = None
                return "done"
            return "refused 13" if self.free(a) in (None, "refused 12") else self.free(a)
        refusal = self.free(a)
        if refusal:
            return refusal
        if word == "trial":
            night.marks[a] = "struck"
            tried = night.plan()
            night.marks[a] = None
            return tried if isinstance(tried, str) else f"toll {night.spelled(tried[2])}"
        night.marks[a] = "struck" if word == "strike" else "held"
        if word == "hold":
            self.slips.append(a)
            return f"slip {self.number} {a}"
        return "done"

    def planned(self):
        plan = self.night.plan()
        if isinstance(plan, str):
            return plan
        gone, late, toll = plan
        least = self.night.cheapest(toll)
        self.counts["plans with every choice tried" if least else "plans with many choices"] += 1
        if least is False:
            self.counts["A CHEAPER CHOICE"] += 1
        went = sum(1 for a in gone if self.night.marks[a] is None)
        self.counts["plans where a transfer goes"] += went > 0
        choices = "".join(f" {int(a in gone)}" for a in range(len(self.night.marks)))
        return f"toll {self.night.spelled(toll)} gone {went}\nlateness" + "".join(f" {m}" for m in late) + f"\nchoices{choices}"

    def line(self, at, text):
        words = text.split()
        if not words or text.startswith("#"):
            return ""
        wanted = {"report": 2, "plan": 0, "reserve": 0}.get(words[0], 1)
        numbers = [number(w) for w in words[1:]]
        if words[0] not in WORDS or len(numbers) != wanted or None in numbers:
            return f"line {at}: not a call\n"
        answer = self.answer(words[0], numbers)
        self.counts[f"{words[0]}: {' '.join(answer.split()[:2]) if answer.startswith('refused') else 'no slip' if answer == 'no slip' else 'answered'}"] += 1
        return f"{words[0]}{''.join(f' {n}' for n in numbers)}:{' ' if answer else ''}{answer}\n"


def calls(rng, sheet, reports):
    """Lines: calls of every kind, most of them possible, and now and then what is none."""
    lines = [f"report {event} {minutes}" for event, minutes in reports]
    transfers = [a for a, act in enumerate(sheet.activities) if act[0] == TRANSFER] or [0]
    for _ in range(rng.randint(5, 30)):
        word = rng.choice(WORDS + ("plan", "trial"))
        a = rng.choice(transfers) if rng.random() < 0.85 else rng.randint(0, len(sheet.activities) + 1)
        if word == "report":
            lines.append(f"report {rng.randint(0, len(sheet.events))} {rng.choice([0, 0, 1, 5, sheet.period, sheet.period + 1, rng.randint(0, sheet.period)])}")
        else:
            lines.append(word if word in ("plan", "reserve") else f"{word} {a}")
        if rng.random() < 0.1:
            lines.append(rng.choice(["", "  ", "# a remark", "wait 1", "hold", "hold one", "hold +1", "hold 65536", "plan 1", "report 1", "Plan", " # no remark"]))
    return lines + ["plan", "reserve"]


def once(rng, folder, counts, wrong):
    make, report = rng.choice([(busy, made_up_reports), (busy, made_up_reports), (relay, relay_reports)])
    sheet = make(rng)
    rule, tariff, number = rng.choice(list(ref.RULES)), rng.choice(list(TARIFFS)), rng.choice([0, 7, 65535])
    lines = calls(rng, sheet, report(rng, sheet))
    console = Console(Night(sheet, rule, tariff), number, counts)
    text = "".join(console.line(at, line) for at, line in enumerate(lines, 1))
    if console.slips:
        text += "slips out:" + "".join(f" {a}" for a in console.slips) + "\n"
    path = os.path.join(folder, "k.sheet")
    with open(path, "wb") as f:
        f.write(ref.pack(ref.numbers_of(sheet)))
    words = [DOCK, "keep", path, "--rule", rule, "--tariff", tariff, "--number", str(number)]
    done = subprocess.run(words, input="\n".join(lines).encode(), stdout=subprocess.PIPE, stderr=subprocess.PIPE)
    if (done.stdout.decode(), done.returncode, done.stderr) != (text, 0, b""):
        wrong.append((words, lines, text, done.stdout.decode(), done.returncode, done.stderr))


def main():
    how_many = int(sys.argv[1]) if len(sys.argv) > 1 else 500
    rng = random.Random(int(sys.argv[2]) if len(sys.argv) > 2 else 1)
    counts, wrong = collections.Counter(), []
    with tempfile.TemporaryDirectory() as folder:
        for _ in range(how_many):
            once(rng, folder, counts, wrong)
    for name, times in sorted(counts.items()):
        print(f"{name}: {times}")
    for words, lines, text, out, code, err in wrong[:3]:
        print("WRONG", " ".join(words), "\n".join(lines), "-- wanted", text, f"-- came, with status {code}", out, err, sep="\n")
    print(f"{how_many} evenings, {len(wrong)} wrong, {counts['A CHEAPER CHOICE']} with a cheaper choice")
    sys.exit(1 if wrong or counts["A CHEAPER CHOICE"] else 0)


if __name__ == "__main__":
    main()
