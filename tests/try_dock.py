#!/usr/bin/env python3
"""Tries `dock show` and `dock pack` on made-up sheets and listings against an independent reader, `dock carry` and `dock remains` against the rules' formulas, and `dock worst` on made-up delays against an independent reckoning.

usage: tests/try_dock.py [HOW_MANY] [SEED]     (default: 500 sheets, made from the number 1; DOCK names the program, else crates/dock/out/dock)

Each made-up sheet keeps every rule; then it is damaged, cut, made too long and so on. Every answer of the program has
to be the reference's, byte by byte: the listing, or the refusal's number, section, record and byte place, and the status.
What remains under a rule is found by trying every lateness from 1,440 down.
Sheets for made-up delays have small margins and lots on long ways, so that delays go far, meet, and tangle lots; how often
each verdict came is printed.
"""

import collections
import os
import random
import subprocess
import sys
import tempfile

import reference as ref

HERE = os.path.dirname(os.path.abspath(__file__))
DOCK = os.path.abspath(os.environ.get("DOCK", os.path.join(HERE, "..", "crates", "dock", "out", "dock")))


class Trial:
    """Counts what was tried, and keeps what disagreed."""

    def __init__(self, folder):
        self.folder, self.tried, self.answers, self.wrong = folder, collections.Counter(), collections.Counter(), []

    def path(self, name):
        return os.path.join(self.folder, name)

    def run(self, *words):
        done = subprocess.run([DOCK, *words], stdout=subprocess.PIPE, stderr=subprocess.PIPE)
        return done.stdout, done.returncode, done.stderr

    def note(self, kind, ok, what):
        self.tried[kind] += 1
        if not ok:
            self.wrong.append((kind, what))

    def show(self, kind, raw):
        """Shows these bytes and compares; answers whether they are a sheet."""
        with open(self.path("a.sheet"), "wb") as f:
            f.write(raw)
        text, status = ref.shown(raw)
        self.answers[" ".join(text.split()[:2]) if status else "accepted"] += 1
        out, code, err = self.run("show", self.path("a.sheet"))
        same = out.decode(errors="replace") == text and code == status and not err
        self.note(kind, same, (raw.hex(), text, out, code, err))
        return status == 0

    def pack(self, kind, text):
        """Packs this listing and compares the file or the complaint; answers the bytes, if there are any."""
        made = self.path("b.sheet")
        if os.path.exists(made):
            os.remove(made)
        with open(self.path("b.listing"), "wb") as f:
            f.write(text.encode())
        sections = ref.sections_of(text)
        out, code, err = self.run("pack", self.path("b.listing"), made)
        written = open(made, "rb").read() if os.path.exists(made) else None
        said = out.decode(errors="replace")
        if isinstance(sections, int):
            self.answers["bad line"] += 1
            good = code == 1 and written is None and said.startswith(f"line {sections}: ") and said.count("\n") == 1
        else:
            raw = ref.pack(sections)
            shown, status = ref.shown(raw)
            self.answers[" ".join(shown.split()[:2]) if status else "packed"] += 1
            good = (code, written, said) == ((1, None, shown) if status else (0, raw, ""))
        self.note(kind, good and not err, (text, sections, out, code, err, written))
        return written

    def round_trip(self, sheet):
        """A listing packs to the reference's bytes, and showing those gives the listing again."""
        text = ref.listing(sheet)
        raw = self.pack("listings packed", text)
        if raw is not None:
            with open(self.path("c.sheet"), "wb") as f:
                f.write(raw)
            out, code, _ = self.run("show", self.path("c.sheet"))
            self.note("round trips", out.decode() == text and code == 0 and raw == ref.pack(ref.numbers_of(sheet)), (text, out))


def made_up(rng, most_events=40, most_lots=12):
    """A sheet that keeps every rule: several trucks and sites, every activity that fits now and then, lots along paths."""
    period = rng.choice([1, 2, 60, 720, 1440, rng.randint(1, 1440)])
    trucks = [rng.randint(0, 65535) for _ in range(rng.randint(1, 5))]
    sites = [rng.randint(0, 65535) for _ in range(rng.randint(1, 4))]
    sheet = ref.Sheet(period)
    for _ in range(rng.randint(1, most_events)):
        sheet.events.append((rng.choice(trucks), rng.choice(sites), rng.randint(0, 1), rng.choice([0, period, rng.randint(0, period)])))
    fits = [
        (kind, tail, head)
        for tail in range(len(sheet.events))
        for head in range(tail + 1, len(sheet.events))
        for kind in range(3)
        if ref.ends_fit(kind, sheet.events[tail], sheet.events[head])
    ]
    rng.shuffle(fits)
    for kind, tail, head in fits[: rng.randint(0, 60)]:
        sheet.activities.append((kind, tail, head, rng.choice([0, 1440, rng.randint(0, 1440)])))
    if sheet.activities:
        for _ in range(rng.randint(0, most_lots)):
            sheet.lots.append((rng.randint(0, 1), rng.choice([1, 65535, rng.randint(1, 65535)]), path(rng, sheet)))
    return sheet


def path(rng, sheet):
    steps = [rng.randrange(len(sheet.activities))]
    while len(steps) < 32 and rng.random() < 0.8:
        here = sheet.activities[steps[-1]][2]
        onward = [i for i, a in enumerate(sheet.activities) if a[1] == here]
        if not onward:
            break
        steps.append(rng.choice(onward))
    return steps


def chain(length):
    """One truck that goes to and fro, with an activity from each event to the next."""
    sheet = ref.Sheet(1440)
    for i in range(length):
        sheet.events.append((7, (i // 2) % 2, i % 2, i % 1441))
    for i in range(length - 1):
        sheet.activities.append((1 if i % 2 == 0 else 0, i, i + 1, i % 1441))
    return sheet


def largest(lots, steps):
    """512 events, and so many lots of so many steps."""
    sheet = chain(512)
    for i in range(lots):
        sheet.lots.append((i % 2, 65535 - i, list(range(i % 400, i % 400 + steps))))
    return sheet


def edges(trial):
    """The largest tables and steps, and one more than each."""
    fence = [
        largest(128, 32), largest(512, 8), largest(129, 32), largest(127, 32), largest(513, 1), chain(512), chain(513), chain(1),
    ]
    brim = largest(127, 32)
    brim.lots += [(0, 1, list(range(31))), (1, 2, [5])]
    over = largest(127, 32)
    over.lots += [(0, 1, list(range(31))), (1, 2, [5, 6])]
    many, more = chain(512), chain(512)
    many.activities = [many.activities[i % 511] for i in range(1024)]
    more.activities = [more.activities[i % 511] for i in range(1025)]
    for sheet in [*fence, brim, over, many, more]:
        trial.show("edges", ref.pack(ref.numbers_of(sheet)))
        if trial.pack("listings of edges", ref.listing(sheet)) is not None:
            trial.round_trip(sheet)


def damaged(rng, raw):
    raw = bytearray(raw)
    for _ in range(rng.choice([1, 1, 1, 2, 5])):
        at = rng.randrange(len(raw))
        if rng.random() < 0.5:
            at -= at % 2
            raw[at : at + 2] = rng.choice([0, 1, 2, 3, 31, 32, 33, 512, 513, 1024, 1025, 1440, 1441, 65535, rng.randint(0, 65535)]).to_bytes(2, "big")
        else:
            raw[at] = rng.choice([0, 1, 255, rng.randint(0, 255)])
    return bytes(raw)


def wrong_numbers(rng, sheet):
    """A sheet in which one number of one record, or one count, is another."""
    sections = ref.numbers_of(sheet)
    filled = [s for s in sections if s]
    record = rng.choice(rng.choice(filled))
    record[rng.randrange(len(record))] = rng.choice([0, 1, 2, 3, 32, 33, 60, 61, 512, 1440, 1441, 65535, rng.randint(0, 65535)])
    return ref.pack(sections)


def other_counts(rng, raw, sheet):
    """A count changed, with no other number changed."""
    sections = ref.numbers_of(sheet)
    places, at = [], 0
    for records in sections:
        places.append(at)
        at += 2 + 2 * sum(map(len, records))
    at, raw = rng.choice(places), bytearray(raw)
    raw[at : at + 2] = rng.choice([0, 1, 2, 511, 512, 513, 1024, 1025, 65535, rng.randint(0, 20)]).to_bytes(2, "big")
    return bytes(raw)


def mixed(rng, sheet):
    """The listing with its kinds of line mixed, with blanks, blank lines and remarks."""
    kinds = collections.defaultdict(list)
    for line in ref.listing(sheet).splitlines():
        first = line.split()[0]
        kinds["activity" if first in ref.KINDS else first].append(line)
    lines = []
    while kinds:
        kind = rng.choice(sorted(kinds))
        lines.append(kinds[kind].pop(0))
        if not kinds[kind]:
            del kinds[kind]
    out = []
    for line in lines:
        while rng.random() < 0.2:
            out.append(rng.choice(["", "   ", "\t", "# a remark", "#", "#event 1 2 3"]))
        blank = rng.choice([" ", "  ", "\t", " \t "])
        out.append(rng.choice(["", blank]) + blank.join(line.split()) + rng.choice(["", blank]))
    return rng.choice(["\n", "\r\n"]).join(out) + rng.choice(["", "\n", "\n\n"])


BAD = ["0x10", "-1", "+5", "65536", "99999999999999999999", "1.0", "abc", "arrivals", "Arrival", "7a", "", "é", "١"]


def spoiled(rng, text):
    """A listing with one word changed, left out or added."""
    lines = text.splitlines()
    at = rng.randrange(len(lines))
    words = lines[at].split()
    where = rng.randrange(len(words))
    how = rng.random()
    if how < 0.4:
        words[where] = rng.choice(BAD)
    elif how < 0.6:
        del words[where]
    elif how < 0.8:
        words.insert(where, rng.choice(["1", "arrival", "departure", "express", "#"]))
    else:
        words[where] = rng.choice(["0", "007", "65535", "arrival", "departure", "express", "drive", "lot", "period", str(rng.randint(0, 2000))])
    lines[at] = " ".join(words)
    if rng.random() < 0.1:
        lines.insert(rng.randrange(len(lines) + 1), rng.choice(["period 60", "period 0", "lot ordinary 1", "lot express 0 0", " # indented"]))
    return "\n".join(lines) + "\n"


def once(trial, rng, cut):
    sheet = made_up(rng)
    raw = ref.pack(ref.numbers_of(sheet))
    trial.show("made-up sheets", raw)
    trial.round_trip(sheet)
    trial.pack("mixed listings", mixed(rng, sheet))
    for _ in range(3):
        trial.show("damaged", damaged(rng, raw))
        trial.show("wrong numbers", wrong_numbers(rng, sheet))
    trial.show("other counts", other_counts(rng, raw, sheet))
    trial.show("overlong", raw + rng.randbytes(rng.choice([1, 2, 3, 50])))
    trial.show("random bytes", rng.randbytes(rng.randint(0, 60)))
    trial.show("random after terms", b"\0\1\0\x3c" + bytes(rng.choice([0, 0, 0, 1, 2, rng.randint(0, 255)]) for _ in range(rng.randint(0, 80))))
    places = range(len(raw)) if cut else rng.sample(range(len(raw)), min(3, len(raw)))
    for at in places:
        trial.show("cut", raw[:at])
    for _ in range(2):
        trial.pack("spoiled listings", spoiled(rng, ref.listing(sheet)))


HELP = [b"dock show SHEET", b"dock pack LISTING SHEET", b"dock carry RULE MARGIN LATENESS", b"dock remains RULE MARGIN ALLOWANCE", b"dock worst SHEET [--rule RULE] EVENT=MINUTES.."]


def odds(trial):
    """What a user may well do: files that are not there, arguments too few or too many, text that is none."""
    for words in (["show", trial.path("none")], ["pack", trial.path("none"), trial.path("x")], ["pack", os.path.join(HERE, "..", "examples", "yard.listing"), trial.path("none/x")],
                  ["show"], ["pack", "a"], ["show", "a", "b"], ["pack", "a", "b", "c"], ["sow", "a"], ["show", trial.folder],
                  ["worst"], ["worst", trial.path("none")], ["worst", trial.path("none"), "0=1"], ["worst", trial.folder],
                  ["carry"], ["carry", "gate", "3"], ["carry", "gate", "3", "4", "5"], ["remains", "gate"], ["remains", "gate", "3", "4", "5"]):
        out, code, err = trial.run(*words)
        trial.note("plain failures", code == 1 and out == b"" and err.count(b"\n") == 1, (words, out, code, err))
    for words in (["--help"], ["-h"], ["help"], []):
        out, code, err = trial.run(*words)
        trial.note("help", code == 0 and all(line in out for line in HELP) and err == b"", (words, out, code, err))
    with open(trial.path("b.listing"), "wb") as f:
        f.write(b"period 60\n# \xff\n")
    out, code, _ = trial.run("pack", trial.path("b.listing"), trial.path("x"))
    trial.note("no text", code == 1 and out.startswith(b"line 2: ") and not os.path.exists(trial.path("x")), (out, code))


def counts(trial):
    """More lines or steps than a sheet can count."""
    trial.pack("uncountable", "period 1\n" * 65535)
    trial.pack("uncountable", "period 1\n" * 65536)
    trial.pack("uncountable", "period 1\nlot ordinary 1" + " 0" * 65535 + "\n")
    trial.pack("uncountable", "period 1\nlot ordinary 1" + " 0" * 65536 + "\n")


DAY = 1440
RULES = ref.RULES


def remaining(rule, margin, allowance):
    """The greatest lateness up to a day that hands on at most the allowance: the first from the top."""
    return next(lateness for lateness in range(DAY, -1, -1) if RULES[rule](margin, lateness) <= allowance)


def reckoned(trial, kind, words, answer):
    out, code, err = trial.run(*words)
    trial.note(kind, (out, code, err) == (b"%d\n" % answer, 0, b""), (words, answer, out, code, err))


def told(trial, kind, words, complaint):
    out, code, err = trial.run(*words)
    trial.note(kind, (out.decode(), code, err.decode()) == ("", 1, complaint + "\n"), (words, complaint, out, code, err))


def minutes(rng):
    return rng.choice([0, 1, 99, 100, 101, DAY - 1, DAY, rng.randint(0, 120), rng.randint(0, 120), rng.randint(0, DAY), rng.randint(0, DAY)])


def decimal(rng, number):
    return rng.choice(["", "", "", "0", "000000"]) + str(number)


def rules(trial, rng, how_many):
    """The rules' worked cases, and so many made-up ones under each rule."""
    for words, answer in (("carry share 50 7", 3), ("remains share 50 3", 7), ("carry gate 3 3", 0), ("carry gate 3 4", 4)):
        reckoned(trial, "worked cases of the rules", words.split(), answer)
    for rule in RULES:
        for _ in range(how_many):
            margin, lateness, allowance = minutes(rng), minutes(rng), minutes(rng)
            reckoned(trial, f"carry {rule}", ["carry", rule, decimal(rng, margin), decimal(rng, lateness)], RULES[rule](margin, lateness))
            reckoned(trial, f"remains {rule}", ["remains", rule, decimal(rng, margin), decimal(rng, allowance)], remaining(rule, margin, allowance))


def wrong_arguments(trial, rng):
    """Numbers that are none or too long, at either place, and rules that are none."""
    for command, second in (("carry", "lateness"), ("remains", "allowance")):
        for word in [*BAD, "1441", "01441", "65535", "65537", " 5", "5 ", "5\n", "-0", "1e2", "1,440"]:
            right = str(minutes(rng))
            for name, pair in (("margin", [word, right]), (second, [right, word])):
                told(trial, "wrong numbers of a rule", [command, rng.choice(list(RULES)), *pair], f"dock: the {name} has to be a whole number from 0 to 1440, in decimal")
        for name in ["", "Deduct", "gates", "shar", "share ", "é", "carry"]:
            told(trial, "no such rules", [command, name, "3", "4"], f"dock: no such rule: '{name}'; the rules are deduct, gate and share")


def spelled(rng, reports, rule):
    """The words of reports and a rule: numbers with zeros before them now and then, the rule anywhere or, for deduct, nowhere."""
    words = [f"{decimal(rng, event)}={decimal(rng, minutes)}" for event, minutes in reports]
    if rule != "deduct" or rng.random() < 0.3:
        at = rng.randint(0, len(words))
        words[at:at] = ["--rule", rule]
        if rng.random() < 0.2:  # a later rule replaces an earlier one
            words[:0] = ["--rule", rng.choice(list(RULES))]
    return words


def ahead(trial, kind, raw, rule, reports, words):
    """Looks ahead and compares; answers what has to be printed."""
    with open(trial.path("d.sheet"), "wb") as f:
        f.write(raw)
    text, status = ref.ahead(raw, rule, reports)
    out, code, err = trial.run("worst", trial.path("d.sheet"), *words)
    trial.note(kind, (out.decode(errors="replace"), code, err) == (text, status, b""), (raw.hex(), words, text, out, code, err))
    if status:
        trial.answers["ahead: " + " ".join(text.split()[:2])] += 1
    else:
        late, live, verdict = text.splitlines()
        several = " with several live" if verdict == "clear" and len(live.split()) > 2 else ""
        trial.answers["ahead: " + ("on time" if set(late.split()[1:]) == {"0"} else verdict.split()[0] + several)] += 1
    return text


def busy(rng):
    """A sheet on which delays go far: few trucks and sites, small margins, few activities now and many then, long ways."""
    period = rng.choice([30, 60, 60, 240, 1440])
    trucks, sites = list(range(rng.randint(2, 5))), list(range(rng.randint(1, 3)))
    sheet = ref.Sheet(period)
    for _ in range(rng.randint(2, 24)):
        sheet.events.append((rng.choice(trucks), rng.choice(sites), rng.randint(0, 1), rng.randint(0, period)))
    fits = [
        (kind, tail, head)
        for tail in range(len(sheet.events))
        for head in range(tail + 1, len(sheet.events))
        for kind in range(3)
        if ref.ends_fit(kind, sheet.events[tail], sheet.events[head])
    ]
    rng.shuffle(fits)
    heads = set()
    sparse = rng.random() < 0.6  # one activity into an event, so that delays meet only where one is reported
    for kind, tail, head in fits:
        if (sparse and head in heads) or len(sheet.activities) == 60 or rng.random() < 0.1:
            continue
        heads.add(head)
        sheet.activities.append((kind, tail, head, rng.choice([0, 0, 1, 2, 5, 10, 25, 50, 100, rng.randint(0, period), rng.randint(0, 1440)])))
    if sheet.activities:
        for _ in range(rng.randint(0, 10)):
            sheet.lots.append((rng.randint(0, 1), rng.randint(1, 65535), path(rng, sheet)))
    return sheet


def relay(rng):
    """Trucks that hand lots on, each by a transfer at the next site, with one activity that swallows what comes late."""
    hops = rng.randint(2, 5)
    sheet = ref.Sheet(rng.choice([60, 120, 1440]))
    for hop in range(hops):
        sheet.events += [(hop, hop, 1, 0), (hop, hop + 1, 0, 0)]
        if hop:
            sheet.activities.append((2, 2 * hop - 1, 2 * hop, rng.choice([0, 1, 3, 5])))
        sheet.activities.append((0, 2 * hop, 2 * hop + 1, rng.choice([0, 0, 2])))
    swallows = rng.randrange(len(sheet.activities))
    sheet.activities[swallows] = (*sheet.activities[swallows][:3], 1440)
    steps = list(range(len(sheet.activities)))
    for i in range(rng.randint(1, 4)):
        sheet.lots.append((i % 2, 1 + i, steps[rng.choice([0, 0, 1, rng.randrange(len(steps))]) :][: rng.randint(1, 32)]))
    return sheet


def relay_reports(rng, sheet):
    """A delay near the start, and now and then one behind the activity that swallows it."""
    reports = [(rng.choice([0, 0, 1]), rng.randint(sheet.period // 2, sheet.period))]
    if rng.random() < 0.7:
        reports.append((rng.choice([a[2] for a in sheet.activities if a[3] == 1440]), rng.randint(1, sheet.period)))
    rng.shuffle(reports)
    return reports


def made_up_reports(rng, sheet):
    """So many reports, most of them of events that there are and of minutes that there may be."""
    reports = []
    for _ in range(rng.choice([0, 1, 1, 1, 2, 2, 3, 5])):
        event = rng.randrange(len(sheet.events)) if rng.random() < 0.7 else rng.randrange((len(sheet.events) + 1) // 2)
        if reports and rng.random() < 0.2:
            event = reports[-1][0]
        reports.append((event, rng.choice([0, 1, 10, sheet.period, rng.randint(0, sheet.period), rng.randint(0, sheet.period)])))
    if rng.random() < 0.15:
        bad = rng.choice([(len(sheet.events), 0), (65535, 65535), (len(sheet.events), sheet.period + 1), (0, sheet.period + 1), (0, 65535)])
        reports.insert(rng.randint(0, len(reports)), bad)
    return reports


def delays(trial, rng, how_many, yard):
    """The yard sheet's worked cases; then so many made-up sheets, with made-up delays under each rule."""
    for words, answer in (
        ([], "lateness 0 0 0 0 0\nlive\nclear\n"),
        (["0=10"], "lateness 10 8 7 8 6\nlive 0 1 2 3\nclear\n"),
        (["0=10", "2=4"], "lateness 10 8 7 8 6\nlive 0 1 2 3\nmeet 2\n"),
        (["2=4", "0=10"], "lateness 10 8 7 8 6\nlive 0 1 2 3\nmeet 2\n"),
        (["2=4", "0=10", "2=0"], "lateness 10 8 7 8 6\nlive 0 1 2 3\nclear\n"),
        (["--rule", "gate", "0=3"], "lateness 3 3 0 3 0\nlive 0 2\nclear\n"),
        (["0=3"], "lateness 3 1 0 1 0\nlive 0 2\nclear\n"),
        (["5=1"], "refused 9\n"),
        (["0=61"], "refused 10\n"),
        (["5=61"], "refused 9\n"),
        (["0=61", "5=1"], "refused 10\n"),
        (["4=60", "5=1", "0=61"], "refused 9\n"),
    ):
        rule = words[1] if words[:1] == ["--rule"] else "deduct"
        reports = [tuple(map(int, w.split("="))) for w in words if "=" in w]
        same = ahead(trial, "worked delays of the yard sheet", yard, rule, reports, words) == answer
        trial.note("worked delays of the yard sheet", same, (words, answer))
    for _ in range(how_many):
        make, report = rng.choice([(busy, made_up_reports), (busy, made_up_reports), (relay, relay_reports)])
        sheet = make(rng)
        raw = ref.pack(ref.numbers_of(sheet))
        for rule in RULES:
            reports = report(rng, sheet)
            ahead(trial, f"delays under {rule}", raw, rule, reports, spelled(rng, reports, rule))
        broken = damaged(rng, raw)
        reports = made_up_reports(rng, sheet)
        ahead(trial, "delays on damaged sheets", broken, "deduct", reports, spelled(rng, reports, "deduct"))
    for sheet in (largest(128, 32), largest(512, 8), chain(512), chain(1)):
        reports = made_up_reports(rng, sheet)
        ahead(trial, "delays on the largest sheets", ref.pack(ref.numbers_of(sheet)), "share", reports, spelled(rng, reports, "share"))


def wrong_words(trial):
    """Words of `worst` that are none, before the sheet is looked at; the first one at fault is quoted."""
    sheet = os.path.join(HERE, "..", "examples", "yard.sheet")
    report = "a report is EVENT=MINUTES, two whole numbers up to 65535, in decimal"
    rules = "the rules are deduct, gate and share"
    for word in ["", "=", "1", "1=", "=1", "1=2=3", "1==2", "+1=2", "1=+2", "-1=2", "1=-2", "65536=1", "1=65536", "1 =2", "1= 2", "a=1", "1=a", "1:2", "0x1=2", "1=2 ", "é=1", "--rules", "-rule", "1=2.0"]:
        for words in ([word], ["0=1", word], [word, "9=9"], ["--rule", "gate", word], [word, "--rule", "none"], ["9=9", word]):
            told(trial, "words that are no report", ["worst", sheet, *words], f"dock: no report: '{word}'; {report}")
    for name in ["", "Deduct", "gates", "0=1", "--rule", "é"]:
        for words in (["--rule", name], ["0=1", "--rule", name], ["--rule", name, "bad"], ["--rule", "gate", "--rule", name]):
            told(trial, "no such rules", ["worst", sheet, *words], f"dock: no such rule: '{name}'; {rules}")
    for words in (["--rule"], ["0=1", "--rule"], ["--rule", "gate", "--rule"]):
        told(trial, "no rule named", ["worst", sheet, *words], f"dock: no rule is named after '--rule'; {rules}")


def main():
    how_many = int(sys.argv[1]) if len(sys.argv) > 1 else 500
    rng = random.Random(int(sys.argv[2]) if len(sys.argv) > 2 else 1)
    with tempfile.TemporaryDirectory() as folder:
        trial = Trial(folder)
        yard = open(os.path.join(HERE, "..", "examples", "yard.sheet"), "rb").read()
        for at in range(len(yard) + 1):
            trial.show("the yard sheet, cut at every place", yard[:at])
        odds(trial)
        edges(trial)
        counts(trial)
        for at in range(how_many):
            once(trial, rng, cut=at % 50 == 0)
        rules(trial, rng, how_many=200)
        wrong_arguments(trial, rng)
        delays(trial, rng, how_many, yard)
        wrong_words(trial)
    for kind, tried in sorted(trial.tried.items()):
        bad = sum(1 for k, _ in trial.wrong if k == kind)
        print(f"{kind}: {tried} tried, {bad} wrong")
    print("answers: " + ", ".join(f"{name} {times}" for name, times in sorted(trial.answers.items())))
    for kind, what in trial.wrong[:5]:
        print(f"WRONG ({kind}): {str(what)[:2000]}")
    print(f"{sum(trial.tried.values())} tried, {len(trial.wrong)} wrong")
    sys.exit(1 if trial.wrong else 0)


if __name__ == "__main__":
    main()
