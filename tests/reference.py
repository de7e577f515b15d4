"""An independent reader and writer of sheets and listings, written from the format's rules alone, and an independent
reckoning of what reported delays lead to, written from the model's rules alone.

A sheet is 16-bit unsigned numbers, high byte first, in four sections, each after its count:
terms, events, activities, lots. `read` answers the sheet or raises the first refusal in reading order.
`ahead` answers what is printed of a sheet, a rule and reports.
"""

import struct
from dataclasses import dataclass, field

SIDES = ("arrival", "departure")
KINDS = ("drive", "stand", "transfer")
CLASSES = ("ordinary", "express")
MOST_EVENTS, MOST_ACTIVITIES, MOST_LOTS, MOST_STEPS = 512, 1024, 512, 4096

# what a caller lends: places in the event, activity, lot and step tables
ROOM = (512, 1024, 512, 4096)


@dataclass
class Sheet:
    period: int = 60
    events: list = field(default_factory=list)  # (truck, site, side, tolerance)
    activities: list = field(default_factory=list)  # (kind, tail, head, margin)
    lots: list = field(default_factory=list)  # (class, parcels, [step, ..])


class Refused(Exception):
    def __init__(self, number, section, record, place):
        super().__init__(f"refused {number} section {section} record {record} byte {place}")


class Bytes:
    """The bytes that are left, and how many are gone."""

    def __init__(self, data):
        self.data, self.at = data, 0

    def number(self, section, record, place):
        if len(self.data) - self.at < 2:
            raise Refused(1, section, record, place)
        value = self.data[self.at] * 256 + self.data[self.at + 1]
        self.at += 2
        return value

    def numbers(self, how_many, section, record):
        place = self.at
        return [self.number(section, record, place) for _ in range(how_many)]

    def count(self, section, least, most, room):
        place = self.at
        value = self.number(section, 0, place)
        if not least <= value <= most:
            raise Refused(2, section, 0, place)
        if value > room:
            raise Refused(8, section, 0, place)
        return value


def ends_fit(kind, tail, head):
    truck_a, site_a, side_a, _ = tail
    truck_b, site_b, side_b, _ = head
    if kind == 0:  # a drive: a truck's departure to its arrival at another site
        return side_a == 1 and side_b == 0 and truck_a == truck_b and site_a != site_b
    if kind == 1:  # a stand: a truck's arrival to its departure at the same site
        return side_a == 0 and side_b == 1 and truck_a == truck_b and site_a == site_b
    return side_a == 0 and side_b == 1 and truck_a != truck_b and site_a == site_b


def read_lot(data, sheet, record, total, room):
    place = data.at
    clas, parcels, count = data.numbers(3, 4, record)
    if clas > 1 or parcels < 1 or not 1 <= count <= 32:
        raise Refused(6, 4, record, place)
    if total + count > MOST_STEPS:
        raise Refused(2, 4, record, place)
    if total + count > room:
        raise Refused(8, 4, record, place)
    steps, here = [], None
    for _ in range(count):
        place = data.at
        step = data.number(4, record, place)
        if step >= len(sheet.activities) or (here is not None and sheet.activities[step][1] != here):
            raise Refused(6, 4, record, place)
        here = sheet.activities[step][2]
        steps.append(step)
    sheet.lots.append((clas, parcels, steps))


def read(raw, room=ROOM):
    data, sheet = Bytes(raw), Sheet()
    data.count(1, 1, 1, 1)
    place = data.at
    (sheet.period,) = data.numbers(1, 1, 0)
    if not 1 <= sheet.period <= 1440:
        raise Refused(3, 1, 0, place)
    for record in range(data.count(2, 1, MOST_EVENTS, room[0])):
        place = data.at
        event = data.numbers(4, 2, record)
        if event[2] > 1 or event[3] > sheet.period:
            raise Refused(4, 2, record, place)
        sheet.events.append(tuple(event))
    for record in range(data.count(3, 0, MOST_ACTIVITIES, room[1])):
        place = data.at
        kind, tail, head, margin = data.numbers(4, 3, record)
        if kind > 2 or not tail < head < len(sheet.events) or margin > 1440:
            raise Refused(5, 3, record, place)
        if not ends_fit(kind, sheet.events[tail], sheet.events[head]):
            raise Refused(5, 3, record, place)
        sheet.activities.append((kind, tail, head, margin))
    lots, total = data.count(4, 0, MOST_LOTS, room[2]), 0
    for record in range(lots):
        read_lot(data, sheet, record, total, room[3])
        total += len(sheet.lots[-1][2])
    if data.at < len(raw):
        raise Refused(7, 4, lots, data.at)
    return sheet


def numbers_of(sheet):
    """A sheet's numbers, section by section, each section a list of records."""
    return [
        [[sheet.period]],
        [list(e) for e in sheet.events],
        [list(a) for a in sheet.activities],
        [[c, p, len(s), *s] for c, p, s in sheet.lots],
    ]


def pack(sections):
    """The bytes of four sections, each a list of records, each a list of numbers."""
    flat = []
    for records in sections:
        flat.append(len(records))
        for numbers in records:
            flat.extend(numbers)
    return struct.pack(f">{len(flat)}H", *flat)


def listing(sheet):
    lines = [f"period {sheet.period}"]
    lines += [f"event {t} {s} {SIDES[d]} {o}" for t, s, d, o in sheet.events]
    lines += [f"{KINDS[k]} {a} {b} {m}" for k, a, b, m in sheet.activities]
    lines += [" ".join(["lot", CLASSES[c], str(p), *map(str, s)]) for c, p, s in sheet.lots]
    return "".join(line + "\n" for line in lines)


def shown(raw):
    """What showing these bytes prints, and the status that it ends with."""
    try:
        return listing(read(raw)), 0
    except Refused as refusal:
        return f"{refusal}\n", 1


class BadLine(Exception):
    pass


def number(word):
    if not word or any(c not in "0123456789" for c in word) or int(word) > 65535:
        raise BadLine
    return int(word)


def choice(word, words):
    if word not in words:
        raise BadLine
    return words.index(word)


def record_of(words):
    """The section (0 to 3) and the numbers of a listing's line."""
    first, rest = words[0], words[1:]
    if first == "period" and len(rest) == 1:
        return 0, [number(rest[0])]
    if first == "event" and len(rest) == 4:
        return 1, [number(rest[0]), number(rest[1]), choice(rest[2], SIDES), number(rest[3])]
    if first in KINDS and len(rest) == 3:
        return 2, [KINDS.index(first), *map(number, rest)]
    if first == "lot" and len(rest) >= 2 and len(rest) - 2 <= 65535:
        return 3, [choice(rest[0], CLASSES), number(rest[1]), len(rest) - 2, *map(number, rest[2:])]
    raise BadLine


def sections_of(text):
    """The four sections of a listing, or the number of the first line that cannot be read."""
    sections = [[], [], [], []]
    for at, line in enumerate(text.split("\n"), 1):
        words = line.replace("\t", " ").replace("\r", " ").split(" ")
        words = [w for w in words if w]
        if line.startswith("#") or not words:
            continue
        try:
            section, numbers = record_of(words)
            if len(sections[section]) == 65535:
                raise BadLine
        except BadLine:
            return at
        sections[section].append(numbers)
    return sections


# ---- looking ahead

RULES = {
    "deduct": lambda margin, lateness: max(lateness - margin, 0),
    "gate": lambda margin, lateness: lateness if lateness > margin else 0,
    "share": lambda margin, lateness: lateness * (100 - min(margin, 100)) // 100,
}


def worst(sheet, rule, delays):
    """The least lateness that is lawful when every transfer waits: begun at the delays, and raised at one head after
    another wherever an activity hands on more, until none does. `delays` has the noted ones, by event."""
    late = [delays.get(event, 0) for event in range(len(sheet.events))]
    raised = True
    while raised:
        raised = False
        for _, tail, head, margin in sheet.activities:
            handed = RULES[rule](margin, late[tail])
            if handed > late[head]:
                late[head], raised = handed, True
    return late


def is_live(sheet, rule, late, activity):
    _, tail, _, margin = sheet.activities[activity]
    return RULES[rule](margin, late[tail]) > 0


def meets(sheet, rule, delays, late, event):
    """Whether an event has two sources or more: live activities that lead to it, and a delay of its own."""
    incoming = [a for a in range(len(sheet.activities)) if sheet.activities[a][2] == event and is_live(sheet, rule, late, a)]
    return len(incoming) + (1 if delays.get(event, 0) > 0 else 0) >= 2


def is_tangled(sheet, rule, late, lot):
    """Whether a lot's way has a live transfer, later a step that is not live, and then a live transfer or a late end:
    every pair of places is tried."""
    steps = sheet.lots[lot][2]
    end_late = late[sheet.activities[steps[-1]][2]] > 0
    hot = [sheet.activities[s][0] == 2 and is_live(sheet, rule, late, s) for s in steps]
    for first in range(len(steps)):
        for gap in range(first + 1, len(steps)):
            if hot[first] and not is_live(sheet, rule, late, steps[gap]) and (end_late or any(hot[gap + 1 :])):
                return True
    return False


def ahead(raw, rule, reports):
    """What is printed of these bytes, a rule and reports as (event, minutes), and the status that it ends with."""
    try:
        sheet = read(raw)
    except Refused as refusal:
        return f"{refusal}\n", 1
    for event, minutes in reports:
        if event >= len(sheet.events):
            return "refused 9\n", 1
        if minutes > sheet.period:
            return "refused 10\n", 1
    delays = dict(reports)
    late = worst(sheet, rule, delays)
    live = [a for a in range(len(sheet.activities)) if is_live(sheet, rule, late, a)]
    meeting = [e for e in range(len(sheet.events)) if meets(sheet, rule, delays, late, e)]
    tangled = [i for i in range(len(sheet.lots)) if is_tangled(sheet, rule, late, i)]
    verdict = f"meet {meeting[0]}" if meeting else f"tangled {tangled[0]}" if tangled else "clear"
    lines = [["lateness", *late], ["live", *live], [verdict]]
    return "".join(" ".join(map(str, words)) + "\n" for words in lines), 0
