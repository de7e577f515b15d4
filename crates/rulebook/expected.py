"""Prints what the test program must write, from the formulas: python3 expected.py | diff - stdout"""

LIMIT = 1440
MINUTES = range(LIMIT + 1)

RULES = {
    "deduct": lambda margin, lateness: max(0, lateness - margin),
    "gate": lambda margin, lateness: lateness if lateness > margin else 0,
    "share": lambda margin, lateness: lateness * (100 - min(margin, 100)) // 100,
    "relief": lambda margin, lateness: min(90, max(0, lateness - margin)),
}


def carries(rule):
    return [[rule(margin, lateness) for lateness in MINUTES] for margin in MINUTES]


def remains(table):
    """The greatest lateness for each allowance: from the top down, the first that is admissible."""
    answers = []
    for row in table:
        line, lateness = [], LIMIT
        for allowance in reversed(MINUTES):
            # an allowance of less admits no lateness that this one does not, so the search goes on downward
            while row[lateness] > allowance:
                lateness -= 1
            line.append(lateness)
        answers.append(line[::-1])
    return answers


def tally(answers, expected):
    wrong = sum(a != e for line, want in zip(answers, expected) for a, e in zip(line, want))
    checksum = 0
    for line in answers:
        for answer in line:
            checksum = (checksum * 31 + answer) % 2**64
    return f"{len(MINUTES) ** 2} answers, {wrong} wrong, checksum {checksum}"


def main():
    carry = {name: carries(rule) for name, rule in RULES.items()}
    remain = {name: remains(table) for name, table in carry.items()}
    for name in RULES:
        print(f"{name} carry: {tally(carry[name], carry[name])}")
        print(f"{name} remains: {tally(remain[name], remain[name])}")
    print(f"deduct taken for gate, carry: {tally(carry['deduct'], carry['gate'])}")
    print(f"deduct taken for gate, remains: {tally(remain['deduct'], remain['gate'])}")

    lots = [("ordinary", 20), ("ordinary", 5), ("express", 40)]

    def minutes(each):
        return sum(parcels * each for _, parcels in lots)

    def ranks(each):
        return tuple(sum(p * each for c, p in lots if c == name) for name in ("express", "ordinary"))

    print(f"parcel-minutes: late {minutes(10)}, missed {minutes(60)}")
    print(f"ranked: late {ranks(10)}, missed {ranks(60)}")
    print(f"grace: late {minutes(10 - 4)}, missed {minutes(60)}")


main()
