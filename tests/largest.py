"""Writes the largest sheet that there can be, to time a plan on: 512 events, 1,024 activities, 512 lots, 4,096 steps.

    python3 tests/largest.py FILE

Truck 0 comes in at event 0, and 63 trucks at the same dock wait for it; each goes on over seven more events. So a delay at event 0 makes
63 transfers live and goes down 63 ways of eight steps, which no two delays share. The other activities are transfers with margins that
swallow any delay. Each way has eight lots, and the last one the rest.
"""
import struct
import sys

ARRIVAL, DEPARTURE = 0, 1
DRIVE, STAND, TRANSFER = 0, 1, 2
WAYS, LONG = 63, 8


def largest():
    events = [(0, 0, ARRIVAL, 1440)]
    activities = []
    ways = []
    for way in range(1, WAYS + 1):
        first = len(events)
        steps = []
        for n in range(LONG):
            # departures and arrivals by turns, each drive to a site of its own
            site = 0 if n == 0 else way * 100 + (n + 1) // 2
            events.append((way, site, DEPARTURE if n % 2 == 0 else ARRIVAL, 1440))
            steps.append(len(activities))
            if n == 0:
                activities.append((TRANSFER, 0, first, 1))
            else:
                activities.append((DRIVE if n % 2 == 1 else STAND, first + n - 1, first + n, 0))
        ways.append((first, steps))
    while len(events) < 512:
        events.append((1000 + len(events), 0, DEPARTURE, 1440))
    spare = 505
    while len(activities) < 1024:
        activities.append((TRANSFER, 0, spare, 1440))
        spare = 505 + (spare - 504) % 7
    lots = [(n % 2, 1 + n * 127 % 65535, ways[n % WAYS][1]) for n in range(512)]
    return 1440, events, activities, lots


def packed(period, events, activities, lots):
    numbers = [1, period, len(events)]
    for event in events:
        numbers += event
    numbers.append(len(activities))
    for activity in activities:
        numbers += activity
    numbers.append(len(lots))
    for kind, parcels, steps in lots:
        numbers += [kind, parcels, len(steps)] + steps
    return struct.pack(">%dH" % len(numbers), *numbers)


if __name__ == "__main__":
    with open(sys.argv[1], "wb") as file:
        file.write(packed(*largest()))
