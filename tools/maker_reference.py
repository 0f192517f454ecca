#!/usr/bin/env python3
"""Works out what the programs with a maker's brake must print, apart from the code: exact fractions, and the rules as docs/ has them.

  tools/maker_reference.py run   > crates/maker_run/stdout
  tools/maker_reference.py cases > crates/maker_cases/stdout
"""
import sys
from fractions import Fraction as F
from math import ceil

TW, TI, EPS = 20, 30, 2

# the brakes of the table: deceleration in mm/s², reaction time in tenths of a second, top speed in tenths of km/h
BRAKES = [
    (900, 25, 1600), (300, 0, 4000), (300, 200, 4000), (427, 33, 1500), (428, 33, 1500), (2000, 200, 4000), (2000, 0, 0),
    (299, 201, 4001), (2001, 0, 0), (300, 201, 4001), (2000, 200, 4001), (65535, 65535, 2 ** 64 - 1),
]
QUESTIONS = [
    (1000, 0, 0), (1000, 300, 10), (1000, 300, -10), (1600, 1599, -20), (1601, 0, 0), (4000, 0, -35), (4000, 3999, 35),
    (1000, 0, -23), (1000, 0, -24), (1500, 0, -35), (1, 0, -35), (1, 0, 35), (4001, 0, 0), (0, 4001, 0), (1000, 0, -36), (1000, 0, 36), (300, 300, 0), (0, 0, -21), (1500, 100, -21),
]


def refused_brake(a, t, top):
    if not 300 <= a <= 2000:
        return 21
    if t > 200:
        return 22
    return 23 if top > 4000 else 0


def refused(top, v, v0, grade):
    if v > top or v0 > top:
        return 8
    if not -35 <= grade <= 35:
        return 9
    return 13 if v <= v0 else 0


def slowing(a, grade):
    """The net deceleration, in ten-millionths of a m/s²."""
    k = 90 if grade > 0 else 100 if grade >= -20 else 110
    return 10_000 * a + k * grade * 981


def three(brake, v, v0, grade):
    """The three distances in mm, or None where the brake is too weak: from the speeds in m/s and the times in s."""
    a, t, _ = brake
    net = slowing(a, grade)
    if net < 500_000:
        return None
    gained = F(slowing(a, grade) - 10_000 * a, 10 ** 7) * F(t, 10)
    reached = max(F(v0, 36), F(v, 36) - gained)
    # a fine step is a thousandth of a tenth of km/h
    fine = F(ceil(reached * 36_000), 36_000)

    def distances(up, speed):
        stop = up(1000 * (speed ** 2 - F(v0, 36) ** 2) / (2 * F(net, 10 ** 7)))
        control = up(1000 * speed * F(t, 10)) + stop
        warning = control + up(1000 * speed * F(TW, 10))
        return control, warning, warning + up(1000 * speed * F(TI, 10))

    exact, computed = distances(lambda x: x, reached), distances(ceil, fine)
    for e, c in zip(exact, computed):
        assert 0 <= e <= c <= e + 90 + F(c, 50000)
    return computed


def judged(brake, v, v0, grade):
    number = refused(brake[2], v, v0, grade)
    if number:
        return f"answer={number}"
    found = three(brake, v, v0, grade)
    return "weak" if found is None else "control={} warning={} nominal={}".format(*found)


def cases():
    for brake in BRAKES:
        print("deceleration={} reaction={} top={}".format(*brake))
        number = refused_brake(*brake)
        if number:
            print(f"answer={number}")
            continue
        for v, v0, grade in QUESTIONS:
            print(f"speed={v} target={v0} grade={grade} {judged(brake, v, v0, grade)}")


BRAKE = (900, 25, 1600)
# the train's length in mm, and the grade from each place on
LENGTH = 200_000
GRADES = {0: -4, 1_500_000: -12, 2_000_000: -4}
# a yard begins behind the target: its place in mm, and its speed in tenths of km/h
YARD, YARD_SPEED = 2_600_000, 150
POINT, DISTANCE, ALLOWED = 200_000, 2_400_000, 300
PLACE = POINT + DISTANCE - ceil(F(DISTANCE * EPS, 100))
CALLS = [
    ("sample", 500_000, 1_400), ("sample", 1_350_000, 1_400), ("sample", 1_460_000, 1_400), ("sample", 1_540_000, 1_400), ("release",),
    ("sample", 1_900_000, 1_000), ("release",), ("sample", 2_050_000, 600), ("release",), ("sample", 2_552_000, 290),
    ("sample", 2_599_999, 290), ("sample", 2_600_000, 220), ("sample", 2_640_000, 251), ("release",), ("sample", 2_660_000, 160), ("release",), ("sample", 2_680_000, 150), ("release",),
    ("lift", YARD), ("sample", 2_700_000, 300),
]


def grade_ahead(front):
    rear, end = max(0, front - LENGTH), max(front, PLACE)
    at = max(p for p in GRADES if p <= rear)
    return min(GRADES[p] for p in GRADES if p == at or rear < p <= end)


def shown(number, zone, phase):
    traction = "on" if phase == "free" else "cut"
    brake = "on" if phase == "emergency" else "off"
    print(f"answer={number} phase={phase} zone={zone} traction={traction} brake={brake}")


def run():
    for place, grade in GRADES.items():
        print(f"call=slope place={place} grade={grade}")
        shown(0, "-", "free")
    print(f"call=announce number=1 point={POINT} distance={DISTANCE} speed={ALLOWED}")
    shown(0, "-", "free")
    print(f"call=ceiling place={YARD} speed={YARD_SPEED}")
    shown(0, "-", "free")
    phase, clear, yard = "free", False, True
    for call in CALLS:
        if call[0] == "release":
            print("call=release")
            number = 0 if phase == "emergency" and clear else 12
            if number == 0:
                phase, clear = "free", False
            shown(number, "-", phase)
            continue
        if call[0] == "lift":
            print(f"call=lift place={call[1]}")
            clear, yard = False, False
            shown(0, "-", phase)
            continue
        _, front, speed = call
        print(f"call=sample place={front} speed={speed}")
        grade = grade_ahead(front)
        print(f"grade={grade} left={max(0, PLACE - front)} {judged(BRAKE, speed, ALLOWED, grade)}")
        zone = 0
        if speed > ALLOWED:
            found = three(BRAKE, speed, ALLOWED, grade)
            zone = 3 if found is None else sum(PLACE - front <= d for d in found)
        if yard and front >= YARD:
            zone = max(zone, sum(speed - YARD_SPEED > limit for limit in (0, 50, 100)))
        if zone == 3:
            phase = "emergency"
        elif phase != "emergency" and zone in (0, 2):
            phase = "warning" if zone == 2 else "free"
        clear = zone == 0
        shown(0, zone, phase)


if __name__ == "__main__":
    {"run": run, "cases": cases}[sys.argv[1]]()
