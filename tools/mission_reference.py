#!/usr/bin/env python3
"""Works out what the program `mission` must print, apart from the code: lists of its own, and the exact distances of reference.py.

  tools/mission_reference.py answers < TEXT   what it prints on a text
  tools/mission_reference.py cases            writes crates/mission_cases/stdin and crates/mission_cases/stdout

The table of cases is many runs. In stdin each text ends with a byte 1; in stdout a line `next` stands between what is printed on two of them.
"""
import os
import re
import sys

from reference import A, DUE, KEYS, read_text, sheet, steps, top

NEXT = b"next\n"
END = b"\x01"
MAX_BYTES = 65_536
MAX_PLACE, MAX_SPEED = 1_000_000_000, 4_000
SECTIONS, TARGETS, CEILINGS = 64, 32, 48
FIELDS = {word.decode(): [key.decode() for key in keys] for word, keys in DUE.items()}


class Fault(Exception):
    """A refusal, by its number."""


def read_value(key, word):
    form = r"(0|-?[1-9][0-9]{0,9})" if key == "grade" else r"(0|[1-9][0-9]{0,9})"
    if not re.fullmatch(form, word):
        raise Fault(3)
    if key == "number" and int(word) > 65_535:
        raise Fault(4)
    return int(word)


def read_call(line):
    """The call's name and its values, or the number of the first question with a no."""
    words = line.decode("latin-1").split(" ")
    if not words[0].startswith("call="):
        raise Fault(2)
    name = words[0][len("call="):]
    if name not in FIELDS:
        raise Fault(2)
    values = []
    for n, key in enumerate(FIELDS[name], 1):
        if len(words) <= n or not words[n].startswith(key + "="):
            raise Fault(2)
        values.append(read_value(key, words[n][len(key) + 1:]))
    if len(words) > 1 + len(FIELDS[name]):
        raise Fault(5)
    return name, values


def require(number, holds):
    if not holds:
        raise Fault(number)


class Mission:
    """What stands: the grade that begins at each place, the place and speed of each number, and the speed of each ceiling's place."""

    def __init__(self, values):
        self.values = values
        self.grades = {}
        self.targets = {}
        self.ceilings = {}
        self.phase = "free"
        self.clear = False

    def grade_at(self, place):
        begun = [p for p in self.grades if p <= place]
        return self.grades[max(begun)] if begun else -35

    def grade_ahead(self, front, place):
        """The least grade from the rear of the train to the place, or to its front once the place is passed; the sheet's length is in m."""
        rear = max(0, front - 1_000 * self.values["length"])
        changes = [p for p in self.grades if rear < p <= max(front, place)]
        return min(self.grade_at(p) for p in [rear] + changes)

    def target_zone(self, front, speed, place, allowed):
        if speed <= allowed:
            return 0
        three = steps(self.values, speed, allowed, self.grade_ahead(front, place))[4]
        if three is None:
            return 3
        return sum(place - front <= d for d in three)

    def ceiling_zone(self, front, speed):
        begun = [p for p in self.ceilings if p <= front]
        if not begun:
            return 0
        above = speed - self.ceilings[max(begun)]
        return sum(above > limit for limit in (0, 50, 100))

    def zone(self, front, speed):
        if speed > top(self.values):
            return 3
        return max([self.target_zone(front, speed, *t) for t in self.targets.values()] + [self.ceiling_zone(front, speed)])

    def slope(self, place, grade):
        require(7, place <= MAX_PLACE)
        require(9, -35 <= grade <= 35)
        require(10, place not in self.grades)
        require(11, len(self.grades) < SECTIONS)
        self.grades[place] = grade

    def announce(self, number, point, distance, speed):
        require(7, max(point, distance, point + distance) <= MAX_PLACE)
        require(8, speed <= top(self.values))
        require(10, number not in self.targets)
        require(11, len(self.targets) < TARGETS)
        cut = -(-distance * self.values["eps"] // 100)
        self.targets[number] = (point + distance - cut, speed)

    def withdraw(self, number):
        require(10, number in self.targets)
        del self.targets[number]

    def ceiling(self, place, speed):
        require(7, place <= MAX_PLACE)
        require(8, speed <= top(self.values))
        require(10, place not in self.ceilings)
        require(11, len(self.ceilings) < CEILINGS)
        self.ceilings[place] = speed

    def lift(self, place):
        require(7, place <= MAX_PLACE)
        require(10, place in self.ceilings)
        del self.ceilings[place]

    def sample(self, place, speed):
        require(7, place <= MAX_PLACE)
        require(8, speed <= MAX_SPEED)
        zone = self.zone(place, speed)
        if zone == 3:
            self.phase = "emergency"
        elif self.phase != "emergency" and zone in (0, 2):
            self.phase = "warning" if zone == 2 else "free"
        return zone

    def release(self):
        require(12, self.phase == "emergency" and self.clear)
        self.phase = "free"

    def call(self, line):
        """The number that the line is answered, and the zone of an accepted sample."""
        try:
            name, values = read_call(line)
            zone = getattr(self, name)(*values)
        except Fault as fault:
            return fault.args[0], "-"
        self.clear = zone == 0
        return 0, "-" if zone is None else zone


def answers(text):
    """The lines that the program prints on a text."""
    text = text[:MAX_BYTES]
    fault = read_text(text)
    rest = b""
    if fault is not None and fault[0] == 5:
        text, rest = text[:fault[1]], text[fault[1]:]
        fault = read_text(text)
    if fault is not None:
        return ["answer={} byte={} layer={}".format(*fault)]
    mission = Mission(sheet(" ".join(line.split("=")[1] for line in text.decode().splitlines())))
    printed = []
    while rest:
        end = rest.find(b"\n", 0, 96)
        number, zone = (1, "-") if end < 0 else mission.call(rest[:end])
        printed.append(f"answer={number} phase={mission.phase} zone={zone}")
        rest = b"" if end < 0 else rest[end + 1:]
    return printed


# The table of cases: a sheet, and the lines of a run. Each function is a group of runs.

def slope(place, grade):
    return f"call=slope place={place} grade={grade}"


def announce(number, point, distance, speed):
    return f"call=announce number={number} point={point} distance={distance} speed={speed}"


def withdraw(number):
    return f"call=withdraw number={number}"


def ceiling(place, speed):
    return f"call=ceiling place={place} speed={speed}"


def lift(place):
    return f"call=lift place={place}"


def sample(place, speed):
    return f"call=sample place={place} speed={speed}"


RELEASE = "call=release"
PHASES = "free", "warning", "emergency"
# far from every target of the runs, and standing: zone 0
STANDING = sample(0, 0)
LEVEL = slope(0, 0)


def edges(values, place, speed, allowed, grade):
    """The last place outside each distance to a target and the first within it, outermost first."""
    three = steps(values, speed, allowed, grade)[4]
    return [sample(place - d - out, speed) for d in reversed(three) for out in (1, 0)]


def worked():
    yield A, [LEVEL, announce(1, 0, 1_000_000, 0), sample(212_036, 1_000), sample(212_037, 1_000), RELEASE, sample(212_040, 0), RELEASE]


def no_calls():
    yield A, []


def bad_sheets():
    for old, new in [
        ("model=scmt\n", ""), ("model=scmt", "model=Scmt"), ("regime=E", "regime=E "), ("regime=E", "Regime=E"),
        ("kr=100", "kr=" + "1" * 40), ("kr=100", "kr=151"), ("kr=100", "kr=0100"), ("brake=V", "brake=M"), ("eps=0", "eps=21"),
    ]:
        yield {**A, "edit": (old, new)}, [LEVEL, STANDING]


def reading_faults():
    bad = [
        "", " ", "call", "call=", "Call=release", "call=Release", "call=releases", "call=brake", "call =release", " call=release",
        "call=release ", "call=release x", "call=release call=release", "release", "call=release\r", "\x00", "\xff\xfe",
        "call=slope", "call=slope ", "call=slope place=5", "call=slope place=5 ", "call=slope grade=0 place=5", "call=slope place=5  grade=0",
        "call=slope place=5,grade=0", "call=slope place= grade=0", "call=slope place=5 grade=", "call=slope place=5 grade=0 ",
        "call=slope place=5 grade=0 x", "call=slope place=5 grade=0x", "call=slope place=05 grade=0", "call=slope place=00 grade=0",
        "call=slope place=-5 grade=0", "call=slope place=+5 grade=0", "call=slope place=5 grade=-0", "call=slope place=5 grade=-",
        "call=slope place=5 grade=--1", "call=slope place=5 grade=-01", "call=slope place=5 grade=+1", "call=slope place=12345678901 grade=0",
        "call=slope place=5 grade=12345678901", "call=slope place=5 grade=-12345678901", "call=slope  place=5 grade=0",
        "call=slope place=x grade=", "call=slope place=5 Grade=0", "call=sample place=5 speed=-1", "call=sample speed=5 place=1",
        "call=sample place=5", "call=sample place=5 speed=1 speed=1", "call=withdraw", "call=withdraw number=", "call=withdraw number=01",
        "call=withdraw number=65536", "call=withdraw number=65536 x", "call=withdraw number=9999999999", "call=withdraw number=10000000000",
        "call=withdraw number=-1", "call=announce number=65536 point=0 distance=0 speed=0", "call=announce number=65536 point=x",
        "call=announce number=1 point=0 distance=0", "call=announce number=1 distance=0 point=0 speed=0",
        "call=announce number=1 point=0 distance=0 speed=0 eps=0", "call=announce number=1 point=0 distance=-1 speed=0",
        "call=ceiling", "call=ceiling place=5", "call=ceiling speed=5 place=5", "call=ceiling place=5 speed=-5", "call=ceiling place=5 speed=5 ", "call=ceilings place=5 speed=5",
        "call=lift", "call=lift place=", "call=lift place=05", "call=lift place=-1", "call=lift place=5 speed=5", "call=lift number=5", "call=Lift place=5",
    ]
    yield A, bad
    # between calls, in warning and in emergency: nothing is altered
    yield A, [LEVEL, bad[0], announce(1, 0, 1_000_000, 0), bad[5], sample(160_000, 1_000), *bad[:4], sample(100_000, 1_000), bad[30], RELEASE]
    yield A, [sample(0, 2_601), bad[20], STANDING, bad[33], bad[51], RELEASE, bad[11]]
    # the widest line, then one byte more: it ends the run
    yield A, ["call=release" + " " * 83, "x" * 95, LEVEL, "call=release" + " " * 84, LEVEL, STANDING]
    yield A, [sample(0, 2_601), "y" * 200, RELEASE]
    # the longest calls that are well formed
    yield A, ["call=announce number=65535 point=9999999999 distance=9999999999 speed=9999999999", "call=slope place=9999999999 grade=-9999999999", sample(9_999_999_999, 9_999_999_999)]


def refusals():
    yield A, [slope(MAX_PLACE + 1, 0), slope(5, -36), slope(5, 36), slope(5, -35), slope(6, 35), slope(5, 0), slope(MAX_PLACE, 0), slope(MAX_PLACE, 0)]
    yield A, [
        announce(1, MAX_PLACE + 1, 0, 0), announce(1, 0, MAX_PLACE + 1, 0), announce(1, 1, MAX_PLACE, 0), announce(1, MAX_PLACE, 1, 0),
        announce(1, 500_000_001, 500_000_000, 0), announce(1, 0, 0, 2_601), announce(1, 500_000_000, 500_000_000, 2_600), announce(1, 0, 0, 0),
        announce(2, MAX_PLACE, 0, 0), announce(3, 0, MAX_PLACE, 0), announce(0, 0, 0, 2_600), announce(65_535, 7, 7, 1), announce(65_535, 8, 8, 1), announce(0, 8, 8, 1),
    ]
    yield A, [withdraw(1), announce(1, 0, 9, 0), withdraw(2), withdraw(1), withdraw(1), withdraw(65_535)]
    yield A, [sample(MAX_PLACE + 1, 0), sample(MAX_PLACE, 0), sample(0, 4_001), sample(0, 0), sample(0, 9_999_999_999), sample(9_999_999_999, 0)]
    # release: free, warning, emergency with the last sample in zones 3, 2, 1 and 0
    within = edges(A, 1_000_000, 1_000, 0, 0)
    yield A, [RELEASE, LEVEL, RELEASE, announce(1, 0, 1_000_000, 0), STANDING, RELEASE, within[3], RELEASE, within[5], RELEASE, within[4], RELEASE, within[2], RELEASE, within[0], RELEASE, RELEASE]


def two_refusals():
    yield A, [
        LEVEL, slope(MAX_PLACE + 1, 36), slope(0, 36), slope(0, -36), announce(1, 0, 10, 0), announce(1, MAX_PLACE + 1, 0, 2_601), announce(1, 0, 10, 2_601),
        announce(1, MAX_PLACE, 1, 0), announce(2, 0, MAX_PLACE + 1, 2_601), sample(MAX_PLACE + 1, 4_001), sample(MAX_PLACE + 1, 2_601), sample(0, 4_001), RELEASE,
    ]


def full_lists():
    many = [slope(1_000 * n, n % 36 - 35) for n in range(SECTIONS)]
    # the rear of a train of 7 m stands exactly on the last section
    yield {**A, "length": 7}, [*many, slope(64_000, 0), slope(500, 0), slope(63_000, 0), slope(64_000, 36), slope(0, 36), slope(MAX_PLACE + 1, 0), announce(1, 0, 1_000_000, 0), sample(0, 800), sample(70_000, 800), slope(500, 0)]
    # the far end of a full list of sections, put in from the last to the first
    yield A, [*reversed(many), announce(1, 0, 2_000_000, 0), *edges(A, 2_000_000, 1_000, 0, -8)]
    targets = [announce(n, 0, 3_000_000 + n, n) for n in range(TARGETS)]
    yield A, [
        LEVEL, *targets, announce(99, 0, 1, 0), announce(3, 0, 1, 0), announce(99, 0, 1, 2_601), announce(3, MAX_PLACE, 1, 0), withdraw(99), announce(99, 0, 1, 0),
        withdraw(31), announce(99, 0, 4_000_000, 0), announce(31, 0, 1, 0), withdraw(0), withdraw(0), announce(31, 0, 5_000_000, 9), announce(0, 0, 1, 0), withdraw(99), announce(0, 0, 6_000_000, 0),
        sample(0, 1_000), *edges(A, 3_000_001, 1_000, 1, 0),
    ]


def several_targets():
    near, far = 1_000_000, 1_200_000
    # the nearer target allows nearly the train's speed: the larger zone is the further one's
    both = [LEVEL, announce(1, 0, near, 950), announce(2, 0, far, 0)]
    yield A, [*both, *edges(A, far, 1_000, 0, 0), RELEASE, STANDING, RELEASE, *edges(A, near, 1_000, 950, 0)]
    # put in the other way round, and with the further one withdrawn
    yield A, [LEVEL, announce(2, 0, far, 0), announce(1, 0, near, 950), *edges(A, far, 1_000, 0, 0), withdraw(2), STANDING, RELEASE, *edges(A, near, 1_000, 950, 0)]
    # the nearer one has the larger zone, the last does not bind
    yield A, [LEVEL, announce(9, 0, 2_000_000, 1_000), announce(8, 0, near, 0), announce(7, 0, 1_999_999, 0), *edges(A, near, 1_000, 0, 0), sample(near - 1, 1)]
    # three targets in three zones
    yield A, [LEVEL, announce(1, 0, 800_000, 999), announce(2, 0, 900_000, 500), announce(3, 0, 1_050_000, 0), *[sample(p, 1_000) for p in range(0, 300_000, 30_000)]]


def own_speed():
    yield A, [LEVEL, announce(1, 0, 1_000, 700), sample(0, 699), sample(1_000, 700), sample(5_000, 700), sample(0, 701), STANDING, RELEASE, sample(1_000, 701), STANDING, RELEASE, announce(2, 0, 900, 2_600), sample(0, 700), sample(0, 2_600), RELEASE]


def passed_targets():
    yield A, [LEVEL, announce(1, 0, 100_000, 500), sample(99_999, 501), sample(100_000, 500), RELEASE, sample(100_000, 501), sample(100_001, 501), sample(900_000_000, 501), sample(MAX_PLACE, 501), sample(MAX_PLACE, 500), RELEASE]
    # at the front, and with no section
    yield A, [announce(1, 0, 0, 0), sample(0, 1), sample(1, 1), sample(0, 0), RELEASE]


def stretches():
    place = 5_000_000
    for sections, front, grade in [
        ([(0, 0), (4_400_000, -21), (4_450_000, 10)], 3_800_000, -21),  # in the middle
        ([(0, -21), (4_600_000, 5)], 3_800_000, -21),  # under the train
        ([(0, 0), (place, -21)], 3_800_000, -21),  # exactly at the target
        ([(0, 0), (place + 1, -21)], 3_800_000, 0),  # just beyond it
        ([(4_950_000, 0)], 3_800_000, -35),  # before the first section
        ([], 3_800_000, -35),  # no section
        ([(0, -35), (3_000_000, 3)], 3_800_000, 3),  # left behind
        ([(0, 35), (4_990_000, 1), (4_995_000, 2)], 3_800_000, 1),
    ]:
        yield A, [*[slope(*x) for x in sections], announce(1, 0, place, 300), sample(front, 1_000), *edges(A, place, 1_000, 300, grade)]


# From 100 km/h to a stop sheet A has on the level the distances 787,963, 843,519 and 926,853 mm, and on a fall of 21 the control distance 1,141,539 mm.
# So at CLEAR before the target the zone is 0 on the level, and 3 where a fall of 21 or more counts.
CLEAR = 926_854
PLACE = 5_000_000
FRONT = PLACE - CLEAR
REAR = FRONT - 1_000 * A["length"]


def at_fronts(*sections, fronts=(FRONT,), values=A, place=PLACE):
    """A target to stop at, and a sample at 100 km/h at each place of the front, with a release after each."""
    samples = [line for front in fronts for line in (sample(front, 1_000), RELEASE)]
    return values, [*[slope(*x) for x in sections], announce(1, 0, place, 0), *samples]


def slopes_under_the_train():
    # the rear still on a fall; a crest between rear and front, beyond which it falls to the level that the cab has reached
    yield at_fronts((0, -21), (4_000_000, 0))
    yield at_fronts((0, 5), (3_800_000, -21), (3_900_000, 0))
    # level from the rear on, from one mm short of it, and from one mm beyond it: the front one mm short of FRONT, and there
    for begin in (REAR, REAR - 1, REAR + 1):
        yield at_fronts((0, -21), (begin, 0), fronts=(FRONT - 1, FRONT))
    # a fall of one mm that the rear stands on, and one that it has just left
    for begin in (REAR, REAR - 1):
        yield at_fronts((0, 0), (begin, -21), (begin + 1, 0))
    # the rear one mm short of the first section, at it, and the first section between rear and front
    for begin in (REAR + 1, REAR, 4_000_000):
        yield at_fronts((begin, 0))
    # the rear at place 0, one mm beyond it, and twice where it would be below 0
    for front in (400_000, 400_001, 73_146, 0):
        yield at_fronts((0, -21), (1, 0), fronts=(front,), place=front + CLEAR)
    # below 0 is not before the first section
    yield at_fronts((0, 0), fronts=(0, 73_146, 400_000), place=400_000 + CLEAR)
    # a train of no length: the front alone
    yield at_fronts((0, -21), (FRONT, 0), fronts=(FRONT - 1, FRONT), values={**A, "length": 0})
    # the longest one
    yield at_fronts((0, -21), (FRONT - 1_000_000, 0), fronts=(FRONT - 1, FRONT), values={**A, "length": 1_000})
    # the ceiling is the one at the front, whichever the rear is under
    values, lines = at_fronts((0, 0))
    yield values, [ceiling(0, 899), ceiling(FRONT, 2_600), *lines]
    yield values, [ceiling(0, 2_600), ceiling(FRONT, 899), *lines]
    # it is the sheet's length, by whichever length the time of the pipe goes
    for words in ["scmt P M M 0 100 1000 LT 100 20 30 0", "scmt E M M 0 100 250 LD 100 20 30 0", "scmt E V V 0 100 777 LT 100 20 30 0", "etcs P M V 1 100 400 LD 100 20 30 0", "etcs E V V 0 100 1 LT 100 20 30 0"]:
        s = sheet(words)
        foot = 7_000_000
        front = foot + 1_000 * s["length"]
        place = front + steps(s, 1_000, 0, 0)[4][2] + 1
        yield at_fronts((0, -21), (foot, 0), fronts=(front - 1, front), values=s, place=place)


def speeds():
    for words in ["scmt E V V 0 100 400 LD 100 20 30 0", "scmt P V V 0 100 400 LD 100 20 30 0", "etcs E V V 0 100 400 LD 100 20 30 0", "etcs P V V 0 100 400 LD 100 20 30 0"]:
        s = sheet(words)
        t = top(s)
        last = [announce(1, 0, MAX_PLACE, t), announce(2, 0, MAX_PLACE, t + 1)]
        yield s, [LEVEL, sample(5, t), sample(5, t + 1), RELEASE, sample(5, t), RELEASE, sample(5, 4_000), sample(5, 4_001), sample(5, t), RELEASE, *last, sample(MAX_PLACE, t), withdraw(1), announce(3, 0, 50_000_000, t - 1), *edges(s, 50_000_000, t, t - 1, 0)]
        yield s, [LEVEL, announce(1, 0, 100_000_000, 0), *edges(s, 100_000_000, t, 0, 0), sample(0, t + 1), sample(0, t), RELEASE, announce(2, 0, 100_000_000, 1_450), *edges(s, 100_000_000, 1_500, 0, 0)]


def releases():
    emergency = [LEVEL, announce(1, 0, 1_000_000, 0), sample(900_000, 1_000)]
    # a refused call between the sample in zone 0 and the release
    for between in [slope(0, 0), slope(MAX_PLACE + 1, 0), announce(1, 0, 1, 0), withdraw(2), sample(MAX_PLACE + 1, 0), sample(0, 4_001), "call=brake", "call=slope place=x", "call=withdraw number=65536", "call=release x", ""]:
        yield A, [*emergency, STANDING, between, RELEASE, between]
    # an accepted one
    for between in [slope(7, 1), announce(2, 0, 1, 2_600), withdraw(1), sample(900_000, 1_000), edges(A, 1_000_000, 1_000, 0, 0)[1], edges(A, 1_000_000, 1_000, 0, 0)[3]]:
        yield A, [*emergency, STANDING, between, RELEASE, RELEASE, STANDING, RELEASE, RELEASE]


def cuts():
    odd = [(0, 9_999_999), (1_234_567, 8_000_001), (77, 9_000_004)]
    short = [(9_000_000, 3), (9_000_000, 1), (9_000_000, 0), (9_000_000, 100)]
    for words, announced in [
        ("scmt E V V 0 100 400 LD 100 20 30 20", odd + short),
        ("etcs P M M 1 80 333 LT 88 15 25 7", odd),
        ("scmt P M V 1 160 0 LT 30 0 0 1", odd[1:] + short[1:2]),
        ("etcs E M V 0 50 999 LD 61 1 2 19", odd[:2]),
    ]:
        s = sheet(words)
        for point, distance in announced:
            cut = -(-distance * s["eps"] // 100)
            place = point + distance - cut
            yield s, [LEVEL, announce(5, point, distance, 300), *edges(s, place, 900, 300, 0), sample(place, 301), sample(place - 1, 300)]


def equal_places():
    yield A, [
        LEVEL, announce(4, 0, 1_000_000, 900), announce(5, 1_000_000, 0, 0), announce(6, 600_000, 400_000, 500), *edges(A, 1_000_000, 1_000, 0, 0), withdraw(5), STANDING, RELEASE,
        *edges(A, 1_000_000, 1_000, 500, 0), withdraw(6), STANDING, RELEASE, *edges(A, 1_000_000, 1_000, 900, 0), withdraw(4), sample(1_000_000, 1_000), RELEASE,
    ]


def numbers_again():
    yield A, [LEVEL, announce(7, 0, 1_000_000, 0), announce(7, 0, 2_000_000, 0), sample(900_000, 1_000), withdraw(7), sample(900_000, 1_000), RELEASE, announce(7, 0, 2_000_000, 0), *edges(A, 2_000_000, 1_000, 0, 0), withdraw(7), withdraw(7), announce(7, 0, 1_000_000, 1_000), sample(900_000, 1_000), RELEASE]


def weak_questions():
    s = sheet("scmt E V V 0 45 400 LD 30 20 30 0")
    yield s, [slope(0, -35), announce(1, 0, MAX_PLACE, 0), sample(0, 1_000), RELEASE, sample(0, 0), RELEASE]
    yield s, [LEVEL, announce(1, 0, MAX_PLACE, 0), sample(0, 1_000), slope(MAX_PLACE, -35), sample(0, 1_000), withdraw(1), announce(1, 0, MAX_PLACE - 1, 0), sample(0, 1_000), sample(0, 0), RELEASE]
    # no section: the steepest fall
    yield s, [announce(1, 0, MAX_PLACE, 999), sample(0, 999), sample(0, 1_000)]


def phases():
    place = 1_000_000
    out, nominal, before, warning, inside, ctrl = edges(A, place, 1_000, 0, 0)
    head = [LEVEL, announce(1, 0, place, 0)]
    yield A, [*head, out, nominal, before, nominal, out, warning, warning, nominal, before, inside, out, warning, STANDING, nominal, warning]
    yield A, [*head, ctrl, out, nominal, warning, ctrl, out, STANDING, out, withdraw(1), out, RELEASE, out, RELEASE]
    yield A, [*head, warning, ctrl, nominal, RELEASE, warning, RELEASE, out, RELEASE, warning, out, nominal]


def sections_in_any_order():
    sections = [(0, 0), (4_100_000, -5), (4_200_000, -21), (4_300_000, 4)]
    for order in [(0, 1, 2, 3), (3, 2, 1, 0), (2, 0, 3, 1)]:
        yield A, [*[slope(*sections[n]) for n in order], announce(1, 0, 5_000_000, 0), *edges(A, 5_000_000, 1_000, 0, -21), slope(4_200_000, 0)]


def sheets():
    for words in ["scmt P M M 0 45 1000 LT 150 100 100 20", "scmt P V V 1 130 777 LT 97 7 13 0", "scmt E M M 1 75 250 LD 89 33 66 0", "etcs E M M 1 80 333 LT 88 15 25 0", "etcs P V V 1 160 1000 LT 150 100 0 0", "etcs P M V 0 50 999 LD 61 1 2 0"]:
        s = sheet(words)
        place = 80_000_000
        for grade in (-20, 35):
            lines = [slope(0, grade), announce(1, place, 0, 0), announce(2, place, 0, 1_450)]
            for speed in (1, 1_501, top(s)):
                lines += edges(s, place, speed, 0, grade) if steps(s, speed, 0, grade)[4] else [sample(0, speed)]
            yield s, lines


# A yard with a ceiling of 30 km/h from 5 m on, one of 50 km/h from 9 m on, and none before.
YARD = [ceiling(5_000, 300), ceiling(9_000, 500)]


def above_a_ceiling():
    # at the ceiling, and by how much above it each zone begins
    yield A, [*YARD, *[sample(5_000, v) for v in (300, 301, 350, 351, 400, 401)], RELEASE]
    # before the first, one mm before the second, exactly at it, and far behind it
    yield A, [*YARD, *[sample(p, v) for p, v in [(0, 2_600), (4_999, 2_600), (5_000, 400), (8_999, 400), (9_000, 400), (9_000, 501), (8_999, 401), (9_000, 401), (MAX_PLACE, 500)]], RELEASE]
    # added in the other order
    yield A, [*reversed(YARD), *[sample(p, v) for p, v in [(4_999, 600), (5_000, 600), (8_999, 500), (9_000, 500)]]]
    # at speed 0 nothing is above, and at the furthest place a ceiling holds
    yield A, [ceiling(0, 0), ceiling(MAX_PLACE, 100), *[sample(p, v) for p, v in [(0, 0), (0, 1), (0, 50), (0, 51), (0, 100), (MAX_PLACE, 100), (MAX_PLACE, 200), (MAX_PLACE - 1, 101)]], RELEASE]
    # above the top speed, and above 4,000
    yield A, [ceiling(0, 2_600), sample(0, 2_600), sample(0, 2_601), sample(0, 4_001), sample(0, 2_600), RELEASE]


def lifted_ceilings():
    # the one before it holds again, then none; the next one stays
    yield A, [*YARD, ceiling(7_000, 100), sample(7_000, 150), lift(7_000), sample(7_000, 300), sample(7_000, 301), lift(5_000), sample(7_000, 2_600), sample(9_000, 501), lift(9_000), sample(9_000, 2_600)]
    # where none stands, between two, at a taken-out one, and again after it was added anew
    yield A, [lift(5_000), *YARD, lift(5_001), lift(0), lift(5_000), lift(5_000), ceiling(5_000, 200), sample(5_000, 201), lift(5_000)]
    # only the one at the place goes
    yield A, [*YARD, lift(9_000), sample(5_000, 301), sample(9_000, 301), lift(9_000)]


def ceilings_refused():
    yield A, [ceiling(MAX_PLACE + 1, 0), ceiling(MAX_PLACE, 0), ceiling(MAX_PLACE, 0), ceiling(0, 2_601), ceiling(0, 2_600), ceiling(0, 9_999_999_999), ceiling(9_999_999_999, 0), lift(MAX_PLACE + 1), lift(MAX_PLACE), lift(MAX_PLACE)]
    # two questions with a no: the first is answered
    yield A, [*YARD, ceiling(MAX_PLACE + 1, 2_601), ceiling(5_000, 2_601), ceiling(5_000, 300), lift(MAX_PLACE + 1)]
    # a section, a target and a ceiling at one place, and a lift takes the ceiling alone
    yield A, [slope(5_000, 0), announce(5, 5_000, 0, 300), *YARD, sample(5_000, 300), lift(5_000), slope(5_000, 0), announce(5, 5_000, 0, 0), sample(5_000, 300), withdraw(5), sample(5_000, 301)]
    # the model's own top
    s = sheet("etcs E V V 0 100 400 LD 100 20 30 0")
    yield s, [ceiling(0, top(s) + 1), ceiling(0, top(s)), sample(0, top(s)), sample(0, top(s) + 1)]


def full_ceilings():
    many = [ceiling(1_000 * n, 10 * n) for n in range(CEILINGS)]
    yield A, [*many, ceiling(48_000, 0), ceiling(47_000, 0), ceiling(48_000, 2_601), slope(0, 0), announce(1, 0, 1_000_000, 0), sample(0, 1), sample(47_999, 470), sample(47_999, 471), lift(48_000), lift(20_000), ceiling(48_000, 5), ceiling(20_000, 5), sample(20_000, 190), sample(48_000, 6)]
    yield A, [*reversed(many), *[sample(1_000 * n, 10 * n + n) for n in (0, 1, 46, 47)], *[lift(1_000 * n) for n in range(CEILINGS)], lift(0), sample(47_000, 2_600), *many[:3], sample(2_999, 21)]
    # full lists of the others leave the room of the ceilings as it is
    yield A, [*[slope(n, 0) for n in range(SECTIONS)], *[announce(n, 0, n, 2_600) for n in range(TARGETS)], *many, slope(64, 0), announce(32, 0, 0, 0), ceiling(48_000, 0)]


def ceilings_and_targets():
    place = 1_000_000
    out, nominal, before, warning, inside, ctrl = edges(A, place, 1_000, 0, 0)
    head = [LEVEL, announce(1, 0, place, 0)]
    # the target's zone is the larger, the two are equal, and the ceiling's is the larger
    for allowed in (1_000, 999, 950, 949, 900):
        yield A, [*head, ceiling(0, allowed), out, nominal, before, warning, inside]
    yield A, [*head, ceiling(0, 899), out]
    yield A, [*head, ceiling(0, 999), ctrl, RELEASE]
    # a ceiling further on than the front does not count, however near
    yield A, [*head, ceiling(place, 0), out, nominal]


def ceilings_and_releases():
    # the brake is on for the ceiling: released at its speed, not one tenth above it
    braked = [*YARD, sample(5_000, 401)]
    yield A, [*braked, sample(5_000, 301), RELEASE, sample(5_000, 300), RELEASE, RELEASE]
    yield A, [*braked, sample(9_000, 500), RELEASE, sample(9_000, 500)]
    # a refused ceiling or lift between leaves the release, an accepted one bars it
    for between in [ceiling(5_000, 0), ceiling(1, 2_601), ceiling(MAX_PLACE + 1, 0), lift(1), lift(MAX_PLACE + 1), "call=ceiling place=1", "call=lift place=x", "call=lift"]:
        yield A, [*braked, sample(5_000, 300), between, RELEASE]
    # so it is where no more fit
    yield A, [*YARD, *[ceiling(10_000 + n, 2_600) for n in range(CEILINGS - 2)], sample(5_000, 401), sample(5_000, 300), ceiling(1, 2_600), RELEASE]
    for between in [ceiling(1, 2_600), lift(9_000), lift(5_000)]:
        yield A, [*braked, sample(5_000, 300), between, RELEASE, sample(5_000, 300), RELEASE]
    # a target within its nominal distance bars it, be the train under the ceiling
    yield A, [LEVEL, announce(1, 0, 1_000_000, 0), ceiling(0, 1_000), sample(0, 1_101), edges(A, 1_000_000, 1_000, 0, 0)[1], RELEASE, edges(A, 1_000_000, 1_000, 0, 0)[0], RELEASE]


def last_line_unended():
    yield A, [LEVEL, sample(0, 2_601), STANDING, "call=release\x00"]


def ends_without_a_feed():
    yield A, [LEVEL, sample(0, 2_601), "call=release\x00"]
    yield A, ["\x00"]
    yield A, [LEVEL, "x\x00"]
    yield {**A, "edit": ("eps=0\n", "eps=0")}, []
    yield {**A, "edit": ("kr=100\ntw=20\nti=30\neps=0\n", "kr=100")}, []


def filled(behind, *last):
    """A run whose text has so many bytes behind the most that count, filled with lines that are no calls."""
    left = MAX_BYTES + behind - len(text_of(A, [LEVEL, *last]))
    wide, rest = divmod(left, 96)
    return A, [LEVEL, *["x" * 95] * (wide - 1), "x" * 47, "x" * (rest + 47), *last]


def longest_texts():
    too_fast = sample(0, 2_601)
    # the last line ends with the last byte that counts, or its feed is one byte behind it
    yield filled(0, too_fast)
    yield filled(1, too_fast)
    # a whole line stands behind the last byte that counts
    yield filled(len(too_fast) + 1, STANDING, too_fast)
    # the byte that counts last is the first of a line
    yield filled(len(too_fast), STANDING, too_fast)


GROUPS = [
    worked, no_calls, bad_sheets, reading_faults, refusals, two_refusals, full_lists, several_targets, own_speed, passed_targets, stretches, slopes_under_the_train, speeds, releases,
    cuts, equal_places, numbers_again, weak_questions, phases, sections_in_any_order, sheets, above_a_ceiling, lifted_ceilings, ceilings_refused, full_ceilings,
    ceilings_and_targets, ceilings_and_releases, last_line_unended, ends_without_a_feed, longest_texts,
]


def text_of(values, lines):
    """The text of a run; a last line that ends with a byte 0 has neither that byte nor a line feed."""
    text = "".join(f"{k}={values[k]}\n" for k in KEYS)
    if "edit" in values:
        assert values["edit"][0] in text
        text = text.replace(*values["edit"])
    text += "".join(line + "\n" for line in lines)
    return text.removesuffix("\x00\n").encode("latin-1")


def texts():
    """The texts of all runs."""
    all_texts = [text_of(*run) for group in GROUPS for run in group()]
    assert not any(END in text for text in all_texts)
    return all_texts


def check_run(run, want):
    assert answers(text_of(*run)) == ["answer={} phase={} zone={}".format(*w) for w in want]


def check_worked():
    (run,) = worked()
    want = [(0, "free", "-"), (0, "free", "-"), (0, "warning", 2), (0, "emergency", 3), (12, "emergency", "-"), (0, "emergency", 0), (0, "free", "-")]
    check_run(run, want)


def check_ceilings():
    """Runs by a ceiling alone, and the releases after it, by hand."""
    free, warning, on = PHASES
    added = [(0, free, "-")] * 2
    at_it, along, *_ = above_a_ceiling()
    check_run(at_it, [*added, (0, free, 0), (0, free, 1), (0, free, 1), (0, warning, 2), (0, warning, 2), (0, on, 3), (12, on, "-")])
    check_run(along, [*added, (0, free, 0), (0, free, 0), (0, warning, 2), (0, warning, 2), (0, free, 0), (0, free, 1), (0, on, 3), (0, on, 0), (0, on, 0), (0, free, "-")])
    uncovered, *_ = lifted_ceilings()
    check_run(uncovered, [*added, (0, free, "-"), (0, free, 1), (0, free, "-"), (0, free, 0), (0, free, 1), (0, free, "-"), (0, free, 0), (0, free, 1), (0, free, "-"), (0, free, 0)])
    one_above, at_the_next, *between = ceilings_and_releases()
    check_run(one_above, [*added, (0, on, 3), (0, on, 1), (12, on, "-"), (0, on, 0), (0, free, "-"), (12, free, "-")])
    check_run(at_the_next, [*added, (0, on, 3), (0, on, 0), (0, free, "-"), (0, free, 0)])
    refused, full, barred = between[:8], between[8], between[9:12]
    for run, number in zip(refused, (10, 8, 7, 10, 7, 2, 3, 2), strict=True):
        check_run(run, [*added, (0, on, 3), (0, on, 0), (number, on, "-"), (0, free, "-")])
    check_run(full, [*[(0, free, "-")] * CEILINGS, (0, on, 3), (0, on, 0), (11, on, "-"), (0, free, "-")])
    for run in barred:
        check_run(run, [*added, (0, on, 3), (0, on, 0), (0, on, "-"), (12, on, "-"), (0, on, 0), (0, free, "-")])


def check_full_ceilings():
    free, *_ = PHASES
    full, *_ = full_ceilings()
    refused = [(n, free, "-") for n in (11, 10, 8)]
    check_run(full, [
        *[(0, free, "-")] * CEILINGS, *refused, *[(0, free, "-")] * 2, (0, free, 1), (0, free, 0), (0, free, 1), (10, free, "-"), (0, free, "-"), (0, free, "-"), (11, free, "-"), (0, free, 0), (0, free, 1),
    ])


def check_ceilings_and_targets():
    free, warning, on = PHASES
    # by the target alone the zones are 0, 1, 1, 2 and 2
    by_ceiling = {1_000: [0, 1, 1, 2, 2], 999: [1, 1, 1, 2, 2], 950: [1, 1, 1, 2, 2], 949: [2] * 5, 900: [2] * 5}
    *larger, both_control, at_control, further_on = ceilings_and_targets()
    for run, zones in zip(larger, by_ceiling.values(), strict=True):
        check_run(run, [(0, free, "-")] * 3 + [(0, warning if z == 2 else free, z) for z in zones])
    check_run(both_control, [*[(0, free, "-")] * 3, (0, on, 3)])
    check_run(at_control, [*[(0, free, "-")] * 3, (0, on, 3), (12, on, "-")])
    check_run(further_on, [*[(0, free, "-")] * 3, (0, free, 0), (0, free, 1)])


def check_slopes_under_the_train():
    free, _, on = PHASES
    clear = [(0, free, 0), (12, free, "-")]
    braked = [(0, on, 3), (12, on, "-")]
    let_go = [(0, on, 0), (0, free, "-")]
    want = [
        braked, braked,  # a fall under the rear, and a crest
        [*braked, *let_go], [*clear, *clear], [*braked, *braked],  # from the rear on, from short of it, from beyond it
        braked, clear,  # a fall of one mm
        braked, clear, braked,  # the first section
        braked, clear, braked, braked, [*clear, *clear, *clear],  # place 0
        [*braked, *let_go], [*braked, *let_go],  # lengths
        clear, braked,  # ceilings
        *[[*braked, *let_go]] * 5,  # the sheet's length
    ]
    for (values, lines), answered in zip(slopes_under_the_train(), want, strict=True):
        check_run((values, lines), [(0, free, "-")] * (len(lines) - len(answered)) + answered)


def lines_of(printed):
    return "".join(line + "\n" for line in printed).encode()


def cases():
    folder = os.path.join(os.path.dirname(os.path.abspath(__file__)), "..", "crates", "mission_cases")
    os.makedirs(folder, exist_ok=True)
    check_worked()
    check_ceilings()
    check_full_ceilings()
    check_ceilings_and_targets()
    check_slopes_under_the_train()
    with open(os.path.join(folder, "stdin"), "wb") as file:
        file.writelines(text + END for text in texts())
    with open(os.path.join(folder, "stdout"), "wb") as file:
        file.write(NEXT.join(lines_of(answers(text)) for text in texts()))


if __name__ == "__main__":
    if sys.argv[1:] == ["answers"]:
        sys.stdout.buffer.write(lines_of(answers(sys.stdin.buffer.read())))
    elif sys.argv[1:] == ["cases"]:
        cases()
    else:
        sys.exit(__doc__)
