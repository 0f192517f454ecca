#!/usr/bin/env python3
"""Works out what the programs must print, apart from the code: exact fractions, and the rules as docs/ has them.

  tools/reference.py distances    > crates/distances/stdout
  tools/reference.py model_cases  > crates/model_cases/stdout
  tools/reference.py sheet_texts  > crates/sheet_text_cases/stdin     (texts, each ended by a byte 1)
  tools/reference.py sheet_answers > crates/sheet_text_cases/stdout
  tools/reference.py call_texts   > crates/call_text_cases/stdin      (texts, each ended by a byte 1)
  tools/reference.py call_answers > crates/call_text_cases/stdout
"""
import re
import sys
from fractions import Fraction as F
from math import ceil, floor

KEYS = "model regime train brake ep lambda length lfren kr tw ti eps".split()


def sheet(text):
    words = text.split()
    return {k: (int(w) if w.isdigit() else w) for k, w in zip(KEYS, words)}


A = sheet("scmt E V V 0 100 400 LD 100 20 30 0")

CASES = [
    A,
    sheet("scmt P M M 0 45 1000 LT 150 100 100 20"),
    sheet("scmt P M V 1 160 0 LT 30 0 0 0"),
    sheet("scmt P V V 1 130 777 LT 97 7 13 1"),
    sheet("scmt E M M 1 75 250 LD 89 33 66 7"),
    sheet("etcs E M M 1 80 333 LT 88 15 25 3"),
    sheet("etcs P V V 1 160 1000 LT 150 100 0 0"),
    sheet("etcs P M V 0 50 999 LD 61 1 2 5"),
    {**A, "lambda": 45, "kr": 30},
    {**A, "model": "etcs", "kr": 57},
]
SPEEDS = [1, 299, 599, 600, 1000, 1244, 1500, 1501, 2600, 2601, 3100, 3300, 4000, 4001]
TARGETS = [0, 300, 1450]
GRADES = [-36, -35, -21, -20, 0, 1, 35, 36]


def top(s):
    return {("scmt", "E"): 2600, ("scmt", "P"): 3100, ("etcs", "E"): 3300, ("etcs", "P"): 4000}[s["model"], s["regime"]]


def refused(s, v, v0, grade):
    if v > top(s) or v0 > top(s):
        return 8
    if not -35 <= grade <= 35:
        return 9
    return 13 if v <= v0 else 0


def vl(lam):
    n = 0
    while (10 * (n + 1)) ** 1000 <= 1617 ** 1000 * lam ** 443:
        n += 1
    return n


VL = {}


def reaction(s, v, v0):
    n = s["length"] if s["lfren"] == "LT" else (650 if s["brake"] == "V" else 1000)
    ep = s["ep"] if s["model"] == "etcs" else 0
    tv = F(7, 2) + F(15, 100) * F(n * (1 - ep), 100) ** 2
    tm = F(27, 2) + F(4, 100) * F(n, 100) ** 2
    pipe = tv if s["brake"] == "V" else max(tv, tm)
    if s["model"] == "etcs":
        seconds = F(130, 100) * pipe + 1
    else:
        a, d = {("V", "V"): (F(0), 300), ("M", "V"): (F(30, 100), 200), ("M", "M"): (F(30, 100), 150)}[s["train"], s["brake"]]
        seconds = (a if v0 > 0 and v < v0 + d else 1) * pipe + F(7, 10)
    ticks = seconds * 10 ** 8
    assert ticks.denominator == 1
    return int(ticks)


def steps(s, v, v0, grade):
    t = reaction(s, v, v0)
    k = 90 if grade > 0 else 100 if grade >= -20 else 110
    g = k * grade * 981
    b = max(F(1000 * v0), 1000 * v - F(9 * g * t, 250 * 10 ** 9))
    scmt = s["model"] == "scmt"
    lam = s["lambda"]
    fade = VL.setdefault(lam, vl(lam)) if scmt else 0
    factors = [
        F(100000 - 21 * (v - fade), 100000) if scmt and v > fade else F(1),
        F(s["kr"], 100),
        F(8500 + v, 10000) if scmt and v > 1500 else F(1),
        F(80, 100) if scmt and v > 2600 else F(1),
        F(100 * v - 5 * v0, 100 * v),
    ]
    exact = rounded = F(100 * (685 * lam + 9400))
    for f in factors:
        exact, rounded = exact * f, F(floor(rounded * f))
    d, big_d, big_b = exact + g, rounded + g, ceil(b)
    if big_d < 500000:
        assert d < 500009
        return t, g, big_b, int(big_d), None
    assert d >= 500000

    def distances(up, reached, slowing):
        control = up(F(t) * reached / 3600000000) + up(625 * (reached ** 2 - F(1000 * v0) ** 2) / (162 * slowing))
        warning = control + up(F(s["tw"]) * reached / 360)
        return control, warning, warning + up(F(s["ti"]) * reached / 360)

    exactly = distances(lambda x: x, b, d)
    computed = distances(ceil, F(big_b), big_d)
    for e, c in zip(exactly, computed):
        assert 0 <= e <= c <= e + 90 + F(c, 50000)
    return t, g, big_b, int(big_d), computed


def distances():
    s = A
    for k in KEYS:
        print(f"{k}={s[k]}")
    print("admitted")
    v, v0, grade = 1000, 0, 0
    print(f"speed={v} target={v0} grade={grade}")
    t, g, b, d, three = steps(s, v, v0, grade)
    print(f"reaction={t}\nslope={g}\nreached={b}\nnet={d}")
    print("weak" if three is None else "control={}\nwarning={}\nnominal={}".format(*three))
    print("speed grade control warning nominal")
    for v in range(100, top(s) + 1, 100):
        for grade in [-35, -21, -20, -10, 0, 10, 35]:
            three = steps(s, v, 0, grade)[4]
            print(v, grade, *(three or ["weak", "-", "-"]))


def model_cases():
    for n, s in enumerate(CASES):
        for v in SPEEDS:
            for v0 in TARGETS:
                for grade in GRADES:
                    number = refused(s, v, v0, grade)
                    if number:
                        print(n, v, v0, grade, f"answer={number}")
                        continue
                    t, g, b, d, three = steps(s, v, v0, grade)
                    print(n, v, v0, grade, t, g, b, d, *(["weak"] if three is None else three))


WORDS = {"model": ["scmt", "etcs"], "regime": ["E", "P"], "train": ["V", "M"], "brake": ["V", "M"], "lfren": ["LD", "LT"]}
RANGES = {"ep": (0, 1), "lambda": (45, 160), "length": (0, 1000), "kr": (30, 150), "tw": (0, 100), "ti": (0, 100), "eps": (0, 20)}
GOOD = b"".join(f"{k}={A[k]}\n".encode() for k in KEYS)


def read_text(text):
    """What reading a text answers, by the questions in their order."""
    at, seen = 0, {}
    for key in KEYS:
        end = text.find(b"\n", at, at + 32)
        if end < 0:
            return 1, at, "text"
        front = key.encode() + b"="
        if not text[at:end].startswith(front):
            return 2, at, "text"
        first = at + len(front)
        value = text[first:end].decode("latin-1")
        if key in WORDS:
            if value not in WORDS[key]:
                return 3, first, "text"
        else:
            digits = value != "" and all(c in "0123456789" for c in value)
            if not digits or len(value) > 4 or (value[0] == "0" and value != "0"):
                return 3, first, "text"
            low, high = RANGES[key]
            if not low <= int(value) <= high or (key == "lambda" and int(value) % 5):
                return 4, first, "value"
        seen[key] = value
        at = end + 1
    if at != len(text):
        return 5, at, "sheet"
    if seen["brake"] == "M" and seen["train"] != "M":
        return 6, 0, "sheet"
    return None


def texts():
    lines = GOOD.splitlines(keepends=True)
    yield GOOD
    yield b""
    yield b"\n"
    yield GOOD[:-1]
    yield GOOD + b"x"
    yield GOOD + b"\n"
    yield GOOD + GOOD
    yield b"\x00" * 40
    yield bytes(range(128, 168)) + b"\n"
    for n, line in enumerate(lines):
        key = KEYS[n].encode()
        others = lambda new: b"".join(lines[:n]) + new + b"".join(lines[n + 1:])
        yield others(b"")
        yield b"".join(lines[:n])
        yield b"".join(lines[:n]) + line[:-1]
        yield others(line + line)
        yield others(line[1:])
        yield others(b" " + line)
        yield others(key[:-1] + b"x" + line[len(key):])
        yield others(key + b":" + line[len(key) + 1:])
        yield others(key + b"\n")
        yield others(line.upper())
        for value in [b"", b" ", b"0", b"00", b"007", b"1", b"2", b"-1", b"+1", b"10000", b"9999", b"12 ", b"1\r", b"\xff", b"\x00", b"scmt", b"etcs", b"scmts", b"E", b"P", b"e", b"V", b"M", b"LD", b"LT", b"L"]:
            yield others(key + b"=" + value + b"\n")
        for size in [30, 31, 32, 33]:
            yield others(key + b"=" + b"1" * (size - len(key) - 2) + b"\n")
        if n + 1 < len(lines):
            yield b"".join(lines[:n]) + lines[n + 1] + line + b"".join(lines[n + 2:])
        for number in RANGES.get(KEYS[n], ()):
            for near in (number - 5, number - 1, number, number + 1, number + 5):
                if near >= 0:
                    yield others(key + b"=" + str(near).encode() + b"\n")
    goods = GOOD.replace(b"brake=V", b"brake=M")
    yield goods
    yield goods.replace(b"train=V", b"train=M")
    yield goods.replace(b"kr=100", b"kr=151")
    yield goods + b"x"


def sheet_texts():
    for text in texts():
        assert 1 not in text
        sys.stdout.buffer.write(text + b"\x01")


def sheet_answers():
    for text in texts():
        answer = read_text(text)
        print("sheet" if answer is None else "answer={} byte={} layer={}".format(*answer))


DUE = {
    b"slope": [b"place", b"grade"],
    b"announce": [b"number", b"point", b"distance", b"speed"],
    b"withdraw": [b"number"],
    b"ceiling": [b"place", b"speed"],
    b"lift": [b"place"],
    b"sample": [b"place", b"speed"],
    b"release": [],
}
PLAIN = re.compile(rb"0|[1-9][0-9]{0,9}")
SIGNED = re.compile(rb"0|-?[1-9][0-9]{0,9}")


def read_call_line(text):
    """What the first line of a text answers, by the questions in their order, and where the next line begins."""
    end = text.find(b"\n", 0, 96)
    if end < 0:
        return "answer=1 byte=0 layer=text", len(text)
    parts = text[:end].split(b" ")
    other = "answer=2 byte=0 layer=text", end + 1
    key, sign, word = parts[0].partition(b"=")
    if key + sign != b"call=" or word not in DUE:
        return other
    at, seen = len(parts[0]), word.decode()
    for n, key in enumerate(DUE[word], 1):
        if n >= len(parts) or not parts[n].startswith(key + b"="):
            return other
        value, first = parts[n][len(key) + 1:], at + 1 + len(key) + 1
        if not (SIGNED if key == b"grade" else PLAIN).fullmatch(value):
            return f"answer=3 byte={first} layer=text", end + 1
        if key == b"number" and int(value) > 65535:
            return f"answer=4 byte={first} layer=value", end + 1
        at += 1 + len(parts[n])
        seen += f" {key.decode()}={int(value)}"
    if len(parts) > 1 + len(DUE[word]):
        return f"answer=5 byte={at} layer=sheet", end + 1
    return seen, end + 1


GOOD_CALLS = [
    b"call=slope place=1000000 grade=-35",
    b"call=announce number=7 point=250000 distance=1500000 speed=300",
    b"call=withdraw number=7",
    b"call=ceiling place=300000 speed=700",
    b"call=lift place=300000",
    b"call=sample place=260000 speed=1200",
    b"call=release",
]
VALUES = [
    b"", b"0", b"00", b"007", b"1", b"-0", b"-00", b"-1", b"-35", b"-01", b"--1", b"-", b"+1", b"65535", b"65536", b"65537", b"99999", b"999999999", b"1000000000",
    b"9999999999", b"10000000000", b"99999999999", b"-9999999999", b"-10000000000", b"4294967296", b"18446744073709551616", b"1x", b"x1", b"1.5", b"1,000", b"0x1f", b"1_0", b"1\t",
    b"\t1", b"1\r", b"=1", b"1=", b"\x00", b"1\x00", b"\xff", b"\xb2", b"1" * 40,
]


def call_texts_of():
    yield b""
    yield b"\n"
    yield b"\n\n"
    yield b" \n"
    yield b"call\n"
    yield b"call=\n"
    yield b"call= \n"
    yield b"=\n"
    yield b"\r\n"
    yield b"\x00" * 120
    yield bytes(range(128, 256)) + b"\n"
    yield bytes(range(128, 200)) + b"\n"
    yield b"call=announce number=65535 point=9999999999 distance=9999999999 speed=9999999999\n"
    yield b"call=slope place=9999999999 grade=-9999999999\n"
    for size in [94, 95, 96, 97, 98]:
        for front in [b"", b"call=release", b"call=release ", b"call=withdraw number=7 ", b"call=withdraw number=", b"call=sample place=1 speed=2 "]:
            yield front + b"1" * (size - 1 - len(front)) + b"\n"
            yield front + b"1" * (size - 1 - len(front)) + b"\ncall=release\n"
            yield front + b"1" * (size - len(front))
    for word in [b"slop", b"slopes", b"Slope", b"SLOPE", b"release0", b"releas", b"announce=", b"withdrawn", b"samples", b"sample\t", b"ceilings", b"ceilin", b"lift0", b"lif", b"brake", b"\xff", b"slope\x00"]:
        for tail in [b"", b" place=1 grade=1", b" number=1"]:
            yield b"call=" + word + tail + b"\n"
    for good in GOOD_CALLS:
        yield good + b"\n"
        yield good
        yield good + b"\n" + good + b"\n"
        yield good + b"\nx"
        yield good + b"\r\n"
        yield good + b"\t\n"
        yield good + b" \n"
        yield good + b"  \n"
        yield good + b" x\n"
        yield good + b" " + good + b"\n"
        yield good + b"x\n"
        yield good + b"\x00\n"
        yield good + b" place=1\n"
        yield b" " + good + b"\n"
        yield b"\t" + good + b"\n"
        yield b"\n" + good + b"\n"
        yield good[1:] + b"\n"
        yield good.upper() + b"\n"
        yield good.replace(b" ", b"  ") + b"\n"
        yield good.replace(b" ", b"\t") + b"\n"
        yield good.replace(b" ", b"") + b"\n"
        yield good.replace(b" ", b",") + b"\n"
        yield good.replace(b"=", b":") + b"\n"
        yield good.replace(b"=", b" = ") + b"\n"
        yield good.replace(b"=", b"==") + b"\n"
        parts = good.split(b" ")
        join = lambda several: b" ".join(several) + b"\n"
        for n, part in enumerate(parts):
            key, sign, value = part.partition(b"=")
            swap = lambda new: join(parts[:n] + [new] + parts[n + 1:])
            yield join(parts[:n])
            yield join(parts[:n] + [b""])
            yield join(parts[:n] + parts[n + 1:])
            yield join(parts[:n] + [part] + parts[n:])
            yield join(parts[:n] + [b"", *parts[n:]])
            yield swap(key)
            yield swap(value)
            yield swap(sign + value)
            yield swap(key + value)
            yield swap(key[:-1] + sign + value)
            yield swap(key + b"x" + sign + value)
            yield swap(key.upper() + sign + value)
            yield swap(key + b" " + sign + value)
            yield swap(key + sign + b" " + value)
            yield swap(key + sign + value + b"=1")
            yield swap(b"\xff" + part)
            yield swap(key[:1] + b"\n" + key[1:] + sign + value)
            for other in [b"place", b"grade", b"number", b"point", b"distance", b"speed", b"call"]:
                if other != key:
                    yield swap(other + sign + value)
            if n + 1 < len(parts):
                yield join(parts[:n] + [parts[n + 1], part] + parts[n + 2:])
                yield join(parts[:n] + [part + parts[n + 1]] + parts[n + 2:])
            if n:
                for value in VALUES:
                    yield swap(key + sign + value)
            if n and n + 1 < len(parts):
                yield join(parts[:n] + [key + sign + b"x", b"other=1"] + parts[n + 2:])
                yield join(parts[:n] + [key + sign + b"70000", b"other=1"] + parts[n + 2:])


def call_texts():
    for text in call_texts_of():
        assert 1 not in text
        sys.stdout.buffer.write(text + b"\x01")


def call_answers():
    for text in call_texts_of():
        answer, following = read_call_line(text)
        print(f"{answer} next={following}")


if __name__ == "__main__":
    {"distances": distances, "model_cases": model_cases, "sheet_texts": sheet_texts, "sheet_answers": sheet_answers, "call_texts": call_texts, "call_answers": call_answers}[sys.argv[1]]()
