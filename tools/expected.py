#!/usr/bin/env python3
"""What the programs must print, worked out a second time.

An oracle in plain Python, written from the rules in docs/ and from nothing in
crates/. Python's whole numbers have no limit, and its // and % round towards
minus infinity, as the rules do.

  tools/expected.py unfold < TABLE    what the program `unfold` must print
  tools/expected.py cases < CASES     what the program `cases` must print
  tools/expected.py self-check [N]    N random small settings (default 3000):
                                      the closed form against trying every
                                      position, and the promises of docs/
  tools/expected.py table ROWS SEED   a random table
  tools/expected.py small N SEED      N random cases for the program `cases`

To compare a program with it on a random input:

    tools/expected.py table 100000 1 > T
    crates/unfold/out/unfold < T | diff - <(tools/expected.py unfold < T)
"""
import itertools
import random
import sys
from math import gcd

NO_SIGNAL = 4294967295  # what `-` stands for in a row


class Refused(Exception):
    """A numbered refusal: number, channel, depth and two figures; what it does not name is 0."""

    def __init__(self, number, channel=0, first=0, second=0, depth=0):
        super().__init__(number)
        self.number, self.channel, self.depth = number, channel, depth
        self.first, self.second = first, second

    def key(self):
        return (self.number, self.channel, self.depth, self.first, self.second)

    def line(self):
        return f"refused {self.number} channel {self.channel} depth {self.depth}"


# ---- the circle

def distance(a, b, m):
    return min((a - b) % m, (b - a) % m)


def allows(r, m, t, p):
    return distance(r, p, m) <= t


# ---- settings

class Setting:
    def __init__(self, unit, factors):
        self.unit, self.factors = unit, list(factors)
        self.moduli = [unit * g for g in factors]
        self.range = unit
        for g in factors:
            self.range *= g

    def count(self):
        return len(self.factors)


def check_count(items):
    if not 1 <= len(items) <= 8:
        raise Refused(1)


def check_unit(unit):
    if not 1 <= unit <= 2**24:
        raise Refused(2)


def check_factors(factors):
    for k, g in enumerate(factors):
        if not 2 <= g <= 32768:
            raise Refused(3, k)


def check_moduli(moduli):
    for k, m in enumerate(moduli):
        if not 1 <= m <= 2**31:
            raise Refused(4, k)


def check_pairs(factors):
    for j in range(len(factors)):
        for k in range(j + 1, len(factors)):
            d = gcd(factors[j], factors[k])
            if d != 1:
                raise Refused(5, j, k, d)


def check_range(unit, factors):
    product = unit
    for k, g in enumerate(factors):
        product *= g
        if product > 2**40:
            raise Refused(6, k)


def setting_new(unit, factors):
    check_count(factors)
    check_unit(unit)
    check_factors(factors)
    check_moduli([unit * g for g in factors])
    check_pairs(factors)
    check_range(unit, factors)
    return Setting(unit, factors)


def setting_from_moduli(moduli):
    check_count(moduli)
    check_moduli(moduli)
    unit = gcd(*moduli)
    factors = [m // unit for m in moduli]
    check_unit(unit)
    check_factors(factors)
    check_pairs(factors)
    check_range(unit, factors)
    return Setting(unit, factors)


def remainder(s, position, channel):
    if position >= s.range:
        raise Refused(31)
    if channel >= s.count():
        raise Refused(23, channel)
    return position % s.moduli[channel]


# ---- unfolding

class Unfolding:
    def line(self):
        return (
            "folds " + " ".join(map(str, self.folds))
            + " unfolded " + " ".join(map(str, self.unfolded))
            + f" start {self.start} count {self.count} mean {self.mean}"
        )


def channel0_fold(s, quotients):
    """n0 by the Chinese remainder theorem in its textbook form: no mixed radix here."""
    total = 1
    for g in s.factors[1:]:
        total *= g
    n0 = 0
    for g, q in zip(s.factors[1:], quotients[1:]):
        others = total // g
        wanted = q * pow(s.factors[0], -1, g) % g
        n0 += wanted * others * pow(others, -1, g)
    n0 %= total
    assert 0 <= n0 and n0 * s.unit * s.factors[0] < s.range
    assert all((n0 * s.factors[0] - q) % g == 0 for g, q in zip(s.factors[1:], quotients[1:]))
    return n0


def channel0_fold_by_trial(s, quotients):
    """n0 by trying every number in its limits; there must be just one."""
    total = s.range // (s.unit * s.factors[0])
    fits = [
        n for n in range(total)
        if all((n * s.factors[0] - q) % g == 0 for g, q in zip(s.factors[1:], quotients[1:]))
    ]
    assert len(fits) == 1, (s.unit, s.factors, quotients, fits)
    return fits[0]


def fold(s, readings, find=channel0_fold):
    """Quotients, folding numbers and unfolded readings: no word of bounds."""
    m = s.unit
    quotients = [(2 * (r - readings[0]) + m) // (2 * m) for r in readings]
    n0 = find(s, quotients)
    folds = []
    for g, q in zip(s.factors, quotients):
        n, left = divmod(n0 * s.factors[0] - q, g)
        assert left == 0 and n >= -1
        folds.append(n)
    unfolded = [n * modulus + r for n, modulus, r in zip(folds, s.moduli, readings)]
    return quotients, folds, unfolded


def unfold(s, readings, bounds, find=channel0_fold):
    k = s.count()
    if len(readings) != k:
        raise Refused(13, 0, len(readings), k)
    if len(bounds) != k:
        raise Refused(13, 0, len(bounds), k)
    for i in range(k):
        if 4 * bounds[i] >= s.unit:
            raise Refused(15, i, 4 * bounds[i], s.unit)
        if readings[i] >= s.moduli[i]:
            raise Refused(25, i, readings[i], s.moduli[i])
    u = Unfolding()
    u.quotients, u.folds, u.unfolded = fold(s, readings, find)
    lows = [c - t for c, t in zip(u.unfolded, bounds)]
    highs = [c + t for c, t in zip(u.unfolded, bounds)]
    u.lo, u.hi = max(lows), min(highs)
    if u.lo > u.hi:
        raise Refused(16, lows.index(u.lo), u.lo - u.hi, highs.index(u.hi))
    u.start, u.count = u.lo % s.range, u.hi - u.lo + 1
    u.mean = (2 * sum(u.unfolded) + k) // (2 * k) % s.range
    return u


def allowed_positions(s, readings, bounds):
    """By trying every position of the range."""
    return [
        p for p in range(s.range)
        if all(allows(r, m, t, p) for r, m, t in zip(readings, s.moduli, bounds))
    ]


def compare_with_trial(s, readings, bounds, answer):
    """What the bracket, the mean and a refusal as contradictory must have to do with it."""
    allowed = allowed_positions(s, readings, bounds)
    if isinstance(answer, Refused):
        assert answer.number == 16 and not allowed
        return
    bracket = [(answer.start + i) % s.range for i in range(answer.count)]
    assert len(set(bracket)) == answer.count and sorted(bracket) == allowed
    assert 0 <= answer.mean < s.range
    assert all(distance(answer.mean, p, s.range) <= max(bounds) for p in bracket)


# ---- the desk's table

class BadText(Exception):
    """Text that is no table: the number of the line and what is wrong with it."""

    def __init__(self, line, message):
        super().__init__(message)
        self.line, self.message = line, message


def split_lines(data):
    """The lines of some bytes; a last line without its byte 10 counts too."""
    lines = data.split(b"\n")
    if lines[-1] == b"":
        lines.pop()
    return lines


def words_of(line):
    return [w for w in line.split(b" ") if w]


def passed_over(line):
    return line.startswith(b"#") or not words_of(line)


def is_digits(word):
    return len(word) > 0 and all(48 <= b <= 57 for b in word)


def numbers(line_number, words, first, dash):
    """The numbers of a line from its word `first` on, words being counted from 1."""
    told = []
    for at, word in enumerate(words, start=1):
        if at < first:
            continue
        if word == b"-":
            if not dash:
                raise BadText(line_number, f"word {at} is a dash, which stands only in rows")
            told.append(NO_SIGNAL)
        elif not is_digits(word):
            raise BadText(line_number, f"word {at} is no number")
        elif len(word.lstrip(b"0")) > 10 or int(word) >= 2**32:
            raise BadText(line_number, f"word {at} is above 4294967295")
        else:
            told.append(int(word))
    return told


def read_table(lines, show, trial=0):
    """Hands each answer to `show`: an Unfolding or a Refused for a row, or the
    Refused of the setting, after which nothing more is looked at. Up to the range
    `trial` each answer is compared with trying every position."""
    note = moduli = bounds = setting = None
    for at, line in enumerate(lines, start=1):
        if passed_over(line):
            continue
        words = words_of(line)
        if words[0] == b"note":
            if note is not None:
                raise BadText(at, "a second note")
            if moduli is not None or bounds is not None:
                raise BadText(at, "a note after the moduli or bounds line")
            note = line
        elif words[0] == b"moduli":
            if moduli is not None:
                raise BadText(at, "a second moduli line")
            moduli = numbers(at, words, 2, False)
        elif words[0] == b"bounds":
            if bounds is not None:
                raise BadText(at, "a second bounds line")
            bounds = numbers(at, words, 2, False)
        else:
            if moduli is None:
                raise BadText(at, "no moduli line")
            if bounds is None:
                raise BadText(at, "no bounds line")
            readings = numbers(at, words, 1, True)
            try:
                answer = unfold(setting, readings, bounds)
            except Refused as refused:
                answer = refused
            if setting.range <= trial and not (isinstance(answer, Refused) and answer.number != 16):
                compare_with_trial(setting, readings, bounds, answer)
            show(answer)
        if setting is None and moduli is not None and bounds is not None:
            try:
                setting = setting_from_moduli(moduli)
            except Refused as refused:
                show(refused)
                return
    if moduli is None:
        raise BadText(len(lines) + 1, "no moduli line")
    if bounds is None:
        raise BadText(len(lines) + 1, "no bounds line")


def run_unfold(data):
    try:
        read_table(split_lines(data), lambda answer: print(answer.line()))
    except BadText as bad:
        print(f"unfold: line {bad.line}: {bad.message}", file=sys.stderr)
        return 1
    return 0


# ---- the program `cases`

def with_figures(answer):
    if isinstance(answer, Refused):
        return f"{answer.line()} figures {answer.first} {answer.second}"
    return answer.line()


def table_case(lines):
    try:
        read_table(lines, lambda answer: print(with_figures(answer)), trial=1000)
    except BadText as bad:
        print(f"bad text at line {bad.line}: {bad.message}")


def unit_case(lines):
    setting = None
    for line in lines:
        if passed_over(line):
            continue
        words = words_of(line)
        try:
            if setting is None:
                if not (len(words) >= 3 and words[2] == b"factors"
                        and all(map(is_digits, words[1:2] + words[3:]))):
                    raise ValueError(line)
                setting = setting_new(int(words[1]), [int(w) for w in words[3:]])
                told = f"setting unit {setting.unit} range {setting.range} moduli "
                print(told + " ".join(map(str, setting.moduli)))
            else:
                if not (len(words) == 3 and words[0] == b"remainder" and all(map(is_digits, words[1:]))):
                    raise ValueError(line)
                print(f"remainder {remainder(setting, int(words[1]), int(words[2]))}")
        except Refused as refused:
            print(with_figures(refused))
            if setting is None:
                return
        except ValueError:
            print("bad case")
            return


def run_cases(data):
    cases = []
    for line in split_lines(data):
        if line.startswith(b"== "):
            cases.append((line, []))
        elif cases:
            cases[-1][1].append(line)
    for name, lines in cases:
        print(name.decode("ascii"))
        first = next((words_of(line)[0] for line in lines if not passed_over(line)), b"")
        (unit_case if first == b"unit" else table_case)(lines)
    return 0


# ---- self-check

def small_setting(rng):
    """A random accepted setting with a range of at most some thousands."""
    while True:
        unit = rng.choice([1, 1, 2, 3, 4, 5, 6, 7, 8, 9, 10, 12, 16, 17])
        factors = [rng.randint(2, 9) for _ in range(rng.randint(1, 4))]
        try:
            s = setting_new(unit, factors)
        except Refused as r:
            assert r.number == 5
            continue
        if s.range <= 4000:
            return s


def check_one(s, rng):
    k = s.count()
    most = (s.unit - 1) // 4
    bounds = [rng.randint(0, most) for _ in range(k)]
    if rng.random() < 0.7:
        # one whole number and an error for each channel, now and then past its bound
        n = rng.randint(-2 * s.range, 2 * s.range)
        errors = [rng.randint(-t, t) for t in bounds]
        if rng.random() < 0.3:
            i = rng.randrange(k)
            errors[i] += rng.choice([-1, 1])
        readings = [(n + e) % m for e, m in zip(errors, s.moduli)]
    else:
        n = errors = None
        readings = [rng.randrange(m) for m in s.moduli]

    quotients, folds, unfolded = fold(s, readings)
    assert (quotients, folds, unfolded) == fold(s, readings, channel0_fold_by_trial)
    assert quotients[0] == 0
    for c in unfolded:
        assert -s.unit <= 2 * (c - unfolded[0]) < s.unit
    if n is not None and all(4 * abs(e) < s.unit for e in errors):
        shifts = {c - n - e for c, e in zip(unfolded, errors)}
        assert len(shifts) == 1 and shifts.pop() % s.range == 0

    try:
        u = unfold(s, readings, bounds)
    except Refused as refused:
        compare_with_trial(s, readings, bounds, refused)
        return "contradictory"
    compare_with_trial(s, readings, bounds, u)
    return "passes the end" if u.start + u.count > s.range else "accepted"


def check_circle(rng):
    m = rng.randint(1, 12)
    t = rng.randint(0, 8)
    r, p = rng.randint(-30, 30), rng.randint(-30, 30)
    by_errors = any((r - p - e) % m == 0 for e in range(-t, t + 1))
    assert allows(r, m, t, p) == by_errors


def check_remainders(s):
    """No two positions share all remainders, and bounds 0 give each one back."""
    seen = {}
    for n in range(s.range):
        rests = tuple(remainder(s, n, k) for k in range(s.count()))
        assert rests not in seen
        seen[rests] = n
        u = unfold(s, list(rests), [0] * s.count())
        assert (u.start, u.count, u.mean) == (n, 1, n)
    if s.range <= 200:
        for readings in itertools.product(*map(range, s.moduli)):
            try:
                u = unfold(s, list(readings), [0] * s.count())
            except Refused:
                assert readings not in seen
            else:
                assert seen[readings] == u.start


def check_from_moduli(rng):
    """From moduli: the same setting as from its unit and factors."""
    moduli = [rng.choice([1, 2, 6, 10, 15]) * rng.randint(0, 9) for _ in range(rng.randint(0, 9))]
    try:
        s = setting_from_moduli(moduli)
    except Refused as r:
        if r.number in (1, 4):
            return
        unit = gcd(*moduli)
        try:
            setting_new(unit, [m // unit for m in moduli])
        except Refused as other:
            assert other.key() == r.key()
            return
        raise AssertionError(moduli)
    assert setting_new(s.unit, s.factors).moduli == moduli == s.moduli


def self_check(turns):
    rng = random.Random(20101)
    seen = {}
    for turn in range(turns):
        s = small_setting(rng)
        for _ in range(5):
            what = check_one(s, rng)
            seen[what] = seen.get(what, 0) + 1
        for _ in range(20):
            check_circle(rng)
        check_from_moduli(rng)
        if turn % 20 == 0 and s.range <= 1500:
            check_remainders(s)
    print(f"{turns} settings:", ", ".join(f"{seen[w]} {w}" for w in sorted(seen)))


# ---- random inputs

def any_setting(rng):
    """An accepted setting of any size that a table can have, its range up to 2^40."""
    while True:
        count = rng.randint(2, 8)
        unit = rng.randint(1, 2 ** rng.randint(1, 24))
        most = rng.choice([9, 30, 200, 2000, 32768])
        try:
            return setting_new(unit, [rng.randint(2, most) for _ in range(count)])
        except Refused:
            continue


def any_row(s, bounds, rng):
    what = rng.random()
    position = rng.choice([rng.randrange(s.range), rng.randint(-5, 5), s.range - 1])
    errors = [rng.randint(-t, t) for t in bounds]
    if what < 0.3:
        errors = [rng.choice([-t, t]) for t in bounds]
    if 0.6 < what < 0.75:
        errors[rng.randrange(len(errors))] += rng.choice([-1, 1]) * rng.randint(1, s.unit)
    readings = [(position + e) % m for e, m in zip(errors, s.moduli)]
    if 0.75 < what < 0.85:
        readings = [rng.randrange(m) for m in s.moduli]
    words = [str(r) for r in readings]
    if 0.85 < what < 0.9:
        k = rng.randrange(len(words))
        words[k] = rng.choice(["-", str(s.moduli[k]), "4294967295"])
    if 0.9 < what < 0.95:
        words = words[1:] if rng.random() < 0.5 and len(words) > 1 else words + ["0"]
    return " ".join(words)


def any_table(s, rows, rng):
    bounds = [rng.randint(0, (s.unit - 1) // 4) for _ in s.factors]
    if rng.random() < 0.3:
        bounds = [(s.unit - 1) // 4 for _ in s.factors]
    lines = ["moduli " + " ".join(map(str, s.moduli)), "bounds " + " ".join(map(str, bounds))]
    return lines + [any_row(s, bounds, rng) for _ in range(rows)]


def any_numbers(rng):
    """Moduli, or a unit and factors, that may well be refused."""
    near = [0, 1, 2, 3, 5, 6, 7, 10, 2**15 - 1, 2**15, 2**15 + 1, 2**24, 2**24 + 1, 2**31, 2**31 + 1, 2**32 - 1]
    unit = rng.choice(near + [rng.randint(1, 1000)] * 30)
    few = rng.choice([1, 2, 3, 4, 8, 9])
    factors = [rng.choice(near + [rng.randint(2, 100)] * 60) for _ in range(few)]
    return unit, factors


def any_case(rng):
    if rng.random() < 0.5:
        return any_table(rng.choice([any_setting, small_setting])(rng), 3, rng)
    unit, factors = any_numbers(rng)
    if rng.random() < 0.5:
        moduli = [min(unit * g, 2**32 - 1) for g in factors]
        return ["moduli " + " ".join(map(str, moduli)), "bounds 0"]
    lines = [f"unit {unit} factors " + " ".join(map(str, factors))]
    product = unit
    for g in factors:
        product *= g
    for _ in range(3):
        position = min(rng.choice([0, product // 2, max(product - 1, 0), product]), 2**64 - 1)
        lines.append(f"remainder {position} {rng.randint(0, len(factors))}")
    return lines


def main(words):
    if words[:1] == ["self-check"] and len(words) <= 2:
        self_check(int(words[1]) if len(words) == 2 else 3000)
        return 0
    if words[:1] == ["table"] and len(words) == 3:
        rng = random.Random(int(words[2]))
        print("\n".join(any_table(any_setting(rng), int(words[1]), rng)))
        return 0
    if words[:1] == ["small"] and len(words) == 3:
        rng = random.Random(int(words[2]))
        for at in range(int(words[1])):
            print(f"== random {at}", *any_case(rng), sep="\n")
        return 0
    if words == ["unfold"]:
        return run_unfold(sys.stdin.buffer.read())
    if words == ["cases"]:
        return run_cases(sys.stdin.buffer.read())
    print(__doc__.strip(), file=sys.stderr)
    return 2


if __name__ == "__main__":
    sys.exit(main(sys.argv[1:]))
