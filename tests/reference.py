"""A second implementation of the paper, plain and apart from the proved code: the site sheet, its refusals, the 61 lines, and older forms of the sheet.

It is written from the paper's sentences with Python's own numbers and fractions and shares nothing with crates/.
The expected outputs under crates/*/stdout and sheets/ come from it and from the paper's printed values;
tests/compare and compare_convert run the built programs against it on many sheets, good and damaged.

    tests/reference.py < SHEET             prints what the program `worksheet` must print
    tests/reference.py convert < SHEET     prints what the program `convert` must print
"""
from fractions import Fraction
from math import ceil, floor

import equation

# Table 628-B in hundredths: a line for each distance, columns SU 2 4 6 8, bus 1 2 4 6 8, WB-50 0 2 4 6 8 percent
TABLE = """
25 100 106 113 119 100 101 110 119 128 100 109 127 142 155
50 100 109 117 125 100 101 112 121 130 100 110 128 144 158
75 100 110 119 129 100 102 113 123 133 100 111 130 147 161
100 100 111 121 132 100 102 114 125 135 100 111 131 148 164
125 100 112 123 134 100 103 115 126 137 100 112 132 150 166
150 100 112 124 137 100 103 116 128 140 100 112 133 152 168
175 100 113 125 138 100 103 117 129 142 100 112 134 153 170
200 100 113 126 140 100 104 117 130 143 100 113 135 154 172
225 100 114 127 142 100 104 118 132 145 100 113 135 156 174
250 100 114 128 143 100 104 119 133 147 100 113 136 157 176
275 100 114 129 144 100 105 120 134 149 100 114 137 158 177
300 100 114 130 146 100 105 120 135 150 100 114 137 159 179
325 100 115 130 147 100 105 121 136 152 100 114 138 160 181
350 100 115 131 148 100 105 122 137 154 100 115 139 161 182
375 100 115 131 149 100 106 122 138 155 100 115 139 162 184
400 100 115 132 150 100 106 123 140 157 100 115 140 163 185
"""
ROWS = {int(l.split()[0]): [int(x) for x in l.split()[1:]] for l in TABLE.strip().split('\n')}
# the far times, worked out from the equation: the car's, then columns as in Table 628-B
FAR = equation.table()
COLUMNS = {'su': ([20, 40, 60, 80], 0), 'bus': ([10, 20, 40, 60, 80], 4), 'wb50': ([0, 20, 40, 60, 80], 9)}


class Refused(Exception):
    def __init__(self, number, line):
        self.number, self.line = number, line


def between(x, marks, value):
    """straight between the marks around x; before the first mark the first, past the last the last"""
    x = min(max(x, marks[0]), marks[-1])
    for a, b in zip(marks, marks[1:]):
        if x <= b:
            return value(a) + (value(b) - value(a)) * Fraction(x - a, b - a)
    return value(marks[-1])


def factor(vehicle, grade, feet):
    if vehicle == 'car' or grade < 10:
        return Fraction(1)
    marks, first = COLUMNS[vehicle]

    def at_row(d):
        return between(grade, marks, lambda g: Fraction(ROWS[d][first + marks.index(g)], 100))
    return between(feet, sorted(ROWS), at_row)


def level(points, feet):
    for (a, s), (b, t) in zip(points, points[1:]):
        if feet <= b:
            return ceil(s + (t - s) * Fraction(feet - a, b - a))
    return points[-1][1]


def by_curve(sheet, grade, feet):
    return ceil(level(sheet['point'], feet) * factor(sheet['vehicle'], grade, feet))


def far(vehicle, grade, feet):
    """'straight between entries': exact, in tenths"""
    def at_row(d):
        if vehicle == 'car':
            return Fraction(FAR[d][0])
        marks, first = COLUMNS[vehicle]
        return between(grade if grade >= 10 else marks[0], marks, lambda g: Fraction(FAR[d][1 + first + marks.index(g)]))
    return between(feet, sorted(FAR), at_row)


def acceleration(sheet, grade, feet):
    """'Between 400 and 425 the time runs straight from the entered curve's graded time at 400'"""
    if feet <= 400:
        return by_curve(sheet, grade, feet)
    ends = {400: Fraction(by_curve(sheet, grade, 400)), 425: far(sheet['vehicle'], grade, 425)}
    return ceil(between(feet, [400, 425], ends.get) if feet < 425 else far(sheet['vehicle'], grade, feet))


HEAD = ('issue', 'vehicle', 'grade', 'grade2', 'l01', 'l02', 'phases')
MIDDLE = ('l18', 'l19', 'l20', 'l28', 'l30', 'l31', 'l33', 'l37', 'l39', 'l47', 'l56', 'l57', 'l58', 'points')
VEHICLES = ('car', 'su', 'bus', 'wb50')
SIGNED = ('grade', 'grade2')
SINGLE = {'l01': (0, 999), 'l02': (1, 999), 'phases': (1, 8), 'l18': (0, 1000), 'l19': (1, 400), 'l20': (1, 150), 'l28': (0, 999),
          'l30': (200, 999), 'l31': (0, 999), 'l33': (0, 999), 'l37': (100, 999), 'l39': (0, 999), 'l47': (0, 1000),
          'l56': (30, 999), 'l57': (1, 999), 'l58': (0, 100), 'points': (2, 16), 'issue': (1, 65535), 'grade': (-80, 80),
          'grade2': (-80, 80)}
MOST_PHASES = 8
PHASE = [(1, MOST_PHASES), (0, 999), (0, 999), (30, 60), (0, 60), (0, 999), (0, 999), (0, 2)]


def number(text, signed=False):
    """a number as the paper writes it, or None"""
    minus = signed and text.startswith(b'-')
    digits = text[1:] if minus else text
    if not digits or any(c not in b'0123456789' for c in digits) or len(digits) > 6:
        return None
    if len(digits) > 1 and digits[:1] == b'0' or minus and digits == b'0':
        return None
    return -int(digits) if minus else int(digits)


def lines_of(text):
    """the text's lines, each with whether a line feed ends it"""
    parts = text.split(b'\n')
    return [(p, True) for p in parts[:-1]] + ([(parts[-1], False)] if parts[-1] else [])


def read(text, older=False):
    """the sheet of a text; older: of one in which `grade2` and `dwell` may be absent, each in its own place"""
    got, at, sheet = lines_of(text), [0], {'phase': [], 'point': []}

    def take(key, parse, check):
        line = at[0] + 1
        if at[0] >= len(got):
            raise Refused(1, line)
        raw, ended = got[at[0]]
        at[0] += 1
        if not ended or not raw.startswith(key + b'='):
            raise Refused(1, line)
        value = parse(raw[len(key) + 1:])
        if value is None:
            raise Refused(1, line)
        fault = check(value)
        if fault:
            raise Refused(fault, line)
        return value

    def absent(key):
        """'where the line there does not begin with `grade2=` (`dwell=`), it is absent'"""
        return older and not (at[0] < len(got) and got[at[0]][0].startswith(key + b'='))

    def single(key):
        lo, hi = SINGLE[key]
        sheet[key] = take(key.encode(), lambda t: number(t, key in SIGNED), lambda v: 0 if lo <= v <= hi else 2)

    def vehicle(t):
        return t.decode('latin-1') if t in [v.encode() for v in VEHICLES] else None

    def many(count):
        def parse(t):
            parts = t.split(b',')
            if len(parts) != count:
                return None
            values = [number(p) for p in parts]
            return None if None in values else values
        return parse

    def listed(t):
        """'rising phase numbers and commas between, or 0 for none'"""
        values = [number(p) for p in t.split(b',')]
        return None if None in values or len(values) > MOST_PHASES else values

    def dwell_fault(numbers):
        if numbers == [0]:
            return 0
        if any(not 1 <= n <= MOST_PHASES for n in numbers):
            return 2
        return 3 if any(b <= a for a, b in zip(numbers, numbers[1:])) else 0

    def phase_fault(p):
        if any(not lo <= v <= hi for v, (lo, hi) in zip(p, PHASE)):
            return 2
        if sheet['phase'] and p[0] <= sheet['phase'][-1][0]:
            return 3
        if p[7] == 0 and (p[5] or p[6]):
            return 5
        if p[7] == 2 and p[6] < p[3] + p[4]:
            return 6
        return 0

    def point_fault(p):
        if not (0 <= p[0] <= 400 and 0 <= p[1] <= 9999):
            return 2
        if not sheet['point']:
            return 4 if p != [0, 0] else 0
        q = sheet['point'][-1]
        return 4 if p[0] <= q[0] or p[1] < q[1] else 0

    for key in HEAD:
        if key == 'vehicle':
            sheet['vehicle'] = take(b'vehicle', vehicle, lambda v: 0)
        elif key == 'grade2' and absent(b'grade2'):
            sheet['grade2'] = sheet['grade']
        else:
            single(key)
    for _ in range(sheet['phases']):
        sheet['phase'].append(take(b'phase', many(8), phase_fault))
    sheet['track'] = take(b'track', many(2), lambda p: 0 if 30 <= p[0] <= 60 and 0 <= p[1] <= 60 else 2)
    dwell = [0] if absent(b'dwell') else take(b'dwell', listed, dwell_fault)
    sheet['dwell'] = [] if dwell == [0] else dwell
    for key in MIDDLE:
        single(key)
    for _ in range(sheet['points']):
        sheet['point'].append(take(b'point', many(2), point_fault))
    if at[0] < len(got):
        raise Refused(1, at[0] + 1)
    if sheet['l47'] > sheet['l18']:
        raise Refused(7, 0)
    if sheet['l31'] < 10 * ceil(Fraction(max(sheet['l19'] - 35, 0), 10)):
        raise Refused(8, 0)
    last = sheet['point'][-1][0]
    if sheet['l19'] + sheet['l20'] + sheet['l47'] > (last if last < 400 else 1000):
        raise Refused(9, 0)
    if sum(sheet['track']) > worst(sheet)[2]:
        raise Refused(10, 0)
    if any(n not in [p[0] for p in sheet['phase']] for n in sheet['dwell']):
        raise Refused(12, 0)
    return sheet


def written(sheet):
    """the text of a sheet, in today's form"""
    def row(key, values):
        return '%s=%s' % (key, ','.join(map(str, values)))
    lines = [row(k, [sheet[k]]) for k in HEAD] + [row('phase', p) for p in sheet['phase']]
    lines += [row('track', sheet['track']), row('dwell', sheet['dwell'] or [0])]
    lines += [row(k, [sheet[k]]) for k in MIDDLE] + [row('point', p) for p in sheet['point']]
    return '\n'.join(lines) + '\n'


def worst(sheet):
    """the phase with the largest vehicle time, the one with the largest pedestrian time or None, and line 16"""
    def vehicle(p):
        return p[1] + p[2] + p[3] + p[4]

    def pedestrian(p):
        return 0 if p[7] == 0 else p[5] + p[6] + (p[3] + p[4] if p[7] == 1 else 0)
    v = max(sheet['phase'], key=lambda p: (vehicle(p), -p[0]))
    walkers = [p for p in sheet['phase'] if p[7] in (1, 2)]
    w = max(walkers, key=lambda p: (pedestrian(p), -p[0])) if walkers else None
    return v, w, max(vehicle(v), pedestrian(w) if w else 0)


def worksheet(s):
    L = {n: s['l%02d' % n] for n in (1, 2, 18, 19, 20, 28, 30, 31, 33, 37, 39, 47, 56, 57, 58)}
    v, w, L[16] = worst(s)
    L[3] = L[1] + L[2]
    L[4], L[5], L[6], L[7], L[8] = v[:5]
    L[9] = v[1] + v[2] + v[3] + v[4]
    for n in range(10, 16):
        L[n] = 0
    if w:
        L[10], L[11], L[12] = w[0], w[5], w[6]
        if w[7] == 1:
            L[13], L[14] = w[3], w[4]
        L[15] = L[11] + L[12] + L[13] + L[14]
    L[17] = L[3] + L[16]
    L[21] = L[18] + L[19]
    L[22] = 20 + ceil(Fraction(L[21], 2))
    L[23] = L[19] + L[20]
    L[24] = acceleration(s, s['grade'], L[23])
    L[25] = L[22] + L[24]
    L[26], L[27] = L[17], L[25]
    L[29] = L[17] + L[25] + L[28]
    L[32] = L[30] + L[31]
    L[34] = L[32] + L[33]
    L[35] = max(L[29] - L[34], 0)
    L[36] = L[33]
    L[38] = ceil(Fraction(L[36] * L[37], 100))
    L[40] = L[38] + L[39]
    L[41], L[42] = L[3], 0
    L[43] = L[41] + L[42]
    L[44] = max(L[40] - L[43], 0)
    L[45], L[46] = L[22], L[23]
    L[48] = L[46] + L[47]
    L[49] = acceleration(s, s['grade2'], L[48])
    L[50] = L[45] + L[49]
    L[51] = 10 * ceil(Fraction(max(L[44], L[50], L[25]), 10))
    L[52], L[53] = L[17], L[22]
    L[54] = acceleration(s, s['grade'], L[20])
    L[55] = L[52] + L[53] + L[54]
    L[59] = floor(Fraction(L[57] * L[58], 100))
    L[60] = L[56] + L[59]
    L[61] = max(L[55] - L[60], 0)
    return [L[n] for n in range(1, 62)]


def or_refusal(text, older, shown):
    try:
        return shown(read(text, older))
    except Refused as r:
        return 'refused=%d,%d\n' % (r.number, r.line)


def report(text):
    """what the program `worksheet` prints for a text"""
    return or_refusal(text, False, lambda s: 'issue=%d\n' % s['issue'] + ''.join('L%02d=%d\n' % (i + 1, v) for i, v in enumerate(worksheet(s))))


def converted(text):
    """what the program `convert` prints for a text"""
    return or_refusal(text, True, written)


if __name__ == '__main__':
    import sys
    program = converted if sys.argv[1:] == ['convert'] else report
    sys.stdout.write(program(sys.stdin.buffer.read()))
