"""The far times from their source: Equation 1 of document 002 with the parameters of its Table 628-C, in tenths of a second taken up, every 25 ft from 425 to 1000.

Every step is done in Python's decimal with 50 digits, once with each result taken down and once taken up, so that the exact value lies between the two;
where they don't come to the same tenth it says so and stops. e is the base of natural logarithms itself: the 2.17828 that the sources print is a misprint of 2.71828 (docs/DECISIONS.md).

    tests/equation.py           prints the table, a line for each distance: what crates/far_times/stdout has
    tests/equation.py compare   compares it with the table in the code, and says how near an entry comes to the next tenth
"""
from decimal import ROUND_CEILING, ROUND_FLOOR, Context, Decimal
from math import ceil
from pathlib import Path
import re
import sys

DISTANCES = range(425, 1001, 25)
# Table 628-C, in the page's order: vehicle, grade in tenths of a percent, a, b, c, d. Of the two passenger cars the through one is ours
PARAMETERS = [line.split() for line in """
car 0 7.75 3.252 5.679 2.153
su 20 8.16 3.624 5.070 2.018
su 40 10.39 4.865 4.560 1.739
su 60 9.52 4.542 4.393 1.700
su 80 9.38 4.597 4.165 1.668
bus 10 10.02 4.108 5.950 0.885
bus 20 11.51 5.254 4.801 1.300
bus 40 10.79 5.042 4.577 1.266
bus 60 10.61 5.101 4.329 1.253
bus 80 11.84 6.198 3.652 1.554
wb50 0 17.75 7.984 4.940 0.481
wb50 20 10.26 4.026 6.500 0.249
wb50 40 9.39 3.635 6.670 0.193
wb50 60 9.38 3.732 6.310 0.188
wb50 80 10.31 4.515 5.219 0.265
""".strip().split('\n')]
DOWN, UP = Context(prec=50, rounding=ROUND_FLOOR), Context(prec=50, rounding=ROUND_CEILING)


def logarithm(x, rounded):
    """decimal rounds a logarithm and a power of e to nearest: the next number down or up is surely on the side asked for"""
    return DOWN.next_minus(DOWN.ln(x)) if rounded is DOWN else UP.next_plus(UP.ln(x))


def power(x, rounded):
    return DOWN.next_minus(DOWN.exp(x)) if rounded is DOWN else UP.next_plus(UP.exp(x))


def tenths(a, b, c, d, x, rounded):
    """10 e^(a - b sqrt(c + 2/b ln(d/x))): the root and what is below it are taken the other way, since it is subtracted"""
    other = UP if rounded is DOWN else DOWN
    ln = logarithm(other.divide(d, x), other)
    # d is below x, so that the logarithm is negative: its factor is taken the way that it is not
    assert ln < 0
    inner = other.add(c, other.multiply(rounded.divide(2, b), ln))
    root = DOWN.next_minus(DOWN.sqrt(inner)) if other is DOWN else UP.next_plus(UP.sqrt(inner))
    return rounded.multiply(10, power(rounded.subtract(a, other.multiply(b, root)), rounded))


def bracket(parameters, feet):
    a, b, c, d = map(Decimal, parameters[2:])
    low, high = (tenths(a, b, c, d, Decimal(feet), way) for way in (DOWN, UP))
    assert low <= high < UP.add(low, Decimal('1e-40'))
    return low, high


def entry(parameters, feet):
    low, high = bracket(parameters, feet)
    if ceil(low) != ceil(high):
        sys.exit('in doubt: %s over %d ft is from %s to %s' % (parameters[:2], feet, low, high))
    return ceil(high)


def table():
    return {feet: [entry(p, feet) for p in PARAMETERS] for feet in DISTANCES}


def printed(rows):
    return ''.join('%d %s\n' % (feet, ' '.join(map(str, rows[feet]))) for feet in DISTANCES)


def in_the_code():
    """the constant's numbers in order, without the comments"""
    text = (Path(__file__).parent.parent / 'crates/far_columns/src/lib.rt').read_text()
    constant = re.sub('//.*', '', text[text.index('const FAR'):text.index('\n];')]).split('=')[1]
    return [int(n) for n in re.findall('[0-9]+', constant)]


def compare():
    rows, code = table(), in_the_code()
    wide = len(PARAMETERS)
    assert len(code) == wide * len(DISTANCES), 'the code has %d entries' % len(code)
    wrong = 0
    for i, feet in enumerate(DISTANCES):
        for j, p in enumerate(PARAMETERS):
            if code[wide * i + j] != rows[feet][j]:
                wrong += 1
                print('%s %s over %d ft: the code has %d, the equation %d' % (p[0], p[1], feet, code[wide * i + j], rows[feet][j]))
    near = min((min(DOWN.remainder(bracket(p, feet)[0], 1), DOWN.subtract(1, UP.remainder(bracket(p, feet)[1], 1))), p[0], p[1], feet) for feet in DISTANCES for p in PARAMETERS)
    print('%d entries compared, %d differ; none is in doubt: the nearest to a whole tenth is %.7f tenths off, %s at %s over %d ft' % (len(code), wrong, *near))
    return 1 if wrong else 0


if __name__ == '__main__':
    if sys.argv[1:] == ['compare']:
        sys.exit(compare())
    sys.stdout.write(printed(table()))
