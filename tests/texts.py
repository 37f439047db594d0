"""Writes the table of texts (crates/texts/stdin) and what each gives (crates/texts/stdout): the sheets of sheets/, then damaged ones.

Each case is the paper's sheet with one thing done to it, and the number and line that the paper gives it, written down here by hand.
reference.py has to agree with what is written; a case where it does not stops the script.
"""
import os
import reference
import running

here = os.path.dirname(os.path.abspath(__file__))
SHEET = open(os.path.join(here, '..', 'sheets', 'paper.sheet'), 'rb').read()
LINES = SHEET.split(b'\n')[:-1]


def joined(lines):
    return b'\n'.join(lines) + b'\n'


def put(line, text, lines=LINES):
    """line of the sheet, counted from 1, replaced"""
    return both((line, text), lines=lines)


def drop(line, lines=LINES):
    return joined(lines[:line - 1] + lines[line:])


def add(line, text, lines=LINES):
    return joined(lines[:line - 1] + [text] + lines[line - 1:])


def both(*changes, lines=LINES):
    """so many lines replaced"""
    new = list(lines)
    for line, text in changes:
        new[line - 1] = text
    return joined(new)


def two_grades():
    """each vehicle with a grade of its own over each distance; where its factor begins, on both sides.
    'Add `grade2` .. used for line 49 only. Lines 24 and 54 keep the first'"""
    def lines(vehicle, grade, grade2):
        text = both((2, b'vehicle=' + vehicle.encode()), (3, b'grade=%d' % grade), (4, b'grade2=%d' % grade2))
        return text, reference.worksheet(reference.read(text))
    for vehicle, edges in (('car', []), ('su', [20, 21]), ('bus', [10, 11]), ('wb50', [9, 10])):
        for grade, grade2 in [(80, 0), (0, 80)] + [(0, g) for g in edges]:
            text, got = lines(vehicle, grade, grade2)
            first, second = lines(vehicle, grade, grade)[1], lines(vehicle, grade2, grade2)[1]
            assert [got[n] for n in (23, 53)] == [first[n] for n in (23, 53)] and got[48] == second[48]
            # which of the lines moved with the second grade
            moved = [n + 1 for n in range(61) if got[n] != first[n]]
            assert moved == ([] if vehicle == 'car' or grade2 in edges[:1] else [49, 50]), (vehicle, grade, grade2, moved)
            yield '%s, grade %d and grade2 %d' % (vehicle, grade, grade2), text, 0, 0


def far_out():
    """the acceleration time past 400 ft, by the curve 0,0 and 400,320, as line 49 has it; the times are worked out by hand from the far table"""
    for vehicle, times in (('wb50', [(0, 400, 320), (0, 401, 319), (0, 424, 295), (10, 412, 331), (10, 415, 327), (40, 410, 434), (40, 425, 412), (35, 610, 497), (80, 1000, 1048)]),
                           ('bus', [(10, 500, 215), (15, 510, 227), (-80, 999, 328)]), ('su', [(20, 437, 184), (21, 437, 185), (79, 988, 524)]),
                           ('car', [(0, 450, 152), (80, 451, 153)])):
        for grade2, feet, tenths in times:
            lines = [b'vehicle=' + vehicle.encode(), b'grade2=%d' % grade2, b'l18=1000', b'l47=%d' % (feet - 96), b'points=2']
            text = both((2, lines[0]), (4, lines[1]), (12, lines[2]), (21, lines[3]), (25, lines[4]), lines=LINES[:26] + LINES[27:])
            assert reference.worksheet(reference.read(text))[48] == tenths, (vehicle, grade2, feet)
            yield '%s, grade2 %d, line 48 of %d ft' % (vehicle, grade2, feet), text, 0, 0
    # line 23 past 400 ft, and line 24 with it
    for l20, tenths in ((10, 310), (25, 293), (150, 339)):
        text = both((13, b'l19=400'), (14, b'l20=%d' % l20), (17, b'l31=370'))
        assert reference.worksheet(reference.read(text))[23] == tenths
        yield 'line 23 of %d ft' % (400 + l20), text, 0, 0


CASES = [
    ('the paper\'s sheet', SHEET, 0, 0),
    ('empty text', b'', 1, 1),
    ('a line feed alone', b'\n', 1, 1),
    ('last line feed missing', SHEET[:-1], 1, 28),
    ('last line missing', drop(28), 1, 28),
    ('first line missing', drop(1), 1, 1),
    ('blank line at the end', SHEET + b'\n', 1, 29),
    ('a line more at the end', SHEET + b'point=401,0\n', 1, 29),
    ('text cut inside line 10', b'\n'.join(LINES[:9]) + b'\ntrack=4', 1, 10),
    ('CRLF', SHEET.replace(b'\n', b'\r\n'), 1, 1),
    ('CR in the last line', put(28, b'point=400,320\r'), 1, 28),
    ('space after =', put(1, b'issue= 12'), 1, 1),
    ('tab at the end', put(3, b'grade=0\t'), 1, 3),
    ('capital key', put(5, b'L01=0'), 1, 5),
    ('lines out of place', both((5, b'l02=2'), (6, b'l01=0')), 1, 5),
    ('a doubled line', add(6, b'l01=0'), 1, 6),
    ('a second =', put(12, b'l18==60'), 1, 12),
    ('empty number', put(12, b'l18='), 1, 12),
    ('plus sign', put(12, b'l18=+60'), 1, 12),
    ('byte 0', put(12, b'l18=6\x000'), 1, 12),
    ('byte 255', put(12, b'l18=60\xff'), 1, 12),
    ('only bytes 255', b'\xff' * 9, 1, 1),
    ('only bytes 0', b'\x00' * 9, 1, 1),
    ('leading zero', put(1, b'issue=012'), 1, 1),
    ('leading zero in the last line', put(28, b'point=400,0320'), 1, 28),
    ('00', put(5, b'l01=00'), 1, 5),
    ('seven digits', put(1, b'issue=1000000'), 1, 1),
    ('seven digits in the last line', put(28, b'point=400,1000000'), 1, 28),
    ('six digits', put(1, b'issue=999999'), 2, 1),
    ('six digits in the last line', put(28, b'point=999999,320'), 2, 28),
    ('-0', put(3, b'grade=-0'), 1, 3),
    ('-5 outside the grades', put(5, b'l01=-5'), 1, 5),
    ('two minus signs', put(3, b'grade=--5'), 1, 3),
    ('grade of six digits below 0', put(3, b'grade=-999999'), 2, 3),
    ('grade of seven digits below 0', put(3, b'grade=-1000000'), 1, 3),
    ('grade -80', put(3, b'grade=-80'), 0, 0),
    ('grade -81', put(3, b'grade=-81'), 2, 3),
    ('grade 81', put(3, b'grade=81'), 2, 3),
    # "Add `grade2` after `grade`, with the same range .. Sheets without the line are refused 1"
    ('no grade2 line', drop(4), 1, 4),
    ('neither grade2 nor dwell', joined(LINES[:3] + LINES[4:10] + LINES[11:]), 1, 4),
    ('grade twice, no grade2', put(4, b'grade=0'), 1, 4),
    ('grade2 before grade', both((3, b'grade2=0'), (4, b'grade=0')), 1, 3),
    ('grade2 after l01', both((4, b'l01=0'), (5, b'grade2=0')), 1, 4),
    ('grade2 twice', add(5, b'grade2=0'), 1, 5),
    ('grade2, no number', put(4, b'grade2='), 1, 4),
    ('grade2, no =', put(4, b'grade2'), 1, 4),
    ('grade3', put(4, b'grade3=0'), 1, 4),
    ('grade2 -0', put(4, b'grade2=-0'), 1, 4),
    ('grade2 -05', put(4, b'grade2=-05'), 1, 4),
    ('grade2, a minus sign alone', put(4, b'grade2=-'), 1, 4),
    ('grade2 of six digits below 0', put(4, b'grade2=-999999'), 2, 4),
    ('grade2 of seven digits below 0', put(4, b'grade2=-1000000'), 1, 4),
    ('grade2 -80', put(4, b'grade2=-80'), 0, 0),
    ('grade2 -81', put(4, b'grade2=-81'), 2, 4),
    ('grade2 81', put(4, b'grade2=81'), 2, 4),
    ('grade2 81, and a later line malformed', both((4, b'grade2=81'), (5, b'l01=x')), 2, 4),
    ('grade 81, and grade2 malformed', both((3, b'grade=81'), (4, b'grade2=-0')), 2, 3),
    ('a car with grade2 81', both((2, b'vehicle=car'), (4, b'grade2=81')), 2, 4),
    *two_grades(),
    ('another vehicle', put(2, b'vehicle=wb67'), 1, 2),
    ('no vehicle', put(2, b'vehicle='), 1, 2),
    ('issue 0', put(1, b'issue=0'), 2, 1),
    ('issue 65535', put(1, b'issue=65535'), 0, 0),
    ('issue 65536', put(1, b'issue=65536'), 2, 1),
    ('l02 of 0', put(6, b'l02=0'), 2, 6),
    ('phases=0', put(7, b'phases=0'), 2, 7),
    ('phases=9', put(7, b'phases=9'), 2, 7),
    ('too many phases', put(7, b'phases=1'), 1, 9),
    ('too few phases', put(7, b'phases=3'), 1, 10),
    ('points=1', put(25, b'points=1'), 2, 25),
    ('points=17', put(25, b'points=17'), 2, 25),
    ('too many points', put(25, b'points=2'), 1, 28),
    ('too few points', put(25, b'points=4'), 1, 29),
    ('yellow 29', put(8, b'phase=2,50,0,29,15,0,0,0'), 2, 8),
    ('red 61', put(8, b'phase=2,50,0,40,61,0,0,0'), 2, 8),
    ('mode 3', put(9, b'phase=4,40,0,35,20,70,100,3'), 2, 9),
    ('seven numbers in a phase', put(9, b'phase=4,40,0,35,20,70,100'), 1, 9),
    ('nine numbers in a phase', put(9, b'phase=4,40,0,35,20,70,100,1,0'), 1, 9),
    ('the same phase twice', put(9, b'phase=2,40,0,35,20,70,100,1'), 3, 9),
    ('phase numbers that fall', put(9, b'phase=1,40,0,35,20,70,100,1'), 3, 9),
    ('first point not 0,0', put(26, b'point=0,1'), 4, 26),
    ('first point 401,0', put(26, b'point=401,0'), 2, 26),
    ('distances that stay', put(27, b'point=0,140'), 4, 27),
    ('times that fall', put(28, b'point=400,139'), 4, 28),
    ('times that stay', put(28, b'point=400,140'), 0, 0),
    ('mode 0 with walk', put(8, b'phase=2,50,0,40,15,1,0,0'), 5, 8),
    ('mode 0 with clearance', put(9, b'phase=4,40,0,35,20,0,100,0'), 5, 9),
    ('mode 2, clearance 54', put(9, b'phase=4,40,0,35,20,70,54,2'), 6, 9),
    ('mode 2, clearance 55', put(9, b'phase=4,40,0,35,20,70,55,2'), 0, 0),
    ('mode 2, no clearance', put(8, b'phase=2,50,0,40,15,0,0,2'), 6, 8),
    ('out of range and the same phase', put(9, b'phase=2,1000,0,35,20,70,100,1'), 2, 9),
    ('the same phase and mode 0 with walk', put(9, b'phase=2,40,0,35,20,70,100,0'), 3, 9),
    ('malformed and out of range', put(9, b'phase=9,040,0,35,20,70,100,1'), 1, 9),
    ('two faulty lines, 4 then 2', both((27, b'point=0,140'), (28, b'point=401,0')), 4, 27),
    ('two faulty lines, 2 then 1', both((3, b'grade=90'), (6, b'l02=x')), 2, 3),
    ('out of range, and the line feed missing', put(28, b'point=401,320')[:-1], 1, 28),
    ('l47 above l18', put(21, b'l47=61'), 7, 0),
    ('l47 above l18, and l31 too short', both((21, b'l47=61'), (17, b'l31=9')), 7, 0),
    ('l31 of 9 at 41 ft', put(17, b'l31=9'), 8, 0),
    ('l19=46 needs 20', put(13, b'l19=46'), 8, 0),
    ('l19=35 and l31=0', both((13, b'l19=35'), (17, b'l31=0')), 0, 0),
    ('l19=36 and l31=0', both((13, b'l19=36'), (17, b'l31=0')), 8, 0),
    ('line 48 one foot beyond', put(28, b'point=155,320'), 9, 0),
    ('line 48 at the last point', put(28, b'point=156,320'), 0, 0),
    # "9 is now given when line 48 is beyond 1000, or beyond the last point where that point is below 400"
    ('line 48 of 401 ft', both((12, b'l18=400'), (21, b'l47=305')), 0, 0),
    ('line 48 of 424 ft', both((12, b'l18=400'), (21, b'l47=328')), 0, 0),
    ('line 48 of 425 ft', both((12, b'l18=400'), (21, b'l47=329')), 0, 0),
    ('line 48 of 1000 ft', both((12, b'l18=904'), (21, b'l47=904')), 0, 0),
    ('line 48 of 1001 ft', both((12, b'l18=905'), (21, b'l47=905')), 9, 0),
    ('line 48 of 1096 ft', both((12, b'l18=1000'), (21, b'l47=1000')), 9, 0),
    ('l18 of 1000', put(12, b'l18=1000'), 0, 0),
    ('l18 of 1001', put(12, b'l18=1001'), 2, 12),
    ('l47 of 1001', both((12, b'l18=1000'), (21, b'l47=1001')), 2, 21),
    ('l19 of 401', both((13, b'l19=401'), (17, b'l31=370')), 2, 13),
    ('l20 of 151', put(14, b'l20=151'), 2, 14),
    ('a point at 401 ft', put(28, b'point=401,320'), 2, 28),
    ('last point 399, line 48 of 399 ft', both((12, b'l18=400'), (21, b'l47=303'), (28, b'point=399,320')), 0, 0),
    ('last point 399, line 48 of 400 ft', both((12, b'l18=400'), (21, b'l47=304'), (28, b'point=399,320')), 9, 0),
    ('last point 399, line 48 of 1001 ft', both((12, b'l18=905'), (21, b'l47=905'), (28, b'point=399,320')), 9, 0),
    *far_out(),
    ('track yellow + red above line 16', joined(LINES[:6] + [b'phases=1', b'phase=2,10,0,40,0,0,0,0', b'track=40,11'] + LINES[10:]), 10, 0),
    ('track yellow + red at line 16', joined(LINES[:6] + [b'phases=1', b'phase=2,10,0,40,0,0,0,0', b'track=40,10'] + LINES[10:]), 0, 0),
    ('track 60,60 on a short phase', joined(LINES[:6] + [b'phases=1', b'phase=2,0,0,30,0,0,0,0', b'track=60,60'] + LINES[10:]), 10, 0),
    # "`dwell=` with rising phase numbers and commas between, or 0 for none; a text without it is refused 1"
    ('no dwell line', drop(11), 1, 11),
    ('dwell before track', both((10, b'dwell=0'), (11, b'track=40,20')), 1, 10),
    ('one dwell phase', put(11, b'dwell=4'), 0, 0),
    ('two dwell phases', put(11, b'dwell=2,4'), 0, 0),
    ('dwell, no number', put(11, b'dwell='), 1, 11),
    ('dwell, a comma alone', put(11, b'dwell=,'), 1, 11),
    ('dwell, a comma before', put(11, b'dwell=,2'), 1, 11),
    ('dwell, a comma after', put(11, b'dwell=2,'), 1, 11),
    ('dwell, two commas', put(11, b'dwell=2,,4'), 1, 11),
    ('dwell 00', put(11, b'dwell=00'), 1, 11),
    ('dwell -2', put(11, b'dwell=-2'), 1, 11),
    ('dwell 02', put(11, b'dwell=02'), 1, 11),
    ('dwell, a space', put(11, b'dwell=2, 4'), 1, 11),
    ('dwell of seven digits', put(11, b'dwell=4,2,1000000'), 1, 11),
    ('dwell of six digits', put(11, b'dwell=999999'), 2, 11),
    ('nine dwell phases', put(11, b'dwell=1,2,3,4,5,6,7,8,9'), 1, 11),
    ('eight dwell phases, six of them not listed', put(11, b'dwell=1,2,3,4,5,6,7,8'), 12, 0),
    ('dwell 9', put(11, b'dwell=9'), 2, 11),
    ('dwell 0,2', put(11, b'dwell=0,2'), 2, 11),
    ('dwell 2,0', put(11, b'dwell=2,0'), 2, 11),
    ('dwell 0,0', put(11, b'dwell=0,0'), 2, 11),
    ('dwell falls, and out of range', put(11, b'dwell=4,2,9'), 2, 11),
    ('dwell falls', put(11, b'dwell=4,2'), 3, 11),
    ('dwell stays', put(11, b'dwell=4,4'), 3, 11),
    ('dwell falls, a later line malformed', both((11, b'dwell=4,2'), (12, b'l18=x')), 3, 11),
    ('dwell phase not listed', put(11, b'dwell=3'), 12, 0),
    ('the second dwell phase not listed', put(11, b'dwell=4,5'), 12, 0),
    ('dwell phase not listed, a later line malformed', both((11, b'dwell=3'), (28, b'point=400,x')), 1, 28),
    ('dwell phase not listed, and line 48 beyond', both((11, b'dwell=3'), (28, b'point=155,320')), 9, 0),
    ('10 before 12', joined(LINES[:6] + [b'phases=1', b'phase=2,10,0,40,0,0,0,0', b'track=40,11', b'dwell=4'] + LINES[11:]), 10, 0),
    ('a phase dropped that dwell names', joined(LINES[:6] + [b'phases=1', LINES[8], LINES[9], b'dwell=2'] + LINES[11:]), 12, 0),
]


def table(crate, cases, given):
    """what the program of a crate reads, each text after a line with its name, and what it must print: the number and line that stand in the case, and
    then what is given for a text that is accepted"""
    stdin, stdout = b'', ''
    for name, text, number, line in cases:
        assert b'#' not in text and '\n' not in name
        try:
            more, got = given(text), (0, 0)
        except reference.Refused as r:
            more, got = '\n', (r.number, r.line)
        assert got == (number, line), (name, got)
        stdin += b'#' + name.encode() + b'\n' + text
        stdout += '%s: %d,%d%s' % (name, number, line, more)
    assert len(stdin) < 65536       # the program's buffer
    folder = os.path.join(here, '..', 'crates', crate)
    with open(os.path.join(folder, 'stdin'), 'wb') as f:
        f.write(stdin)
    with open(os.path.join(folder, 'stdout'), 'w') as f:
        f.write(stdout)


def main():
    folder = os.path.join(here, '..', 'sheets')
    good = [(name, text, 0, 0) for name, text in running.sheets()]
    table('texts', good + CASES, lambda text: ''.join(' %d' % v for v in reference.worksheet(reference.read(text))) + '\n')
    for name, text, _, _ in good:
        with open(os.path.join(folder, name[:-6] + '.lines'), 'w') as f:
            f.write(reference.report(text))
    print(len(good), 'sheets,', len(CASES), 'damaged texts')


if __name__ == '__main__':
    main()
