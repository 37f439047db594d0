"""Writes the texts of older forms (crates/converts/stdin) and what each is converted to (crates/converts/stdout), and the run of crates/convert.

The sheets of sheets/ in each form that they can have; then damaged texts, with the number and line of the input written down here by hand, to
which reference.py has to agree, as in texts.py.
"""
import os
import reference
import running
from texts import LINES, add, both, drop, here, joined, put, table

GRADE2, DWELL = 4, 11       # their lines in the paper's sheet of today
REQUEST_01 = LINES[:GRADE2 - 1] + LINES[GRADE2:]
GRADE2_ALONE = LINES[:DWELL - 1] + LINES[DWELL:]
DOCUMENT_01 = REQUEST_01[:DWELL - 2] + REQUEST_01[DWELL - 1:]
FORMS = [('document 01', DOCUMENT_01), ('request 01', REQUEST_01), ('grade2 alone', GRADE2_ALONE), ('today', LINES)]


def older(text):
    """the sheet's own text, and the texts of older forms that stand for the same sheet"""
    lines = text.split(b'\n')
    grade, grade2 = (next(i for i, l in enumerate(lines) if l.startswith(key)) for key in (b'grade=', b'grade2='))
    dwell = lines.index(b'dwell=0') if b'dwell=0' in lines else None
    without = {'today': [], 'request 01': [grade2], 'grade2 alone': [dwell], 'document 01': [grade2, dwell]}
    for form, lost in without.items():
        if None not in lost and (grade2 not in lost or lines[grade][6:] == lines[grade2][7:]):
            yield form, b'\n'.join(l for i, l in enumerate(lines) if i not in lost)


def good():
    for name, text in running.sheets():
        for form, old in older(text):
            assert reference.converted(old) == text.decode(), (name, form)
            yield '%s, %s' % (name, form), old, 0, 0


def each(what, number, line, *changes, after=b''):
    """the same done to each form. Its line in today's is written down; a line that is absent before it counts less"""
    for form, lines in FORMS:
        text = joined(lines)
        for old, new in changes:
            assert text.count(old) == 1
            text = text.replace(old, new)
        yield '%s, %s' % (form, what), text + after, number, line and line - (len(LINES) - len(lines))


CASES = [
    ('grades that differ, no dwell', both((3, b'grade=80'), (4, b'grade2=-5'), lines=GRADE2_ALONE), 0, 0),
    ('phases named, no grade2', both((3, b'grade=-80'), (10, b'dwell=2,4'), lines=REQUEST_01), 0, 0),
    ('a car of document 01', both((2, b'vehicle=car'), (3, b'grade=80'), lines=DOCUMENT_01), 0, 0),
    # the line there begins with its key: it is no absent line
    ('grade2, no number', put(4, b'grade2='), 1, 4),
    ('grade2 -0', put(4, b'grade2=-0'), 1, 4),
    ('grade2 81', put(4, b'grade2=81'), 2, 4),
    ('grade2 81, no dwell', put(4, b'grade2=81', GRADE2_ALONE), 2, 4),
    ('grade2 without its line feed', joined(LINES[:3]) + b'grade2=0', 1, 4),
    ('dwell, no number', put(11, b'dwell='), 1, 11),
    ('dwell, no number, no grade2', put(10, b'dwell=', REQUEST_01), 1, 10),
    ('dwell 9', put(11, b'dwell=9'), 2, 11),
    ('dwell falls, no grade2', put(10, b'dwell=4,2', REQUEST_01), 3, 10),
    ('dwell phase not listed', put(11, b'dwell=3'), 12, 0),
    ('dwell phase not listed, no grade2', put(10, b'dwell=3', REQUEST_01), 12, 0),
    ('dwell without its line feed', joined(LINES[:10]) + b'dwell=0', 1, 11),
    # it does not, so that the next key is looked for there
    ('grade2, no =', put(4, b'grade2'), 1, 4),
    ('grade3', put(4, b'grade3=0'), 1, 4),
    ('capital grade2', put(4, b'Grade2=0'), 1, 4),
    ('grade twice', put(4, b'grade=0'), 1, 4),
    ('grade2 after l01', both((4, b'l01=0'), (5, b'grade2=0')), 1, 5),
    ('dwell, no =', put(11, b'dwell'), 1, 11),
    ('dwell, a space before', put(11, b' dwell=0'), 1, 11),
    ('dwell after l18', both((11, b'l18=60'), (12, b'dwell=0')), 1, 12),
    ('cut where grade2 stands', joined(LINES[:3]), 1, 4),
    ('cut where dwell stands', joined(LINES[:10]), 1, 11),
    ('cut where dwell stands, no grade2', joined(DOCUMENT_01[:9]), 1, 10),
    # out of its place
    ('grade2 before grade', both((3, b'grade2=0'), (4, b'grade=0')), 1, 3),
    ('grade2 twice', add(5, b'grade2=0'), 1, 5),
    ('dwell before track', both((10, b'dwell=0'), (11, b'track=40,20')), 1, 10),
    ('dwell twice', add(12, b'dwell=0'), 1, 12),
    ('grade2 in the place of dwell', put(11, b'grade2=0'), 1, 11),
    ('dwell in the place of grade2', put(4, b'dwell=0'), 1, 4),
    # the grade that serves for both is refused once, at its own line
    ('grade 81, no grade2', put(3, b'grade=81', DOCUMENT_01), 2, 3),
    ('grade -0, no grade2', put(3, b'grade=-0', DOCUMENT_01), 1, 3),
    ('empty text', b'', 1, 1),
    ('no l01 either', drop(4, DOCUMENT_01), 1, 4),
    ('no l18 either', drop(10, DOCUMENT_01), 1, 10),
    *each('l31 out of range', 2, 17, (b'l31=10', b'l31=1000')),
    *each('times that fall', 4, 28, (b'400,320', b'400,139')),
    *each('last line feed missing', 1, 28, (b'400,320\n', b'400,320')),
    *each('blank line at the end', 1, 29, after=b'\n'),
    *each('l47 above l18', 7, 0, (b'l47=60', b'l47=61')),
    *each('track above line 16', 10, 0, (b'phase=4,40,0,35,20,70,100,1', b'phase=4,40,0,35,20,0,0,0'), (b'track=40,20', b'track=60,46')),
]


def main():
    cases = list(good())
    table('converts', cases + CASES, lambda text: '\n' + reference.written(reference.read(text, older=True)))
    [(_, old)] = running.sheets('old')
    folder = os.path.join(here, '..', 'crates', 'convert')
    with open(os.path.join(folder, 'stdin'), 'wb') as f:
        f.write(old)
    with open(os.path.join(folder, 'stdout'), 'w') as f:
        f.write(reference.converted(old))
    print(len(cases), 'texts of sheets,', len(CASES), 'others')


if __name__ == '__main__':
    main()
