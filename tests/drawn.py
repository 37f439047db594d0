"""Texts drawn at random for the scripts compare*: sheets in range nearly everywhere, so that every rule is met; their older forms; and damaged ones."""
import running

# lines that a text of today must have and one of an older form need not, as they are and as they are not
ABSENT = [b'grade2=', b'dwell=']
NEARLY = [b'grade2', b'grade2=', b'grade2=-0', b'grade2=--1', b'grade2=81', b'grade2=-81', b'grade2=80,', b'grade3=0', b'Grade2=0', b'grade=0', b'grade2 =0', b'grade2=0\r',
          b'dwell', b'dwell=', b'dwell=00', b'dwell=0,', b'dwell=9', b'dwell=2,1', b'dwell=1,2,3,4,5,6,7,8,9', b'dwel=0', b'dwells=0', b' dwell=0', b'']


def some_sheet(r):
    phases = sorted(r.sample(range(1, 9), r.randint(1, 8)))
    grade = r.randint(-80, 80)
    lines = ['issue=%d' % r.randint(1, 65535), 'vehicle=' + r.choice(['car', 'su', 'bus', 'wb50']), 'grade=%d' % grade,
             'grade2=%d' % r.choice([grade, r.randint(-80, 80)]), 'l01=%d' % r.randint(0, 60), 'l02=%d' % r.randint(1, 60), 'phases=%d' % len(phases)]
    for n in phases:
        mode = r.randint(0, 2)
        y, d = r.randint(30, 60), r.randint(0, 60)
        walk = r.randint(0, 150) if mode else 0
        clear = r.randint(y + d - (r.random() < 0.02), 300) if mode == 2 else r.randint(0, 200) if mode else 0
        lines.append('phase=%d,%d,%d,%d,%d,%d,%d,%d' % (n, r.randint(0, 200), r.randint(0, 50), y, d, walk, clear, mode))
    # a third of the sheets have their distances past 400 ft, and some of those beyond 1000
    l18, l19 = r.choice([(r.randint(0, 200), r.randint(1, 120)), (r.randint(0, 200), r.randint(1, 120)), (r.randint(150, 1000), r.choice([r.randint(1, 120), r.randint(250, 400)]))])
    l47, l20 = r.randint(0, l18), r.randint(1, 150)
    l31 = max(0, -(-(l19 - 35) // 10) * 10) + r.choice([0, 0, 5, 30]) - (r.random() < 0.05)
    named = sorted(r.sample(phases, r.randint(0, len(phases))))
    if r.random() < 0.1:
        named = [r.randint(0, 9) for _ in range(r.randint(1, 9))]
    # without advance preemption the acceleration times decide line 51: line 49 over the farther distance, or line 24 up the steeper grade
    l33, l39 = r.choice([(0, 0), (r.randint(0, 999), r.randint(0, 300))])
    lines += ['track=%d,%d' % (r.randint(30, 60), r.randint(0, 60)), 'dwell=' + (','.join(map(str, named)) or '0'), 'l18=%d' % l18, 'l19=%d' % l19, 'l20=%d' % l20,
              'l28=%d' % r.randint(0, 200), 'l30=%d' % r.randint(200, 400), 'l31=%d' % max(l31, 0), 'l33=%d' % l33,
              'l37=%d' % r.randint(100, 200), 'l39=%d' % l39, 'l47=%d' % l47, 'l56=%d' % r.randint(30, 200),
              'l57=%d' % r.randint(1, 999), 'l58=%d' % r.randint(0, 100)]
    last = max(r.randint(300, 400), min(400, l19 + l20 + l47)) - (r.random() < 0.02)
    feet = sorted(r.sample(range(1, last), r.randint(0, 14)) + [last])
    feet = [0] + sorted(set(feet))
    times, t = [], 0
    for f in feet:
        times.append(t if f else 0)
        t += r.randint(0, 60)
    lines += ['points=%d' % len(feet)] + ['point=%d,%d' % p for p in zip(feet, times)]
    return ('\n'.join(lines) + '\n').encode()


def as_it_is(text, r):
    return text


def older(text, r):
    """in one of the four forms: `grade2` and `dwell` each absent or not"""
    lost = tuple(key for key in ABSENT if r.random() < 0.5)
    return b'\n'.join(l for l in text.split(b'\n') if not (lost and l.startswith(lost)))


def damaged(text, r):
    text = bytearray(text)
    for _ in range(r.randint(0, 2)):
        at = r.randrange(len(text) + 1)
        kind = r.randint(0, 4)
        if kind == 0:
            text[at:at + 1] = bytes([r.choice(b'0123456789-,=\n\r al\x00\xff')])
        elif kind == 1:
            del text[at:at + r.randint(1, 3)]
        elif kind == 2:
            text[at:at] = bytes([r.choice(b'0123456789-,=\n')])
        else:
            lines = bytes(text).split(b'\n')
            i = r.randrange(len(lines))
            if kind == 3:
                lines[i:i + 1] = r.choice([[], [lines[i], lines[i]], [lines[i].replace(b'=', b'=9')]])
            else:
                # where a line may be absent, or there was one: another in its place, one more, none, or it and its neighbour the other way round
                places = [i for i, l in enumerate(lines) if l.startswith((b'grade', b'l01', b'track', b'dwell', b'l18'))] or [i]
                i = r.choice(places)
                lines[i:i + 2] = r.choice([[r.choice(NEARLY)] + lines[i + 1:i + 2], [r.choice(NEARLY)] + lines[i:i + 2], lines[i:i + 1], lines[i:i + 2][::-1]])
            text = bytearray(b'\n'.join(lines))
    return bytes(text)


def texts(count, r, form=as_it_is):
    """the sample sheets, cut and lengthened; then drawn ones, each first put in a form"""
    samples = [form(text, r) for _, text in running.sheets()]
    made = samples + [b'', b'\xff' * 1000000, samples[0] + b'x' * 1000000, samples[0] * 50, b'issue=' + b'1' * 100000]
    made += [t[:n] for t in samples[:2] for n in range(len(t))]
    while len(made) < count:
        t = form(some_sheet(r), r)
        made.append(t if r.random() < 0.4 else damaged(t, r))
    return made
