"""Writes the units and sheets that are handed over as values (crates/handed_over/stdin) and what each gives (crates/handed_over/stdout).

Each case has its replies, and the unit after the tick, written down here by hand from the paper, in words. sequence_reference.py, and the
sentence of refusal 20 below, have to agree with what is written; a case where they do not stops the script. What the program must print is
then the numbers of the same unit.
"""
import os
import reference
import sequence_reference

here = os.path.dirname(os.path.abspath(__file__))
paper = open(os.path.join(here, '..', 'sheets', 'paper.sheet'), 'rb').read()
# a longer track interval, grades below 1 percent, a third phase, which has other green and mode 2, and two phases named for dwell
SITE = paper.replace(b'grade=0', b'grade=5').replace(b'grade2=0', b'grade2=-7').replace(b'phases=2', b'phases=3').replace(b'track=40,20', b'phase=6,30,12,30,10,20,60,2\ntrack=60,55').replace(b'dwell=0', b'dwell=2,6')
# where each number stands, in the order of the text: 8 phases, 8 phases named for dwell and 16 points, the grades 1,000,000 more, the vehicle as its place
HEAD, MIDDLE = reference.HEAD, reference.MIDDLE
TRACK = len(HEAD) + 8 * 8
PLACE = dict([(k, i) for i, k in enumerate(HEAD)] + [('yellow', TRACK), ('red', TRACK + 1), ('named', TRACK + 2)] + [(k, TRACK + 11 + i) for i, k in enumerate(MIDDLE)])
OF_PHASE = ['number', 'green', 'other', 'yellow', 'red', 'walk', 'clearance', 'mode']
STAGES = ['track-green', 'track-yellow', 'track-red', 'open', 'ending', 'clearance-green', 'clearance-yellow', 'clearance-red', 'dwell', 'dwell-open', 'dwell-ending']
# a stage's kind and place as numbers; 9 is no stage: a start
KINDS = {'track-green': (0, 0), 'track-yellow': (1, 0), 'track-red': (2, 0), 'open': (3, 0), 'ending': (4, 0), 'clearance-green': (5, 0),
         'clearance-yellow': (1, 1), 'clearance-red': (2, 1), 'dwell': (6, 0), 'dwell-open': (3, 1), 'dwell-ending': (4, 1), 'start': (9, 0)}
IN_PHASE = ('open', 'ending', 'dwell-open', 'dwell-ending')
ASKED = ('ending', 'dwell-ending')
LIGHTS = ['green', 'yellow', 'red']
WALKERS = ['walk', 'clearance']


def of_phase(i, name):
    return len(HEAD) + 8 * i + OF_PHASE.index(name)


def of_dwell(i):
    return PLACE['named'] + 1 + i


def of_point(i, name):
    return PLACE['points'] + 1 + 2 * i + ['feet', 'tenths'].index(name)


# ---- a sheet as its numbers
def numbers_of(s):
    kept = dict(s, vehicle=reference.VEHICLES.index(s['vehicle']), **{k: s[k] + 1000000 for k in reference.SIGNED})
    flat = [kept[k] for k in HEAD] + sum(s['phase'], []) + [0] * (8 * (8 - len(s['phase']))) + s['track']
    flat += [len(s['dwell'])] + s['dwell'] + [0] * (8 - len(s['dwell'])) + [kept[k] for k in MIDDLE]
    return flat + sum(s['point'], []) + [0] * (2 * (16 - len(s['point'])))


def dwell_of(n):
    """the dwell line of the values. Two of them have no text, more than eight numbers and one that is 0: out of range all the same, as a 9 is"""
    count = n[PLACE['named']]
    named = n[of_dwell(0):of_dwell(min(count, 8))]
    return [9] if count > 8 or named == [0] else named


def text_of(n):
    """the text that the values would make; a count out of range ends it"""
    s = {k: n[PLACE[k]] for k in HEAD + MIDDLE}
    s.update(vehicle=reference.VEHICLES[s['vehicle']], **{k: s[k] - 1000000 for k in reference.SIGNED})
    s['phase'] = [n[of_phase(i, 'number'):of_phase(i + 1, 'number')] for i in range(min(s['phases'], 8))]
    s['track'], s['dwell'] = n[PLACE['yellow']:PLACE['named']], dwell_of(n)
    s['point'] = [n[of_point(i, 'feet'):of_point(i + 1, 'feet')] for i in range(min(s['points'], 16))]
    return reference.written(s).encode()


SITE_NUMBERS = numbers_of(reference.read(SITE))
assert text_of(SITE_NUMBERS) == SITE
ZERO_NUMBERS = [1000000 if k in reference.SIGNED else 0 for k in HEAD] + [0] * (len(SITE_NUMBERS) - len(HEAD))


def changed(place, value):
    return SITE_NUMBERS[:place] + [value] + SITE_NUMBERS[place + 1:]


def fault(numbers):
    try:
        reference.read(text_of(numbers))
    except reference.Refused as r:
        return r.number, r.line
    return 0, 0


# ---- a unit: its sheet's numbers, the stage, the phase and the phase next, the light and the walker with their times, the count
class Unit:
    def __init__(self, numbers, stage, phase=0, next=0, light='green', spent=0, walker='walk', steps=0, count=0, leaving=False):
        self.numbers, self.stage, self.phase, self.next, self.light, self.spent = numbers, stage, phase, next, light, spent
        self.walker, self.steps, self.count, self.leaving = walker, steps, count, leaving
        self.follows = (1, next) if next != 0 else (4, 0) if stage == 'dwell-ending' and not leaving else (0, 0)

    def fits(self):
        """20: 'a tick or load whose unit has a refused sheet, a phase not listed, a next phase neither listed nor 0, a time above its length
        or a count above line 3'"""
        if fault(self.numbers) != (0, 0):
            return False
        s = reference.read(text_of(self.numbers))
        lines = reference.worksheet(s)
        phases = {p[0]: dict(zip(OF_PHASE, p)) for p in s['phase']}
        if self.stage in IN_PHASE and self.phase not in phases:
            return False
        if self.stage in ('track-yellow', 'track-red') + ASKED and self.next not in phases and self.next != 0:
            return False
        yellow, red = s['track']
        length = {'track-yellow': yellow, 'track-red': red, 'clearance-green': lines[50], 'clearance-yellow': yellow, 'clearance-red': red}
        if self.stage in length and self.spent > length[self.stage]:
            return False
        if self.stage in IN_PHASE:
            p = phases[self.phase]
            if self.spent > (p['green'] + p['other'] if self.light == 'green' else p[self.light]) or self.steps > p[self.walker]:
                return False
        return self.count <= lines[2]

    def running(self):
        u = sequence_reference.Unit(reference.read(text_of(self.numbers)))
        u.stage, u.count, u.spent, u.next = self.stage, self.count, self.spent, self.next
        if self.stage in IN_PHASE:
            u.stage = 'dwell-phase' if self.stage.startswith('dwell') else 'phase'
            u.p, u.asked, u.leaving = u.phases[self.phase], self.stage in ASKED, self.leaving
            u.light, u.walker, u.steps = self.light, self.walker, self.steps
        return u

    def state(self):
        """the numbers of the stage: its kind and place, what follows (0 the track, 1 a phase, 2 clearance green, 3 dwell as the call is, 4 all red) and the phase next, the
        phase shown, its light, the ticks of that or of the track's interval, its walker, the ticks of that; 0 for what the stage does not have"""
        follows = (3, 0) if self.stage in ('clearance-yellow', 'clearance-red') else self.follows
        return KINDS[self.stage] + follows + (self.phase, LIGHTS.index(self.light), self.spent, WALKERS.index(self.walker), self.steps)

    def numbers_shown(self):
        return '%s count %d' % (','.join(map(str, self.state())), self.count)

    def words(self):
        named = {'track-yellow': '%d next %d' % (self.spent, self.next), 'track-red': '%d next %d' % (self.spent, self.next),
                 'clearance-green': '%d' % self.spent, 'clearance-yellow': '%d' % self.spent, 'clearance-red': '%d' % self.spent}
        if self.stage in IN_PHASE:
            text = 'phase %d %s %d %s %d' % (self.phase, self.light, self.spent, self.walker, self.steps)
            text = 'dwell ' + text if self.stage.startswith('dwell') else text
            text += ' ending next %s' % ('track' if self.leaving else self.next) if self.stage in ASKED else ''
        else:
            text = ' '.join([self.stage] + ([named[self.stage]] if self.stage in named else []))
        return '%s count %d' % (text, self.count)


def after_tick(u):
    """a unit after a tick, in words and as numbers; in the transfer what was next is not looked at any more: clearance green follows"""
    stage = u.stage if u.stage not in sequence_reference.PHASES else u.stage[:-5] + ('ending' if u.asked else 'open')
    next = u.next if stage in ('track-yellow', 'track-red') + ASKED else 0
    spent = u.spent if stage not in ('track-green', 'dwell') else 0
    shown = Unit(None, stage, 0, next, 'green', spent, 'walk', 0, u.count)
    if u.stage in sequence_reference.PHASES:
        shown = Unit(None, stage, u.p['number'], next, u.light, spent, u.walker, u.steps, u.count, u.leaving)
    if not u.begun() or stage not in ('track-yellow', 'track-red', 'ending'):
        return shown.words(), shown.numbers_shown()
    shown.follows = (2, 0)
    return shown.words().replace('next %d' % next, 'next -'), shown.numbers_shown()


def differences(numbers):
    return ''.join(' [%d]=%d' % (i, n) for i, n in enumerate(numbers) if n != SITE_NUMBERS[i])


FRESH = Unit(None, 'track-green').numbers_shown()


# ---- a case: the unit, the command and the call of its tick, and the sheet offered to it
class Case:
    def __init__(self, name, stage, after=None, load=None, held=(0, 12), offered=(0, 0), issue=13, command=None, call=0, **unit):
        self.name, self.held, self.offered, self.issue, self.command, self.call = name, held, offered, issue, command, call
        self.stage, self.after, self.load = stage, after, load
        self.unit = Unit(changed(*held), stage, **unit)

    def row(self):
        u = self.unit
        numbers = list(self.held) + list(u.state()) + [u.count]
        numbers += [0 if self.command is None else self.command + 1, self.call] + list(self.offered) + [self.issue]
        return '%s:%s\n' % (self.name, ','.join(map(str, numbers)))

    def sheet(self):
        n = changed(*self.offered)
        return [self.issue] + n[1:]

    def start(self):
        number = fault(self.sheet())
        assert self.load in (None, number), (self.name, number)
        return '%s: start %d,%d %s%s\n' % ((self.name,) + number + (FRESH, differences(self.sheet() if number[0] == 0 else ZERO_NUMBERS),))

    def ticked(self):
        if not self.unit.fits():
            return '20,0 ' + self.unit.words(), '20,0 ' + self.unit.numbers_shown()
        u = self.unit.running()
        number = u.tick(self.command, self.call == 1)
        return tuple('%d,0 %s' % (number, shown) for shown in after_tick(u))

    def loaded(self):
        if not self.unit.fits():
            return 20, 0
        own = fault(self.sheet())
        return own if own != (0, 0) else (self.unit.running().load(reference.read(text_of(self.sheet()))), 0)

    def line(self):
        if self.stage == 'start':
            return self.start()
        (words, tick), load, held = self.ticked(), self.loaded(), differences(self.unit.numbers)
        if self.after is not None:
            want = self.after if self.after != '20' else '20,0 ' + self.unit.words()
            assert words == want, (self.name, words, want)
            assert load == self.load, (self.name, load)
        given = self.unit.numbers_shown() + held
        after = FRESH + differences(self.sheet()) if load == (0, 0) else given
        return '%s: %s | tick %s%s | load %d,%d %s\n' % ((self.name, given, tick, held) + load + (after,))


NOT_NOW = (21, 0)
UNFIT = (20, 0)


def fit(name, stage, after, load=NOT_NOW, **more):
    return Case(name, stage, '0,0 ' + after if after[:2] != '23' else after, load, **more)


def unfit(name, stage, **more):
    return Case(name, stage, '20', UNFIT, **more)


def four(**more):
    return dict(phase=4, next=2, **more)


def six(**more):
    return dict(phase=6, next=0, **more)


# In each: what the unit is, what the tick after it must give, and the number that a newer sheet offered to it must get
CASES = [
    fit('fresh', 'track-green', 'track-green count 0', (0, 0)),
    fit('the count goes', 'track-green', 'track-green count 0', count=1),
    fit('the count comes to line 3', 'track-green', 'clearance-green 0 count 2', count=1, call=1),
    fit('count at line 3', 'track-green', 'clearance-green 0 count 2', count=2),
    unfit('count above line 3', 'track-green', count=3),
    fit('track green to a phase', 'track-green', 'track-yellow 0 next 4 count 0', (0, 0), command=4),
    fit('track green to itself', 'track-green', '23,0 track-green count 0', (0, 0), command=0),
    fit('in yellow', 'track-yellow', 'track-yellow 59 next 4 count 0', spent=58, next=4),
    fit('yellow served', 'track-yellow', 'track-red 0 next 4 count 0', spent=59, next=4),
    fit('yellow at its length', 'track-yellow', 'track-red 0 next 4 count 0', spent=60, next=4),
    unfit('yellow above its length', 'track-yellow', spent=61, next=4),
    fit('yellow, next 0', 'track-yellow', 'track-red 0 next 0 count 0', spent=60, next=0),
    unfit('yellow, next not listed', 'track-yellow', next=3),
    fit('yellow, the transfer begins', 'track-yellow', 'track-yellow 11 next - count 2', spent=10, next=4, count=1, call=1),
    fit('end in yellow', 'track-yellow', '23,0 track-yellow 11 next 4 count 0', spent=10, next=4, command=2),
    fit('red served', 'track-red', 'phase 4 green 0 walk 0 count 0', spent=54, next=4),
    fit('red at its length', 'track-red', 'phase 4 green 0 walk 0 count 0', spent=55, next=4),
    unfit('red above its length', 'track-red', spent=56, next=4),
    fit('red served, next 0', 'track-red', 'track-green count 0', spent=54, next=0),
    fit('red at its length, next 0', 'track-red', 'track-green count 0', spent=55, next=0),
    unfit('red, next not listed', 'track-red', next=9),
    fit('red over in the transfer', 'track-red', 'clearance-green 0 count 2', spent=54, next=4, count=2),
    # an open phase: its times stop at their lengths
    fit('open', 'open', 'phase 6 green 42 walk 20 count 0', phase=6, spent=41, steps=19),
    fit('open at green + other and walk', 'open', 'phase 6 green 42 walk 20 count 0', phase=6, spent=42, steps=20),
    unfit('open above green + other', 'open', phase=6, spent=43, steps=20),
    unfit('open above its walk', 'open', phase=6, spent=42, steps=21),
    unfit('a walk in mode 0', 'open', phase=2, steps=1),
    unfit('open, not listed', 'open', phase=3),
    unfit('open, phase 0', 'open', phase=0),
    fit('open in the transfer', 'open', 'phase 4 green 11 walk 21 ending next - count 2', phase=4, spent=10, steps=20, count=2),
    fit('open, end', 'open', 'phase 4 green 11 walk 21 ending next 2 count 0', phase=4, spent=10, steps=20, command=2),
    fit('open, end to the track', 'open', 'phase 4 green 11 walk 21 ending next 0 count 0', phase=4, spent=10, steps=20, command=0),
    fit('open, end to itself', 'open', '23,0 phase 4 green 11 walk 21 count 0', phase=4, spent=10, steps=20, command=4),
    fit('open, end to none listed', 'open', '23,0 phase 4 green 11 walk 21 count 0', phase=4, spent=10, steps=20, command=3),
    fit('mode 0 served, end', 'open', 'phase 2 yellow 0 clearance 0 ending next 4 count 0', phase=2, spent=50, command=4),
    # mode 1: green 40, yellow 35, red 20, walk 70, clearance 100
    fit('walk served', 'ending', 'phase 4 green 40 clearance 0 ending next 2 count 0', **four(spent=40, steps=69)),
    fit('walk at its length', 'ending', 'phase 4 green 40 clearance 0 ending next 2 count 0', **four(spent=40, steps=70)),
    unfit('walk above its length', 'ending', **four(spent=40, steps=71)),
    fit('clearance served', 'ending', 'phase 4 yellow 0 clearance 100 ending next 2 count 0', **four(spent=40, walker='clearance', steps=99)),
    fit('clearance at its length', 'ending', 'phase 4 yellow 0 clearance 100 ending next 2 count 0', **four(spent=40, walker='clearance', steps=100)),
    unfit('clearance above its length', 'ending', **four(spent=40, walker='clearance', steps=101)),
    fit('green not served', 'ending', 'phase 4 green 39 clearance 100 ending next 2 count 0', **four(spent=38, walker='clearance', steps=100)),
    unfit('green above its length', 'ending', **four(spent=41)),
    fit('yellow of a phase at its length', 'ending', 'phase 4 red 0 clearance 100 ending next 2 count 0', **four(light='yellow', spent=35, walker='clearance', steps=100)),
    unfit('yellow of a phase above its length', 'ending', **four(light='yellow', spent=36, walker='clearance', steps=100)),
    fit('red of a phase served', 'ending', 'phase 2 green 0 walk 0 count 0', **four(light='red', spent=19, walker='clearance', steps=100)),
    fit('red of a phase at its length', 'ending', 'phase 2 green 0 walk 0 count 0', **four(light='red', spent=20, walker='clearance', steps=100)),
    unfit('red of a phase above its length', 'ending', **four(light='red', spent=21, walker='clearance', steps=100)),
    fit('phase over in the transfer', 'ending', 'clearance-green 0 count 2', **four(light='red', spent=20, walker='clearance', steps=100, count=2)),
    fit('end asked twice', 'ending', '23,0 phase 4 green 11 walk 21 ending next 2 count 0', **four(spent=10, steps=20, command=6)),
    # mode 2: green 30 and other 12, yellow 30, red 10, walk 20, clearance 60
    fit('green + other at its length', 'ending', 'phase 6 yellow 0 clearance 0 ending next 0 count 0', **six(spent=42, steps=20)),
    fit('green + other waits for walk', 'ending', 'phase 6 green 42 walk 11 ending next 0 count 0', **six(spent=42, steps=10)),
    unfit('green + other above its length', 'ending', **six(spent=43, steps=20)),
    fit('clearance runs on in red', 'ending', 'phase 6 red 0 clearance 31 ending next 0 count 0', **six(light='yellow', spent=30, walker='clearance', steps=30)),
    fit('red waits for clearance', 'ending', 'phase 6 red 10 clearance 59 ending next 0 count 0', **six(light='red', spent=10, walker='clearance', steps=58)),
    fit('both served', 'ending', 'track-green count 0', **six(light='red', spent=9, walker='clearance', steps=59)),
    fit('both at their lengths', 'ending', 'track-green count 0', **six(light='red', spent=10, walker='clearance', steps=60)),
    unfit('clearance one above', 'ending', **six(light='red', spent=10, walker='clearance', steps=61)),
    fit('next itself', 'ending', 'phase 4 green 0 walk 0 count 0', phase=4, next=4, light='red', spent=20, walker='clearance', steps=100),
    unfit('ending, next not listed', 'ending', phase=4, next=1),
    unfit('ending, not listed', 'ending', phase=5, next=2),
    # from the track clearance green to the end of dwell
    fit('clearance green served', 'clearance-green', 'clearance-yellow 0 count 2', spent=489, count=2),
    fit('clearance green at line 51', 'clearance-green', 'clearance-yellow 0 count 2', spent=490, count=2),
    unfit('clearance green above line 51', 'clearance-green', spent=491, count=2),
    fit('end in clearance green', 'clearance-green', '23,0 clearance-green 1 count 2', count=2, command=2),
    fit('clearance yellow at its length', 'clearance-yellow', 'clearance-red 0 count 2', spent=60, count=2),
    unfit('clearance yellow above its length', 'clearance-yellow', spent=61, count=2),
    fit('clearance red at its length, call off', 'clearance-red', 'track-green count 0', spent=55, count=2),
    fit('clearance red at its length, call on', 'clearance-red', 'dwell count 2', spent=55, count=2, call=1),
    unfit('clearance red above its length', 'clearance-red', spent=56, count=2),
    fit('dwell, call off', 'dwell', 'track-green count 0', count=2),
    fit('dwell, call on', 'dwell', 'dwell count 2', count=2, call=1),
    # in the all red of dwell a named phase, 2 or 6, is started; no other, and not 0
    fit('all red, a named phase', 'dwell', 'dwell phase 2 green 0 walk 0 count 2', count=2, call=1, command=2),
    fit('all red, a phase not named', 'dwell', '23,0 dwell count 2', count=2, call=1, command=4),
    fit('all red, next 0', 'dwell', '23,0 dwell count 2', count=2, call=1, command=0),
    fit('all red, a phase not named, call off', 'dwell', '23,0 track-green count 0', count=2, command=4),
    fit('all red, a named phase, call off', 'dwell', 'dwell phase 6 green 0 walk 0 ending next track count 2', count=2, command=6),
    fit('clearance red over, a named phase', 'clearance-red', 'dwell phase 6 green 0 walk 0 count 2', spent=54, count=2, call=1, command=6),
    fit('clearance red not over, a named phase', 'clearance-red', '23,0 clearance-red 54 count 2', spent=53, count=2, call=1, command=6),
    # a phase run in dwell, call on: n is another named phase, or 0 for all red
    fit('dwell phase', 'dwell-open', 'dwell phase 6 green 42 walk 20 count 2', phase=6, spent=41, steps=19, count=2, call=1),
    fit('dwell phase at green + other and walk', 'dwell-open', 'dwell phase 6 green 42 walk 20 count 2', phase=6, spent=42, steps=20, count=2, call=1),
    unfit('dwell phase above green + other', 'dwell-open', phase=6, spent=43, steps=20, count=2, call=1),
    unfit('dwell phase above its walk', 'dwell-open', phase=6, spent=42, steps=21, count=2, call=1),
    unfit('dwell phase not listed', 'dwell-open', phase=3, count=2, call=1),
    fit('dwell phase listed, not named', 'dwell-open', 'dwell phase 4 green 11 walk 21 count 2', phase=4, spent=10, steps=20, count=2, call=1),
    fit('dwell phase, end to another', 'dwell-open', 'dwell phase 6 green 11 walk 11 ending next 2 count 2', phase=6, spent=10, steps=10, count=2, call=1, command=2),
    fit('dwell phase, end to all red', 'dwell-open', 'dwell phase 6 green 11 walk 11 ending next 0 count 2', phase=6, spent=10, steps=10, count=2, call=1, command=0),
    fit('dwell phase, end to itself', 'dwell-open', '23,0 dwell phase 6 green 11 walk 11 count 2', phase=6, spent=10, steps=10, count=2, call=1, command=6),
    fit('dwell phase, end to one not named', 'dwell-open', '23,0 dwell phase 6 green 11 walk 11 count 2', phase=6, spent=10, steps=10, count=2, call=1, command=4),
    fit('dwell phase, asked twice', 'dwell-ending', '23,0 dwell phase 6 green 11 walk 11 ending next 2 count 2', phase=6, next=2, spent=10, steps=10, count=2, call=1, command=0),
    unfit('dwell phase, next not listed', 'dwell-ending', phase=6, next=3, count=2, call=1),
    fit('dwell phase over, next a phase', 'dwell-ending', 'dwell phase 2 green 0 walk 0 count 2', phase=6, next=2, light='red', spent=9, walker='clearance', steps=59, count=2, call=1),
    fit('dwell phase over, next all red', 'dwell-ending', 'dwell count 2', phase=6, light='red', spent=9, walker='clearance', steps=59, count=2, call=1),
    fit('dwell phase over, next all red, call off', 'dwell-ending', 'track-green count 0', phase=6, light='red', spent=9, walker='clearance', steps=59, count=2),
    fit('dwell phase over, and another started', 'dwell-ending', 'dwell phase 2 green 0 walk 0 count 2', phase=6, light='red', spent=9, walker='clearance', steps=59, count=2, call=1, command=2),
    fit('clearance runs on in dwell', 'dwell-ending', 'dwell phase 6 red 10 clearance 59 ending next 0 count 2', phase=6, light='red', spent=10, walker='clearance', steps=58, count=2, call=1),
    # the call off: asked to end, what was next is dropped, and then normal track green
    fit('dwell phase, call off', 'dwell-open', 'dwell phase 6 green 11 walk 11 ending next track count 2', phase=6, spent=10, steps=10, count=2),
    fit('dwell phase served, call off', 'dwell-open', 'dwell phase 6 yellow 0 clearance 0 ending next track count 2', phase=6, spent=42, steps=20, count=2),
    fit('dwell phase, end and call off', 'dwell-open', 'dwell phase 6 green 11 walk 11 ending next track count 2', phase=6, spent=10, steps=10, count=2, command=2),
    fit('dwell phase asked, call off', 'dwell-ending', 'dwell phase 6 green 11 walk 11 ending next track count 2', phase=6, next=2, spent=10, steps=10, count=2),
    fit('dwell phase over, next a phase, call off', 'dwell-ending', 'dwell phase 2 green 0 clearance 0 ending next track count 2', phase=6, next=2, light='red', spent=9, walker='clearance', steps=59, count=2),
    fit('leaving, call back on', 'dwell-ending', 'dwell phase 6 green 11 walk 11 ending next track count 2', phase=6, leaving=True, spent=10, steps=10, count=2, call=1),
    fit('leaving, a command', 'dwell-ending', '23,0 dwell phase 6 green 11 walk 11 ending next track count 2', phase=6, leaving=True, spent=10, steps=10, count=2, call=1, command=2),
    fit('leaving, over, call on', 'dwell-ending', 'track-green count 0', phase=6, leaving=True, light='red', spent=9, walker='clearance', steps=59, count=2, call=1),
    fit('leaving, over, a phase asked', 'dwell-ending', 'track-yellow 0 next 4 count 0', phase=6, leaving=True, light='red', spent=9, walker='clearance', steps=59, count=2, call=1, command=4),
    # the sheet held
    unfit('held sheet refused 2', 'track-green', held=(PLACE['l02'], 0)),
    unfit('held sheet refused 2, second grade 81', 'track-green', held=(PLACE['grade2'], 1000081)),
    fit('held sheet with second grade 80, line 51 as before', 'clearance-green', 'clearance-yellow 0 count 2', held=(PLACE['grade2'], 1000080), spent=489, count=2),
    unfit('held sheet refused 7', 'dwell', held=(PLACE['l47'], 61), count=2),
    unfit('held sheet refused 10', 'open', held=(PLACE['phases'], 1), phase=2),
    unfit('held sheet refused 12', 'dwell', held=(of_dwell(1), 7), count=2),
    fit('held sheet with an entry past the count', 'dwell', '23,0 dwell count 2', held=(of_dwell(2), 4), count=2, call=1, command=4),
]

# a sheet with one number changed, and its own refusal: 2 to 6 in the sheet's order, with the line in the text it would make; then 7 to 10 and 12
FAULTS = [
    ('grade 81', PLACE['grade'], 1000081, 2, 3), ('grade2 81', PLACE['grade2'], 1000081, 2, 4), ('grade2 -81', PLACE['grade2'], 999919, 2, 4),
    ('l02 of 0', PLACE['l02'], 0, 2, 6), ('no phase', PLACE['phases'], 0, 2, 7), ('nine phases', PLACE['phases'], 9, 2, 7),
    ('phase 9', of_phase(2, 'number'), 9, 2, 10), ('phase 2 twice', of_phase(1, 'number'), 2, 3, 9), ('walk in mode 0', of_phase(0, 'walk'), 1, 5, 8),
    ('mode 2, clearance 39', of_phase(2, 'clearance'), 39, 6, 10), ('track yellow 29', PLACE['yellow'], 29, 2, 11), ('l30 of 199', PLACE['l30'], 199, 2, 17),
    ('nine dwell phases', PLACE['named'], 9, 2, 12), ('dwell phase 0', of_dwell(0), 0, 2, 12), ('dwell phase 9', of_dwell(1), 9, 2, 12), ('three dwell phases, the last 0', PLACE['named'], 3, 2, 12),
    ('the same dwell phase twice', of_dwell(1), 2, 3, 12), ('dwell phases that fall', of_dwell(1), 1, 3, 12),
    ('one point', PLACE['points'], 1, 2, 26), ('seventeen points', PLACE['points'], 17, 2, 26), ('first point 0,1', of_point(0, 'tenths'), 1, 4, 27),
    ('distances that stay', of_point(2, 'feet'), 100, 4, 29), ('times that fall', of_point(2, 'tenths'), 139, 4, 29),
    ('l47 above l18', PLACE['l47'], 61, 7, 0), ('l31 of 9', PLACE['l31'], 9, 8, 0), ('line 48 beyond the last point', of_point(2, 'feet'), 155, 9, 0),
    ('track above line 16', PLACE['phases'], 1, 10, 0), ('dwell phase not listed', of_dwell(1), 7, 12, 0), ('the first dwell phase not listed', of_dwell(0), 1, 12, 0),
]
SEVEN = (PLACE['l47'], 61)
LOADS = [
    # 20 before all others, then the sheet's own, then 21, then 22
    Case('20 before 7', 'track-green', '20', UNFIT, count=3, offered=SEVEN),
    Case('20 before 7, its own sheet refused', 'track-green', '20', UNFIT, held=SEVEN, offered=SEVEN),
    Case('20 before 2', 'open', '20', UNFIT, phase=3, offered=(PLACE['l02'], 0)),
    Case('20 before 21 and 22', 'ending', '20', UNFIT, phase=4, next=9, issue=12),
    Case('7 before 21', 'dwell', '0,0 dwell count 2', (7, 0), count=2, call=1, offered=SEVEN),
    Case('2 before 21', 'track-yellow', '0,0 track-yellow 6 next 4 count 0', (2, 6), spent=5, next=4, offered=(PLACE['l02'], 0)),
    Case('7 before 22', 'track-green', '0,0 track-green count 0', (7, 0), issue=11, offered=SEVEN),
    Case('2 before 22', 'track-green', '0,0 track-green count 0', (2, 1), issue=0),
    Case('21 before 22', 'dwell', '0,0 dwell count 2', (21, 0), count=2, call=1, issue=12),
    Case('21 in track green, counting', 'track-green', '0,0 clearance-green 0 count 2', (21, 0), count=1, call=1),
    Case('the same issue', 'track-green', '0,0 track-green count 0', (22, 0), issue=12),
    Case('an issue below', 'track-green', '0,0 track-green count 0', (22, 0), issue=11),
    Case('256 more', 'track-green', '0,0 track-green count 0', (0, 0), issue=268),
    Case('255 on 256', 'track-green', '0,0 track-green count 0', (22, 0), held=(0, 256), issue=255),
    Case('256 on 255', 'track-green', '0,0 track-green count 0', (0, 0), held=(0, 255), issue=256),
    Case('the last issue', 'track-green', '0,0 track-green count 0', (0, 0), issue=65535),
    Case('on the last issue', 'track-green', '0,0 track-green count 0', (22, 0), held=(0, 65535), issue=65535),
    Case('another sheet', 'track-green', '0,0 track-green count 0', (0, 0), offered=(PLACE['l39'], 100)),
    Case('second grade 80', 'track-green', '0,0 track-green count 0', (0, 0), offered=(PLACE['grade2'], 1000080)),
    Case('second grade -80', 'track-green', '0,0 track-green count 0', (0, 0), offered=(PLACE['grade2'], 999920)),
    Case('no dwell phase', 'track-green', '0,0 track-green count 0', (0, 0), offered=(PLACE['named'], 0)),
    Case('an entry past the count of dwell phases', 'track-green', '0,0 track-green count 0', (0, 0), offered=(of_dwell(7), 99)),
    Case('21 in a phase run in dwell', 'dwell-open', '0,0 dwell phase 6 green 1 walk 1 count 2', (21, 0), phase=6, count=2, call=1),
    Case('12 before 21', 'dwell', '0,0 dwell count 2', (12, 0), count=2, call=1, offered=(of_dwell(1), 7)),
    Case('12 before 22', 'track-green', '0,0 track-green count 0', (12, 0), issue=11, offered=(of_dwell(1), 7)),
    Case('20 before 12', 'track-green', '20', UNFIT, count=3, offered=(of_dwell(1), 7)),
] + [Case('load, ' + name, 'track-green', '0,0 track-green count 0', (number, line), offered=(place, value)) for name, place, value, number, line in FAULTS]
# each of 2 to 10, and 12, where 21 and 22 would apply too
LOADS += [Case('load in dwell, ' + name, 'dwell', '0,0 track-green count 0', (number, line), offered=(place, value), issue=12, count=2)
          for name, place, value, number, line in FAULTS]
STARTS = [Case('start', 'start', load=(0, 0), issue=12), Case('start, issue 0', 'start', load=(2, 1), issue=0)]
STARTS += [Case('start, ' + name, 'start', load=(number, line), offered=(place, value)) for name, place, value, number, line in FAULTS]


def text(cases):
    """what the program reads: the numbers of the site's sheet, then a line for each case"""
    return ','.join(map(str, SITE_NUMBERS)) + '\n' + ''.join(c.row() for c in cases)


def main():
    cases = CASES + LOADS + STARTS
    folder = os.path.join(here, '..', 'crates', 'handed_over')
    with open(os.path.join(folder, 'stdin'), 'w') as f:
        f.write(text(cases))
    with open(os.path.join(folder, 'stdout'), 'w') as f:
        f.write(''.join(c.line() for c in cases))
    print(len(CASES), 'units,', len(LOADS), 'loads,', len(STARTS), 'starts')


if __name__ == '__main__':
    main()
