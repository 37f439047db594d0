"""The sequence unit and the bench, a second time: plain Python from the paper's sentences, sharing nothing with crates/.

    tests/sequence_reference.py < RUN      prints what the program `sequence` must print
"""
import sys
import reference

NORMAL = ('track-green', 'track-yellow', 'track-red', 'phase')
PHASES = ('phase', 'dwell-phase')      # a phase of normal operation, and one run in dwell


class Unit:
    def __init__(self, sheet):
        lines = reference.worksheet(sheet)
        self.sheet, self.l3, self.l51 = sheet, lines[2], lines[50]
        self.yellow, self.red = sheet['track']
        self.phases = {p[0]: dict(zip(('number', 'green', 'other', 'yellow', 'red', 'walk', 'clearance', 'mode'), p)) for p in sheet['phase']}
        self.restart()

    def restart(self):
        self.stage, self.count, self.spent, self.next, self.leaving = 'track-green', 0, 0, 0, False

    def begun(self):
        return self.count == self.l3

    def enter(self, stage):
        self.stage, self.spent = stage, 0

    def open(self, stage, n):
        self.stage, self.p, self.asked = stage, self.phases[n], False
        self.light, self.spent, self.walker, self.steps = 'green', 0, 'walk', 0

    def length(self):
        if self.stage in PHASES:
            return self.p['green'] + self.p['other'] if self.light == 'green' else self.p[self.light]
        return {'track-yellow': self.yellow, 'track-red': self.red, 'clearance-green': self.l51,
                'clearance-yellow': self.yellow, 'clearance-red': self.red}.get(self.stage, 0)

    def add(self):
        """a time stops at its interval's length"""
        self.spent = min(self.spent + 1, self.length())
        if self.stage in PHASES:
            self.steps = min(self.steps + 1, self.p[self.walker])

    def clearance_over(self):
        return self.walker == 'clearance' and self.steps >= self.p['clearance']

    def change(self, call):
        """one change that is due, or False"""
        served = self.spent >= self.length()
        if self.stage == 'track-green' and self.begun():
            self.enter('clearance-green')
        elif self.stage == 'track-yellow' and served:
            self.enter('track-red')
        elif self.stage == 'track-red' and served:
            self.over()
        elif self.stage == 'phase' and not self.asked and self.begun():
            self.asked, self.next = True, 0
        elif self.stage in PHASES and self.asked and self.walker == 'walk' and self.steps >= self.p['walk']:
            self.walker, self.steps = 'clearance', 0
        elif self.stage in PHASES and self.asked and self.light == 'green' and served and self.walker == 'clearance' \
                and (self.p['mode'] != 1 or self.clearance_over()):
            self.light, self.spent = 'yellow', 0
        elif self.stage in PHASES and self.light == 'yellow' and served:
            self.light, self.spent = 'red', 0
        elif self.stage in PHASES and self.light == 'red' and served and self.clearance_over():
            self.over()
        elif self.stage == 'clearance-green' and served:
            self.enter('clearance-yellow')
        elif self.stage == 'clearance-yellow' and served:
            self.enter('clearance-red')
        elif self.stage == 'clearance-red' and served:
            if call:
                self.enter('dwell')
            else:
                self.restart()
        else:
            return False
        return True

    def over(self):
        """the phase or the track red is over"""
        if self.stage == 'dwell-phase':
            if self.leaving:
                self.restart()
            elif self.next == 0:
                self.enter('dwell')
            else:
                self.open('dwell-phase', self.next)
        elif self.begun():
            self.enter('clearance-green')
        elif self.next == 0:
            self.enter('track-green')
        else:
            self.open('phase', self.next)

    def settle(self, call):
        while self.change(call):
            pass

    def may_follow(self, n):
        """in a phase: 0 or another listed phase; in one run in dwell: 0 or another named one"""
        return n == 0 or n != self.p['number'] and n in (self.phases if self.stage == 'phase' else self.sheet['dwell'])

    def call_off(self):
        """'When the call goes off, the running phase is ended by the ordinary rules before normal track green returns'"""
        if self.stage == 'dwell':
            self.restart()
        else:
            self.asked, self.next, self.leaving = True, 0, True

    def tick(self, end, call):
        """end: None, or the phase that is next; the reply's number"""
        normal = self.stage in NORMAL
        self.add()
        self.settle(call)
        number = 0
        if end is not None:
            if self.stage == 'track-green' and end in self.phases:
                self.enter('track-yellow')
                self.next = end
            elif self.stage in PHASES and not self.asked and self.may_follow(end):
                self.asked, self.next = True, end
            elif self.stage == 'dwell' and end in self.sheet['dwell']:
                self.open('dwell-phase', end)
            else:
                number = 23
        self.settle(call)
        # 'a call back on meanwhile counts from the tick after that': a tick that did not begin in normal operation counts none
        if normal and self.stage in NORMAL and not self.begun():
            self.count = self.count + 1 if call else 0
        elif self.stage in ('dwell', 'dwell-phase') and not call:
            self.call_off()
        self.settle(call)
        return number

    def load(self, sheet):
        if self.stage != 'track-green' or self.count != 0:
            return 21
        if sheet['issue'] <= self.sheet['issue']:
            return 22
        self.__init__(sheet)
        return 0

    def shown(self):
        if self.stage not in PHASES:
            return self.stage, 0, '-'
        walker = '-' if self.p['mode'] == 0 or self.clearance_over() else self.walker
        return ('phase-' if self.stage == 'phase' else 'dwell-') + self.light, self.p['number'], walker


def bench(text):
    """what the program `sequence` prints"""
    if len(text) > 65536:
        return 'refused=1,0\n'
    lines = reference.lines_of(text)
    cut = next((i for i, l in enumerate(lines) if l == (b'run', True)), None)
    first = b''.join(l + b'\n' * e for l, e in lines[:cut])
    try:
        unit = Unit(reference.read(first))
    except reference.Refused as r:
        return 'refused=%d,%d\n' % (r.number, r.line)
    out, ticks = [], 0

    def say(number, line):
        out.append('%d,%s,%d,%s,%d,%d\n' % ((ticks,) + unit.shown() + (number, line)))
    say(0, 0)
    at = len(lines) if cut is None else cut + 1
    while at < len(lines):
        raw, ended = lines[at]
        key, _, rest = raw.partition(b'=')
        values = [reference.number(p) for p in rest.split(b',')]
        good = ended and b'=' in raw and None not in values and values[0] in (0, 1)
        if raw == b'load' and ended:
            end = next((i for i in range(at + 1, len(lines)) if lines[i] == (b'done', True)), None)
            if end is None:
                return ''.join(out) + 'refused=1,%d\n' % (at + 1)
            try:
                sheet = reference.read(b''.join(l + b'\n' * e for l, e in lines[at + 1:end]))
                say(unit.load(sheet), 0)
            except reference.Refused as r:
                say(r.number, r.line)
            at = end + 1
            continue
        if good and key == b'tick' and len(values) == 1:
            count, end = 1, None
        elif good and key == b'tick' and len(values) == 2 and values[1] <= 255:
            count, end = 1, values[1]
        elif good and key == b'ticks' and len(values) == 2 and values[1] >= 1:
            count, end = values[1], None
        else:
            return ''.join(out) + 'refused=1,%d\n' % (at + 1)
        for _ in range(count):
            before = unit.shown()
            number = unit.tick(end, values[0] == 1)
            ticks += 1
            if number or unit.shown() != before:
                say(number, 0)
        at += 1
    return ''.join(out)


if __name__ == '__main__':
    sys.stdout.write(bench(sys.stdin.buffer.read()))
