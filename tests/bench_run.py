"""Writes the bench's run (crates/sequence/stdin) and what it must print (crates/sequence/stdout), from sequence_reference.py.

What the paper prints of its two examples, and the places where a slip would show, are asserted here by hand.
"""
import os
import reference
import sequence_reference

here = os.path.dirname(os.path.abspath(__file__))
paper, levels_out = (open(os.path.join(here, '..', 'sheets', name + '.sheet')).read() for name in ('paper', 'levels_out'))


def sheet(issue, text=paper):
    return 'issue=%d\n' % issue + text.split('\n', 1)[1]


def load(text):
    return 'load\n' + text + 'done\n'


# one phase of mode 2 whose walk is longer than its green, and no red anywhere; line 16 is 60 + 35
short = sheet(300).replace('phases=2\n', 'phases=2\nphase=1,20,0,30,0,60,35,2\n').replace('phase=4,40,0,35,20,70,100,1\n', '').replace('track=40,20', 'track=30,0')

# phase 2 has no pedestrians, phase 4 has: both are named
named = sheet(301).replace('dwell=0', 'dwell=2,4')

# no advance preemption: the acceleration times decide how long the clearance green is. Up to the rails and level past them, or the other way round
up_to = sheet(302, levels_out)
beyond = sheet(303).replace('grade2=0', 'grade2=80').replace('l33=270', 'l33=0').replace('l39=150', 'l39=0')

RUN = [
    # the call met in track green: green at tick 2, over at tick 492
    'ticks=1,600',
    'tick=1,4',       # an end in dwell, where the sheet names no phase: 23
    'tick=0,4',       # and on its last tick
    # a call that drops one tick short of line 3
    'tick=1', 'tick=0', 'tick=1', 'ticks=0,5',
    # in track green: next 0, and a phase that is not listed
    'tick=0,0', 'tick=0,3', 'tick=0,255',
    'tick=0,4',
    'tick=0,2',       # in track yellow
    'ticks=0,45',
    'tick=0,2',       # in track red
    'ticks=0,14',
    'tick=0,4',       # phase 4 after itself
    load(sheet(13)).rstrip('\n'),   # in a phase: 21
    'tick=0,2', 'tick=0,0',         # the end asked, and asked again
    'ticks=0,260',
    'tick=0,0', 'ticks=0,200',
    # transfer finds phase 4 just begun: the call's second tick is the one on which track red is over
    'tick=0,4', 'ticks=0,58', 'ticks=1,800', 'tick=0',
    # a phase asked on the tick of transfer does not start
    'tick=0,2', 'ticks=0,100', 'tick=1', 'tick=1,4', 'ticks=1,700', 'tick=0',
    # the call off at the end of track red: no dwell
    'ticks=1,2', 'ticks=0,600',
    # loads
    load(sheet(12)).rstrip('\n'),                                    # the same issue: 22
    load(sheet(13).replace('grade=0', 'grade=99')).rstrip('\n'),      # refused by its own line
    load(sheet(13).replace('l31=10', 'l31=9')).rstrip('\n'),
    'tick=1', load(sheet(14)).rstrip('\n'), 'tick=0',                 # while a call is counted: 21
    load(sheet(255)).rstrip('\n'), load(sheet(256)).rstrip('\n'), load(sheet(1)).rstrip('\n'),
    load(short).rstrip('\n'),
    # mode 2: yellow waits for the walk, and red, of no length, for the clearance
    'tick=0,1', 'ticks=0,40', 'tick=0,2', 'ticks=0,200', 'tick=0,0', 'ticks=0,100',
    'tick=0,1', 'ticks=0,29', 'ticks=1,700', 'ticks=0,2',
    # side streets: dwell in all red, a phase on its first tick; the phase after itself, one not named, and the end asked twice
    load(named.replace('dwell=2,4', 'dwell=2,5')).rstrip('\n'), load(named.replace('dwell=2,4', 'dwell=4,2')).rstrip('\n'), load(named).rstrip('\n'),
    'ticks=1,551', 'tick=1,4', 'tick=1,4', 'tick=1,3', 'ticks=1,100', 'tick=1,2', 'tick=1,0', 'ticks=1,300',
    # back to all red, where 0 is refused, and again a phase; in it the call goes off: what was next does not start, and a command is refused
    'tick=1,0', 'ticks=1,60', 'tick=1,0', 'tick=1,4', 'ticks=1,10', 'tick=1,2', 'tick=0', 'tick=0,2',
    # the call back on meanwhile counts from the tick after normal track green has returned: line 3 is 2, so green two ticks later
    'ticks=1,300', 'ticks=1,700',
    # the call off in all red, on the tick on which a phase is started there
    'tick=0,2', 'ticks=0,200',
    # two grades: line 51 is by line 25, and then by line 50; a sheet without the second grade, and one with it out of range
    load(up_to).rstrip('\n'), 'ticks=1,400', 'tick=0', load(beyond).rstrip('\n'), 'ticks=1,500', 'tick=0',
    load(sheet(304).replace('grade2=0\n', '')).rstrip('\n'), load(sheet(304).replace('grade2=0', 'grade2=81')).rstrip('\n'),
    load(sheet(65535)).rstrip('\n'), load(sheet(65535)).rstrip('\n'), load(sheet(1)).rstrip('\n'),
    'tick=2',
]


def main():
    text = (paper + 'run\n' + '\n'.join(RUN) + '\n').encode()
    out = sequence_reference.bench(text)
    lines = out.split('\n')
    # "shows green at tick 2 and ends it at tick 492"
    assert lines[:5] == ['0,track-green,0,-,0,0', '2,clearance-green,0,-,0,0', '492,clearance-yellow,0,-,0,0',
                         '532,clearance-red,0,-,0,0', '552,dwell,0,-,0,0'], lines[:5]
    assert lines[5] == '601,dwell,0,-,23,0' and lines[6] == '602,track-green,0,-,23,0'
    at = [tuple(l.split(',')) for l in lines if l]
    # "met so that transfer finds phase 4 just begun, green shows at tick 227": the call's first tick is one before phase 4 begins
    starts = [i for i, l in enumerate(at) if l[1:3] == ('phase-green', '4') and at[i - 1][1] == 'track-red']
    begun = int(at[starts[1]][0])
    green = next(int(l[0]) for l in at[starts[1]:] if l[1] == 'clearance-green')
    assert green - (begun - 1) + 1 == 227, (begun, green)
    # the two walks of phase 4 that were asked to end last walk, clearance, yellow and red: 225 ticks from the asking
    assert ('22', '0') in [l[4:] for l in at] and ('21', '0') in [l[4:] for l in at] and ('2', '3') in [l[4:] for l in at] and ('8', '0') in [l[4:] for l in at]
    # no phase 4 starts after the transfer in which it was asked
    asked = next(i for i, l in enumerate(at) if i > starts[1] and l[1] == 'phase-green' and l[2] == '2')
    assert all(l[1:3] != ('phase-green', '4') for l in at[asked:-1]), at[asked:]
    # mode 2: green until the walk is over, though 20 ticks were served long before
    one = [l for l in at[:-1] if l[2] == '1']
    assert [l[1:4:2] for l in one[:5]] == [('phase-green', 'walk'), ('phase-yellow', 'clearance'), ('phase-red', 'clearance'), ('phase-green', 'walk'), ('phase-yellow', 'clearance')], one
    # side streets: the phase is started on the tick on which clearance red ends, with no all red shown before it
    side = next(i for i, l in enumerate(at) if l[1] == 'dwell-green')
    assert at[side - 1][1] == 'clearance-red' and [l[2:5:2] for l in at[side:side + 3]] == [('4', '0'), ('4', '23'), ('4', '23')], at[side:side + 3]
    # "in a phase n is another named phase, or 0 for all red"
    assert [l[1:3] for l in at[side + 4:side + 12] if l[4] == '0'] == [
        ('dwell-yellow', '4'), ('dwell-red', '4'), ('dwell-green', '2'), ('dwell-yellow', '2'), ('dwell-red', '2'), ('dwell', '0')], at[side:side + 12]
    # the call off: phase 2, which was next, does not start; 70 + 100 + 35 + 20 ticks from the asking normal track green returns, and the call
    # that is back on is counted from the tick after that
    off = next(i for i, l in enumerate(at) if i > side and l[1] == 'track-green')
    assert at[off - 1][1:3] == ('dwell-red', '4') and at[off + 1][1] == 'clearance-green' and int(at[off + 1][0]) - int(at[off][0]) == 2, at[off - 1:off + 2]
    # a phase started on the tick on which the call is off is ended by the ordinary rules: 50 + 40 + 15 ticks
    last = next(i for i, l in enumerate(at) if i > off and l[1] == 'dwell-green')
    assert at[last - 1][1] == 'dwell' and at[last + 3][1] == 'track-green' and int(at[last + 3][0]) - int(at[last][0]) == 105, at[last:last + 4]
    # line 25 is 71 + 221, up to 300; line 50 is 71 + 294, up to 370
    greens = [int(at[i + 1][0]) - int(l[0]) for i, l in enumerate(at[:-1]) if l[1] == 'clearance-green']
    assert greens[-2:] == [300, 370], greens
    assert ('1', '4') in [l[4:] for l in at] and ('2', '4') in [l[4:] for l in at]
    assert lines[-2] == 'refused=1,%d' % text.count(b'\n'), lines[-2]
    folder = os.path.join(here, '..', 'crates', 'sequence')
    with open(os.path.join(folder, 'stdin'), 'wb') as f:
        f.write(text)
    with open(os.path.join(folder, 'stdout'), 'w') as f:
        f.write(out)
    print(len(lines) - 1, 'lines')


main()
