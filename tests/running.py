"""What the scripts compare* share: their words COUNT, SEED and PROGRAM, and the running of a program on many inputs.

PROGRAM is what to run in place of the built one: an older build, or, where the processor is not x86-64, an emulator and the program.
"""
import os
import random
import subprocess
import sys
from concurrent.futures import ThreadPoolExecutor

here = os.path.dirname(os.path.abspath(__file__))


def words(name, count):
    """how many inputs, the random numbers they are made from, and the program"""
    given = sys.argv[1:]
    return (int(given[0]) if given else count, random.Random(int(given[1]) if len(given) > 1 else 628),
            given[2:] or [os.path.join(here, '..', 'crates', name, 'out', name)])


def outputs(program, texts):
    """each text with what the program prints for it; as many run at a time as there are processors"""
    def run(text):
        return subprocess.run(program, input=text, capture_output=True).stdout.decode()
    with ThreadPoolExecutor(os.cpu_count()) as pool:
        for i in range(0, len(texts), 100):
            yield from zip(texts[i:i + 100], pool.map(run, texts[i:i + 100]))


def agree(program, texts, expected):
    """the program prints what is expected of each text; how often each reply came is printed, so that a reader sees that the texts reached it"""
    seen = {}
    for t, got in outputs(program, texts):
        want = expected(t)
        if want != got:
            sys.exit('differs on %r\nwanted %s\ngot %s' % (t, want, got))
        first = want.split('\n')[0]
        key = first.split(',')[0] if first.startswith('refused') else 'accepted'
        seen[key] = seen.get(key, 0) + 1
    print(len(texts), 'texts agree:', ', '.join('%s %d' % k for k in sorted(seen.items())))


def sheets(*inside):
    """the sample sheets, each with its name"""
    folder = os.path.join(here, '..', 'sheets', *inside)
    return [(n, open(os.path.join(folder, n), 'rb').read()) for n in sorted(os.listdir(folder)) if n.endswith('.sheet')]
