#!/usr/bin/env python3
"""A second model of the rules of the one-bit lock, the cell lock, the queue layer and the analyser in service.

It shares no text with the code or its definitions, but has the same authors. `tools/model.py drill` writes what the program `drill` has to write,
crates/drill/stdout, and likewise `tools/model.py turns` and `tools/model.py session`.
"""
import re
import sys
from pathlib import Path


class Lock:
    """Stations and refusals, alike for every lock."""

    def __init__(self, n):
        self.n = n
        self.station = {b: 'out' for b in range(1, n + 1)}

    def call(self, kind, b, bit=0):
        """Makes a call; returns the number of its refusal, or 0."""
        if b not in self.station:
            return 1
        at = self.station[b]
        if kind == 'start':
            if at != 'out':
                return 2
            self.station[b] = 'trying'
            self.started(b)
        elif kind == 'leave':
            if at != 'inside':
                return 5
            self.station[b] = 'leaving'
            self.left(b)
        elif kind == 'pull':
            if at not in ('trying', 'inside'):
                return 4
            self.station[b] = 'leaving'
            self.pulled(b)
        elif at in ('trying', 'leaving'):
            self.step(b, bit)
        return 0


class OneBit(Lock):
    """Each board's work is a generator that yields wherever a step ends; a step sends it the bit."""

    def __init__(self, n):
        super().__init__(n)
        self.flag = {b: 'low' for b in self.station}
        self.doing = {}

    def step(self, b, bit):
        self.bit = bit
        next(self.doing[b], None)

    def read(self, j):
        return {'low': 0, 'high': 1}.get(self.flag[j], self.bit)

    def change(self, b, to):
        self.flag[b] = 'rising' if to else 'falling'
        yield
        self.flag[b] = 'high' if to else 'low'

    def try_in(self, i):
        while True:
            yield from self.change(i, 1)
            for j in range(1, i):
                yield
                if self.read(j):
                    yield
                    yield from self.change(i, 0)
                    yield
                    while self.read(j):
                        yield
                    yield
                    break
            else:
                break
        for j in range(i + 1, self.n + 1):
            yield
            while self.read(j):
                yield
        self.station[i] = 'inside'

    def go_out(self, i):
        yield from self.change(i, 0)
        self.station[i] = 'out'

    def end_pull(self, i):
        self.flag[i] = 'low'
        self.station[i] = 'out'
        yield

    def started(self, b):
        self.doing[b] = self.try_in(b)

    def left(self, b):
        self.doing[b] = self.go_out(b)

    def pulled(self, b):
        if self.flag[b] != 'low':
            self.flag[b] = 'falling'
        self.doing[b] = self.end_pull(b)


class Cell(Lock):
    def __init__(self, n):
        super().__init__(n)
        self.cell = None

    def step(self, b, bit):
        if self.station[b] == 'trying':
            if self.cell is None:
                self.cell = b
                self.station[b] = 'inside'
        else:
            if self.cell == b:
                self.cell = None
            self.station[b] = 'out'

    def started(self, b):
        pass

    left = pulled = started


class Latch(Lock):
    """The latch lock of a buyer: to set the latch and to go inside are two steps."""

    def __init__(self, n):
        super().__init__(n)
        self.latch = None

    def step(self, b, bit):
        if self.station[b] == 'leaving':
            if self.latch == b:
                self.latch = None
            self.station[b] = 'out'
        elif self.latch == b:
            self.station[b] = 'inside'
        elif self.latch is None:
            self.latch = b

    def started(self, b):
        pass

    left = pulled = started


class Queue(Lock):
    """The queue layer over a lock of another class."""

    def __init__(self, n, low):
        super().__init__(n)
        self.low = low(n)
        self.y = {b: 'low' for b in self.station}
        self.z = {b: {j: 'low' for j in self.station if j != b} for b in self.station}
        self.passed = {b: False for b in self.station}
        self.doing = {}

    def step(self, b, bit):
        self.bit = bit
        next(self.doing[b], None)

    def read(self, line):
        return {'low': 0, 'high': 1}.get(line, self.bit)

    def favoured(self, b, j):
        """Reads j's z line for b, and tells which of the two the pair favours."""
        one_level = self.read(self.z[j][b]) == (self.z[b][j] == 'high')
        return (min(b, j) if one_level else max(b, j)) == b

    def try_in(self, b):
        others = sorted(self.z[b])
        for j in others:
            turn = self.favoured(b, j)
            yield
            if turn:
                up = self.z[b][j] == 'low'
                self.z[b][j] = 'rising' if up else 'falling'
                yield
                self.z[b][j] = 'high' if up else 'low'
                yield
        noted = []
        for j in others:
            if self.read(self.y[j]):
                noted.append(j)
            yield
        self.y[b] = 'rising'
        yield
        self.y[b] = 'high'
        self.passed[b] = True
        yield
        while noted:
            up = self.read(self.y[noted[0]])
            yield
            if not up:
                noted.pop(0)
                continue
            if self.favoured(b, noted[0]):
                noted.pop(0)
            yield
        self.low.call('start', b)
        yield
        while True:
            self.low.call('step', b, self.bit)
            self.station[b] = self.low.station[b]
            yield

    def down(self, b):
        while self.low.station[b] != 'out':
            self.low.call('step', b, self.bit)
            yield

    def go_out(self, b):
        yield from self.down(b)
        self.y[b] = 'falling'
        yield
        self.y[b] = 'low'
        self.station[b] = 'out'
        yield

    def end_pull(self, b):
        yield from self.down(b)
        self.y[b] = 'low'
        for j in self.z[b]:
            self.z[b][j] = {'rising': 'high', 'falling': 'low'}.get(self.z[b][j], self.z[b][j])
        self.station[b] = 'out'
        yield

    def started(self, b):
        self.passed[b] = False
        self.doing[b] = self.try_in(b)

    def left(self, b):
        self.low.call('leave', b)
        self.doing[b] = self.go_out(b)

    def pulled(self, b):
        self.low.call('pull', b)
        if self.y[b] != 'low':
            self.y[b] = 'falling'
        self.doing[b] = self.end_pull(b)

    def standing(self, b):
        at = self.station.get(b, '-')
        return at if at != 'trying' else 'waiting' if self.passed[b] else 'doorway'


class Analyser:
    """Boards in service at one interpolator, over the queue layer on a lock. A call returns sign, number and value."""

    def __init__(self, n, low, full):
        self.lock, self.full = Queue(n, low), full
        self.station = {b: 'out' for b in range(1, n + 1)}
        self.asked = {}
        self.ahead = {b: set() for b in self.station}
        self.inside = {}
        self.put = {'start': 0, 'stop': 0}
        self.shown, self.repaints = None, 0

    def stay(self, b):
        """What a board does inside, a step each; the last shows its number."""
        start, stop = self.asked[b]
        self.put['start'] = start
        yield
        self.put['stop'] = stop
        yield
        first = self.put['start']
        yield
        second = self.put['stop']
        yield
        yield second - first

    def strike(self, b):
        for behind in self.ahead.values():
            behind.discard(b)

    def ask(self, b, start, stop):
        if b not in self.station:
            return '-', 1, 0
        if self.station[b] != 'out':
            return '-', 2, 0
        if max(start, stop) > self.full:
            return '-', 3, 0
        assert self.lock.call('start', b) == 0
        self.asked[b] = start, stop
        self.ahead[b] = {j for j in self.station if self.station[j] == 'waiting'}
        self.station[b] = 'doorway'
        return '+', 0, self.told(b)

    def pull(self, b):
        if b not in self.station:
            return '-', 1, 0
        if self.station[b] in ('out', 'leaving'):
            return '-', 4, 0
        assert self.lock.call('pull', b) == 0
        self.strike(b)
        self.station[b] = 'leaving'
        return '+', 0, 0

    def step(self, b, bit):
        if b not in self.station:
            return '-', 1, 0
        was = self.station[b]
        if was == 'inside':
            number = next(self.inside[b])
            if number is None:
                return '+', 1, 0
            assert self.lock.call('leave', b) == 0
            self.station[b] = 'leaving'
            if self.shown is None or self.shown[1] != number:
                self.repaints += 1
            self.shown = b, number
            return '+', 4, number
        if was == 'out':
            return '+', 0, 0
        self.lock.call('step', b, bit)
        now = self.lock.standing(b)
        if now == was:
            return '+', 1, 0
        self.station[b] = now
        if now == 'inside':
            assert not self.ahead[b]
            self.strike(b)
            self.inside[b] = self.stay(b)
        return '+', {'waiting': 2, 'inside': 3, 'out': 5}[now], 0

    def told(self, b):
        """The set ahead of a board, as a number."""
        return sum(2 ** (j - 1) for j in self.ahead[b]) if self.station[b] in ('doorway', 'waiting') else 0


def drill():
    signs = {'low': '_', 'rising': '/', 'high': '^', 'falling': '\\'}
    letters = {'out': 'o', 'trying': 't', 'inside': 'I', 'leaving': 'l'}
    for n in range(1, 9):
        kinds = (('one-bit', OneBit(n)), ('cell', Cell(n)), ('queue on one-bit', Queue(n, OneBit)), ('queue on cell', Queue(n, Cell)))
        for kind, lock in kinds:
            seed = n

            def roll():
                nonlocal seed
                seed = (seed * 1664525 + 1013904223) % 2**32
                return seed >> 16

            for _ in range(12):
                refused = 0
                for _ in range(25):
                    k, b, bit = roll() % 16, roll() % (n + 2), roll() % 2
                    name = {0: 'start', 1: 'start', 2: 'leave', 3: 'pull'}.get(k, 'step')
                    refused += lock.call(name, b, bit) != 0
                inside = [b for b in lock.station if lock.station[b] == 'inside']
                assert len(inside) <= 1
                stood = ''.join(letters[lock.station[b]] for b in sorted(lock.station))
                if kind.startswith('queue'):
                    stood = ''.join({'d': 't'}.get(lock.standing(b)[0], letters.get(lock.standing(b), 'w')) for b in sorted(lock.station))
                shown = ' ' + ''.join(signs[lock.flag[b]] for b in sorted(lock.flag)) if kind == 'one-bit' else ''
                print(f'{kind} {n} {refused:>2} {stood}{shown}')


def turns():
    source = (Path(__file__).parent.parent / 'crates/turns/src/main.rt').read_text()
    calls = re.findall(r'^ +Call::(\w+)\((\d)(?:, (\w+))?\),$', source, re.M)
    queued = re.findall(r'^ +\(Call::(\w+)\((\d)(?:, (\w+))?\), (\d+)\),$', source, re.M)
    lock = OneBit(3)
    print(' no  call   board  bit  refused  flag 1   flag 2   flag 3   station')
    for no, (name, board, bit) in enumerate(calls, 1):
        b, name = int(board), name.lower()
        refused = lock.call(name, b, int(bit == 'true'))
        shown = {'true': '1', 'false': '0', '': '-'}[bit]
        flags = '  '.join(f'{lock.flag[j]:<7}' for j in (1, 2, 3))
        print(f"{no:>3}  {name:<5}  {b:>5}  {shown:>3}  {refused:>7}  {flags}  {lock.station.get(b, '-')}")
    lock = Queue(3, OneBit)
    print()
    print('call   board  times  refused  board 1  board 2  board 3')
    for name, board, bit, times in queued:
        b, name = int(board), name.lower()
        refused = [lock.call(name, b, int(bit == 'true')) for _ in range(int(times))][-1]
        print(f"{name:<5}  {b:>5}  {times:>5}  {refused:>7}  " + '  '.join(f'{lock.standing(j):<7}' for j in (1, 2, 3)))


def session():
    source = (Path(__file__).parent.parent / 'crates/session/src/main.rt').read_text()
    number = r'([\d_]+)'
    event = rf'Event::(\w+) \{{\s*board: {number},?\s*(?:start: {number},\s*stop: {number},\s*|bit: (\w+),\s*)?\}},\s*{number},?\s*\)'
    for title, name, low, full in (
        ('One-bit lock and register', 'BENCH', OneBit, 2**32 - 1),
        ('\nA buyer\'s latch lock and interpolator', 'BUYER', Latch, 10**8 - 1),
    ):
        print(title)
        print(' no  call answer     value  board 1 board 2 board 3  ahead  panel: board, number, repaints')
        analyser = Analyser(3, low, full)
        no = 0
        for kind, board, start, stop, bit, times in re.findall(event, source.split(f'const {name}:')[1].split('];')[0]):
            for _ in range(int(times)):
                no += 1
                b = int(board)
                if kind == 'Ask':
                    sign, told, value = analyser.ask(b, int(start), int(stop))
                elif kind == 'Step':
                    sign, told, value = analyser.step(b, int(bit == 'true'))
                else:
                    sign, told, value = analyser.pull(b)
                stations = ' '.join(f'{analyser.station[j]:<7}' for j in (1, 2, 3))
                sets = ' '.join(str(analyser.told(j)) for j in (1, 2, 3))
                by, shown = analyser.shown or (0, 0)
                print(f'{no:>3}  {kind[0]} {b}  {sign}{told}  {value:>11}  {stations}  {sets}  {by} {shown:>11} {analyser.repaints}')


{'drill': drill, 'turns': turns, 'session': session}[sys.argv[1]]()
