"""Models of truth values, as circuits with shared gates: adders, products, locks, sorted words, ring buffers, sorting networks, pigeons and random clauses."""
import random


class Circuit:
    """Gates over inputs. A signal is True, False, or a variable with whether it is negated."""

    def __init__(self, inputs):
        self.inputs, self.gates, self.numbers = inputs, [], {}

    def input(self, first, count):
        return [(first + i, False) for i in range(count)]

    def gate(self, g):
        if g not in self.numbers:
            self.numbers[g] = len(self.gates)
            self.gates.append(g)
        return self.inputs + self.numbers[g], False

    def turn(self, a):
        return (not a) if isinstance(a, bool) else (a[0], not a[1])

    def both(self, a, b):
        if isinstance(a, bool):
            return b if a else False
        if isinstance(b, bool):
            return a if b else False
        if a[0] == b[0]:
            return a if a == b else False
        return self.gate(('A', *sorted((a, b))))

    def either(self, a, b):
        return self.turn(self.both(self.turn(a), self.turn(b)))

    def differ(self, a, b):
        if isinstance(a, bool):
            return self.turn(b) if a else b
        if isinstance(b, bool):
            return self.turn(a) if b else a
        if a[0] == b[0]:
            return a[1] != b[1]
        left, right = sorted((a[0], b[0]))
        signal = self.gate(('X', (left, False), (right, False)))
        return self.turn(signal) if a[1] != b[1] else signal

    def choose(self, c, t, e):
        if isinstance(c, bool):
            return t if c else e
        if isinstance(t, bool):
            return self.either(c, e) if t else self.both(self.turn(c), e)
        if isinstance(e, bool):
            return self.either(self.turn(c), t) if e else self.both(c, t)
        if t[0] == e[0]:
            return t if t == e else self.differ(c, e)
        return self.gate(('M', self.turn(c), e, t) if c[1] else ('M', c, t, e))

    def all(self, signals):
        whole = True
        for signal in signals:
            whole = self.both(whole, signal)
        return whole

    def any(self, signals):
        return self.turn(self.all([self.turn(signal) for signal in signals]))

    def constant(self, bits, number):
        return [bool(number >> i & 1) for i in range(bits)]

    def sum(self, a, b, carry=False):
        total = []
        for x, y in zip(a, b):
            d = self.differ(x, y)
            total.append(self.differ(d, carry))
            carry = self.choose(d, carry, x)
        return total

    def difference(self, a, b):
        return self.sum(a, [self.turn(x) for x in b], True)

    def product(self, a, b):
        total = [False] * len(a)
        for i in range(len(b)):
            row = [self.both(x, b[i]) for x in a[:len(a) - i]]
            total = total[:i] + self.sum(total[i:], row)
        return total

    def same(self, a, b):
        return self.all([self.turn(self.differ(x, y)) for x, y in zip(a, b)])

    def less(self, a, b):
        is_less = False
        for x, y in zip(a, b):
            is_less = self.choose(self.differ(x, y), y, is_less)
        return is_less

    def word(self, c, t, e):
        return [self.choose(c, x, y) for x, y in zip(t, e)]

    def text(self, goal):
        """The circuit as lines: an input, a gate with its literals, and at the end the goal."""
        def number(signal):
            return str(-(signal[0] + 1) if signal[1] else signal[0] + 1)
        lines = ['I'] * self.inputs + [' '.join([g[0], *map(number, g[1:])]) for g in self.gates]
        return '\n'.join([*lines, 'G ' + number(goal)]) + '\n'


def commutes(bits):
    c = Circuit(2 * bits)
    x, y = c.input(0, bits), c.input(bits, bits)
    return c.text(c.turn(c.same(c.product(x, y), c.product(y, x))))


def distributes(bits):
    c = Circuit(3 * bits)
    x, y, z = (c.input(i * bits, bits) for i in range(3))
    return c.text(c.turn(c.same(c.product(x, c.sum(y, z)), c.sum(c.product(x, y), c.product(x, z)))))


def adders(bits):
    """A ripple adder with its majority written out, against the sum."""
    c = Circuit(2 * bits)
    x, y = c.input(0, bits), c.input(bits, bits)
    carry, total = False, []
    for a, b in zip(x, y):
        total.append(c.differ(c.differ(a, b), carry))
        carry = c.either(c.both(a, b), c.either(c.both(a, carry), c.both(b, carry)))
    return c.text(c.turn(c.same(total, c.sum(x, y))))


def halves(bits):
    """The sum, against that of the differing bits and the shifted common ones."""
    c = Circuit(2 * bits)
    x, y = c.input(0, bits), c.input(bits, bits)
    common = [c.both(a, b) for a, b in zip(x, y)]
    unlike = [c.differ(a, b) for a, b in zip(x, y)]
    return c.text(c.turn(c.same(c.sum(x, y), c.sum(unlike, [False] + common[:-1]))))


def associates(bits):
    c = Circuit(3 * bits)
    x, y, z = (c.input(i * bits, bits) for i in range(3))
    return c.text(c.turn(c.same(c.sum(c.sum(x, y), z), c.sum(x, c.sum(y, z)))))


def lock(steps):
    """Peterson's lock for two, an input each step for who moves: both are inside after the last one."""
    c = Circuit(steps)
    places, flags, turn = [[False, False], [False, False]], [False, False], False
    for step in range(steps):
        second = (step, False)
        at = [[c.same(places[i], c.constant(2, n)) for n in range(4)] for i in (0, 1)]

        def moved(i, may_enter):
            enters = c.both(at[i][2], may_enter)
            place = c.word(at[i][0], c.constant(2, 1), c.word(at[i][1], c.constant(2, 2), c.word(enters, c.constant(2, 3), c.word(
                at[i][3], c.constant(2, 0), places[i]))))
            flag = c.choose(at[i][0], True, c.choose(at[i][1], flags[i], c.choose(enters, flags[i], c.choose(at[i][3], False, flags[i]))))
            return place, flag

        place0, flag0 = moved(0, c.either(c.turn(flags[1]), c.turn(turn)))
        place1, flag1 = moved(1, c.either(c.turn(flags[0]), turn))
        turn = c.choose(second, c.choose(at[1][1], False, turn), c.choose(at[0][1], True, turn))
        places = [c.word(second, places[0], place0), c.word(second, place1, places[1])]
        flags = [c.choose(second, flags[0], flag0), c.choose(second, flag1, flags[1])]
    return c.text(c.both(c.same(places[0], c.constant(2, 3)), c.same(places[1], c.constant(2, 3))))


def sorted_words(bits):
    """Six words through a sorting network are not in order."""
    c = Circuit(6 * bits)
    words = [c.input(i * bits, bits) for i in range(6)]
    for a, b in ((0, 5), (1, 3), (2, 4), (1, 2), (3, 4), (0, 3), (2, 5), (0, 1), (2, 3), (4, 5), (1, 2), (3, 4)):
        stays = c.turn(c.less(words[b], words[a]))
        words[a], words[b] = c.word(stays, words[a], words[b]), c.word(stays, words[b], words[a])
    return c.text(c.any([c.less(words[i + 1], words[i]) for i in range(5)]))


def merged(a, c):
    """The bits, sorted by merging the even and the odd ones."""
    def merge(first, count, stride):
        if 2 * stride < count:
            merge(first, count, 2 * stride)
            merge(first + stride, count, 2 * stride)
            for i in range(first + stride, first + count - stride, 2 * stride):
                exchange(i, i + stride)
        else:
            exchange(first, first + stride)

    def exchange(i, j):
        a[i], a[j] = c.both(a[i], a[j]), c.either(a[i], a[j])

    def sort(first, count):
        if count > 1:
            sort(first, count // 2)
            sort(first + count // 2, count // 2)
            merge(first, count, 1)

    sort(0, len(a))
    return a


def network(bits):
    c = Circuit(bits)
    a = merged(c.input(0, bits), c)
    return c.text(c.any([c.both(a[i], c.turn(a[i + 1])) for i in range(bits - 1)]))


def networks(bits):
    """The network by merging, against one that exchanges neighbours."""
    c = Circuit(bits)
    a, b = merged(c.input(0, bits), c), c.input(0, bits)
    for turn in range(bits):
        for i in range(bits - 1 - turn):
            b[i], b[i + 1] = c.both(b[i], b[i + 1]), c.either(b[i], b[i + 1])
    return c.text(c.turn(c.same(a, b)))


def ring_buffer(steps, bits):
    """Four places, and the sum of what is in them: it is not 0 where the buffer is empty."""
    wide = 2 + bits
    c = Circuit(wide * steps)
    queue, count, total = [[False] * bits] * 4, [False] * 3, [False] * bits
    for step in range(steps):
        command, word = c.input(wide * step, 2), c.input(wide * step + 2, bits)
        puts = c.both(c.same(command, c.constant(2, 1)), c.less(count, c.constant(3, 4)))
        takes = c.both(c.same(command, c.constant(2, 2)), c.less(c.constant(3, 0), count))
        held = [c.same(count, c.constant(3, n)) for n in range(4)]
        after = []
        for i in range(4):
            here = c.all([held[i]] + [c.turn(held[j]) for j in range(i)])
            after.append(c.word(puts, c.word(here, word, queue[i]), c.word(takes, queue[i + 1] if i < 3 else [False] * bits, queue[i])))
        count = c.word(puts, c.sum(count, c.constant(3, 1)), c.word(takes, c.difference(count, c.constant(3, 1)), count))
        total = c.word(puts, c.sum(total, word), c.word(takes, c.difference(total, queue[0]), total))
        queue = after
    return c.text(c.both(c.same(count, c.constant(3, 0)), c.turn(c.same(total, [False] * bits))))


def clauses(count, listed):
    """The clauses as a circuit."""
    c = Circuit(count)
    return c.text(c.all([c.any([(abs(n) - 1, n < 0) for n in clause]) for clause in listed]))


def random_clauses(variables, count, seed):
    source = random.Random(seed)
    return clauses(variables, [[source.choice((1, -1)) * v for v in source.sample(range(1, variables + 1), 3)] for _ in range(count)])


def pigeons(holes):
    def at(pigeon, hole):
        return pigeon * holes + hole + 1
    somewhere = [[at(p, h) for h in range(holes)] for p in range(holes + 1)]
    apart = [[-at(p, h), -at(q, h)] for h in range(holes) for p in range(holes + 1) for q in range(p)]
    return clauses(holes * (holes + 1), somewhere + apart)


MODELS = [
    *((f'products of {n} bits commute', commutes(n)) for n in (5, 6, 7, 8)),
    *((f'products of {n} bits distribute', distributes(n)) for n in (4, 5, 6)),
    *((f'adders of {n} bits', adders(n)) for n in (16, 32)),
    ('sum of 32 bits by halves', halves(32)),
    *((f'sums of {n} bits associate', associates(n)) for n in (8, 16)),
    *((f'lock, {n} steps', lock(n)) for n in (15, 25, 40)),
    *((f'six words of {n} bits sorted', sorted_words(n)) for n in (4, 6, 8)),
    ('sorting network of 32 bits', network(32)),
    ('sorting networks of 16 bits', networks(16)),
    *((f'ring buffer of {n} bits, 8 steps', ring_buffer(8, n)) for n in (2, 4)),
    *((f'{n} variables of random clauses, {seed}', random_clauses(n, int(4.26 * n), seed)) for n, seed in ((150, 3), (150, 4), (200, 5), (200, 6))),
    *((f'pigeons, one more than {n} holes', pigeons(n)) for n in (6, 7)),
]
