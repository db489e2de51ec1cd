# Writes what the program `card` is tried on, crates/card/stdin, and what it must write, crates/card/stdout.
# This is a second reading of docs/CARD.md in exact fractions, and of docs/SIZES.md, with the plate's bytes from tools/plate_bytes.py.
# Use: python3 tools/card_vectors.py
#      python3 tools/card_vectors.py try target/bin/card target/bin/order    beside the gate: every answer's stream, and answers to bytes
import os
import random
import re
import struct
import subprocess
import sys
from fractions import Fraction

ROOT = os.path.join(os.path.dirname(os.path.abspath(__file__)), '..')
NAMES = ['pass', 'sum', 'destination', 'balance', 'mul', 'add', 'delay', 'allpass', 'onepole', 'sine']
SOURCES = [(0, 1), (0, 8), (0, 8), (2, 2), (1, 2), (1, 2), (1, 1), (1, 2), (1, 1), (0, 0)]


# the bits of the float nearest to a fraction that is not negative, halves to the even one; infinity's from 2^128 on
def nearest(x):
    if x == 0:
        return 0
    e = -149
    while x >= Fraction(2) ** (e + 24):
        e += 1
    m = x / Fraction(2) ** e
    q = m.numerator // m.denominator
    rest = m - q
    if rest > Fraction(1, 2) or (rest == Fraction(1, 2) and q % 2 == 1):
        q += 1
    if q == 2 ** 24:
        q, e = 2 ** 23, e + 1
    return q if q < 2 ** 23 else min((e + 150) * 2 ** 23 + q - 2 ** 23, 255 * 2 ** 23)


def value(bits):
    e, m = bits // 2 ** 23, bits % 2 ** 23
    return Fraction(m) * Fraction(2) ** -149 if e == 0 else Fraction(m + 2 ** 23) * Fraction(2) ** (e - 150)


RANGE = 'milliseconds out of range: 0 to 3000, and at least one sample for an all-pass'


class Bad(Exception):
    pass


def float_bits(word):
    if word[:1] in ('x', 'X'):
        if not re.fullmatch(r'[0-9a-fA-F]{8}', word[1:]):
            raise Bad('no float')
        return int(word[1:], 16)
    m = re.fullmatch(r'([+-]?)([0-9]*)\.?([0-9]*)(?:[eE]([+-]?[0-9]+))?', word)
    if not m or not m[2] + m[3]:
        raise Bad('no float')
    digits, tens = m[2] + m[3], int(m[4] or 0)
    if len(digits) > 40 or abs(tens) > 60:
        raise Bad('decimal too long: write its bits, x and 8 hexadecimal digits')
    return nearest(int(digits) * Fraction(10) ** (tens - len(m[3]))) + (2 ** 31 if m[1] == '-' else 0)


# the float of these bits, as a fraction; none of an infinity or a NaN
def exact(bits):
    size = bits % 2 ** 31
    if size >= 255 * 2 ** 23:
        return None
    return -value(size) if bits >= 2 ** 31 else value(size)


# document 01's lengths: floor(ms / 1000 x 44100), a rounding at each operation
def samples(name, word):
    ms = exact(float_bits(word[:-2]))
    if ms is None or not 0 <= ms <= 3000:
        raise Bad(RANGE)
    count = int(value(nearest(value(nearest(ms / 1000)) * 44100)))
    if name == 'delay':
        return max(1, count)
    if ms == 0:
        return 132300
    if count == 0:
        raise Bad(RANGE)
    return count


def line_length(name, word):
    return samples(name, word) if word.endswith('ms') else whole(word, 2 ** 32 - 1)


def whole(word, most):
    if not re.fullmatch(r'[0-9]+', word) or int(word) > most:
        raise Bad('no whole number, or too large')
    return int(word)


# the words of a line, its comment aside, and the name before them
def words_of(line):
    words = [word for word in re.split(r'[ \t\r]+', line.split('#')[0]) if word]
    if words and words[0].endswith(':'):
        return words[0][:-1], words[1:]
    return None, words


# the nodes that lines name: each name with the nodes before its first line
def named(lines):
    found, count = {}, 0
    for line in lines:
        name, words = words_of(line)
        if name is not None:
            found.setdefault(name, count)
        count += bool(words) and words[0] in NAMES
    return found


# a node, by its name or by its number
def end(word, found):
    if not re.match(r'[A-Za-z]', word):
        return whole(word, 65535)
    if word not in found:
        raise Bad('no node has this name')
    return found[word]


def record(words, found):
    name, fields = words[0], words[1:]
    count = {'block': 3, 'wire': 2, 'allpass': 2}
    if name not in NAMES + ['block', 'wire']:
        raise Bad('unknown name')
    if len(fields) != count.get(name, 0 if name in NAMES[:4] else 1):
        raise Bad('wrong number of fields')
    if name == 'block':
        size = whole(fields[0], 65535)
        if fields[1] != 'input':
            raise Bad('unknown name')
        return ('block', size, end(fields[2], found))
    if name == 'wire':
        return ('wire', end(fields[0], found), end(fields[1], found))
    n = line_length(name, fields.pop(0)) if name in ('delay', 'allpass') else 0
    return ('node', NAMES.index(name) + 1, n, float_bits(fields[0]) if fields else 0)


# a name is well formed, before a node, and no node before has it
def check_name(name, words, found, count):
    if not re.fullmatch(r'[A-Za-z][A-Za-z0-9_.-]*', name):
        raise Bad('no name: a letter, then letters, digits, _ - .')
    if not words or words[0] in ('block', 'wire'):
        raise Bad('a name before a line that is no node')
    if found[name] != count:
        raise Bad('name given twice')


def read(card):
    head, nodes, wires = None, [], []
    lines = card.removeprefix('\ufeff').split('\n')
    found = named(lines)
    for number, line in enumerate(lines, 1):
        name, words = words_of(line)
        try:
            if name is not None:
                check_name(name, words, found, len(nodes))
            if not words:
                continue
            r = record(words, found)
            if r[0] == 'block':
                if head:
                    raise Bad('out of order: block, then nodes, then wires')
                head = r[1:]
            elif not head:
                raise Bad('before the block line')
            elif r[0] == 'node':
                if wires:
                    raise Bad('out of order: block, then nodes, then wires')
                if len(nodes) == 64:
                    raise Bad('too many of these')
                nodes.append(r[1:])
            else:
                if len(wires) == 128:
                    raise Bad('too many of these')
                wires.append(r[1:])
        except Bad as bad:
            raise Bad('line %d: %s' % (number, bad))
    return head, nodes, wires


def board(head, nodes, wires):
    out = struct.pack('<HHHH', 8, 1, *head) if head else b''
    out += b''.join(struct.pack('<HHHII', 14, 2, *node) for node in nodes)
    out += b''.join(struct.pack('<HHHH', 8, 3, *wire) for wire in wires)
    return out + struct.pack('<HH', 4, 4)


class Refused(Exception):
    def __init__(self, number, place, fault, node=None, wire=None):
        super().__init__()
        self.number, self.place, self.fault, self.node, self.wire = number, place, fault, node, wire


def float_fault(kind, f):
    size = f % 2 ** 31
    finite = size < 255 * 2 ** 23
    if kind == 10:
        return None if finite and value(size) <= 44100 and (f < 2 ** 31 or size == 0) else 'the frequency must be 0 to 44100'
    return None if finite else {8: 'the gain must be finite', 9: 'b must be finite'}.get(kind, 'the number must be finite')


# what is wrong with node i by itself, and with its place
def node_fault(i, kind, n, f, lines):
    if kind in (7, 8) and not 1 <= n <= 132300:
        return 'n must be 1 to 132300'
    if kind in (5, 6, 8, 9, 10) and float_fault(kind, f):
        return float_fault(kind, f)
    if i == 0 and kind != 3:
        return 'the first node must be the destination'
    if i > 0 and kind == 3:
        return 'only the first node may be a destination'
    if lines > 262144:
        return 'all lines together must be at most 262144, an all-pass counting twice'
    return None


def wire_fault(a, b, count):
    for node in (a, b):
        if node >= count:
            return 'there is no node %d' % node
    return 'from a node to itself' if a == b else None


def input_fault(node, nodes, wires):
    if node >= len(nodes):
        return 'the input: there is no node %d' % node
    if nodes[node][0] != 1:
        return 'the input node must be a pass'
    return 'the input node must have no wires in' if any(b == node for a, b in wires) else None


# document 01's refusals, as far as a card can meet them, each with what it is about
def judge(head, nodes, wires):
    if not head:
        raise Refused(2, 0, 'no block line at the start')
    if not 1 <= head[0] <= 128:
        raise Refused(3, 0, 'the block size must be 1 to 128')
    lines = 0
    for i, (kind, n, f) in enumerate(nodes):
        lines += n * (kind == 7) + 2 * n * (kind == 8)
        fault = node_fault(i, kind, n, f, lines)
        if fault:
            raise Refused(4, 8 + 14 * i, fault, node=i)
    for i, (a, b) in enumerate(wires):
        fault = wire_fault(a, b, len(nodes))
        if fault:
            raise Refused(5, 8 + 14 * len(nodes) + 8 * i, fault, wire=i)
    if not nodes:
        raise Refused(6, 0, 'there are no nodes')
    fault = input_fault(head[1], nodes, wires)
    if fault:
        raise Refused(6, head[1], fault)
    for i, node in enumerate(nodes):
        few, many = SOURCES[node[0] - 1]
        has = len({a for a, b in wires if b == i})
        if not few <= has <= many:
            wanted = '%d' % few if few == many else '%d to %d' % (few, many)
            raise Refused(6, i, 'sources: %d, must be %s' % (has, wanted), node=i)


# the words of a card's line, as far as they fit 60 bytes, each after a space
def own_words(line):
    text = ''
    for word in re.split(r'[ \t\r]+', line.split('#')[0]):
        if not word:
            continue
        if 60 - len(text) <= len(word):
            return text + ' ..'
        text += ' ' + word
    return text


# the lines of a card that say a record, with their numbers: the head's, the nodes', the wires'
def record_lines(card):
    found = {'block': [], 'node': [], 'wire': []}
    for number, line in enumerate(card.removeprefix('\ufeff').split('\n'), 1):
        words = words_of(line)[1]
        if words:
            found[words[0] if words[0] in found else 'node'].append('line %d:%s: ' % (number, own_words(line)))
    return found


# the answer to a card that is refused, and the answer to its board's bytes
def refusal(card, head, nodes, wires, refused):
    found = record_lines(card)
    node = refused.place if refused.number == 6 else refused.node
    where, about = found['block'][0] if head else '', ''
    if refused.number == 3:
        about = 'block %d input %d: ' % head
    if node is not None and node < len(nodes):
        about = 'node %d: %s: ' % (node, kind_text(*nodes[node]))
    if refused.node is not None:
        where = found['node'][refused.node]
    if refused.wire is not None:
        where, about = found['wire'][refused.wire], 'wire %d %d: ' % wires[refused.wire]
    number = 'refused %d %d' % (refused.number, refused.place)
    return '%s%s (%s)\n%s: %s%s\n' % (where, refused.fault, number, number, about, refused.fault)


def decimal(bits):
    size = bits % 2 ** 31
    for k in range(11):
        digits = int(value(size) * 10 ** k + Fraction(1, 2))
        if digits < 2 ** 24 and nearest(Fraction(digits, 10 ** k)) == size:
            text = str(digits).rjust(k + 1, '0')
            return '-' * (bits >= 2 ** 31) + (text[:-k] + '.' + text[-k:] if k else text)
    return 'x%08x' % bits


# every NaN is read as the one NaN
def kind_text(kind, n, f):
    text = NAMES[kind - 1]
    f = 0x7fc00000 if f % 2 ** 31 > 255 * 2 ** 23 else f
    if kind in (7, 8):
        text += ' %d' % n
    return text + (' ' + decimal(f) if kind in (5, 6, 8, 9, 10) else '')


def visited(wires):
    order, marked = [], set()

    def visit(node):
        marked.add(node)
        for a, b in wires:
            if b == node and a not in marked:
                visit(a)
        order.append(node)

    visit(0)
    return order


def late(wires):
    order = visited(wires)
    return lambda a, b: a in order and b in order and order.index(a) >= order.index(b)


# the graph's lines: the input at the top, the destination at the bottom, nodes out of reach grey, late wires dashed, and the first two wires
# into a balance, a mul, an add or an all-pass with two sources marked
def graph(head, nodes, wires):
    out = ['digraph board {', '  rankdir=TB;', '  node [shape=box];', '  { rank=source; %d; }' % head[1], '  { rank=sink; 0; }']
    order, is_late = visited(wires), late(wires)
    for i, node in enumerate(nodes):
        look = ''
        if i not in order:
            look = ' style=dotted color=grey fontcolor=grey'
        elif i == head[1]:
            look = ' shape=invhouse'
        elif i == 0:
            look = ' shape=house'
        out.append('  %d [label="%d %s"%s];' % (i, i, kind_text(*node), look))
    for i, (a, b) in enumerate(wires):
        said = 'style=dashed constraint=false' if is_late(a, b) else ''
        before = sum(t == b for s, t in wires[:i])
        if nodes[b][0] in (4, 5, 6, 8) and len({s for s, t in wires if t == b}) == 2 and before < 2:
            said += ' headlabel="%d"' % (before + 1)
        out.append('  %d -> %d%s;' % (a, b, ' [%s]' % said if said else ''))
    return out + ['}']


# an accepted board at blocks of `size`: the words, the head and nodes then, and whether a line was corrected
def sized(head, nodes, wires, size):
    is_late = late(wires)
    lates = [wire for wire in wires if is_late(*wire)]
    new_head = (size, head[1])
    if size == head[0]:
        return 'blocks of %d already: nothing changes' % size, head, nodes, False
    if not lates:
        return 'blocks of %d: no wire is late, so nothing else changes' % size, new_head, nodes, False
    if len(lates) > 1:
        return 'not carried: %d wires are late, and only one can be made up for' % len(lates), head, nodes, False
    target = lates[0][1]
    kind, n, f = nodes[target]
    words = 'not carried: the late wire leads into node %d, ' % target
    if kind != 7:
        return words + 'which is no delay', head, nodes, False
    words += 'a delay of %d' % n
    longer = n + head[0] - size
    new_nodes = nodes[:target] + [(7, longer, 0)] + nodes[target + 1:]
    if longer < 1:
        return words + ', which is too short', head, nodes, False
    if longer > 132300:
        return words + ': it would pass 132300', head, nodes, False
    try:
        judge(new_head, new_nodes, wires)
    except Refused:
        return words + ': all lines together would pass 262144', head, nodes, False
    return 'blocks of %d: node %d, a delay of %d, becomes a delay of %d' % (size, target, n, longer), new_head, new_nodes, True


def hexed(made):
    return [made[i:i + 32].hex() for i in range(0, len(made), 32)] + [''] * (len(made) % 32 == 0)


def shown(card):
    try:
        head, nodes, wires = read(card)
    except Bad as bad:
        return '%s\n' % bad
    try:
        judge(head, nodes, wires)
    except Refused as refused:
        return refusal(card, head, nodes, wires, refused)
    out = hexed(board(head, nodes, wires))
    out += ['block %d input %d' % head]
    out += ['%s  # %d' % (kind_text(*node), i) for i, node in enumerate(nodes)]
    out += ['wire %d %d' % wire for wire in wires]
    out += graph(head, nodes, wires)
    for size in (1, 64, 128):
        words, head, nodes, corrected = sized(head, nodes, wires, size)
        out += [words] + (hexed(board(head, nodes, wires)) if corrected else [])
    return '\n'.join(out) + '\n'


# a card with a mul for each number
def muls(numbers):
    lines = ['block 64 input 1', 'destination', 'pass'] + ['mul %s' % n for n in numbers]
    return '\n'.join(lines + ['wire 1 %d' % (i + 2) for i in range(len(numbers))])


FRAME = 'block 2 input 1\ndestination\npass\n'
PRINTED = 'block 2 input 1\ndestination\npass\nadd 0\ndelay 1\nmul 0.5\nwire 1 2\nwire 2 3\nwire 3 4\nwire 4 2\nwire 3 0\n'


PRINTED_NAMED = ('block 2 input in\ndestination\nin: pass  # the input\nmix: add 0\nlate-1: delay 1\n\tfeed.back:\tmul 0.5\n'
                 'wire in mix\nwire mix late-1\nwire 3 feed.back\nwire feed.back 2\nwire late-1 0\n')
MS = ['0', '0.01', '0.03', '1', '22.58', '100', '30', '2.5', '1e1', '-0', 'x41a00000', '10', '0.1', '0.7', '333.333', '50.01', '7.77']


# the printed board's loop with its late wire into a delay, of n samples, at blocks of 64
def loop(n, more=''):
    return 'block 64 input 1\ndestination\npass\nadd 0\nmul 0.5\ndelay %d\n%swire 1 2\nwire 2 3\nwire 3 4\nwire 4 2\nwire 3 0\n' % (n, more)


def random_decimal(r):
    digits = r.randrange(2 ** r.randrange(1, 25))
    text = '-' * r.randrange(2) + str(digits)
    shape = r.randrange(4)
    if shape == 1:
        return text + 'e%d' % r.randrange(-10, 11)
    if shape == 2 and len(str(digits)) > 1:
        cut = r.randrange(1, len(str(digits)))
        return text[:len(text) - cut] + '.' + text[len(text) - cut:]
    return text if shape == 3 else 'x%08x' % (r.randrange(2 ** 31) % (255 * 2 ** 23) + 2 ** 31 * r.randrange(2))


# up to 40 digits, their point and their power of ten anywhere, of a size that a float has
def long_decimal(r):
    digits = ''.join(r.choice('0123456789') for _ in range(r.randrange(1, 41)))
    cut = r.randrange(len(digits) + 1)
    text = r.choice(['', '-', '+']) + digits[:cut] + '.' + digits[cut:]
    return text + r.choice('eE') + '%d' % r.randrange(-60, 61 if cut == 0 else max(-59, 38 - cut))


def cards():
    r = random.Random(1)
    for name in ('plate', 'echo', 'pingpong', 'chorus', 'widener', 'room'):
        yield open(os.path.join(ROOT, 'examples/%s.card' % name), encoding='utf-8').read()
    yield PRINTED
    yield PRINTED.replace('\n', '\r\n').replace(' ', ' \t ')
    yield muls(['0', '-0', '1', '-1', '0.1', '0.3', '0.7', '5.5', '29.5', '1e-3', '1e10', '16777215e10', '16777215e-10', '1.5e3', '5.', '12.50e1', '8388609', '0.0000000001', 'x00000001', 'x7f7fffff', 'x80000000'])
    # more digits than a float has, signs, points at either end, exponents at the limits, and halves between two floats, of each kind
    yield muls(['.5', '+5', '+.25e+1', '-.5E-1', '1E5', '1e+5', 'X3F00000a', '16777216', '16777217', '16777219', '0.123456789', '0.70710678', '1e11', '1e-11', '1.5e12',
                '0.00000000000', '1e-45', '1e-46', '1e-60', '7.006492321624085354618647916449580656401e-46', '7.006492321624085354618647916449580656402e-46',
                '3.4028235677973366163753939545814e38', '0000000000000000000000000000000000000001', '.' + '3' * 40, '3' * 20 + '.' + '3' * 20, '1e-060'])
    for _ in range(6):
        yield muls([random_decimal(r) for _ in range(62)])
    for _ in range(4):
        yield muls([long_decimal(r) for _ in range(62)])
    # lines that are bad
    for line in ['mull 1', 'Pass', 'wire 1', 'mul', 'mul 1 2', 'allpass 5', 'pass 1', 'wire 1 x', 'wire -1 2', 'wire 1 65536', 'delay 1.5',
                 'delay 4294967296', 'delay 99999999999999999999', 'mul 1x', 'mul x3f', 'mul x3f00000g', 'mul X3f00000', 'mul .', 'mul +', 'mul -', 'mul e5', 'mul .e5',
                 'mul 1e', 'mul 1e-', 'mul 1e+', 'mul 1e+-5', 'mul 1.2.3', 'mul --1', 'mul +-1', 'mul 1e5.', 'mul ' + '3' * 41, 'mul 0.' + '0' * 40, 'mul 1e61',
                 'mul 1e-61', 'mul 1e99999999999', 'block 2 input 1', 'wire 1 0\nsum', 'mul 1 # 2 3\nfoo', '\n\n\nfoo bar']:
        yield FRAME + line + '\n'
    yield 'pass\n'
    yield '# nothing before it\n\nwire 1 2\n'
    yield 'block 2 output 1\n'
    yield 'block 65536 input 1\n'
    yield FRAME + 'sum\n' * 63
    yield FRAME + 'sum\n' + 'wire 1 2\n' * 129
    # names: used before their line and after it, of any form that is good, in a line with a comment, beside numbers
    yield PRINTED_NAMED
    yield '\ufeff' + PRINTED_NAMED.replace('\n', '\r\n')
    yield FRAME.replace('input 1', 'input A.b-c_9') .replace('pass', 'A.b-c_9: pass#x') + 'wire: sum\nwire A.b-c_9 wire\nwire wire 0\n'
    for line in ['9in: pass', ': pass', 'in!: pass', 'in:: pass', 'in :pass', 'in:pass', 'in:', 'in: # pass', 'in: wire 1 0', 'in: block 2 input 1', 'in: foo',
                 'in: pass\nin: pass', 'in: pass\nIn: pass\nin: sum', 'wire in 0', 'wire 1 in', 'wire 1 -in', 'wire in! 0', 'in: pass 1', 'in: in: pass', 'wire _in 0',
                 '9in: wire', 'in: pass\n9in: pass', 'sum\nin: sum\nwire in 0\nin: sum', 'wire 1 0\nin: sum', 'in\xe4: pass']:
        yield FRAME + line + '\n'
    yield 'block 2 input in\ndestination\npass\n'
    yield 'block 2 input in\ndestination\nin: pass\nfoo\n'
    yield 'in: pass\n'
    yield 'block 2 input far\n' + 'sum\n' * 64 + 'far: pass\n'
    # milliseconds
    yield FRAME + ''.join('delay %sms\n' % ms for ms in MS) + ''.join('wire 1 %d\n' % (i + 2) for i in range(len(MS)))
    yield FRAME + ''.join('allpass %sms 0.5\n' % ms for ms in MS[1:]) + ''.join('wire 1 %d\n' % (i + 2) for i in range(len(MS) - 1))
    for line in ['delay 3000.1ms', 'delay 3001ms', 'delay -1ms', 'delay 1ms2', 'delay ms', 'delay 1 ms', 'delay 1.5', 'delay xms', 'delay 0.123456789ms', 'delay x7fc00000ms',
                 'delay x7f800000ms', 'allpass 0.01ms 0.5', 'allpass -0.01ms 0.5', 'allpass 3001ms 0.5', 'allpass 10 0.5ms', 'mul 1ms', 'delay 1Ms', 'delay 3000ms\nfoo']:
        yield FRAME + line + '\n'
    # boards that the judge refuses
    yield '# no line at all\n'
    yield 'block 129 input 1\n'
    yield 'block 2 input 1\n'
    for line in ['delay 0', 'echo: delay 0', 'delay 4294967295 # long', 'allpass 0 1', 'allpass 1 x7fc00000', 'onepole xff800000', 'add x7fffffff', 'sine x7f800000', 'sine xc0000000',
                 'two: destination', 'a-name-that-goes-on-and-on-and-on: delay 0', 'a-name-that-goes-on-and-on-and-on-and-on-and-on-and-on-and-on: delay 0',
                 'b: balance\nwire 1 b', 'b: balance\nwire 1 b\nwire 1 b', 'mul 1\nsum\nsum\nwire 1 2\nwire 3 2\nwire 4 2', 'sum\npass\nwire 1 3\nwire 2 3',
                 'sine 1\nwire 1 2', 'delay 1\nwire 1 2\nwire 0 2', 'wire 1 0\nwire 0 0', 'wire 7 1', 'wire 0 7', 'wire 7 7', 'wire 65535 0', '\n\n wire\t1  1 # to itself',
                 'delay 132300\ndelay 129845', 'allpass 131072 0\ndelay 1', 'allpass 132300 0.5\ndelay 0',
                 'sum\n' * 9 + ''.join('wire %d 2\n' % k for k in range(3, 11)) + 'wire 0 2\nwire 1 2',
                 'delay 132301', 'sine 44101', 'sine -1', 'mul x7f800000', 'mul 3.4028236e38', 'mul -1e60', 'destination', 'allpass 132300 0', 'wire 1 1', 'wire 1 2', 'wire 0 1', 'balance', 'mul 2']:
        yield FRAME + line + '\n'
    yield FRAME.replace('input 1', 'input 7')
    yield FRAME.replace('input 1', 'input 0')
    yield FRAME.replace('input 1', 'input 2') + 'sum\n'
    yield FRAME.replace('input 1', 'input 65535')
    yield FRAME.replace('input 1', 'input in') + 'in: sum\n'
    yield '\ufeff# a mark before it\n' + FRAME.replace('block 2', 'block 0')
    yield 'block 2 input 0\npass\n'
    yield 'block 2 input 0\n'
    yield 'block 2 input 7\n'
    # at the limits
    yield FRAME.replace('2', '128') + 'sum\n' * 62 + 'wire 1 2\n' * 128
    yield FRAME + 'sine 44100\nsine -0\nallpass 131072 -0.5\nwire 2 4'
    # at other block sizes: a line that is corrected, is too short or too long, just and not; all lines together, just and not; two late
    # wires, one of them a repeat or into another loop; a loop out of reach
    for n in (20, 64, 65, 132237, 132238):
        yield loop(n)
    for n in (130540, 130541):
        yield loop(1000, 'allpass %d 0.5\nsum\n' % n).replace('wire 3 0', 'wire 3 0\nwire 1 5')
    yield loop(20) + 'wire 3 4\n'
    yield loop(20, 'sum\ndelay 5\n') + 'wire 2 5\nwire 6 5\nwire 5 6\nwire 5 0\n'
    yield FRAME + 'sum\ndelay 5\nwire 1 2\nwire 3 2\nwire 2 3\nwire 1 0\n'
    yield loop(20).replace('delay', 'allpass').replace(' 20', ' 20 0.5')


# ---- beside the gate: which stream an answer goes to, and answers to bytes that no card makes


def field_fault(kind, n, f):
    if not 1 <= kind <= 10:
        return 'the type must be 1 to 10'
    if kind not in (7, 8) and n != 0:
        return 'n must be 0 for this type'
    if kind in (7, 8) and not 1 <= n <= 132300:
        return 'n must be 1 to 132300'
    if kind not in (5, 6, 8, 9, 10):
        return 'the float must be 0 for this type' if f != 0 else None
    return float_fault(kind, f)


# document 01's refusal of a board's bytes, with what it is about
def judge_bytes(s):
    at, last, head, nodes, wires, lines = 0, 0, (0, 0), [], [], 0
    record = 'a record that is cut or of a wrong length, or bytes after the end'
    while last != 4:
        if len(s) - at < 4 or len(s) - at < struct.unpack_from('<H', s, at)[0]:
            return 1, at, record
        length, kind = struct.unpack_from('<HH', s, at)
        if not (kind == 1 if last == 0 else 2 <= kind <= 4 and kind >= last):
            return 2, at, 'a record of a kind that is unknown or out of order' if at else 'no block line at the start'
        if length != {1: 8, 2: 14, 3: 8, 4: 4}[kind]:
            return 1, at, record
        if kind == 1:
            head = struct.unpack_from('<HH', s, at + 4)
            if not 1 <= head[0] <= 128:
                return 3, at, 'block %d input %d: the block size must be 1 to 128' % head
        if kind == 2:
            node = struct.unpack_from('<HII', s, at + 4)
            lines += node[1] * (node[0] == 7) + 2 * node[1] * (node[0] == 8)
            fault = field_fault(*node) or ('more than 64 nodes' if len(nodes) == 64 else node_fault(len(nodes), *node, lines))
            if fault:
                return 4, at, 'node %d: %s: %s' % (len(nodes), kind_text(*node) if 1 <= node[0] <= 10 else 'no type', fault)
            nodes.append(node)
        if kind == 3:
            wire = struct.unpack_from('<HH', s, at + 4)
            fault = 'more than 128 wires' if len(wires) == 128 else wire_fault(*wire, len(nodes))
            if fault:
                return 5, at, 'wire %d %d: %s' % (*wire, fault)
            wires.append(wire)
        at, last = at + length, kind
    if at < len(s):
        return 1, at, record
    try:
        judge(head, nodes, wires)
    except Refused as r:
        about = 'node %d: %s: ' % (r.place, kind_text(*nodes[r.place])) if r.place < len(nodes) else ''
        return r.number, r.place, about + r.fault
    return None


def run(program, word, data):
    done = subprocess.run([program] + word, input=data, capture_output=True)
    return done.stdout, done.stderr


# boards with a few bytes changed, cut or added
def spoilt(boards, r):
    for _ in range(400):
        s = bytearray(r.choice(boards))
        for _ in range(r.randrange(1, 4)):
            shape = r.randrange(4)
            if shape == 0 and s:
                s[r.randrange(min(len(s), 200))] = r.choice([0, 1, 2, 3, 4, 7, 8, 14, 127, 128, 255, r.randrange(256)])
            elif shape == 1:
                del s[r.randrange(len(s) + 1):]
            elif shape == 2:
                s += bytes(r.randrange(1, 9))
            elif s:
                k = r.randrange(len(s))
                s[k:k] = s[k:k + r.choice([4, 8, 14])]
        yield bytes(s)


def try_programs(card_program, order_program):
    boards, tried = [], 0
    for card in cards():
        data, first = card.encode(), shown(card).split('\n')[0]
        try:
            head, nodes, wires = read(card)
            judge(head, nodes, wires)
            made = board(head, nodes, wires)
            is_late = late(wires)
            listed = 'order %s\n' % ' '.join(map(str, visited(wires))) + ''.join('late %d %d\n' % w for w in wires if is_late(*w))
            assert run(card_program, ['bytes'], data) == (made, b''), card
            assert run(order_program, ['card'], data) == (listed.encode(), b''), card
            assert run(order_program, [], made) == (listed.encode(), b''), card
            assert run(card_program, ['dot'], made) == (('\n'.join(graph(head, nodes, wires)) + '\n').encode(), b''), card
            text, none = run(card_program, ['text'], made)
            assert none == b'' and run(card_program, ['bytes'], text) == (made, b''), card
            boards.append(made)
        except (Bad, Refused):
            assert run(card_program, ['bytes'], data) == (b'', first.encode() + b'\n'), card
            assert run(order_program, ['card'], data) == (b'', first.encode() + b'\n'), card
        tried += 1
    full = board((2, 1), [(3, 0, 0), (1, 0, 0)] + [(2, 0, 0)] * 62, [(1, 2)] * 128)
    many = [full[:22] + full[22:36] * 64 + full[904:], full[:912] + full[904:912] * 129 + full[-4:], b'']
    for s in many + list(spoilt(boards, random.Random(2))):
        refused = judge_bytes(s)
        if refused:
            for word in ('text', 'dot'):
                assert run(card_program, [word], s) == (b'', ('refused %d %d: %s\n' % refused).encode()), (refused, s.hex())
            assert run(card_program, ['size', '64'], s) == (b'', ('not carried: refused %d %d: %s\n' % refused).encode()), (refused, s.hex())
            assert run(order_program, [], s) == (('refused %d %d\n' % refused[:2]).encode(), b''), s.hex()
        tried += 1
    long = b'#' * 69632
    for program, word in ((card_program, ['bytes']), (order_program, ['card'])):
        assert run(program, word, long) == (b'', b'text too long: at most 69631 bytes\n')
        assert run(program, word, long[1:]) == (b'', b'no block line at the start (refused 2 0)\n')
    for word in ([], ['help'], ['--help'], ['bites']):
        out, said = run(card_program, word, b'')
        assert out == b'' and said.startswith(b'card bytes '), word
    print('%d cards and boards: answers and streams as docs/CARD.md says' % tried)


if __name__ == '__main__' and sys.argv[1:2] == ['try']:
    try_programs(sys.argv[2], sys.argv[3])
elif __name__ == '__main__':
    plate = subprocess.run([sys.executable, os.path.join(ROOT, 'tools/plate_bytes.py')], capture_output=True, check=True).stdout
    made = list(cards())
    assert board(*read(made[0])) == plate
    assert not any('%' in card for card in made)
    open(os.path.join(ROOT, 'crates/card/stdin'), 'w', newline='', encoding='utf-8').write('%'.join(made))
    open(os.path.join(ROOT, 'crates/card/stdout'), 'w', newline='', encoding='utf-8').write(''.join(shown(card) for card in made))
