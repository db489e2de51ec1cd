# Writes the plate's board, at N 128 and mix 0.5, as bytes on standard output; `hex`: as lines of 32 bytes in base 16.
# It is made here as the Rust makes it (plate.rs): nodes in order of creation, wires in order of connection.
# Use: python3 tools/plate_bytes.py [hex]
import math
import struct
import sys

PASS, SUM, DESTINATION, BALANCE, MUL, ADD, DELAY, ALLPASS, ONEPOLE, SINE = range(1, 11)
nodes = []
wires = []


def float_bits(x):
    return struct.unpack('<I', struct.pack('<f', x))[0]


def node(kind, n=0, f=0.0):
    nodes.append((kind, n, float_bits(f)))
    return len(nodes) - 1


def chain(*names):
    wires.extend(zip(names, names[1:]))


def delay(n):
    return node(DELAY, n)


def all_pass(n, gain):
    return node(ALLPASS, n, gain)


def one_pole(x):
    return node(ONEPOLE, 0, math.exp(-2 * math.pi * x))


def plate(mix):
    destination = node(DESTINATION)
    node(PASS)  # the context's own input, unused
    source = node(PASS)
    wet1 = one_pole(0.7)
    wet2 = delay(2205)
    wet3 = all_pass(210, 0.75)
    wet4 = all_pass(158, 0.75)
    wet5 = all_pass(560, 0.625)
    wet6 = all_pass(410, 0.625)
    wet7 = node(ADD)
    wet8 = all_pass(4410, 0.7)
    chain(source, wet1, wet2, wet3, wet4, wet5, wet6, wet7, wet8)
    mod1 = node(SINE, 0, 0.1)
    mod2 = node(MUL, 0, 5.5)
    mod3 = node(ADD, 0, 29.5)
    chain(mod1, mod2, mod3, wet8)
    aa = delay(394)
    chain(wet8, aa)
    ab = delay(2800)
    chain(aa, ab)
    ac = delay(1204)
    chain(ab, ac)
    ba = [delay(2000), one_pole(0.1), all_pass(334, 0.5)]
    chain(*ba)
    chain(ac, ba[0])
    bb = all_pass(1577, 0.5)
    chain(ba[2], bb)
    bc = all_pass(4410, 0.5)
    chain(bb, bc)
    chain(mod1, mod2, mod3, bc)
    ca = delay(179)
    chain(bc, ca)
    cb = delay(2679)
    chain(ca, cb)
    cc1 = delay(3500)
    cc2 = node(MUL, 0, 0.3)
    chain(cb, cc1, cc2)
    da1 = all_pass(1323, 0.7)
    da2 = delay(522)
    chain(cc2, da1, da2)
    db = delay(2400)
    chain(da2, db)
    dc = delay(2400)
    chain(db, dc)
    ea1 = one_pole(0.1)
    ea2 = all_pass(273, 0.7)
    chain(dc, ea1, ea2)
    eb = all_pass(1539, 0.7)
    chain(ea2, eb)
    fa1 = all_pass(899, 0.7)
    fa2 = delay(1578)
    chain(eb, fa1, fa2)
    fb = delay(2378)
    chain(fa2, fb)
    fb1 = delay(2500)
    fb2 = node(MUL, 0, 0.3)
    chain(fb, fb1, fb2, wet7)
    left = side(source, mix, (bb, db, ea2, fa2), (aa, ab, cb))
    right = side(source, mix, (eb, ab, ba[2], ca), (da2, db, fb))
    balance = node(BALANCE)
    chain(left, balance)
    chain(right, balance)
    chain(balance, destination)
    return 2


# one side's taps: those that are subtracted, those that are added, wet and dry
def side(source, mix, subtracted, added):
    subtract = node(SUM)
    for tap in subtracted:
        chain(tap, subtract)
    subtract2 = node(MUL, 0, -1.0)
    chain(subtract, subtract2)
    total = node(SUM)
    for tap in added:
        chain(tap, total)
    chain(subtract2, total)
    wet = node(MUL, 0, mix)
    mixed = node(SUM)
    dry = node(MUL, 0, 1.0 - mix)
    chain(source, dry, mixed)
    chain(total, wet, mixed)
    return mixed


def board(size, source):
    out = struct.pack('<HHHH', 8, 1, size, source)
    for kind, n, f in nodes:
        out += struct.pack('<HHHII', 14, 2, kind, n, f)
    for a, b in wires:
        out += struct.pack('<HHHH', 8, 3, a, b)
    return out + struct.pack('<HH', 4, 4)


out = board(128, plate(0.5))
if sys.argv[1:] == ['hex']:
    for i in range(0, len(out), 32):
        print(out[i:i + 32].hex())
else:
    sys.stdout.buffer.write(out)
