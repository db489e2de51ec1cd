# Draws a WAV file: the waveform of each channel, and their level in dB over time, as an SVG of under 100 KB.
# Reads whole numbers of 16, 24 and 32 bits and floats of 32, mono or stereo, at any rate. Standard library only.
# Use: python3 tools/picture.py IN.wav OUT.svg [TITLE]
import array
import math
import struct
import sys
from html import escape

WIDTH, LEFT, RIGHT, TOP, BOTTOM = 900, 64, 20, 64, 46
PLOT = WIDTH - LEFT - RIGHT
WAVE, LEVEL, GAP = 110, 210, 30
COLOURS = ('#1b6d8c', '#cc5a2b')
NAMES = ('left', 'right')
STYLE = '''text { font: 12px system-ui, "Segoe UI", Helvetica, Arial, sans-serif; fill: #444 }
.title { font-size: 15px; font-weight: 600; fill: #222 } .name { font-weight: 600 }
.grid { stroke: #e4e4e4; fill: none } .frame { stroke: #aaa; fill: none } .end { text-anchor: end } .middle { text-anchor: middle }'''


def fail(words):
    sys.exit('picture.py: ' + words)


# ---- the file

def chunks(data):
    if data[:4] != b'RIFF' or data[8:12] != b'WAVE':
        fail('not a WAV file')
    at = 12
    while at + 8 <= len(data):
        name, length = struct.unpack_from('<4sI', data, at)
        yield name, data[at + 8:at + 8 + length]
        at += 8 + length + length % 2


def words(body, bits):
    """The samples of a data chunk, interleaved, full scale 1."""
    if bits == 24:
        # each word of three bytes as the upper three of four
        wide = bytearray(len(body) // 3 * 4)
        for k in range(3):
            wide[k + 1::4] = body[k::3]
        body, bits = bytes(wide), 32
    values = array.array({16: 'h', 32: 'i'}[bits], body)
    if sys.byteorder == 'big':
        values.byteswap()
    scale = 2.0 ** (1 - bits)
    return array.array('d', [v * scale for v in values])


def floats(body):
    values = array.array('f', body)
    if sys.byteorder == 'big':
        values.byteswap()
    return array.array('d', values)


def read(path):
    """The rate, and a list of samples for each channel."""
    try:
        data = open(path, 'rb').read()
    except OSError as error:
        fail('%s: %s' % (path, error.strerror))
    form = None
    for name, body in chunks(data):
        if name == b'fmt ' and len(body) >= 16:
            form = list(struct.unpack_from('<HHIIHH', body))
            if form[0] == 0xfffe and len(body) >= 26:
                form[0] = struct.unpack_from('<H', body, 24)[0]
        elif name == b'data':
            if not form:
                fail('%s: no fmt chunk before the data' % path)
            kind, count, rate, _, frame, bits = form
            if count not in (1, 2) or rate == 0 or (kind, bits) not in ((1, 16), (1, 24), (1, 32), (3, 32)) or frame != count * bits // 8:
                fail('%s: only mono and stereo of 16, 24 or 32 bit whole numbers or 32 bit floats are drawn' % path)
            body = body[:len(body) // frame * frame]
            if not body:
                fail('%s: no samples' % path)
            values = floats(body) if kind == 3 else words(body, bits)
            return rate, [values[k::count] for k in range(count)]
    fail('%s: no data chunk' % path)


# ---- axes

def steps(low, high, most):
    """Round numbers from low to high, at most so many: 1, 2 or 5 times a power of ten apart."""
    raw = (high - low) / most or 1.0
    power = 10.0 ** math.floor(math.log10(raw))
    apart = next(power * k for k in (1, 2, 5, 10) if power * k >= raw * 0.999999)
    first = math.ceil(low / apart - 1e-9)
    return [k * apart for k in range(first, math.floor(high / apart + 1e-9) + 1)]


def number(x):
    return ('%.6g' % (x + 0.0)).replace('-', '\u2212')


def text(x, y, what, kind=''):
    return '<text x="%.4g" y="%.4g"%s>%s</text>' % (x, y, ' class="%s"' % kind if kind else '', escape(what))


def panel(top, height, marks, place, seconds):
    """A frame with a line and a number for each mark, and lines for the seconds."""
    out = []
    path = ''.join('M%.4g %.5gh%d' % (LEFT, place(v), PLOT) for v in marks)
    path += ''.join('M%.5g %.4gv%d' % (x, top, height) for x, _ in seconds)
    out.append('<path class="grid" d="%s"/>' % path)
    out += [text(LEFT - 8, place(v) + 4, number(v), 'end') for v in marks]
    out.append('<rect class="frame" x="%d" y="%.4g" width="%d" height="%d"/>' % (LEFT, top, PLOT, height))
    return out


# ---- what is drawn

def bins(samples, count):
    """The samples in so many stretches, none of them empty."""
    n = len(samples)
    count = min(n, count)
    return [samples[n * k // count:n * (k + 1) // count] for k in range(count)]


def waveform(samples, place, colour):
    """An area from the least to the most sample of each pixel."""
    parts = bins(samples, PLOT)
    x = [LEFT + PLOT * (k + 0.5) / len(parts) for k in range(len(parts))]
    # a stroke keeps what is thinner than a pixel in sight
    ups = ['%.1f %.1f' % (x[k], place(max(p))) for k, p in enumerate(parts)]
    downs = ['%.1f %.1f' % (x[k], place(min(p))) for k, p in enumerate(parts)]
    return '<path d="M%sZ" fill="%s" stroke="%s" stroke-width="0.8" stroke-linejoin="round"/>' % (
        'L'.join(ups + downs[::-1]), colour, colour)


def levels(samples, count):
    """The level of each stretch in dB, full scale 0; None for silence."""
    out = []
    for part in bins(samples, count):
        power = sum(v * v for v in part) / len(part)
        out.append(10 * math.log10(power) if power > 0 else None)
    return out


def level_line(values, place, low, colour):
    path, on = '', False
    for k, v in enumerate(values):
        if v is None or v < low:
            on = False
            continue
        path += '%s%.1f %.1f' % ('L' if on else 'M', LEFT + PLOT * (k + 0.5) / len(values), place(v))
        on = True
    return '<path d="%s" fill="none" stroke="%s" stroke-width="1.6" stroke-linejoin="round" stroke-linecap="round"/>' % (path, colour)


def linear(top, height, low, high):
    return lambda v: top + height * (high - v) / (high - low)


def draw(title, rate, channels):
    length = len(channels[0]) / rate
    seconds = [(LEFT + PLOT * t / length, t) for t in steps(0.0, length, 10)]
    peak = max(max(abs(v) for v in c) for c in channels) or 1.0
    reach = peak * 1.05
    out, top = [text(LEFT, 26, title, 'title')], TOP
    for k, samples in enumerate(channels):
        place = linear(top, WAVE, -reach, reach)
        out += panel(top, WAVE, steps(-reach, reach, 4), place, seconds)
        out.append(waveform(samples, place, COLOURS[k]))
        name = NAMES[k] if len(channels) == 2 else 'mono'
        out.append('<text x="%d" y="%d" class="name" style="fill:%s">%s</text>' % (LEFT, top - 8, COLOURS[k], name))
        top += WAVE + GAP

    # a round number of milliseconds, some 400 windows at most
    window = next(m for m in (k * 10 ** e for e in range(9) for k in (5, 10, 20)) if m >= length * 1000 / 450)
    values = [levels(samples, max(1, round(length * 1000 / window))) for samples in channels]
    loudest = max((v for line in values for v in line if v is not None), default=0.0)
    high = 10.0 * math.ceil(loudest / 10 + 0.05)
    low = max(min((v for line in values for v in line if v is not None), default=high - 60), high - 110)
    low = min(10.0 * math.floor(low / 10), high - 40)
    place = linear(top, LEVEL, low, high)
    out += panel(top, LEVEL, steps(low, high, 8), place, seconds)
    for k in reversed(range(len(values))):
        out.append(level_line(values[k], place, low, COLOURS[k]))
    out.append(text(LEFT, top - 8, 'level in dB: root mean square of %d ms, full scale is 0 dB' % window))
    top += LEVEL
    out += [text(x, top + 18, number(round(t, 6)), 'middle') for x, t in seconds]
    out.append(text(LEFT + PLOT / 2, top + 38, 'seconds', 'middle'))
    height = top + BOTTOM
    start = '<svg xmlns="http://www.w3.org/2000/svg" viewBox="0 0 %d %d" width="%d" height="%d">' % (WIDTH, height, WIDTH, height)
    return '\n'.join([start, '<style>%s</style>' % STYLE, '<rect width="100%" height="100%" fill="#fff"/>'] + out + ['</svg>', ''])


def main():
    if len(sys.argv) not in (3, 4):
        fail('use: python3 tools/picture.py IN.wav OUT.svg [TITLE]')
    rate, channels = read(sys.argv[1])
    title = sys.argv[3] if len(sys.argv) == 4 else sys.argv[1].replace('\\', '/').split('/')[-1]
    bad = sum(1 for c in channels for v in c if not math.isfinite(v))
    if bad:
        title += ' (%d samples are infinite or NaN, drawn as 0)' % bad
        channels = [array.array('d', [v if math.isfinite(v) else 0.0 for v in c]) for c in channels]
    with open(sys.argv[2], 'w', encoding='utf-8') as f:
        f.write(draw(title, rate, channels))


main()
