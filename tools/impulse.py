# Writes a WAV file of one sample, 1.0, as a mono float at 44,100 Hz: rendered, it shows what a board answers to an impulse.
# Use: python3 tools/impulse.py OUT.wav
import struct
import sys

if len(sys.argv) != 2:
    sys.exit('use: python3 tools/impulse.py OUT.wav')
sample = struct.pack('<f', 1.0)
form = struct.pack('<HHIIHH', 3, 1, 44100, 4 * 44100, 4, 32)
body = b'WAVEfmt ' + struct.pack('<I', len(form)) + form + b'data' + struct.pack('<I', len(sample)) + sample
with open(sys.argv[1], 'wb') as f:
    f.write(b'RIFF' + struct.pack('<I', len(body)) + body)
