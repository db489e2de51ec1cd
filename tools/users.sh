#!/bin/bash
# Tries the built programs (target/bin/card, order, render, rig) and the scripts as those who use them do: the cards of
# examples/ and of the documents, where answers go, files that must not be lost, words of 24 bits, what rig writes, the words
# of play, a picture. What the gate's stored outputs cannot show. Takes seconds, needs python3; prints one line for each part
# and ends with status 1 at the first that fails.
set -u
cd "$(dirname "$0")/.."
bin=$PWD/target/bin
work=$(mktemp -d)
trap 'rm -rf "$work"' EXIT

fail() {
    echo "users.sh: $*"
    exit 1
}

# quiet COMMAND: its standard output must be empty, its standard error not.
quiet() {
    "$@" >"$work/out" 2>"$work/err" </dev/stdin
    [ ! -s "$work/out" ] && [ -s "$work/err" ]
}

for program in card order render rig; do
    [ -x "$bin/$program" ] || fail "target/bin/$program is not there: tools/build.sh card order render rig"
done

# ---- cards: each of examples/ is accepted, gives a graph and a list, and sounds; the plate's is the plate writer's
for card in examples/*.card; do
    name=$(basename "$card" .card)
    "$bin/card" bytes <"$card" >"$work/$name.board" 2>"$work/err" || true
    [ -s "$work/$name.board" ] && [ ! -s "$work/err" ] || fail "$card: $(cat "$work/err")"
    "$bin/card" text <"$work/$name.board" | "$bin/card" bytes | cmp -s - "$work/$name.board" || fail "$card: its board's card gives another board"
    "$bin/card" dot <"$work/$name.board" >"$work/$name.dot"
    grep -q '^digraph' "$work/$name.dot" || fail "$card: no graph"
    ! command -v dot >/dev/null || dot -Tsvg "$work/$name.dot" -o "$work/$name.svg" || fail "$card: Graphviz does not take its graph"
    "$bin/order" card <"$card" | cmp -s - <("$bin/order" <"$work/$name.board") || fail "$card: order says another list of its card than of its board"
    tools/status.sh "$bin/render" examples/sound.wav "$work/$name.wav" card "$card" 2>"$work/err" || fail "$card: $(cat "$work/err")"
done
python3 tools/plate_bytes.py | cmp -s - "$work/plate.board" || fail "examples/plate.card is another board than the plate writer's"
python3 - "$work" <<'END' || fail "a card of examples/ does not sound as it should"
import glob, math, struct, sys
for path in sorted(glob.glob(sys.argv[1] + "/*.wav")):
    data = open(path, "rb").read()[58:]
    x = struct.unpack("<%df" % (len(data) // 4), data)
    top = max(map(abs, x))
    name = path.split("/")[-1]
    if not all(map(math.isfinite, x)) or not 0.05 < top <= 1:
        sys.exit("%s: peak %g" % (name, top))
    if (x[0::2] == x[1::2]) != (name == "echo.wav"):
        sys.exit("%s: left and right" % name)
END
echo "users.sh: the cards of examples/ are taken, drawn, listed and played"

# ---- the boards of the documents: every card in them that begins with its block line
python3 - "$bin/card" docs/REFERENCE.md docs/CARD.md <<'END' || fail "a card of the documents is not taken"
import itertools, re, subprocess, sys
count = 0
for page in sys.argv[2:]:
    for text in re.findall(r"(?:^    .*\n|^\n(?=    ))+", open(page).read(), re.M):
        lines = [line[4:] for line in text.splitlines()]
        start = next((i for i, line in enumerate(lines) if re.match(r"block \d+ input \w+", line)), None)
        if start is None or not any(line.startswith("wire ") for line in lines):
            continue
        # a drawing or an answer may stand below it
        own = itertools.takewhile(re.compile(r"\s*$|#|(block|wire|pass|sum|destination|balance|mul|add|delay|allpass|onepole|sine)\b|\w[\w.-]*:\s").match, lines[start:])
        card = "\n".join(own)
        done = subprocess.run([sys.argv[1], "bytes"], input=card.encode(), capture_output=True)
        if not done.stdout:
            sys.exit("%s: %s%s" % (page, done.stderr.decode(), card))
        count += 1
if count < 4:
    sys.exit("only %d cards found" % count)
print("users.sh: %d cards of REFERENCE and CARD are taken" % count)
END

# ---- answers go to standard error, so that none ends up in a file; tools/status.sh gives a status
printf 'block 4 input 1\ndestination\npass\ndelay 0\n' >"$work/bad.card"
quiet "$bin/card" bytes <"$work/bad.card" || fail "card bytes writes its answer to a card to standard output"
grep -q '^line 4: .*(refused 4 36)$' "$work/err" || fail "card bytes says: $(cat "$work/err")"
quiet "$bin/order" card <"$work/bad.card" || fail "order card writes its answer to standard output"
quiet "$bin/render" examples/sound.wav - card "$work/bad.card" || fail "render writes its answer to standard output"
quiet "$bin/render" </dev/null || fail "render without words does not say how to use it"
quiet "$bin/card" </dev/null || fail "card without words does not say how to use it"
! tools/status.sh "$bin/card" bytes <"$work/bad.card" >/dev/null 2>&1 || fail "status.sh takes a refused card for a success"
! tools/status.sh "$bin/render" examples/sound.wav "$work/x.wav" plate none >/dev/null 2>&1 || fail "status.sh takes a refused mix for a success"
[ ! -e "$work/x.wav" ] || fail "a refused render leaves a file"
python3 tools/card_vectors.py try "$bin/card" "$bin/order" >"$work/said" || fail "$(tail -n 3 "$work/said")"
echo "users.sh: answers go to standard error; $(tail -n 1 "$work/said")"

# ---- nothing is lost: OUT that is the input, the board, the card or the list, under any name; a full disk
cp examples/sound.wav "$work/in.wav"
ln "$work/in.wav" "$work/hard.wav"
ln -s in.wav "$work/soft.wav"
cp examples/echo.card "$work/own.card"
for out in in.wav hard.wav soft.wav; do
    "$bin/render" "$work/in.wav" "$work/$out" plate 0.5 2>"$work/err"
    grep -q 'is the input' "$work/err" || fail "$out: $(cat "$work/err")"
done
"$bin/render" "$work/in.wav" "$work/own.card" card "$work/own.card" 2>"$work/err"
cmp -s examples/sound.wav "$work/in.wav" && cmp -s examples/echo.card "$work/own.card" || fail "a render writes over what it reads"
"$bin/render" "$work/in.wav" /dev/full plate 0.5 2>"$work/err"
grep -q 'cannot be written' "$work/err" || fail "a full disk is not told"
printf 'old' >"$work/kept.wav"
(ulimit -f 8; trap '' XFSZ; "$bin/render" "$work/in.wav" "$work/kept.wav" plate 0.5 2>"$work/err")
[ "$(cat "$work/kept.wav")" = old ] && [ ! -e "$work/kept.wav.part" ] || fail "a file that cannot be written whole costs the old one"
# a copy is another file; a link stays a link, and what it leads to is kept or replaced whole, or made
cp "$work/in.wav" "$work/copy.wav"
mkdir "$work/folder"
printf 'old' >"$work/folder/far.wav"
ln -s folder/near.wav "$work/link.wav"
ln -s far.wav "$work/folder/near.wav"
ln -s "$work/new.wav" "$work/nowhere.wav"
ln -s round.wav "$work/round.wav"
(ulimit -f 8; trap '' XFSZ; "$bin/render" "$work/in.wav" "$work/link.wav" plate 0.5 2>"$work/err")
[ "$(cat "$work/folder/far.wav")" = old ] && [ ! -e "$work/folder/far.wav.part" ] || fail "a file behind a link that cannot be written whole costs the old one"
for out in copy link nowhere; do
    tools/status.sh "$bin/render" "$work/in.wav" "$work/$out.wav" plate 0.5 2>"$work/err" || fail "$out.wav: $(cat "$work/err")"
    cmp -s "$work/copy.wav" "$work/$out.wav" || fail "$out.wav: another sound"
done
[ -L "$work/link.wav" ] && [ -L "$work/folder/near.wav" ] && [ -L "$work/nowhere.wav" ] && [ -f "$work/new.wav" ] || fail "a link is replaced"
! cmp -s "$work/in.wav" "$work/copy.wav" || fail "a copy of the input is not written"
# render opens a pipe, to see what it is, before it opens it to write, and a reader that waits for a writer may take that close for the end,
# and go: then neither comes, so it has ten tries, each of which ends
mkfifo "$work/pipe"
for try in 1 2 3 4 5 6 7 8 9 10; do
    timeout 20 cat "$work/pipe" >"$work/waited.wav" &
    timeout 20 "$bin/render" "$work/in.wav" "$work/pipe" plate 0.5 2>"$work/err"
    wait
    cmp -s "$work/copy.wav" "$work/waited.wav" && break
done
# a pipe that is held open for reading all the while, and read until something came, gets it at once
exec 8<>"$work/pipe" 9<"$work/pipe" 8>&-
for try in $(seq 200); do cat <&9 >"$work/piped.wav"; [ ! -s "$work/piped.wav" ] || break; sleep 0.1; done &
"$bin/render" "$work/in.wav" "$work/pipe" plate 0.5 2>"$work/err" 9<&-
wait
exec 9<&-
"$bin/render" "$work/in.wav" /dev/stdout plate 0.5 2>"$work/err" | cat >"$work/passed.wav"
"$bin/render" "$work/in.wav" >(cat >"$work/substituted.wav") plate 0.5 2>"$work/err"
for out in waited piped passed substituted; do
    for try in 1 2 3 4 5 6 7 8 9; do cmp -s "$work/copy.wav" "$work/$out.wav" && break || sleep 0.2; done
    cmp -s "$work/copy.wav" "$work/$out.wav" || fail "$out.wav: another sound through a pipe: $(cat "$work/err")"
done
"$bin/render" "$work/in.wav" "$work/round.wav" plate 0.5 2>"$work/err"
grep -q 'links without an end' "$work/err" && [ -L "$work/round.wav" ] || fail "round.wav: $(cat "$work/err")"
cmp -s examples/sound.wav "$work/in.wav" || fail "a render writes over what it reads"
echo "users.sh: no file is lost"

# ---- words of 24 bits: each is the nearest to the float that is written without them, of two the even one, held at full scale; a sound of
# such words comes back word for word
printf 'block 4 input in\nout: destination\nin: pass\nloud: mul 4\nwire in loud\nwire loud out\n' >"$work/loud.card"
python3 - "$work" write <<'END' || fail "no sounds of 24 bits"
import random, struct, sys, wave
random.seed(24)
edges = [0, 1, -1, 2, -2, 2**23 - 1, -2**23, 2**22, -2**22, 2**23 - 2, 1 - 2**23]
words = edges + [random.randrange(-2**23, 2**23) for _ in range(5000)]
for name, channels in ("mono", 1), ("stereo", 2):
    with wave.open("%s/%s24.wav" % (sys.argv[1], name), "wb") as f:
        f.setparams((channels, 3, 44100, 0, "NONE", ""))
        f.writeframes(b"".join(w.to_bytes(3, "little", signed=True) for w in words[:len(words) // channels * channels]))
# halfway between two words, beside that, and past full scale
halves = [s * (n + 0.5 + d) / 2**23 for n in range(2000) for d in (0, 2**-14, -2**-14) for s in (1, -1)]
halves += [s * (2**23 - k / 2) / 2**23 for k in range(-40, 40) for s in (1, -1)]
data = struct.pack("<%df" % len(halves), *halves)
form = struct.pack("<HHIIHH", 3, 1, 44100, 4 * 44100, 4, 32)
with open(sys.argv[1] + "/halves.wav", "wb") as f:
    f.write(b"RIFF" + struct.pack("<I", 36 + len(data)) + b"WAVEfmt \x10\0\0\0" + form + b"data" + struct.pack("<I", len(data)) + data)
END
for sound in examples/sound.wav "$work/halves.wav"; do
    for board in "plate 0.7" "plate 0" "card $work/loud.card"; do
        # the words stand apart by spaces
        tools/status.sh "$bin/render" "$sound" "$work/floats.wav" $board 1 2>"$work/err" || fail "$board: $(cat "$work/err")"
        tools/status.sh "$bin/render" "$sound" "$work/words.wav" $board 24bit 1 2>"$work/err24" || fail "$board 24bit: $(cat "$work/err24")"
        sed 's/floats\.wav/words.wav/' "$work/err" | cmp -s - "$work/err24" || fail "$board 24bit: other answers: $(cat "$work/err24")"
        python3 - "$work" "$board" <<'END' || fail "$sound, $board 24bit: not the nearest words"
import fractions, struct, sys, wave
data = open(sys.argv[1] + "/floats.wav", "rb").read()[58:]
with wave.open(sys.argv[1] + "/words.wav") as f:
    if f.getparams()[:3] != (2, 3, 44100) or f.getnframes() != len(data) // 8:
        sys.exit("header: %s" % (f.getparams(),))
    words = f.readframes(f.getnframes())
low, high, limited = -2**23, 2**23 - 1, set()
wanted = bytearray()
for x, in struct.iter_unpack("<f", data):
    n = round(fractions.Fraction(x) * 2**23)
    if not low <= n <= high:
        limited.add("below" if n < low else "above")
    wanted += max(low, min(n, high)).to_bytes(3, "little", signed=True)
if bytes(wanted) != words:
    sys.exit("at byte %d" % next(i for i in range(len(words)) if wanted[i] != words[i]))
if "card" in sys.argv[2] and len(limited) < 2:
    sys.exit("nothing is held at full scale")
END
    done
done
for words in mono "stereo left" "stereo right"; do
    set -- $words
    tools/status.sh "$bin/render" "$work/${1}24.wav" "$work/back.wav" plate 0 0 24bit ${2-} 2>"$work/err" || fail "$words: $(cat "$work/err")"
    python3 - "$work/${1}24.wav" "$work/back.wav" "${2-}" <<'END' || fail "$words: a sound of 24 bits is changed on its way"
import sys, wave
def words(path):
    with wave.open(path) as f:
        data = f.readframes(f.getnframes())
        return f.getnchannels(), [data[i:i + 3] for i in range(0, len(data), 3)]
channels, there = words(sys.argv[1])
both, back = words(sys.argv[2])
one = there[sys.argv[3] == "right"::channels]
sys.exit(both != 2 or len(one) < 2500 or back[0::2] != one or back[1::2] != one)
END
done
python3 tools/picture.py "$work/back.wav" "$work/back.svg" || fail "tools/picture.py does not draw words of 24 bits"
echo "users.sh: words of 24 bits are the nearest, and come back as they were"

# ---- the end of the line: what rig writes, its stored output and an independent reading are the same 64 bytes; a full disk is told
python3 tools/rig_vectors.py >"$work/rig.bytes" || fail "tools/rig_vectors.py"
"$bin/rig" | cmp -s - "$work/rig.bytes" && cmp -s crates/rig/stdout "$work/rig.bytes" || fail "rig writes other bytes than tools/rig_vectors.py"
"$bin/rig" >/dev/full 2>"$work/err" && fail "rig takes a full disk for a success"
[ -s "$work/err" ] || fail "rig does not tell that a disk is full"
echo "users.sh: rig writes what an independent reading says"

# ---- play judges its words before it proves anything, and says how it is used
./play --help | grep -q 'IN OUT' || fail "play --help"
for words in "missing.wav" "$work/in.wav $work/hard.wav" "$work/in.wav $work/o.wav loud" "$work/in.wav 0.5 more" "$work/in.wav $work/o.wav 0.5 601" "a b c d e" "$work/own.card"; do
    # the words stand apart by spaces
    ! timeout 5 ./play $words >"$work/said" 2>&1 || fail "play takes: $words"
    grep -q '^play: ' "$work/said" || fail "play $words: $(cat "$work/said")"
done
python3 tools/picture.py "$work/plate.wav" "$work/plate.svg" || fail "tools/picture.py"
python3 -c "import sys, xml.dom.minidom; xml.dom.minidom.parse(sys.argv[1])" "$work/plate.svg" || fail "tools/picture.py writes no SVG"
echo "users.sh: play refuses wrong words before it proves; a picture is drawn"
rm -rf tools/__pycache__
