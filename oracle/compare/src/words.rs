//! The conversions one by one, through boards that pass samples on as they are: every word in and straight out, and floats
//! out, which no input need bring, as lent memory may hold any bits.
use crate::boards::{node, to_bytes};
use crate::cases::Packed;
use crate::library::{self, answer, Lent};
use crate::model::{sample_of, word_of, words, Board, WORD};

const SIZE: usize = 128;

fn hold(what: impl Fn() -> String, holds: bool) -> Result<(), String> {
    if holds {
        Ok(())
    } else {
        Err(what())
    }
}

/// A board in memory of its own, run by packed blocks.
struct Through {
    start: [usize; 2],
    board: Lent,
    memory: Lent,
    input: Lent,
    out: [Lent; 2],
}

impl Through {
    /// The board in fresh memory, of which `samples` looks at two nodes.
    fn new(board: &Board, nodes: [usize; 2]) -> Result<Self, String> {
        let block = || Lent::new(&[0; WORD * SIZE]);
        let mut through = Through {
            start: nodes.map(|k| board.cell_start(k) + 12),
            board: Lent::new(&to_bytes(board)),
            memory: Lent::new(&vec![0x33; board.memory_length()]),
            input: block(),
            out: [block(), block()],
        };
        let found = library::fresh(&through.board, &mut through.memory);
        hold(|| format!("fresh answers {found:?}"), found == answer(0, 0))?;
        Ok(through)
    }
    /// The bytes of one of the two nodes' samples.
    fn samples(&mut self, which: usize) -> &mut [u8] {
        &mut self.memory.get_mut()[self.start[which]..][..4 * SIZE]
    }
    fn block(&mut self) -> Result<(), String> {
        let [out0, out1] = &mut self.out;
        let found = library::block24(&self.board, &mut self.memory, &self.input, out0, out1);
        hold(|| format!("a packed block answers {found:?}"), found == answer(0, 0))?;
        let lent = [&self.board, &self.memory, &self.input, &self.out[0], &self.out[1]];
        hold(|| "a byte beside what was lent is changed".into(), lent.iter().all(|lent| lent.guarded()))
    }
}

/// All 2^24 words, from the input pass to node 0: the samples are w / 2^23, and both outputs the words that went in.
pub fn every_word() -> Result<u32, String> {
    let board = Board { size: SIZE, input: 1, nodes: vec![node(3, 0, 0.0), node(1, 0, 0.0)], wires: vec![(1, 0)] };
    let mut through = Through::new(&board, [1, 1])?;
    let mut count = 0;
    for first in (0..1u32 << 24).step_by(SIZE) {
        for (i, word) in through.input.get_mut().chunks_mut(WORD).enumerate() {
            word.copy_from_slice(&(first + i as u32).to_le_bytes()[..WORD]);
        }
        through.block()?;
        let samples = words(through.samples(0));
        for (i, word) in through.input.get().chunks(WORD).enumerate() {
            let (expected, found) = (f32::from_bits(sample_of(word)), f32::from_bits(samples[i]));
            hold(
                || format!("word {word:02x?} comes in as {found:?} ({:08x}), expected {expected:?}", samples[i]),
                expected.to_bits() == samples[i],
            )?;
            for out in &through.out {
                let back = &out.get()[WORD * i..][..WORD];
                hold(|| format!("word {word:02x?} comes back as {back:02x?}"), word == back)?;
            }
            count += 1;
        }
    }
    Ok(count)
}

/// The samples halfway between two words, all of them, and the two beside each; those around the limits, zeros, infinities
/// and NaN; and every `step`-th pattern from `first` on.
fn patterns(first: u32, step: usize) -> impl Iterator<Item = u32> {
    let halfway = (0..1u32 << 23).map(|k| ((2 * k + 1) as f32 / 16777216.0).to_bits());
    let edges = [0, 1, 0x007fffff, 0x00800000, 0x3f7fffff, 0x3f800000, 0x3f800001, 0x40000000, 0x7f7fffff, 0x7f800000];
    let nan = [0x7f800001, 0x7fa00000, 0x7fbfffff, 0x7fc00000, 0x7fc00001, 0x7fffffff];
    let positive = halfway.flat_map(|bits| [bits - 1, bits, bits + 1]).chain(edges).chain(nan);
    positive.flat_map(|bits| [bits, bits | 1 << 31]).chain((first..=u32::MAX).step_by(step))
}

/// Floats out. Two passes without wires keep what the memory holds and a balance makes the two outputs of them; node 0 adds
/// each to 0, which leaves the word as it is.
pub fn floats_out(first: u32, step: usize, seen: &mut Packed) -> Result<(), String> {
    let pass = node(1, 0, 0.0);
    let nodes = vec![node(3, 0, 0.0), pass.clone(), pass.clone(), pass, node(4, 0, 0.0)];
    let board = Board { size: SIZE, input: 1, nodes, wires: vec![(2, 4), (3, 4), (4, 0)] };
    let mut through = Through::new(&board, [2, 3])?;
    let mut patterns = patterns(first, step);
    loop {
        let samples: Vec<u32> = patterns.by_ref().take(2 * SIZE).collect();
        if samples.is_empty() {
            return Ok(());
        }
        for (which, part) in samples.chunks(SIZE).enumerate() {
            for (bytes, bits) in through.samples(which).chunks_mut(4).zip(part) {
                bytes.copy_from_slice(&bits.to_le_bytes());
            }
        }
        through.block()?;
        for (part, out) in samples.chunks(SIZE).zip(&through.out) {
            for (&bits, found) in part.iter().zip(out.get().chunks(WORD)) {
                let (x, expected) = (f32::from_bits(bits), word_of(bits));
                hold(
                    || format!("{x:?} ({bits:08x}) goes out as {found:02x?}, expected {expected:02x?}"),
                    found == expected,
                )?;
                seen.count(bits);
            }
        }
    }
}
