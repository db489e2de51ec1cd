//! A case is a board, what is changed in its fresh memory, and a list of calls. It is run three times side by side: in the
//! library, in the model, and, where the board is accepted, its memory fresh and no wire changed so far, in the original
//! Rust.
use crate::boards::{text, to_bytes};
use crate::library::{self, answer, Answer, Lent, Wiring};
use crate::model::{self, bytes_of, judge, samples_of_words, word, word_of, words, Board, WORD};
use crate::original::{of_board, Original};

/// What a block's bytes hold: a float or a converter's word for each sample.
#[derive(Clone, Copy, Debug, PartialEq)]
pub enum Form {
    Floats,
    Words,
}

impl Form {
    /// The bytes of a sample.
    pub fn width(self) -> usize {
        match self {
            Form::Floats => 4,
            Form::Words => WORD,
        }
    }
    /// A block as the patterns of its samples.
    pub fn samples(self, block: &[u8]) -> Vec<u32> {
        match self {
            Form::Floats => words(block),
            Form::Words => samples_of_words(block),
        }
    }
    pub fn in_model(self, board: &[u8], memory: &mut [u8], input: &[u8], out: [&mut [u8]; 2]) -> Answer {
        let [out0, out1] = out;
        match self {
            Form::Floats => model::block(board, memory, input, out0, out1),
            Form::Words => model::block24(board, memory, input, out0, out1),
        }
    }
    pub fn in_library(self, board: &Lent, memory: &mut Lent, input: &Lent, out: [&mut Lent; 2]) -> Answer {
        let [out0, out1] = out;
        match self {
            Form::Floats => library::block(board, memory, input, out0, out1),
            Form::Words => library::block24(board, memory, input, out0, out1),
        }
    }
}

#[derive(Clone, Debug)]
pub enum Call {
    /// Input bytes and the lengths of the two outputs.
    Block(Form, Vec<u8>, usize, usize),
    Message(u32, f32),
    Mix(f32),
    Wire(Change),
}

/// A wire to add or to pull.
#[derive(Clone, Debug)]
pub struct Change {
    pub adding: bool,
    pub source: u16,
    pub target: u16,
    /// How many bytes are lent behind the board; below 0, how many of the board's own are missing.
    pub spare: isize,
    pub said: Said,
}

/// The board's length as the caller gives it: by how much it is off, or a number whatever the length is.
#[derive(Clone, Copy, Debug, PartialEq)]
pub enum Said {
    Off(isize),
    Is(usize),
}

/// Bytes of which the first `length` are the board, as the changes so far have left them.
#[derive(Clone)]
pub struct Panel {
    bytes: Vec<u8>,
    length: usize,
}

impl Panel {
    pub fn new(board: &[u8]) -> Self {
        Panel { bytes: board.to_vec(), length: board.len() }
    }
    pub fn board(&self) -> &[u8] {
        &self.bytes[..self.length]
    }
    /// A change's bytes as they are lent, and how many of them are said to be the board.
    fn lent(&mut self, change: &Change) -> (&mut [u8], usize) {
        let length = self.length.saturating_add_signed(change.spare);
        self.bytes.extend((self.bytes.len()..length).map(|i| (i * 29 + 7) as u8));
        let said = match change.said {
            Said::Off(off) => self.length.saturating_add_signed(off),
            Said::Is(said) => said,
        };
        (&mut self.bytes[..length], said)
    }
    /// The change in the model.
    pub fn change(&mut self, change: &Change) -> Wiring {
        let (bytes, said) = self.lent(change);
        let call = if change.adding { model::add_wire } else { model::pull_wire };
        let answered = call(bytes, said, change.source, change.target);
        if answered.number == 0 {
            self.length = if change.adding { said + 8 } else { said - 8 };
        }
        answered
    }
}

#[derive(Clone, Debug)]
pub struct Case {
    pub board: Vec<u8>,
    /// Other than the length that the board needs.
    pub memory_length: Option<usize>,
    /// Words put into the fresh memory: offset in bytes, pattern.
    pub changes: Vec<(usize, u32)>,
    pub calls: Vec<Call>,
}

/// What was seen: answers by number, blocks held against the original, and changes of wires.
#[derive(Default)]
pub struct Seen {
    pub answers: [u64; 17],
    pub blocks: u64,
    pub original_blocks: u64,
    pub not_finite: u64,
    pub tails: u64,
    pub added: u64,
    pub pulled: u64,
    /// Changes after which the visiting list is another one, those that list 64 nodes, wires that would be the 129th,
    /// blocks after a change, and nodes with a line, y1 or phase that are run again after they stood still in a block.
    pub relisted: u64,
    pub longest: u64,
    pub too_many: u64,
    pub rewired_blocks: u64,
    pub back: u64,
    pub packed: Packed,
}

/// Packed blocks, those of them held against the original, and of the samples that went out as words: held at the upper
/// and at the lower limit, halfway between two whole numbers, NaN as 0.
#[derive(Clone, Copy, Default)]
pub struct Packed {
    pub blocks: u64,
    pub original_blocks: u64,
    pub words: u64,
    pub held: [u64; 2],
    pub ties: u64,
    pub nan: u64,
}

impl Packed {
    pub fn count(&mut self, sample: u32) {
        let number = f32::from_bits(sample) as f64 * 8388608.0;
        self.words += 1;
        self.held[0] += (number >= 8388607.5) as u64;
        self.held[1] += (number < -8388608.5) as u64;
        self.ties += (number.fract().abs() == 0.5) as u64;
        self.nan += number.is_nan() as u64;
    }
}

impl std::fmt::Display for Packed {
    fn fmt(&self, f: &mut std::fmt::Formatter) -> std::fmt::Result {
        let Packed { words, held: [upper, lower], ties, nan, .. } = self;
        write!(
            f,
            "{words} words out, {upper} held at the upper limit, {lower} at the lower, {ties} ties, {nan} NaN as 0"
        )
    }
}

/// The board's offset of a cell's samples of a channel.
fn samples_at(board: &Board, node: usize, channel: usize) -> usize {
    board.cell_start(node) + 12 + 4 * board.size * channel
}

pub fn same_float(a: u32, b: f32) -> bool {
    a == b.to_bits() || f32::from_bits(a).is_nan() && b.is_nan()
}

/// Every node's buffer in the original and in the lent memory.
pub fn same_samples(board: &Board, memory: &[u8], original: &dyn Original) -> Result<(), String> {
    for k in board.order().into_iter().chain(0..board.nodes.len()) {
        for channel in 0..board.nodes[k].channels() {
            let at = samples_at(board, k, channel);
            for (i, &x) in original.samples(k, channel).iter().enumerate() {
                let bits = word(memory, at + 4 * i);
                if !same_float(bits, x) {
                    return Err(format!(
                        "node {k} channel {channel} sample {i}: the original has {x:?} ({:08x}), the library {:?} ({bits:08x})",
                        x.to_bits(), f32::from_bits(bits)));
                }
            }
        }
    }
    Ok(())
}

fn same<T: PartialEq + std::fmt::Debug>(what: &str, expected: T, found: T) -> Result<(), String> {
    if expected == found {
        return Ok(());
    }
    Err(format!("{what}: expected {expected:?}, found {found:?}"))
}

fn same_bytes(what: &str, expected: &[u8], found: &Lent) -> Result<(), String> {
    if !found.guarded() {
        return Err(format!("{what}: a byte beside what was lent is changed"));
    }
    match expected.iter().zip(found.get()).position(|(a, b)| a != b) {
        None => Ok(()),
        Some(at) => Err(format!("{what}: byte {at} is {:02x}, expected {:02x}", found.get()[at], expected[at])),
    }
}

struct Running {
    panel: Panel,
    accepted: Option<Board>,
    rewired: bool,
    /// The nodes that were not run by the last block.
    still: Vec<usize>,
    board: Lent,
    memory: Lent,
    expected: Vec<u8>,
    original: Option<Box<dyn Original>>,
    /// Samples run so far, the first time from which the input is zero for good, and the tail.
    time: u64,
    zero_from: u64,
    tail: u32,
}

impl Running {
    fn start(case: &Case) -> Result<Running, String> {
        let board = Lent::new(&case.board);
        let accepted = judge(&case.board).ok();
        same("judge", model::judge_answer(&case.board), library::judge(&board))?;
        let tail = model::tail_answer(&case.board);
        same("tail", tail, library::tail(&board))?;
        let needed = accepted.as_ref().map_or(64, Board::memory_length);
        let mut expected: Vec<u8> = (0..case.memory_length.unwrap_or(needed)).map(|i| (i * 37 + 11) as u8).collect();
        let mut memory = Lent::new(&expected);
        let answered = model::fresh(&case.board, &mut expected);
        same("fresh", answered, library::fresh(&board, &mut memory))?;
        same_bytes("memory after fresh", &expected, &memory)?;
        let length = expected.len();
        for &(at, bits) in case.changes.iter().filter(|(at, _)| at + 4 <= length) {
            expected[at..at + 4].copy_from_slice(&bits.to_le_bytes());
            memory.get_mut()[at..at + 4].copy_from_slice(&bits.to_le_bytes());
        }
        let unchanged = answered.number == 0 && case.changes.is_empty();
        let original = accepted.as_ref().filter(|_| unchanged).and_then(of_board);
        let tail = if unchanged { tail.place } else { model::ENDLESS };
        let panel = Panel::new(&case.board);
        Ok(Running {
            panel,
            accepted,
            rewired: false,
            still: vec![],
            board,
            memory,
            expected,
            original,
            time: 0,
            zero_from: 0,
            tail,
        })
    }

    /// Output is zero at most a tail after the input turned zero for good.
    fn tail_holds(&mut self, input: &[u32], outputs: [&[u32]; 2], seen: &mut Seen) -> Result<(), String> {
        if self.tail == model::ENDLESS {
            return Ok(());
        }
        let zero = |bits: u32| bits & 0x7fffffff == 0;
        for (i, &bits) in input.iter().enumerate() {
            let now = self.time + i as u64;
            if !zero(bits) {
                self.zero_from = now + 1;
            }
            if now >= self.zero_from + self.tail as u64 {
                seen.tails += 1;
                if !outputs.iter().all(|output| zero(output[i])) {
                    return Err(format!(
                        "output at {now} after the tail {} of input zero from {}",
                        self.tail, self.zero_from
                    ));
                }
            }
        }
        Ok(())
    }

    fn block(&mut self, form: Form, input: &[u8], lengths: [usize; 2], seen: &mut Seen) -> Result<Answer, String> {
        let [mut expected0, mut expected1] = lengths.map(|length| vec![0xee; length]);
        let (lent, mut out0, mut out1) = (Lent::new(input), Lent::new(&expected0), Lent::new(&expected1));
        let expected = form.in_model(self.panel.board(), &mut self.expected, input, [&mut expected0, &mut expected1]);
        same("answer", expected, form.in_library(&self.board, &mut self.memory, &lent, [&mut out0, &mut out1]))?;
        same_bytes("input", input, &lent)?;
        if expected.number == 0 {
            seen.blocks += 1;
            seen.rewired_blocks += self.rewired as u64;
            self.count_back(seen);
            if form == Form::Words {
                self.count_packed(seen);
            }
            let samples = form.samples(input);
            if let (Some(original), Some(board)) = (&mut self.original, &self.accepted) {
                seen.original_blocks += 1;
                seen.packed.original_blocks += (form == Form::Words) as u64;
                original.block(&samples.iter().map(|&bits| f32::from_bits(bits)).collect::<Vec<_>>());
                same_samples(board, self.memory.get(), &**original)?;
                for (channel, out) in [&out0, &out1].into_iter().enumerate() {
                    for (bytes, &x) in out.get().chunks(form.width()).zip(original.samples(0, channel)) {
                        let (same, found) = match form {
                            Form::Floats => (same_float(word(bytes, 0), x), f32::from_bits(word(bytes, 0))),
                            Form::Words => (bytes == word_of(x.to_bits()), f32::from_bits(samples_of_words(bytes)[0])),
                        };
                        if !same {
                            return Err(format!("output {channel}: the original has {x:?}, the library {found:?}"));
                        }
                        seen.not_finite += !x.is_finite() as u64;
                    }
                }
            }
            // Of a packed block the samples that its words were made of, as small ones go out as 0 too.
            let [left, right] = match form {
                Form::Floats => [words(out0.get()), words(out1.get())],
                Form::Words => self.outputs(),
            };
            self.tail_holds(&samples, [&left, &right], seen)?;
            self.time += samples.len() as u64;
        }
        same_bytes("output 0 (model)", &expected0, &out0)?;
        same_bytes("output 1 (model)", &expected1, &out1)?;
        Ok(expected)
    }

    /// Node 0's samples, which are what a block gives out; none on a refused board.
    fn outputs(&self) -> [Vec<u32>; 2] {
        let Some(board) = &self.accepted else { return Default::default() };
        [0, 1].map(|channel| words(&self.memory.get()[samples_at(board, 0, channel)..][..4 * board.size]))
    }

    fn count_packed(&self, seen: &mut Seen) {
        seen.packed.blocks += 1;
        self.outputs().concat().into_iter().for_each(|sample| seen.packed.count(sample));
    }

    fn count_back(&mut self, seen: &mut Seen) {
        let Some(board) = self.accepted.as_ref() else { return };
        let order = board.order();
        let back = |k: &&usize| order.contains(k) && (7..=10).contains(&board.nodes[**k].kind);
        seen.back += self.still.iter().filter(back).count() as u64;
        self.still = (0..board.nodes.len()).filter(|k| !order.contains(k)).collect();
    }

    /// Every byte lent is compared, those behind the board too. A rewired board is played on in library and model: there
    /// is no original of it, and no tail is promised.
    fn change(&mut self, change: &Change, seen: &mut Seen) -> Result<Answer, String> {
        let (bytes, said) = self.panel.lent(change);
        let (mut lent, count) = (Lent::new(bytes), bytes.len());
        let call = if change.adding { library::add_wire } else { library::pull_wire };
        let found = call(&mut lent, said, change.source, change.target);
        let expected = self.panel.change(change);
        let answered = answer(expected.number, expected.place);
        same("answer", answered, answer(found.number, found.place))?;
        same("nodes listed", expected.count, found.count)?;
        same("list", &expected.listed[..], &found.listed[..])?;
        same_bytes("bytes lent", &self.panel.bytes[..count], &lent)?;
        seen.longest += (expected.count == 64) as u64;
        seen.too_many += (answered.number == 5 && self.accepted.as_ref().is_some_and(|b| b.wires.len() == 128)) as u64;
        if answered.number == 0 {
            *if change.adding { &mut seen.added } else { &mut seen.pulled } += 1;
            let before = self.accepted.as_ref().map(Board::order);
            self.board = Lent::new(self.panel.board());
            self.accepted = judge(self.panel.board()).ok();
            seen.relisted += (before != self.accepted.as_ref().map(Board::order)) as u64;
            (self.rewired, self.original, self.tail) = (true, None, model::ENDLESS);
            same("judge of the new board", model::judge_answer(self.panel.board()), library::judge(&self.board))?;
            same("tail of the new board", model::tail_answer(self.panel.board()), library::tail(&self.board))?;
        }
        Ok(answered)
    }

    fn call(&mut self, call: &Call, seen: &mut Seen) -> Result<(), String> {
        let answered = match call {
            Call::Block(form, input, length0, length1) => self.block(*form, input, [*length0, *length1], seen)?,
            Call::Message(node, value) => {
                let expected = model::message(self.panel.board(), &mut self.expected, *node, *value);
                same("answer", expected, library::message(&self.board, &mut self.memory, *node, *value))?;
                if let (Some(original), 0) = (&mut self.original, expected.number) {
                    original.message(*node as usize, *value);
                }
                expected
            }
            Call::Mix(value) => {
                let expected = model::mix(self.panel.board(), &mut self.expected, *value);
                same("answer", expected, library::mix(&self.board, &mut self.memory, *value))?;
                if let (Some(original), 0) = (&mut self.original, expected.number) {
                    original.mix(*value);
                }
                expected
            }
            Call::Wire(change) => self.change(change, seen)?,
        };
        seen.answers[answered.number as usize] += 1;
        same_bytes("memory (model)", &self.expected, &self.memory)?;
        same_bytes("board", self.panel.board(), &self.board)
    }
}

/// Runs a case; the first difference, if there is one.
pub fn compare(case: &Case, seen: &mut Seen) -> Result<(), String> {
    let mut running = Running::start(case)?;
    seen.answers[judge(&case.board).map_or_else(|refused| refused.number, |_| 0) as usize] += 1;
    for (k, call) in case.calls.iter().enumerate() {
        running.call(call, seen).map_err(|difference| format!("call {k}: {difference}"))?;
    }
    Ok(())
}

fn fails(case: &Case) -> bool {
    compare(case, &mut Seen::default()).is_err()
}

/// The case on a board without node k, its wires and the messages to it, and without changes of its wires.
fn without_node(case: &Case, board: &Board, k: usize) -> Case {
    let moved = |node: usize| node - (node > k) as usize;
    let mut smaller = board.clone();
    smaller.nodes.remove(k);
    smaller.input = moved(board.input);
    smaller.wires = board.wires.iter().filter(|w| w.0 != k && w.1 != k).map(|w| (moved(w.0), moved(w.1))).collect();
    let calls = case.calls.iter().filter(|call| match call {
        Call::Message(node, _) => *node as usize != k,
        Call::Wire(change) => change.source as usize != k && change.target as usize != k,
        _ => true,
    });
    let calls = calls.map(|call| match call {
        Call::Message(node, value) => Call::Message(moved(*node as usize) as u32, *value),
        Call::Wire(change) => {
            let [source, target] = [change.source, change.target].map(|node| moved(node as usize) as u16);
            Call::Wire(Change { source, target, ..change.clone() })
        }
        other => other.clone(),
    });
    Case { board: to_bytes(&smaller), calls: calls.collect(), ..case.clone() }
}

/// The case with wires and messages of node k led past it: its targets take its first source.
fn around_node(case: &Case, board: &Board, k: usize) -> Option<Case> {
    let source = *board.wires_into(k).first()?;
    let mut led = board.clone();
    led.wires.retain(|w| w.1 != k);
    led.wires.iter_mut().filter(|w| w.0 == k).for_each(|w| w.0 = source);
    led.wires.retain(|w| w.0 != w.1);
    Some(without_node(&Case { board: to_bytes(&led), ..case.clone() }, &led, k))
}

/// The case with another block size.
fn with_size(case: &Case, board: &Board, size: usize) -> Case {
    let calls = case.calls.iter().map(|call| match call {
        Call::Block(form, input, length0, length1) => {
            // What a length is off stays as it is.
            let off = |length: usize| (length + form.width() * size).saturating_sub(form.width() * board.size);
            let mut input = input.clone();
            input.resize(off(input.len()), 0);
            Call::Block(*form, input, off(*length0), off(*length1))
        }
        other => other.clone(),
    });
    Case { board: to_bytes(&Board { size, ..board.clone() }), calls: calls.collect(), ..case.clone() }
}

/// All cases one step smaller than a case.
fn smaller(case: &Case) -> Vec<Case> {
    let mut found = vec![];
    let count = case.calls.len();
    for part in [count / 2, count / 4, 1] {
        for start in (0..count).step_by(part.max(1)).filter(|_| part > 0) {
            let mut calls = case.calls.clone();
            calls.drain(start..(start + part).min(count));
            found.push(Case { calls, ..case.clone() });
        }
    }
    for k in 0..case.changes.len() {
        let mut changes = case.changes.clone();
        changes.remove(k);
        found.push(Case { changes, ..case.clone() });
    }
    if let (Ok(board), true) = (judge(&case.board), case.changes.is_empty()) {
        for k in 1..board.nodes.len() {
            found.push(without_node(case, &board, k));
            found.extend(around_node(case, &board, k));
        }
        for w in 0..board.wires.len() {
            let mut fewer = board.clone();
            fewer.wires.remove(w);
            found.push(Case { board: to_bytes(&fewer), ..case.clone() });
        }
        for size in [1, 2, 3, 4, 8, 16, 64].into_iter().filter(|&size| size < board.size) {
            found.push(with_size(case, &board, size));
        }
    } else if case.changes.is_empty() {
        // A damaged board: single records out, or its end.
        let mut at = 0;
        while at + 4 <= case.board.len() {
            let end = at + (model::half(&case.board, at) as usize).max(4);
            if end <= case.board.len() {
                found.push(Case { board: [&case.board[..at], &case.board[end..]].concat(), ..case.clone() });
            }
            at = end;
        }
    }
    for k in 0..count {
        if let Call::Wire(change) = &case.calls[k] {
            for (spare, said) in [(8, change.said), (change.spare, Said::Off(0))] {
                if (spare, said) != (change.spare, change.said) {
                    let mut calls = case.calls.clone();
                    calls[k] = Call::Wire(Change { spare, said, ..change.clone() });
                    found.push(Case { calls, ..case.clone() });
                }
            }
        }
        if let Call::Block(form, input, length0, length1) = &case.calls[k] {
            let mut put = |call: Call| {
                let mut calls = case.calls.clone();
                calls[k] = call;
                found.push(Case { calls, ..case.clone() });
            };
            // A packed block as the float block of the same samples, if its lengths are right.
            let size = input.len() / form.width();
            if *form == Form::Words && [input.len(), *length0, *length1] == [WORD * size; 3] {
                put(Call::Block(Form::Floats, bytes_of(&form.samples(input)), 4 * size, 4 * size));
            }
            let loud = form.samples(input).into_iter().enumerate().filter(|&(_, bits)| bits != 0);
            for (i, _) in loud.take(16) {
                let mut silenced = input.clone();
                silenced[form.width() * i..form.width() * (i + 1)].fill(0);
                put(Call::Block(*form, silenced, *length0, *length1));
            }
        }
    }
    found
}

/// The smallest failing case found by leaving out calls, nodes, wires and samples as long as it still fails.
pub fn shrink(case: &Case) -> Case {
    let mut best = case.clone();
    for _ in 0..2000 {
        match smaller(&best).into_iter().find(fails) {
            Some(next) => best = next,
            None => break,
        }
    }
    best
}

/// A case for a reader.
pub fn describe(case: &Case) -> String {
    let mut lines = vec![match judge(&case.board) {
        Ok(board) => text(&board),
        Err(answer) => format!("a board refused with {}, {}: {:02x?}", answer.number, answer.place, case.board),
    }];
    if let Some(length) = case.memory_length {
        lines.push(format!("memory of {length} bytes"));
    }
    lines.extend(case.changes.iter().map(|(at, bits)| format!("memory byte {at}: word {bits:08x}")));
    for (k, call) in case.calls.iter().enumerate() {
        lines.push(match call {
            Call::Block(form, input, length0, length1) => {
                let samples: Vec<_> = form.samples(input).into_iter().map(f32::from_bits).collect();
                let name = if *form == Form::Words { "packed block" } else { "block" };
                let mut line = format!("call {k}: {name} {samples:?}");
                if [*length0, *length1] != [input.len(); 2] || input.len() % form.width() != 0 {
                    line += &format!(" of {} bytes, outputs of {length0} and {length1}", input.len());
                }
                line
            }
            Call::Message(node, value) => format!("call {k}: message {node} {value:?}"),
            Call::Mix(value) => format!("call {k}: mix {value:?}"),
            Call::Wire(change) => {
                let name = if change.adding { "add" } else { "pull" };
                let mut line = format!("call {k}: {name} {}→{}", change.source, change.target);
                line += &format!(", {} bytes lent behind the board", change.spare);
                match change.said {
                    Said::Off(0) => {}
                    Said::Off(off) => line += &format!(", its length given {off} off"),
                    Said::Is(said) => line += &format!(", its length given as {said}"),
                }
                line
            }
        });
    }
    lines.join("\n")
}

/// What the program `rig` must write, in all three readings: the printed board driven by noise from the default start, of
/// each block the two output blocks, channel 0 first.
pub fn rig_holds(written: &[u8]) -> Result<(), String> {
    let board = crate::boards::printed();
    let bytes = to_bytes(&board);
    let lent = Lent::new(&bytes);
    let mut memory = Lent::new(&vec![0; board.memory_length()]);
    same("fresh", answer(0, 0), library::fresh(&lent, &mut memory))?;
    let mut expected = memory.get().to_vec();
    let mut original = of_board(&board).ok_or("the original has no blocks of two samples")?;
    let mut noise = model::Noise::new(0);
    same("bytes", 64, written.len())?;
    for wanted in written.chunks(16) {
        let samples: Vec<f32> = (0..2).map(|_| noise.sample()).collect();
        let input = bytes_of(&samples.iter().map(|x| x.to_bits()).collect::<Vec<_>>());
        let (mut out0, mut out1) = (Lent::new(&[0; 8]), Lent::new(&[0; 8]));
        let answered = library::block(&lent, &mut memory, &Lent::new(&input), &mut out0, &mut out1);
        same("block", answer(0, 0), answered)?;
        same_bytes("output 0", &wanted[..8], &out0)?;
        same_bytes("output 1", &wanted[8..], &out1)?;
        let (mut left, mut right) = ([0; 8], [0; 8]);
        same("block (model)", answer(0, 0), model::block(&bytes, &mut expected, &input, &mut left, &mut right))?;
        same("outputs (model)", wanted, &[left, right].concat()[..])?;
        same_bytes("memory (model)", &expected, &memory)?;
        original.block(&samples);
        let given: Vec<u32> =
            [0, 1].iter().flat_map(|&channel| original.samples(0, channel)).map(|x| x.to_bits()).collect();
        same("outputs (original)", wanted, &bytes_of(&given)[..])?;
    }
    Ok(())
}

/// Document 01's printed board with its three blocks, and what it gives.
pub fn printed_holds() -> Result<(), String> {
    let board = crate::boards::printed();
    same("order", vec![1, 4, 2, 3, 0], board.order())?;
    same("late", vec![(3, 4)], board.late())?;
    let lent = Lent::new(&to_bytes(&board));
    let mut memory = Lent::new(&vec![0; board.memory_length()]);
    same("fresh", answer(0, 0), library::fresh(&lent, &mut memory))?;
    for (input, output) in [([1.0f32, 0.0], [0.0f32, 1.0]), ([0.0; 2], [0.0; 2]), ([0.0; 2], [0.5, 0.0])] {
        let input = Lent::new(&bytes_of(&input.map(f32::to_bits)));
        let (mut out0, mut out1) = (Lent::new(&[0; 8]), Lent::new(&[0; 8]));
        same("block", answer(0, 0), library::block(&lent, &mut memory, &input, &mut out0, &mut out1))?;
        same_bytes("output 0", &bytes_of(&output.map(f32::to_bits)), &out0)?;
        same_bytes("output 1", &bytes_of(&output.map(f32::to_bits)), &out1)?;
    }
    Ok(())
}
