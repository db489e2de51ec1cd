//! Document 01 in plain Rust, and document 02's packed blocks and changes of wires, written from the documents alone and
//! with no care for speed: vectors, one cell for each node, floats as patterns. Every answer, output byte and memory byte
//! of the library is held against it.
use crate::library::{answer, Answer, Wiring, OK};

pub const NAN: u32 = 0x7fc00000;
pub const ENDLESS: u32 = 4294967295;
pub const PLATE_BYTES: usize = 1270;

#[derive(Clone, Debug, PartialEq)]
pub struct Node {
    pub kind: u16,
    pub n: u32,
    pub f: u32,
}

#[derive(Clone, Debug, PartialEq)]
pub struct Board {
    pub size: usize,
    pub input: usize,
    pub nodes: Vec<Node>,
    pub wires: Vec<(usize, usize)>,
}

pub fn half(bytes: &[u8], at: usize) -> u16 {
    u16::from_le_bytes([bytes[at], bytes[at + 1]])
}
pub fn word(bytes: &[u8], at: usize) -> u32 {
    u32::from_le_bytes(bytes[at..at + 4].try_into().unwrap())
}
pub fn words(bytes: &[u8]) -> Vec<u32> {
    bytes.chunks_exact(4).map(|b| word(b, 0)).collect()
}
pub fn bytes_of(words: &[u32]) -> Vec<u8> {
    words.iter().flat_map(|w| w.to_le_bytes()).collect()
}
fn float(bits: u32) -> f32 {
    f32::from_bits(bits)
}
/// A float as it is stored: every NaN by one pattern.
pub fn stored(x: f32) -> u32 {
    if x.is_nan() {
        NAN
    } else {
        x.to_bits()
    }
}

impl Node {
    pub fn channels(&self) -> usize {
        if matches!(self.kind, 3 | 4) {
            2
        } else {
            1
        }
    }
    pub fn line(&self) -> usize {
        match self.kind {
            7 => self.n as usize,
            8 => 2 * self.n as usize,
            _ => 0,
        }
    }
    pub fn takes_number(&self) -> bool {
        matches!(self.kind, 5 | 6 | 8 | 10)
    }
    pub fn number_fits(&self, x: f32) -> bool {
        if self.kind == 10 {
            (0.0..=44100.0).contains(&x)
        } else {
            x.is_finite()
        }
    }
    /// The fields of a node record keep the type's rules.
    fn fits(&self) -> bool {
        let line = (1..=132300).contains(&self.n);
        match self.kind {
            1..=4 => self.n == 0 && self.f == 0,
            7 => line && self.f == 0,
            8 => line && float(self.f).is_finite(),
            5 | 6 | 9 | 10 => self.n == 0 && self.number_fits(float(self.f)),
            _ => false,
        }
    }
    fn sources_fit(&self, count: usize) -> bool {
        match self.kind {
            1 => count <= 1,
            2 | 3 => count <= 8,
            4 => count == 2,
            5 | 6 | 8 => (1..=2).contains(&count),
            7 | 9 => count == 1,
            _ => count == 0,
        }
    }
}

impl Board {
    /// The sources of the wires into a node, in wire order, repeats and all.
    pub fn wires_into(&self, node: usize) -> Vec<usize> {
        self.wires.iter().filter(|w| w.1 == node).map(|w| w.0).collect()
    }
    /// The distinct sources of a node, by first wire.
    pub fn sources(&self, node: usize) -> Vec<usize> {
        let mut found = vec![];
        for source in self.wires_into(node) {
            if !found.contains(&source) {
                found.push(source);
            }
        }
        found
    }
    pub fn cell_words(&self, node: usize) -> usize {
        3 + self.size * self.nodes[node].channels() + self.nodes[node].line()
    }
    /// Where a node's cell starts in the memory, in bytes.
    pub fn cell_start(&self, node: usize) -> usize {
        (0..node).map(|k| 4 * self.cell_words(k)).sum()
    }
    pub fn memory_length(&self) -> usize {
        self.cell_start(self.nodes.len())
    }

    /// The listed nodes in order: mark, go to each source not yet marked, oldest wire first, then list.
    pub fn order(&self) -> Vec<usize> {
        fn visit(board: &Board, node: usize, marked: &mut [bool], list: &mut Vec<usize>) {
            marked[node] = true;
            for source in board.sources(node) {
                if !marked[source] {
                    visit(board, source, marked, list);
                }
            }
            list.push(node);
        }
        let mut list = vec![];
        visit(self, 0, &mut vec![false; self.nodes.len()], &mut list);
        list
    }
    /// The wires between listed nodes whose source is not earlier in the list.
    pub fn late(&self) -> Vec<(usize, usize)> {
        let list = self.order();
        let place = |node| list.iter().position(|&k| k == node);
        self.wires
            .iter()
            .copied()
            .filter(|&(s, t)| matches!((place(s), place(t)), (Some(s), Some(t)) if s >= t))
            .collect()
    }
    pub fn tail(&self) -> u32 {
        let list = self.order();
        let silent = list.iter().all(|&k| matches!(self.nodes[k].kind, 1..=5 | 7));
        if !silent || !self.late().is_empty() {
            return ENDLESS;
        }
        list.iter().map(|&k| self.nodes[k].line() as u32).sum()
    }
}

/// The records of a board, judged one by one (1 to 5).
fn read(bytes: &[u8]) -> Result<Board, Answer> {
    let mut board = Board { size: 0, input: 0, nodes: vec![], wires: vec![] };
    let (mut at, mut last) = (0, 0);
    while last != 4 {
        let refuse = |number| Err(answer(number, at as u32));
        let left = bytes.len() - at;
        if left < 4 || left < half(bytes, at) as usize {
            return refuse(1);
        }
        let (length, kind) = (half(bytes, at) as usize, half(bytes, at + 2));
        let placed = if last == 0 { kind == 1 } else { (2..=4).contains(&kind) && kind >= last };
        if !placed {
            return refuse(2);
        }
        if length != [8, 14, 8, 4][kind as usize - 1] {
            return refuse(1);
        }
        match kind {
            1 => {
                board.size = half(bytes, at + 4) as usize;
                board.input = half(bytes, at + 6) as usize;
                if !(1..=128).contains(&board.size) {
                    return refuse(3);
                }
            }
            2 => {
                let node = Node { kind: half(bytes, at + 4), n: word(bytes, at + 6), f: word(bytes, at + 10) };
                let first = board.nodes.is_empty();
                if board.nodes.len() == 64 || !node.fits() || first != (node.kind == 3) {
                    return refuse(4);
                }
                board.nodes.push(node);
                if board.nodes.iter().map(Node::line).sum::<usize>() > 262144 {
                    return refuse(4);
                }
            }
            3 => {
                let (source, target) = (half(bytes, at + 4) as usize, half(bytes, at + 6) as usize);
                let count = board.nodes.len();
                if board.wires.len() == 128 || source >= count || target >= count || source == target {
                    return refuse(5);
                }
                board.wires.push((source, target));
            }
            _ => {}
        }
        at += length;
        last = kind;
    }
    if at < bytes.len() {
        return Err(answer(1, at as u32));
    }
    Ok(board)
}

/// The board, or the answer of its refusal (1 to 6).
pub fn judge(bytes: &[u8]) -> Result<Board, Answer> {
    let board = read(bytes)?;
    if board.nodes.is_empty() {
        return Err(answer(6, 0));
    }
    let pass = board.nodes.get(board.input).is_some_and(|node| node.kind == 1);
    if !pass || !board.wires_into(board.input).is_empty() {
        return Err(answer(6, board.input as u32));
    }
    for (k, node) in board.nodes.iter().enumerate() {
        if !node.sources_fit(board.sources(k).len()) {
            return Err(answer(6, k as u32));
        }
    }
    Ok(board)
}

pub fn judge_answer(bytes: &[u8]) -> Answer {
    judge(bytes).map_or_else(|refused| refused, |board| answer(0, board.memory_length() as u32))
}
pub fn tail_answer(bytes: &[u8]) -> Answer {
    judge(bytes).map_or_else(|refused| refused, |board| answer(0, board.tail()))
}

/// A node's cell: the values as patterns.
struct Cell {
    number: u32,
    carry: u32,
    place: u32,
    samples: Vec<Vec<u32>>,
    line: Vec<u32>,
}

fn cells_of(board: &Board, memory: &[u8]) -> Vec<Cell> {
    let mut rest = &words(memory)[..];
    let mut take = |count: usize| {
        let (first, last) = rest.split_at(count);
        rest = last;
        first.to_vec()
    };
    let cell = |node: &Node| {
        let head = take(3);
        let samples = (0..node.channels()).map(|_| take(board.size)).collect();
        Cell { number: head[0], carry: head[1], place: head[2], samples, line: take(node.line()) }
    };
    board.nodes.iter().map(cell).collect()
}

fn memory_of(cells: &[Cell]) -> Vec<u8> {
    let mut all = vec![];
    for cell in cells {
        all.extend([cell.number, cell.carry, cell.place]);
        cell.samples.iter().for_each(|channel| all.extend(channel));
        all.extend(&cell.line);
    }
    bytes_of(&all)
}

/// Checks 7 and 8.
fn memory_judged(board: &Board, memory: &[u8]) -> Result<(), Answer> {
    if memory.len() != board.memory_length() {
        return Err(answer(7, board.memory_length() as u32));
    }
    for (k, (node, cell)) in board.nodes.iter().zip(cells_of(board, memory)).enumerate() {
        let number = if node.takes_number() { node.number_fits(float(cell.number)) } else { cell.number == 0 };
        let carry = match node.kind {
            9 => true,
            10 => (0.0..=1.0).contains(&float(cell.carry)),
            _ => cell.carry == 0,
        };
        let place = if node.line() > 0 { cell.place < node.n } else { cell.place == 0 };
        if !(number && carry && place) {
            return Err(answer(8, k as u32));
        }
    }
    Ok(())
}

pub fn fresh(bytes: &[u8], memory: &mut [u8]) -> Answer {
    let board = match judge(bytes) {
        Ok(board) => board,
        Err(refused) => return refused,
    };
    if memory.len() != board.memory_length() {
        return answer(7, board.memory_length() as u32);
    }
    memory.fill(0);
    for (k, node) in board.nodes.iter().enumerate().filter(|(_, node)| node.takes_number()) {
        memory[board.cell_start(k)..][..4].copy_from_slice(&node.f.to_le_bytes());
    }
    OK
}

pub fn sine(phase: f32) -> f32 {
    let u = (phase as f64 * 16777216.0).floor() as i64;
    let (q, r) = ((u / 4194304) % 4, u % 4194304);
    let t = if q % 2 == 1 { 4194304 - r } else { r };
    let z = t * t / 1048576;
    let mut h = 60;
    for k in [2692, 78547, 1337020, 10837479, 26353589] {
        h = k - z * h / 16777216;
    }
    let value = t * h / 8388608;
    (if q > 1 { -value } else { value }) as f32 / 8388608.0
}

/// Where a modulated all-pass of n reads: index and remainder.
fn position(m: f32, n: usize) -> (usize, f32) {
    let mut w = m / 1000.0 * 44100.0;
    if w.is_nan() || w < 0.0 {
        w = 0.0;
    }
    if w > n as f32 {
        w = n as f32;
    }
    let mut pos = -w;
    if pos < 0.0 {
        pos += n as f32;
    }
    (pos.floor() as usize, pos - pos.floor() + 0.0)
}

/// Runs one node: its table row at each sample of the block.
fn run_node(board: &Board, cells: &mut [Cell], k: usize) {
    let node = &board.nodes[k];
    let (wires, sources) = (board.wires_into(k), board.sources(k));
    let floats = |source: usize, channel: usize| -> Vec<f32> {
        let samples = &cells[source].samples;
        samples[channel.min(samples.len() - 1)].iter().map(|&bits| float(bits)).collect()
    };
    let total = |channel: usize| -> Vec<f32> {
        let blocks: Vec<_> = sources.iter().map(|&source| floats(source, channel)).collect();
        (0..board.size).map(|i| blocks.iter().fold(0.0, |sum, block| sum + block[i])).collect()
    };
    let first = wires.first().map(|&source| floats(source, 0));
    let second = wires.get(1).map(|&source| floats(source, 0));
    let modulated = sources.len() == 2;
    let number = float(cells[k].number);
    let n = node.n as usize;
    let x = |i: usize| first.as_ref().unwrap()[i];
    let operand = |i: usize| if modulated { second.as_ref().unwrap()[i] } else { number };

    let mut out: Vec<Vec<f32>> = vec![];
    let (mut carry, mut place) = (float(cells[k].carry), cells[k].place as usize);
    let mut line: Vec<f32> = cells[k].line.iter().map(|&bits| float(bits)).collect();
    let old_line = cells[k].line.clone();
    let mut pushed = vec![false; line.len()];
    match node.kind {
        1 if wires.is_empty() => return,
        1 => out.push(first.unwrap()),
        2 => out.push(total(0)),
        3 => out = vec![total(0), total(1)],
        4 => out = vec![first.unwrap(), second.unwrap()],
        5 => out.push((0..board.size).map(|i| x(i) * operand(i)).collect()),
        6 => out.push((0..board.size).map(|i| x(i) + operand(i)).collect()),
        7 => {
            let mut block = vec![];
            for i in 0..board.size {
                block.push(line[place]);
                line[place] = x(i);
                pushed[place] = true;
                place = (place + 1) % n;
            }
            out.push(block);
        }
        8 => {
            let mut block = vec![];
            for i in 0..board.size {
                let get = |line: &[f32], ring: usize, index: usize| line[ring + (place + index) % n];
                let read = |ring: usize| {
                    if !modulated {
                        return get(&line, ring, 0);
                    }
                    let (index, r) = position(operand(i), n);
                    get(&line, ring, index) * r + get(&line, ring, index + 1) * (1.0 - r)
                };
                let y = (-number * x(i) + read(0)) + number * read(n);
                block.push(y);
                (line[place], line[n + place]) = (x(i), y);
                (pushed[place], pushed[n + place]) = (true, true);
                place = (place + 1) % n;
            }
            out.push(block);
        }
        9 => {
            let b = float(node.f);
            let a = 1.0 - b;
            let mut block = vec![];
            for i in 0..board.size {
                carry = x(i) * a + b * carry;
                block.push(carry);
            }
            out.push(block);
        }
        _ => {
            let mut block = vec![];
            for _ in 0..board.size {
                block.push(sine(carry));
                carry += number / 44100.0;
                if carry > 1.0 {
                    carry -= 1.0;
                }
            }
            out.push(block);
        }
    }
    let cell = &mut cells[k];
    cell.samples = out.iter().map(|block| block.iter().map(|&y| stored(y)).collect()).collect();
    if matches!(node.kind, 9 | 10) {
        cell.carry = stored(carry);
    }
    cell.place = place as u32;
    // What was not pushed keeps its bits.
    cell.line = (0..line.len()).map(|p| if pushed[p] { stored(line[p]) } else { old_line[p] }).collect();
}

/// The bytes of a converter's word.
pub const WORD: usize = 3;

/// The sample of a converter's word, a signed number of 24 bits, least significant byte first: w / 2^23.
pub fn sample_of(word: &[u8]) -> u32 {
    let pattern = word[0] as i64 + 256 * word[1] as i64 + 65536 * word[2] as i64;
    let w = if pattern < 8388608 { pattern } else { pattern - 16777216 };
    ((w as f64 / 8388608.0) as f32).to_bits()
}

/// The converter's word of a sample: the whole number nearest to sample × 2^23, of two the even one, held at the limits;
/// NaN gives 0. A double holds the product and what is left of it exactly.
pub fn word_of(sample: u32) -> [u8; WORD] {
    let product = float(sample) as f64 * 8388608.0;
    let size = product.abs();
    let (whole, left) = (size.floor(), size - size.floor());
    let up = left > 0.5 || left == 0.5 && whole % 2.0 == 1.0;
    let nearest = if up { whole + 1.0 } else { whole };
    let w = match product {
        p if p.is_nan() => 0,
        p if p < 0.0 => (-nearest).max(-8388608.0) as i64,
        _ => nearest.min(8388607.0) as i64,
    };
    let pattern = if w < 0 { w + 16777216 } else { w };
    [pattern % 256, pattern / 256 % 256, pattern / 65536].map(|byte| byte as u8)
}

/// A packed block as samples, and samples as a packed block.
pub fn samples_of_words(packed: &[u8]) -> Vec<u32> {
    packed.chunks_exact(WORD).map(sample_of).collect()
}
pub fn words_of_samples(samples: &[u32]) -> Vec<u8> {
    samples.iter().flat_map(|&sample| word_of(sample)).collect()
}

/// A block run whose blocks are asked to be of `width` bytes a sample, else it is refused with `wrong`.
fn judged_block(bytes: &[u8], memory: &[u8], lengths: [usize; 3], width: usize, wrong: u32) -> Result<Board, Answer> {
    let board = judge(bytes)?;
    memory_judged(&board, memory)?;
    if lengths.iter().any(|&length| length != width * board.size) {
        return Err(answer(wrong, board.size as u32));
    }
    Ok(board)
}

/// The blocks of a run on finite samples, as patterns: node 0's channels.
fn run(board: &Board, memory: &mut [u8], samples: Vec<u32>) -> [Vec<u32>; 2] {
    let mut cells = cells_of(board, memory);
    cells[board.input].samples[0] = samples;
    for k in board.order() {
        run_node(board, &mut cells, k);
    }
    memory.copy_from_slice(&memory_of(&cells));
    [cells[0].samples[0].clone(), cells[0].samples[1].clone()]
}

pub fn block(bytes: &[u8], memory: &mut [u8], input: &[u8], out0: &mut [u8], out1: &mut [u8]) -> Answer {
    let board = match judged_block(bytes, memory, [input.len(), out0.len(), out1.len()], 4, 9) {
        Ok(board) => board,
        Err(refused) => return refused,
    };
    let samples = words(input);
    if let Some(index) = samples.iter().position(|&bits| !float(bits).is_finite()) {
        return answer(10, index as u32);
    }
    let outputs = run(&board, memory, samples);
    out0.copy_from_slice(&bytes_of(&outputs[0]));
    out1.copy_from_slice(&bytes_of(&outputs[1]));
    OK
}

/// A packed block: every word is a finite sample, so there is no 10.
pub fn block24(bytes: &[u8], memory: &mut [u8], input: &[u8], out0: &mut [u8], out1: &mut [u8]) -> Answer {
    let board = match judged_block(bytes, memory, [input.len(), out0.len(), out1.len()], WORD, 13) {
        Ok(board) => board,
        Err(refused) => return refused,
    };
    let outputs = run(&board, memory, samples_of_words(input));
    out0.copy_from_slice(&words_of_samples(&outputs[0]));
    out1.copy_from_slice(&words_of_samples(&outputs[1]));
    OK
}

/// The noise of the end-of-line rig: left 13, right 17, left 5, and of each step the upper 24 bits, less 2^23, over 2^23.
/// The shifts are products and quotients of whole numbers.
pub struct Noise(u64);

impl Noise {
    pub fn new(start: u32) -> Self {
        Noise(if start == 0 { 2463534242 } else { start as u64 })
    }
    pub fn sample(&mut self) -> f32 {
        let bits = 4294967296;
        self.0 ^= self.0 * 8192 % bits;
        self.0 ^= self.0 / 131072;
        self.0 ^= self.0 * 32 % bits;
        ((self.0 / 256) as f64 / 8388608.0 - 1.0) as f32
    }
}

/// The answer of a change of wires: the list in 64 bytes, zeros behind it.
fn wiring(answered: Answer, list: &[usize]) -> Wiring {
    let mut listed = [0; 64];
    for (byte, &node) in listed.iter_mut().zip(list) {
        *byte = node as u8;
    }
    Wiring { number: answered.number, place: answered.place, count: list.len() as u32, listed }
}

/// A change of wires in bytes of which the first `board_len` are the board and at least `needed` must be lent: 15, the old
/// board's 1 to 6, what the change itself refuses, and the changed board's 5 and 6. The changed board is judged and its
/// list found from its bytes alone, as if there had been no other. Nothing is said of the memory: the next block finds
/// there, of each source, the block that it last wrote, and runs what is listed then.
fn rewired(
    bytes: &mut [u8],
    board_len: usize,
    needed: u128,
    change: impl Fn(&Board, &[u8]) -> Result<Vec<u8>, Answer>,
) -> Wiring {
    if (bytes.len() as u128) < needed {
        return wiring(answer(15, needed.min(4294967295) as u32), &[]);
    }
    let old = &bytes[..board_len];
    let changed = judge(old).and_then(|board| change(&board, old));
    match changed.and_then(|new| Ok((judge(&new)?, new))) {
        Ok((board, new)) => {
            bytes[..new.len()].copy_from_slice(&new);
            wiring(OK, &board.order())
        }
        Err(refused) => wiring(refused, &[]),
    }
}

/// A wire record before the end record.
pub fn add_wire(bytes: &mut [u8], board_len: usize, source: u16, target: u16) -> Wiring {
    rewired(bytes, board_len, board_len as u128 + 8, |_, old| {
        let (front, end) = old.split_at(old.len() - 4);
        let record = [8, 3, source, target].map(u16::to_le_bytes).concat();
        Ok([front, &record, end].concat())
    })
}

/// The newest wire from source to target out.
pub fn pull_wire(bytes: &mut [u8], board_len: usize, source: u16, target: u16) -> Wiring {
    rewired(bytes, board_len, board_len as u128, |board, old| {
        let wire = (source as usize, target as usize);
        let newest = board.wires.iter().rposition(|&w| w == wire).ok_or(answer(16, target as u32))?;
        let at = 8 + 14 * board.nodes.len() + 8 * newest;
        Ok([&old[..at], &old[at + 8..]].concat())
    })
}

fn put_number(board: &Board, memory: &mut [u8], node: usize, value: f32) {
    memory[board.cell_start(node)..][..4].copy_from_slice(&stored(value).to_le_bytes());
}

pub fn message(bytes: &[u8], memory: &mut [u8], node: u32, value: f32) -> Answer {
    let board = match judge(bytes) {
        Ok(board) => board,
        Err(refused) => return refused,
    };
    if let Err(refused) = memory_judged(&board, memory) {
        return refused;
    }
    match board.nodes.get(node as usize) {
        Some(record) if record.takes_number() => {
            if !record.number_fits(value) {
                return answer(12, node);
            }
            put_number(&board, memory, node as usize, value);
            OK
        }
        _ => answer(11, node),
    }
}

pub fn mix(bytes: &[u8], memory: &mut [u8], mix: f32) -> Answer {
    let board = match judge(bytes) {
        Ok(board) => board,
        Err(refused) => return refused,
    };
    if let Err(refused) = memory_judged(&board, memory) {
        return refused;
    }
    for node in [41, 47, 43, 49] {
        if !board.nodes.get(node).is_some_and(|record| record.kind == 5) {
            return answer(11, node as u32);
        }
    }
    if !mix.is_finite() {
        return answer(12, 41);
    }
    for (node, value) in [(41, mix), (47, mix), (43, 1.0 - mix), (49, 1.0 - mix)] {
        put_number(&board, memory, node, value);
    }
    OK
}

/// The plate writer's answer; what it writes is held against the original plate's own graph.
pub fn write_answer(n: u32, mix: f32, length: usize) -> Answer {
    if !(1..=128).contains(&n) {
        answer(3, 0)
    } else if !mix.is_finite() {
        answer(12, 41)
    } else if length != PLATE_BYTES {
        answer(7, PLATE_BYTES as u32)
    } else {
        OK
    }
}

fn samples_of(ms: f32) -> Option<u32> {
    (0.0..=3000.0).contains(&ms).then(|| (ms / 1000.0 * 44100.0).floor() as u32)
}
pub fn delay_length(ms: f32) -> Answer {
    samples_of(ms).map_or(answer(12, 0), |n| answer(0, n.max(1)))
}
pub fn allpass_length(ms: f32) -> Answer {
    match samples_of(ms) {
        Some(_) if ms == 0.0 => answer(0, 132300),
        Some(n) if n > 0 => answer(0, n),
        _ => answer(12, 0),
    }
}
