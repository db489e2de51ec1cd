//! bench: the plate in the original Rust, in the library and as straight-line Rust; packed blocks beside float blocks; what
//! each node type costs; and how cost grows with nodes, wires and N. One process, each figure the least of many short runs,
//! so that a shared machine does little harm. The three plates are held against each other first, bit for bit.
mod straight;

use compare::boards::{node, to_bytes};
use compare::library::{answer, c, Answer, Wiring};
use compare::model::{samples_of_words, words, words_of_samples, Board, Node, PLATE_BYTES};
use compare::original::{OfPlate, Original};
use compare::random::Random;
use std::time::Instant;

type Block =
    unsafe extern "C" fn(*const u8, usize, *mut u8, usize, *const u8, usize, *mut u8, usize, *mut u8, usize) -> Answer;

/// A board in the library with its memory and blocks, called as firmware calls it.
struct Library {
    board: Vec<u8>,
    memory: Vec<u8>,
    input: Vec<u8>,
    out: [Vec<u8>; 2],
}

impl Library {
    fn new(board: Vec<u8>, size: usize, input: &[f32]) -> Self {
        let judged = unsafe { c::plate_judge(board.as_ptr(), board.len()) };
        assert_eq!(judged.number, 0);
        let mut library = Library {
            board,
            memory: vec![0; judged.place as usize],
            input: input.iter().flat_map(|x| x.to_le_bytes()).collect(),
            out: [vec![0; 4 * size], vec![0; 4 * size]],
        };
        assert_eq!(library.fresh(), answer(0, 0));
        library
    }
    fn plate(size: usize, input: &[f32]) -> Self {
        let mut board = vec![0; PLATE_BYTES];
        assert_eq!(unsafe { c::plate_write(size as u32, MIX, board.as_mut_ptr(), board.len()) }, answer(0, 0));
        Library::new(board, size, input)
    }
    fn judge(&self) -> Answer {
        unsafe { c::plate_judge(self.board.as_ptr(), self.board.len()) }
    }
    fn tail(&self) -> Answer {
        unsafe { c::plate_tail(self.board.as_ptr(), self.board.len()) }
    }
    fn fresh(&mut self) -> Answer {
        unsafe { c::plate_fresh(self.board.as_ptr(), self.board.len(), self.memory.as_mut_ptr(), self.memory.len()) }
    }
    fn mix(&mut self) -> Answer {
        unsafe { c::plate_mix(self.board.as_ptr(), self.board.len(), self.memory.as_mut_ptr(), self.memory.len(), MIX) }
    }
    /// From here on its blocks are packed ones, as long as the float blocks were.
    fn packed(mut self) -> Self {
        self.input = words_of_samples(&words(&self.input));
        self.out = self.out.map(|out| vec![0; out.len() / 4 * 3]);
        self
    }
    fn block(&mut self) -> Answer {
        self.run(c::plate_block)
    }
    fn block24(&mut self) -> Answer {
        self.run(c::plate_block24)
    }
    fn run(&mut self, block: Block) -> Answer {
        let [out0, out1] = &mut self.out;
        unsafe {
            block(
                self.board.as_ptr(),
                self.board.len(),
                self.memory.as_mut_ptr(),
                self.memory.len(),
                self.input.as_ptr(),
                self.input.len(),
                out0.as_mut_ptr(),
                out0.len(),
                out1.as_mut_ptr(),
                out1.len(),
            )
        }
    }
}

const MIX: f32 = 0.3;

fn done(answered: Answer) {
    assert_eq!(answered.number, 0);
}

/// The least time of each of several calls, in ns: short runs in turn, many times.
fn least<const K: usize>(rounds: usize, mut calls: [&mut dyn FnMut(); K]) -> [f64; K] {
    let mut best = [f64::MAX; K];
    for _ in 0..rounds {
        for (best, call) in best.iter_mut().zip(&mut calls) {
            let start = Instant::now();
            for _ in 0..10 {
                call();
            }
            *best = best.min(start.elapsed().as_nanos() as f64 / 10.0);
        }
    }
    best
}

/// The least time in ns of a call that changes the bytes it is lent: ten copies, made before each short run.
fn least_anew(rounds: usize, bytes: &[u8], call: impl Fn(&mut [u8]) -> Wiring) -> f64 {
    let mut best = f64::MAX;
    for _ in 0..rounds {
        let mut copies = vec![bytes.to_vec(); 10];
        let start = Instant::now();
        for copy in &mut copies {
            assert_eq!(call(copy).number, 0);
        }
        best = best.min(start.elapsed().as_nanos() as f64 / 10.0);
    }
    best
}

fn noise(size: usize, r: &mut Random) -> Vec<f32> {
    (0..size).map(|_| r.unit()).collect()
}

/// The three plates give the same samples.
fn agree<const N: usize>(blocks: usize) {
    let mut r = Random::new(5);
    let mut library = Library::plate(N, &vec![0.0; N]);
    let (mut original, mut line) = (OfPlate::<N>::new(MIX), straight::Plate::new(MIX));
    for k in 0..blocks {
        let x = noise(N, &mut r);
        library.input = x.iter().flat_map(|x| x.to_le_bytes()).collect();
        let (mut out0, mut out1) = (vec![0.0; N], vec![0.0; N]);
        assert_eq!(library.block(), answer(0, 0));
        original.block(&x);
        line.block(&x, &mut out0, &mut out1);
        for (channel, out) in [out0, out1].iter().enumerate() {
            let bytes = |block: &[f32]| block.iter().flat_map(|x| x.to_le_bytes()).collect::<Vec<u8>>();
            assert_eq!(bytes(out), library.out[channel], "N {N}, block {k}: straight-line Rust and library");
            assert_eq!(
                bytes(&original.outputs()[channel]),
                library.out[channel],
                "N {N}, block {k}: original and library"
            );
        }
    }
}

fn plates<const N: usize>(rounds: usize) {
    agree::<N>(30000 / N);
    let x = noise(N, &mut Random::new(7));
    let (mut library, mut original, mut line) =
        (Library::plate(N, &x), OfPlate::<N>::new(MIX), straight::Plate::new(MIX));
    let (mut out0, mut out1) = (vec![0.0; N], vec![0.0; N]);
    let [theirs, ours, bound] = least(
        rounds,
        [&mut || original.block(&x), &mut || done(library.block()), &mut || line.block(&x, &mut out0, &mut out1)],
    );
    println!("{N:>5} {theirs:>12.0} {ours:>9.0} {bound:>14.0} {:>23.2} {:>20.2}", theirs / ours, ours / bound);
}

/// Packed blocks of the plate beside float blocks of the same samples: what words cost.
fn packed<const N: usize>(rounds: usize) {
    // A multiple of 2^-23 each, so that the words say the same samples.
    let x = noise(N, &mut Random::new(7));
    let (mut floats, mut packed) = (Library::plate(N, &x), Library::plate(N, &x).packed());
    assert_eq!(samples_of_words(&packed.input), words(&floats.input));
    for _ in 0..3000 / N + 1 {
        done(floats.block());
        done(packed.block24());
        let expected = floats.out.each_ref().map(|out| words_of_samples(&words(out)));
        assert_eq!(expected, packed.out, "N {N}: packed and float blocks");
    }
    let [float, word] = least(rounds, [&mut || done(floats.block()), &mut || done(packed.block24())]);
    println!("{N:>5} {float:>12.0} {word:>9.0} {:>14.3}", word / float);
}

fn calls(rounds: usize) {
    let library = Library::plate(128, &[0.0; 128]);
    let (mut fresh, mut mixed) = (Library::plate(128, &[0.0; 128]), Library::plate(128, &[0.0; 128]));
    let [judge, tail, fresh, mix] = least(
        rounds,
        [&mut || done(library.judge()), &mut || done(library.tail()), &mut || done(fresh.fresh()), &mut || {
            done(mixed.mix())
        }],
    );
    println!("plate, ns a call: judge {judge:.0}, tail {tail:.0}, mix message {mix:.0}, fresh {fresh:.0}");
    let length = library.board.len();
    let bytes = [&library.board[..], &[0; 8]].concat();
    let add = |bytes: &mut [u8], length: usize, (source, target): (u16, u16)| unsafe {
        c::plate_add_wire(bytes.as_mut_ptr(), bytes.len(), length, source, target)
    };
    let pull = |bytes: &mut [u8], length: usize, (source, target): (u16, u16)| unsafe {
        c::plate_pull_wire(bytes.as_mut_ptr(), bytes.len(), length, source, target)
    };
    // A wire that the plate has not, and its feedback.
    let (new, feedback) = ((1, 38), (37, 9));
    let (mut longer, mut shorter) = (bytes.clone(), bytes.clone());
    add(&mut longer, length, new);
    pull(&mut shorter, length, feedback);
    let times = [
        ("add 1→38", least_anew(rounds, &bytes, |bytes| add(bytes, length, new))),
        ("pull it again", least_anew(rounds, &longer, |bytes| pull(bytes, length + 8, new))),
        ("pull 37→9", least_anew(rounds, &bytes, |bytes| pull(bytes, length, feedback))),
        ("add it again", least_anew(rounds, &shorter, |bytes| add(bytes, length - 8, feedback))),
    ];
    let times = times.map(|(name, time)| format!("{name} {time:.0} ({:.2} judges)", time / judge));
    println!("plate, ns a change of wires: {}", times.join(", "));
}

/// Node 0, input 1, an add of 29.5 that gives a modulation, then `count` nodes in a chain that ends in node 0; with
/// `second` each also takes the modulation as its second source. Sines, which take nothing, go side by side into a sum,
/// so that a sine's figure has one addition in it.
fn chain(size: usize, record: &Node, count: usize, second: bool) -> Board {
    let mut board =
        Board { size, input: 1, nodes: vec![node(3, 0, 0.0), node(1, 0, 0.0), node(6, 0, 29.5)], wires: vec![(1, 2)] };
    let sines = record.kind == 10;
    if sines {
        board.nodes[2] = node(2, 0, 0.0);
        board.wires = vec![(2, 0)];
    }
    for k in 3..3 + count {
        board.nodes.push(record.clone());
        if sines {
            board.wires.push((k, 2));
            continue;
        }
        board.wires.push((if k == 3 { 2 } else { k - 1 }, k));
        if second {
            board.wires.push((if k == 3 { 1 } else { 2 }, k));
        }
    }
    if !sines {
        board.wires.push((board.nodes.len() - 1, 0));
    }
    board
}

fn block_time(board: &Board, rounds: usize) -> f64 {
    let mut library = Library::new(to_bytes(board), board.size, &noise(board.size, &mut Random::new(7)));
    let [time] = least(rounds, [&mut || done(library.block())]);
    time
}

/// A node and sample from the slope over N, a node's fixed cost from what is left of a block.
fn node_type(name: &str, record: Node, second: bool, rounds: usize) {
    let count = if record.kind == 10 { 8 } else { 56 };
    let few = count / 2;
    let [at64, at128, few64, few128] = [(64, count), (128, count), (64, few), (128, few)]
        .map(|(size, count)| block_time(&chain(size, &record, count, second), rounds));
    let (per64, per128) = ((at64 - few64) / few as f64, (at128 - few128) / few as f64);
    let sample = (per128 - per64) / 64.0;
    println!("{name:<24} {sample:>8.2} {:>12.0}", per64 - 64.0 * sample);
}

fn node_types(rounds: usize) {
    println!("\n{:<24} {:>8} {:>12}", "node", "ns/sample", "ns/block");
    node_type("pass", node(1, 0, 0.0), false, rounds);
    node_type("sum of one", node(2, 0, 0.0), false, rounds);
    node_type("sum of two", node(2, 0, 0.0), true, rounds);
    node_type("balance", node(4, 0, 0.0), true, rounds);
    node_type("mul by number", node(5, 0, 0.99), false, rounds);
    node_type("mul of two", node(5, 0, 0.99), true, rounds);
    node_type("add of number", node(6, 0, 0.001), false, rounds);
    node_type("add of two", node(6, 0, 0.001), true, rounds);
    node_type("delay 1000", node(7, 1000, 0.0), false, rounds);
    node_type("delay 3", node(7, 3, 0.0), false, rounds);
    node_type("all-pass 1000", node(8, 1000, 0.5), false, rounds);
    node_type("all-pass 3", node(8, 3, 0.5), false, rounds);
    node_type("all-pass 2000 modulated", node(8, 2000, 0.5), true, rounds);
    node_type("one-pole", node(9, 0, 0.5), false, rounds);
    node_type("sine", node(10, 0, 440.0), false, rounds);
}

fn growth(rounds: usize) {
    let mul = node(5, 0, 0.99);
    println!("\nmuls in a chain, N 64: nodes, ns a block, ns a node");
    for count in [1, 8, 16, 32, 61] {
        let time = block_time(&chain(64, &mul, count, false), rounds);
        println!("{:>5} {time:>9.0} {:>7.0}", count + 3, time / (count + 3) as f64);
    }
    println!("repeated wires into one sum, N 64: wires, ns a block, ns a wire over the first");
    let repeated = |count: usize| {
        let mut board = chain(64, &node(2, 0, 0.0), 1, false);
        let wire = board.wires[1];
        board.wires.resize(board.wires.len() + count, wire);
        board
    };
    let first = block_time(&repeated(0), rounds);
    for count in [0, 8, 32, 64, 125] {
        let time = block_time(&repeated(count), rounds);
        println!("{:>5} {time:>9.0} {:>7.1}", count + 3, if count == 0 { 0.0 } else { (time - first) / count as f64 });
    }
    println!("plate: N, ns a block, ns a sample");
    for size in [1, 2, 4, 8, 16, 32, 64, 128] {
        let mut library = Library::plate(size, &noise(size, &mut Random::new(7)));
        let [time] = least(rounds, [&mut || done(library.block())]);
        println!("{size:>5} {time:>9.0} {:>7.1}", time / size as f64);
    }
}

fn main() {
    let rounds = std::env::args().nth(1).map_or(400, |text| text.parse().expect("a number of rounds"));
    println!("plate, ns a block, least of {rounds} runs");
    println!(
        "{:>5} {:>12} {:>9} {:>14} {:>23} {:>20}",
        "N", "original", "library", "straight-line", "original / library", "library / straight"
    );
    plates::<128>(rounds);
    plates::<64>(rounds);
    plates::<16>(rounds);
    println!("plate, ns a block, float and packed");
    println!("{:>5} {:>12} {:>9} {:>14}", "N", "float", "packed", "packed / float");
    packed::<128>(rounds);
    packed::<64>(rounds);
    packed::<16>(rounds);
    packed::<1>(rounds);
    calls(rounds);
    node_types(rounds);
    growth(rounds);
}
