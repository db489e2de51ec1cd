//! record FILE [boards N] [plate M] [packed P] [seed S]: writes a list of calls with the answers of the original Rust
//! (samples) and of the model (numbers and places), for replay where there is no Rust; the format is in README.md. N
//! accepted boards with their calls, N/2 refused boards, M plate blocks at each of a few sizes; then P accepted boards and
//! two plates whose calls mix float blocks and packed ones.
use compare::boards::{node, printed, to_bytes, Limits};
use compare::cases::{compare as compare_case, Call, Case, Form, Packed, Seen};
use compare::damage::{accepted_case, any_case, input, pack_some};
use compare::hash::fnv;
use compare::library::{self, answer, Answer, Lent};
use compare::model::{self, bytes_of, judge, stored, words, words_of_samples, Board, PLATE_BYTES, WORD};
use compare::original::{of_board, of_plate, Original, SIZES};
use compare::random::Random;

/// The plate's memory at N 128: no recorded board needs more.
const MOST_MEMORY: usize = 236392 + 212 * 128;

/// No body is longer.
const MOST_BYTES: usize = 4096;

/// No list is longer.
const MOST_LIST: usize = 1 << 20;

fn channel(original: &dyn Original, node: usize, channel: usize) -> Vec<u8> {
    bytes_of(&original.samples(node, channel).iter().map(|&x| stored(x)).collect::<Vec<_>>())
}

/// Every node's samples as its cell holds them, in node order.
fn cells(board: &Board, original: &dyn Original) -> u32 {
    let channels = |k: usize| (0..board.nodes[k].channels()).flat_map(move |c| channel(original, k, c));
    fnv(&(0..board.nodes.len()).flat_map(channels).collect::<Vec<_>>())
}

struct Record {
    bytes: Vec<u8>,
    count: u32,
    blocks: u32,
    boards: u32,
    packed: Packed,
}

impl Record {
    fn put(&mut self, kind: u32, answered: Answer, check: u32, body: &[u8]) {
        for field in [kind, body.len() as u32, answered.number, answered.place, check] {
            self.bytes.extend(field.to_le_bytes());
        }
        self.bytes.extend(body);
        self.count += 1;
    }

    fn board(&mut self, bytes: &[u8]) {
        let tail = model::tail_answer(bytes);
        self.put(1, model::judge_answer(bytes), if tail.number == 0 { tail.place } else { 0 }, bytes);
        self.boards += 1;
    }

    /// A call on the current board, whose memory the model keeps.
    fn call(&mut self, call: &Call, bytes: &[u8], memory: &mut [u8], original: &mut dyn Original) {
        match call {
            Call::Block(form, input, length0, length1) => {
                let (mut out0, mut out1) = (vec![0; *length0], vec![0; *length1]);
                let answered = form.in_model(bytes, memory, input, [&mut out0, &mut out1]);
                let mut check = 0;
                if answered.number == 0 {
                    original.block(&form.samples(input).into_iter().map(f32::from_bits).collect::<Vec<_>>());
                    let outputs = [channel(original, 0, 0), channel(original, 0, 1)].concat();
                    check = fnv(&match form {
                        Form::Floats => outputs,
                        Form::Words => {
                            self.packed.blocks += 1;
                            words(&outputs).into_iter().for_each(|sample| self.packed.count(sample));
                            words_of_samples(&words(&outputs))
                        }
                    });
                    self.blocks += 1;
                }
                match form {
                    Form::Floats => self.put(2, answered, check, input),
                    Form::Words => {
                        let lengths = bytes_of(&[*length0 as u32, *length1 as u32]);
                        self.put(9, answered, check, &[lengths, input.clone()].concat());
                    }
                }
            }
            Call::Message(node, value) => {
                let answered = model::message(bytes, memory, *node, *value);
                if answered.number == 0 {
                    original.message(*node as usize, *value);
                }
                self.put(3, answered, 0, &bytes_of(&[*node, value.to_bits()]));
            }
            Call::Mix(value) => {
                let answered = model::mix(bytes, memory, *value);
                if answered.number == 0 {
                    original.mix(*value);
                }
                self.put(4, answered, 0, &bytes_of(&[value.to_bits()]));
            }
            Call::Wire(_) => unreachable!("the original has no changes of wires"),
        }
    }

    fn calls(&mut self, bytes: &[u8], calls: &[Call], original: &mut dyn Original) {
        let board = judge(bytes).expect("an accepted board");
        let mut memory = vec![0; board.memory_length()];
        model::fresh(bytes, &mut memory);
        self.board(bytes);
        for call in calls {
            self.call(call, bytes, &mut memory, original);
        }
        self.put(5, answer(0, 0), cells(&board, original), &[]);
    }

    /// A case on fresh memory; a difference between library and oracle would make a list that is no use.
    fn case(&mut self, case: &Case) {
        if let Err(difference) = compare_case(case, &mut Seen::default()) {
            println!("record: the library differs ({difference}): see run.sh");
            std::process::exit(1);
        }
        let board = judge(&case.board).expect("an accepted board");
        self.calls(&case.board, &case.calls, &mut *of_board(&board).expect("a size of the list"));
    }

    /// A plate's board, of any mix.
    fn plate_board(&mut self, size: usize, r: &mut Random) -> (Lent, f32) {
        let mix = r.unit();
        let mut board = Lent::new(&[0; PLATE_BYTES]);
        library::write(size as u32, mix, &mut board);
        self.put(8, answer(0, 0), fnv(board.get()), &bytes_of(&[size as u32, mix.to_bits()]));
        (board, mix)
    }

    fn plate(&mut self, size: usize, blocks: usize, r: &mut Random) {
        let (board, mix) = self.plate_board(size, r);
        let mut calls = vec![];
        for k in 0..blocks {
            if r.one_in(25) {
                calls.push(Call::Mix(r.unit()));
            }
            // Noise at first, then silence, then blocks of every manner.
            let samples: Vec<u8> = match 3 * k / blocks {
                0 => (0..size).flat_map(|_| r.unit().to_le_bytes()).collect(),
                1 => vec![0; 4 * size],
                _ => input(r, size),
            };
            calls.push(Call::Block(Form::Floats, samples, 4 * size, 4 * size));
        }
        self.calls(board.get(), &calls, &mut *of_plate(size, mix).expect("a size of the list"));
    }

    /// A plate that is given a few blocks of both forms.
    fn packed_plate(&mut self, size: usize, blocks: usize, r: &mut Random) {
        let (board, mix) = self.plate_board(size, r);
        let block = |r: &mut Random| Call::Block(Form::Floats, input(r, size), 4 * size, 4 * size);
        let calls = (0..blocks).map(|_| block(r)).collect();
        let mut case = Case { board: board.get().to_vec(), memory_length: None, changes: vec![], calls };
        pack_some(r, &mut case, 8);
        self.calls(&case.board, &case.calls, &mut *of_plate(size, mix).expect("a size of the list"));
    }

    fn numbers(&mut self, r: &mut Random) {
        let any = [f32::from_bits(r.bits()), r.unit() * 0.1, r.unit().abs() * 3010.0, 0.0, 0.01, 30.0, 100.0, 3000.0];
        let ms = r.pick(&any);
        self.put(6, model::delay_length(ms), 0, &ms.to_le_bytes());
        self.put(7, model::allpass_length(ms), 0, &ms.to_le_bytes());
        let (n, mix) = (r.pick(&[0, 129, 65536, 1, 128]), r.pick(&[f32::INFINITY, f32::NAN]));
        self.put(8, model::write_answer(n, mix, PLATE_BYTES), 0, &bytes_of(&[n, mix.to_bits()]));
    }
}

/// Words that go out at ties, at both limits and, of NaN, as 0: one channel is half the input, the other the input times
/// three numbers, which messages make huge and then 0. Some blocks are of wrong length.
fn at_the_limits() -> Case {
    let mul = |number: f32| node(5, 0, number);
    let board = Board {
        size: 8,
        input: 1,
        nodes: vec![node(3, 0, 0.0), node(1, 0, 0.0), mul(0.5), mul(1.0), mul(1.0), mul(1.0), node(4, 0, 0.0)],
        wires: vec![(1, 2), (1, 3), (3, 4), (4, 5), (2, 6), (5, 6), (6, 0)],
    };
    let block = |words: [i32; 8]| {
        let packed = words.iter().flat_map(|word| word.to_le_bytes()[..WORD].to_vec()).collect();
        Call::Block(Form::Words, packed, WORD * 8, WORD * 8)
    };
    let wrong =
        |length: usize, length0: usize, length1: usize| Call::Block(Form::Words, vec![0x5a; length], length0, length1);
    let words = [[0, 1, -1, 3, -3, 8388607, -8388608, -8388607], [2, -2, 5, -5, 4194305, -4194305, 8388605, 7]];
    let mut calls = vec![];
    for (node, number) in [(3, 1.0), (3, 2.0), (3, 1.5), (3, 3e38), (4, 3e38), (5, 0.0), (5, -1.0)] {
        calls.push(Call::Message(node, number));
        calls.extend(words.map(block));
    }
    for (length, length0, length1) in [(23, 24, 24), (24, 25, 24), (24, 24, 0), (32, 32, 32), (24, 21, 27), (0, 24, 0)]
    {
        calls.push(wrong(length, length0, length1));
    }
    calls.push(block(words[0]));
    Case { board: to_bytes(&board), memory_length: None, changes: vec![], calls }
}

fn main() {
    let arguments: Vec<String> = std::env::args().skip(1).collect();
    let (mut boards, mut blocks, mut packed, mut seed) = (400, 240, 24, 1);
    let usage = "record FILE [boards N] [plate M] [packed P] [seed S]";
    for pair in arguments[1..].chunks(2) {
        let value = pair.get(1).and_then(|value| value.parse().ok()).expect(usage);
        match pair[0].as_str() {
            "boards" => boards = value,
            "plate" => blocks = value,
            "packed" => packed = value,
            "seed" => seed = value,
            other => panic!("{usage}, not {other}"),
        }
    }
    let mut r = Random::new(seed as u64);
    let mut record = Record { bytes: vec![], count: 0, blocks: 0, boards: 0, packed: Packed::default() };
    let block = |samples: [f32; 2]| Call::Block(Form::Floats, bytes_of(&samples.map(f32::to_bits)), 8, 8);
    let calls = vec![block([1.0, 0.0]), block([0.0; 2]), block([0.0; 2])];
    record.case(&Case { board: to_bytes(&printed()), memory_length: None, changes: vec![], calls });
    let limits = Limits { nodes: 64, line: 2000 };
    for _ in 0..boards {
        let case = accepted_case(&mut r, SIZES, limits, 12);
        if judge(&case.board).is_ok_and(|board| board.memory_length() <= MOST_MEMORY) {
            record.case(&case);
        }
        record.numbers(&mut r);
    }
    for _ in 0..boards / 2 {
        let mut case = any_case(&mut r, None, limits);
        while judge(&case.board).is_ok() || case.board.len() > MOST_BYTES {
            case = any_case(&mut r, None, limits);
        }
        record.board(&case.board);
    }
    for size in [1, 16, 64, 128].into_iter().filter(|_| blocks > 0) {
        record.plate(size, blocks, &mut r);
    }
    // Lists of both forms, by a generator of their own: what stands before them does not depend on them.
    let mut r = Random::new(!(seed as u64));
    if packed > 0 {
        record.case(&at_the_limits());
        record.packed_plate(16, 16, &mut r);
        record.packed_plate(128, 6, &mut r);
    }
    for _ in 0..packed {
        let mut case = accepted_case(&mut r, SIZES, limits, 6);
        while judge(&case.board).is_ok_and(|board| board.memory_length() > MOST_MEMORY || board.size > 32) {
            case = accepted_case(&mut r, SIZES, limits, 6);
        }
        pack_some(&mut r, &mut case, 6);
        record.case(&case);
    }
    let count = record.count;
    record.put(0, answer(count, 0), 0, &[]);
    if record.bytes.len() > MOST_LIST {
        println!("record: {} bytes are more than crates/replay reads, {MOST_LIST}", record.bytes.len());
        std::process::exit(1);
    }
    std::fs::write(&arguments[0], &record.bytes).expect("the file can be written");
    println!(
        "{}: {} bytes, {count} records, {} boards, {} accepted blocks ({} packed: {}), seed {seed}",
        arguments[0],
        record.bytes.len(),
        record.boards,
        record.blocks,
        record.packed.blocks,
        record.packed
    );
}
