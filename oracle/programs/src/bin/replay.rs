//! replay FILE: reads a list that record wrote, record by record, and holds the library against it. It shows how little a
//! reader of the format needs.
use compare::hash::fnv;
use compare::library::{self, answer, Answer, Lent};
use compare::model::{half, word};

/// The answer of a block run, and the hash of what it gave out.
fn given_out(answered: Answer, out0: &Lent, out1: &Lent) -> (Answer, u32) {
    (answered, if answered.number == 0 { fnv(&[out0.get(), out1.get()].concat()) } else { 0 })
}

struct Replay {
    board: Lent,
    memory: Lent,
}

impl Replay {
    /// Every node's samples, found by the node records: a cell is three values, the samples, the line.
    fn cells(&self) -> u32 {
        let (board, memory) = (self.board.get(), self.memory.get());
        let size = half(board, 4) as usize;
        let (mut record, mut cell, mut all) = (8, 0, vec![]);
        while half(board, record + 2) == 2 {
            let (kind, n) = (half(board, record + 4), word(board, record + 6) as usize);
            let samples = 4 * size * if matches!(kind, 3 | 4) { 2 } else { 1 };
            all.extend(&memory[cell + 12..cell + 12 + samples]);
            cell += 12 + samples + if kind == 8 { 8 * n } else { 4 * n };
            record += 14;
        }
        fnv(&all)
    }

    fn block(&mut self, input: &[u8]) -> (Answer, u32) {
        let size = half(self.board.get(), 4) as usize;
        let (mut out0, mut out1) = (Lent::new(&vec![0; 4 * size]), Lent::new(&vec![0; 4 * size]));
        let answered = library::block(&self.board, &mut self.memory, &Lent::new(input), &mut out0, &mut out1);
        given_out(answered, &out0, &out1)
    }

    /// A packed block: the outputs' lengths, then the input.
    fn packed(&mut self, body: &[u8]) -> (Answer, u32) {
        let [mut out0, mut out1] = [0, 4].map(|at| Lent::new(&vec![0; word(body, at) as usize]));
        let answered = library::block24(&self.board, &mut self.memory, &Lent::new(&body[8..]), &mut out0, &mut out1);
        given_out(answered, &out0, &out1)
    }

    fn accept(&mut self, body: &[u8]) -> (Answer, u32) {
        let board = Lent::new(body);
        let (judged, tail) = (library::judge(&board), library::tail(&board));
        if judged.number != 0 {
            return (judged, 0);
        }
        self.board = board;
        self.memory = Lent::new(&vec![0x77; judged.place as usize]);
        assert_eq!(library::fresh(&self.board, &mut self.memory), answer(0, 0));
        (judged, tail.place)
    }

    fn record(&mut self, kind: u32, body: &[u8]) -> (Answer, u32) {
        let float = |at: usize| f32::from_bits(word(body, at));
        match kind {
            1 => self.accept(body),
            2 => self.block(body),
            3 => (library::message(&self.board, &mut self.memory, word(body, 0), float(4)), 0),
            4 => (library::mix(&self.board, &mut self.memory, float(0)), 0),
            5 => (answer(0, 0), self.cells()),
            6 => (library::delay_length(float(0)), 0),
            7 => (library::allpass_length(float(0)), 0),
            8 => {
                let mut board = Lent::new(&[0; 1270]);
                let answered = library::write(word(body, 0), float(4), &mut board);
                (answered, if answered.number == 0 { fnv(board.get()) } else { 0 })
            }
            9 => self.packed(body),
            _ => panic!("a record of kind {kind}"),
        }
    }
}

fn main() {
    let file = std::fs::read(std::env::args().nth(1).expect("replay FILE")).expect("the file can be read");
    let mut replay = Replay { board: Lent::new(&[]), memory: Lent::new(&[]) };
    let (mut at, mut count) = (0, 0);
    loop {
        let fields: Vec<u32> = (0..5).map(|k| word(&file, at + 4 * k)).collect();
        let [kind, length, number, place, check] = fields[..] else { unreachable!() };
        if kind == 0 {
            assert!(number == count && at + 20 == file.len(), "the end record");
            break;
        }
        let body = &file[at + 20..at + 20 + length as usize];
        let found = replay.record(kind, body);
        if found != (answer(number, place), check) {
            println!("DIFFERENCE: record {count} (kind {kind}, byte {at}): {number} {place} {check:08x}, the library {found:x?}");
            std::process::exit(1);
        }
        at += 20 + length as usize;
        count += 1;
    }
    println!("{count} records replayed");
}
