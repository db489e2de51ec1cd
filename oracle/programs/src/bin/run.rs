//! run [boards N] [plate M] [seed S] [floats K]: the library against the original Rust and the model.
//!
//! The printed board, and what the program rig writes of it, in all three; N accepted boards with their calls in all
//! three; N cases of damaged boards, memories, lengths and values, and lengths of milliseconds, in library and model; M
//! blocks of the plate at each block size in library and `Plate`; N boards that are rewired while they play, in library
//! and model; every converter word in and out, and of floats out every K-th pattern among others. The first difference is
//! printed with the smallest case found, and the status is 1.
use compare::boards::Limits;
use compare::cases::{
    compare as compare_case, describe, printed_holds, rig_holds, same_samples, shrink, Case, Form, Packed, Seen,
};
use compare::damage::{accepted_case, any_case, input, pack_some, packed_input};
use compare::library::{self, answer, Lent};
use compare::model::{self, judge, words, words_of_samples, PLATE_BYTES};
use compare::original::{of_plate, SIZES};
use compare::random::Random;
use compare::wires::rewired_case;
use compare::words::{every_word, floats_out};

fn stop(text: String) -> ! {
    println!("{text}");
    std::process::exit(1)
}

fn hold(case: &Case, seen: &mut Seen, name: &str) {
    if compare_case(case, seen).is_err() {
        let smallest = shrink(case);
        let difference = compare_case(&smallest, &mut Seen::default()).unwrap_err();
        stop(format!("DIFFERENCE in {name}, smallest case found:\n{}\n{difference}", describe(&smallest)));
    }
}

fn plate_board(size: usize, mix: f32) -> Lent {
    let mut board = Lent::new(&[0; PLATE_BYTES]);
    let answered = library::write(size as u32, mix, &mut board);
    if answered != answer(0, 0) || !board.guarded() {
        stop(format!("DIFFERENCE: the plate writer answers {answered:?} for N {size}, mix {mix:?}"));
    }
    board
}

/// Blocks of the plate at one size, mix messages among them: both outputs and the buffers of all 51 nodes.
fn plate(size: usize, blocks: usize, r: &mut Random) {
    let mix = r.unit();
    let board = plate_board(size, mix);
    let read =
        judge(board.get()).unwrap_or_else(|refused| stop(format!("DIFFERENCE: the plate is refused, {refused:?}")));
    let mut original = of_plate(size, mix).unwrap();
    if read.size != size || read.input != 2 || read.nodes.len() != 51 || read.wires != original.wires() {
        stop("DIFFERENCE: the plate's head, nodes or wires are not those of the original".into());
    }
    let judged = library::judge(&board);
    if judged != answer(0, (236392 + 212 * size) as u32) {
        stop(format!("DIFFERENCE: the plate's memory: {judged:?}"));
    }
    let mut memory = Lent::new(&vec![0x55; judged.place as usize]);
    let expect = |what: &str, found: library::Answer| {
        if found != answer(0, 0) {
            stop(format!("DIFFERENCE: plate, N {size}: {what} answers {found:?}"));
        }
    };
    expect("fresh", library::fresh(&board, &mut memory));
    // Noise, impulses and silence, seldom a stretch of wild samples, after which infinities stay in the loop.
    let wild = r.one_in(4);
    for k in 0..blocks {
        if r.one_in(50) {
            let mix = if r.one_in(8) { r.finite() } else { r.unit() };
            expect("mix", library::mix(&board, &mut memory, mix));
            original.mix(mix);
        }
        let form = if r.one_in(4) { Form::Words } else { Form::Floats };
        let block = if form == Form::Words {
            packed_input(r, size)
        } else if wild && k > blocks / 2 {
            input(r, size)
        } else {
            (0..size).flat_map(|_| (r.unit() * ((k / 20 % 3) as f32)).to_le_bytes()).collect()
        };
        let lent = Lent::new(&block);
        let (mut out0, mut out1) = (Lent::new(&block), Lent::new(&block));
        expect("block", form.in_library(&board, &mut memory, &lent, [&mut out0, &mut out1]));
        original.block(&form.samples(&block).into_iter().map(f32::from_bits).collect::<Vec<_>>());
        if let Err(difference) = same_samples(&read, memory.get(), &*original) {
            stop(format!("DIFFERENCE: plate, N {size}, block {k}: {difference}"));
        }
        let outputs = [0, 1].map(|channel| memory.get()[12 + 4 * size * channel..][..4 * size].to_vec());
        let outputs = outputs.map(|output| match form {
            Form::Floats => output,
            Form::Words => words_of_samples(&words(&output)),
        });
        if outputs[0] != out0.get() || outputs[1] != out1.get() {
            stop(format!("DIFFERENCE: plate, N {size}, block {k}: the output blocks are not node 0's channels"));
        }
        if ![&board, &memory, &lent, &out0, &out1].iter().all(|lent| lent.guarded()) {
            stop(format!("DIFFERENCE: plate, N {size}, block {k}: a byte beside what was lent is changed"));
        }
    }
}

/// Calls on numbers alone: lengths of milliseconds, and the plate writer's refusals.
fn numbers(r: &mut Random) {
    let ms = match r.below(5) {
        0 => f32::from_bits(r.bits()),
        1 => r.unit() * 0.1,
        2 => r.between(0, 132300) as f32 / 44.1,
        3 => r.pick(&[0.0, -0.0, 0.01, 30.0, 100.0, 3000.0, 3000.0002, 0.02267573, 0.02267574, -1e-45]),
        _ => r.unit().abs() * 3010.0,
    };
    for (name, expected, found) in [
        ("delay length", model::delay_length(ms), library::delay_length(ms)),
        ("all-pass length", model::allpass_length(ms), library::allpass_length(ms)),
    ] {
        if expected != found {
            stop(format!(
                "DIFFERENCE: {name} of {ms:?} ms ({:08x}): expected {expected:?}, found {found:?}",
                ms.to_bits()
            ));
        }
    }
    let (n, mix) = (r.pick(&[0, 1, 2, 64, 128, 129, 65536, u32::MAX]), f32::from_bits(r.bits()));
    let before: Vec<u8> =
        (0..r.pick(&[0, 4, PLATE_BYTES - 1, PLATE_BYTES, PLATE_BYTES + 1])).map(|_| r.byte()).collect();
    let mut board = Lent::new(&before);
    let expected = model::write_answer(n, mix, before.len());
    let found = library::write(n, mix, &mut board);
    let kept = expected.number == 0 || board.get() == before;
    if expected != found || !kept || !board.guarded() {
        stop(format!(
            "DIFFERENCE: plate writer, N {n}, mix {mix:?}, {} bytes: expected {expected:?}, found {found:?}",
            before.len()
        ));
    }
}

fn main() {
    let arguments: Vec<String> = std::env::args().skip(1).collect();
    let (mut boards, mut blocks, mut seed, mut step) = (2000, 200, 1, 257);
    for pair in arguments.chunks(2) {
        let value = pair.get(1).and_then(|value| value.parse().ok());
        match (pair[0].as_str(), value) {
            ("boards", Some(value)) => boards = value,
            ("plate", Some(value)) => blocks = value,
            ("seed", Some(value)) => seed = value,
            ("floats", Some(value)) if value > 0 => step = value,
            _ => stop(format!("run [boards N] [plate M] [seed S] [floats K], not {arguments:?}")),
        }
    }
    if let Err(difference) = printed_holds() {
        stop(format!("DIFFERENCE in the printed board: {difference}"));
    }
    if let Err(difference) = rig_holds(include_bytes!("../../rig")) {
        stop(format!("DIFFERENCE in what rig writes: {difference}"));
    }
    let mut seen = Seen::default();
    let mut r = Random::new(seed as u64);
    for k in 0..boards {
        // One board in fifty may have lines of any length.
        let limits = Limits { nodes: 64, line: if k % 50 == 0 { 132300 } else { 2000 } };
        let mut case = accepted_case(&mut r, SIZES, limits, 12);
        pack_some(&mut r, &mut case, 30);
        hold(&case, &mut seen, &format!("accepted board {k}"));
    }
    let (original, not_finite, tails) = (seen.original_blocks, seen.not_finite, seen.tails);
    for k in 0..boards {
        let limits = Limits { nodes: 64, line: if k % 50 == 0 { 132300 } else { 100 } };
        let start = (k % 50 == 1).then(|| plate_board(r.between(1, 128), r.unit()).get().to_vec());
        let mut case = any_case(&mut r, start, limits);
        pack_some(&mut r, &mut case, 4);
        hold(&case, &mut seen, &format!("damaged case {k}"));
        for _ in 0..8 {
            numbers(&mut r);
        }
    }
    for &size in SIZES.iter().filter(|_| blocks > 0) {
        plate(size, blocks, &mut r);
    }
    for k in 0..boards {
        let limits = Limits { nodes: 64, line: if k % 50 == 0 { 132300 } else { 100 } };
        let start = (k % 50 == 1).then(|| plate_board(r.between(1, 128), r.unit()).get().to_vec());
        let mut case = rewired_case(&mut r, k, start, limits);
        pack_some(&mut r, &mut case, 12);
        hold(&case, &mut seen, &format!("rewired board {k}"));
    }
    let mut out = Packed::default();
    let first = r.below(step) as u32;
    let back = every_word().and_then(|count| floats_out(first, step, &mut out).map(|()| count));
    let back = back.unwrap_or_else(|difference| stop(format!("DIFFERENCE in converter words: {difference}")));
    println!("seed {seed}: {boards} accepted boards, {original} blocks as in the original ({not_finite} output samples infinite or NaN, {tails} past a tail);");
    println!("{boards} damaged cases as in the model; {} lengths and plate writers; {blocks} plate blocks at each N of {SIZES:?}", 8 * boards);
    println!("{boards} rewired boards as in the model: {} wires added, {} pulled; {} other visiting lists, {} lists of 64 nodes; {} times a 129th wire;", seen.added, seen.pulled, seen.relisted, seen.longest, seen.too_many);
    println!(
        "{} blocks afterwards, {} times a node with a line, a pole or a phase that had stood still",
        seen.rewired_blocks, seen.back
    );
    println!(
        "of all blocks {} packed, {} of them as in the original: {};",
        seen.packed.blocks, seen.packed.original_blocks, seen.packed
    );
    println!("{back} words in and straight out; floats out, as in the model: {out}");
    println!("answers by number: {:?}", seen.answers);
}
