//! Random cases: calls on accepted boards from fresh memory, and damaged boards, memories, lengths and values.
use crate::boards::{node, random_board, to_bytes, Limits};
use crate::cases::{Call, Case, Form};
use crate::model::{judge, Board, WORD};
use crate::random::Random;

/// A finite input block: noise, impulses, silence, and samples of every size.
pub fn input(r: &mut Random, size: usize) -> Vec<u8> {
    let manner = r.below(5);
    let loud = r.pick(&[1.0, 1.0, 30.0, 1e-38]);
    let sample = |i: usize, r: &mut Random| match manner {
        0 => 0.0,
        1 => (i == 0) as u32 as f32,
        2 => r.finite(),
        _ => r.unit() * loud,
    };
    (0..size).flat_map(|i| sample(i, r).to_le_bytes()).collect()
}

pub fn whole_block(r: &mut Random, size: usize) -> Call {
    Call::Block(Form::Floats, input(r, size), 4 * size, 4 * size)
}

/// An input block with an infinite or NaN sample, or of a wrong length.
pub fn refused_block(r: &mut Random, size: usize) -> Call {
    let mut block = input(r, size);
    if r.one_in(2) {
        let at = 4 * r.below(size);
        block[at..at + 4].copy_from_slice(&r.pick(&[0x7f800000u32, 0xff800000, 0x7fc00000, 0x7f800001]).to_le_bytes());
    } else {
        block.resize(4 * size + r.pick(&[1, 4]) - 2, 0);
    }
    Call::Block(Form::Floats, block, 4 * size, 4 * size)
}

/// A packed input block: silence, an impulse at a limit, words at and around the limits and zero, quiet ones, any bytes.
pub fn packed_input(r: &mut Random, size: usize) -> Vec<u8> {
    let manner = r.below(6);
    let word = |i: usize, r: &mut Random| -> i32 {
        match manner {
            0 => 0,
            1 if i > 0 => 0,
            1 => r.pick(&[8388607, -8388608]),
            2 => {
                r.pick(&[0, 1, -1, 2, -2, 127, 128, -128, 255, 256, 32767, 32768, 65535, 65536, 4194303, 4194304])
                    * r.pick(&[1, -1])
            }
            3 => r.pick(&[8388607, 8388606, -8388608, -8388607, 0]),
            4 => r.below(2001) as i32 - 1000,
            _ => r.below(1 << 24) as i32 - (1 << 23),
        }
    };
    (0..size).flat_map(|i| word(i, r).to_le_bytes()[..WORD].to_vec()).collect()
}

/// A packed block of which one, two or all three blocks have another length, be it the same one or not.
pub fn refused_packed(r: &mut Random, size: usize) -> Call {
    let whole = WORD * size;
    let wrong = [0, whole - 1, whole + 1, 4 * size, whole - WORD, whole + WORD, r.below(whole)];
    let (which, one, alike) = (r.between(1, 7), r.pick(&wrong), r.one_in(2));
    let lengths = [0, 1, 2].map(|k| match which >> k & 1 {
        0 => whole,
        _ if alike => one,
        _ => r.pick(&wrong),
    });
    let mut block = packed_input(r, size);
    block.resize(lengths[0], 0);
    Call::Block(Form::Words, block, lengths[1], lengths[2])
}

/// Puts packed blocks in place of about half of a case's blocks, so that its calls mix both forms: silence stays silence,
/// a block that was refused by its length or its samples becomes a packed one of wrong length, and one in `odd` of the
/// others too; seldom a float block gets the lengths of a packed one.
pub fn pack_some(r: &mut Random, case: &mut Case, odd: usize) {
    let size = judge(&case.board).map_or(2, |board| board.size);
    for call in &mut case.calls {
        let Call::Block(Form::Floats, input, length0, length1) = call else { continue };
        let finite = input.chunks_exact(4).all(|b| f32::from_le_bytes(b.try_into().unwrap()).is_finite());
        let whole = finite && [input.len(), *length0, *length1] == [4 * size; 3];
        let length = WORD * size;
        if r.one_in(2) {
            *call = if !whole || r.one_in(odd) {
                refused_packed(r, size)
            } else if input.iter().all(|&byte| byte == 0) {
                Call::Block(Form::Words, vec![0; length], length, length)
            } else {
                Call::Block(Form::Words, packed_input(r, size), length, length)
            };
        } else if r.one_in(3 * odd) {
            *call = Call::Block(Form::Floats, packed_input(r, size), length, length);
        }
    }
}

/// A number message that the board accepts, if it has a node that takes one.
pub fn fitting_message(r: &mut Random, board: &Board) -> Option<Call> {
    let takers: Vec<usize> = (0..board.nodes.len()).filter(|&k| board.nodes[k].takes_number()).collect();
    if takers.is_empty() {
        return None;
    }
    let node = r.pick(&takers);
    let frequency = r.unit().abs() * 44100.0;
    let value = if board.nodes[node].kind == 10 { r.pick(&[frequency, 44100.0, 0.0, -0.0]) } else { r.finite() };
    Some(Call::Message(node as u32, value))
}

/// An accepted board in fresh memory, with blocks, accepted messages and a refused one now and then.
pub fn accepted_case(r: &mut Random, sizes: &[usize], limits: Limits, blocks: usize) -> Case {
    let board = random_board(r, sizes, limits);
    let mut calls = vec![];
    for _ in 0..r.between(1, blocks) {
        calls.push(whole_block(r, board.size));
        if r.one_in(4) {
            calls.extend(fitting_message(r, &board));
        }
        if r.one_in(20) {
            calls.push(Call::Message(r.below(70) as u32, f32::from_bits(r.bits())));
        }
        if r.one_in(30) {
            calls.push(refused_block(r, board.size));
        }
    }
    // Silence until the tail is over.
    let tail = board.tail() as usize;
    if tail < 40 * board.size {
        for _ in 0..tail / board.size + 2 {
            calls.push(Call::Block(Form::Floats, vec![0; 4 * board.size], 4 * board.size, 4 * board.size));
        }
    }
    Case { board: to_bytes(&board), memory_length: None, changes: vec![], calls }
}

/// Some field of some record of a board, changed, or a record doubled, moved or left out.
pub fn damage_board(r: &mut Random, board: &mut Vec<u8>) {
    let mut starts = vec![];
    let mut at = 0;
    while at + 4 <= board.len() {
        starts.push(at);
        at += u16::from_le_bytes([board[at], board[at + 1]]).max(4) as usize;
    }
    if starts.is_empty() {
        return;
    }
    let start = r.pick(&starts);
    let end = (start + u16::from_le_bytes([board[start], board[start + 1]]) as usize).min(board.len()).max(start);
    match r.below(11) {
        0 => board.truncate(r.below(board.len() + 1)),
        1 => board.extend((0..r.between(1, 9)).map(|_| 0)),
        2 => drop(board.drain(start..end)),
        3 => {
            let copy = board[start..end].to_vec();
            let to = r.pick(&starts).min(board.len());
            board.splice(to..to, copy);
        }
        // A kind or a length.
        4 => board[start + r.below(4).min(end - start - 1)] = r.below(20) as u8,
        // A small value in some field.
        5 if end > start + 4 => {
            board[start + 4 + r.below(end - start - 4)] = r.pick(&[0, 1, 2, 3, 63, 64, 128, 129, 255])
        }
        // A float field.
        6 if end == start + 14 => board[start + 10..end].copy_from_slice(&r.bits().to_le_bytes()),
        // A line's length, at and around its limits.
        7 if end == start + 14 => {
            let n: u32 = r.pick(&[0, 1, 131071, 131072, 131073, 132299, 132300, 132301, 70000, 65536]);
            board[start + 6..start + 10].copy_from_slice(&n.to_le_bytes());
        }
        // A wire to another node, or another input node: the counts of sources go wrong.
        9 if end == start + 8 => board[start + 6] = r.below(12) as u8,
        // Many wires of one kind.
        8 if end == start + 8 && start > 0 => {
            let copy = board[start..end].to_vec();
            for _ in 0..r.between(1, 130) {
                board.splice(start..start, copy.iter().copied());
            }
        }
        _ => {
            let at = r.below(board.len());
            board[at] = r.byte();
        }
    }
}

/// A board at, just below or just above one of the limits: lines together, nodes, wires, sources of a sum, N.
fn edge_board(r: &mut Random) -> Board {
    let plain = node(1, 0, 0.0);
    let mut board =
        Board { size: r.between(1, 3), input: 1, nodes: vec![node(3, 0, 0.0), plain.clone()], wires: vec![(1, 0)] };
    let over = r.between(0, 3);
    match r.below(5) {
        0 => {
            let n = r.between(1, 60000);
            let rest = 262144 - 132300 - 2 * n - 1 + over;
            let part = r.between(1, rest - 1);
            let lines = [(7, 132300), (8, n as u32), (7, part as u32), (7, (rest - part) as u32)];
            for (k, (kind, n)) in lines.into_iter().enumerate() {
                board.nodes.push(node(kind, n, 0.0));
                board.wires.push((k + 1, k + 2));
            }
        }
        1 => board.nodes.resize(63 + over, plain),
        2 => board.wires = vec![(1, 0); 127 + over],
        3 => {
            board.nodes.resize(3 + 6 + over, plain);
            let sum = r.pick(&[0, 2]);
            board.nodes[2] = node(2, 0, 0.0);
            board.wires = (3..board.nodes.len()).map(|k| (k, sum)).chain((3..6).map(|k| (k, sum))).collect();
            r.shuffle(&mut board.wires);
        }
        _ => board.size = r.pick(&[0, 1, 127, 128, 129, 65535]),
    }
    board
}

/// Words of a memory: any bits where any may stand, and values at the edge of what is judged.
fn memory_changes(r: &mut Random, board: &Board) -> Vec<(usize, u32)> {
    let mut changes = vec![];
    let wild = r.one_in(3);
    for (k, node) in board.nodes.iter().enumerate() {
        let cell = board.cell_start(k);
        if wild || r.one_in(6) {
            let free = 3..board.cell_words(k);
            for _ in 0..r.between(0, 20.min(free.len())) {
                changes.push((cell + 4 * r.between(free.start, free.end - 1), r.bits()));
            }
        }
        if r.one_in(2) && node.line() > 0 {
            changes.push((cell + 8, r.below(node.n as usize) as u32));
        }
        if r.one_in(2) && node.kind == 9 {
            changes.push((cell + 4, r.bits()));
        }
        if r.one_in(2) && node.kind == 10 {
            changes.push((cell + 4, r.pick(&[1f32.to_bits(), 0x80000000, 0x3f7fffff, 0x3f000000, 1])));
        }
        // Seldom a judged value at the edge of its range.
        if r.one_in(25) {
            let (word, bits) = match r.below(3) {
                0 => (0, r.pick(&[1, 0x80000000, 0x80000001, 0x7f800000, 0x7fc00001, 0x472c4400, 0x472c4401])),
                1 => (1, r.pick(&[1, 0x80000000, 0x80000001, 0x3f800000, 0x3f800001, 0x7fc00000])),
                _ => (2, r.pick(&[node.n, node.n.wrapping_sub(1), node.n + 1, 0x80000000])),
            };
            changes.push((cell + 4 * word, bits));
        }
    }
    changes
}

fn any_call(r: &mut Random, size: usize) -> Call {
    let value = match r.below(6) {
        0 => f32::from_bits(r.bits()),
        1 => r.pick(&[f32::INFINITY, f32::NEG_INFINITY, f32::NAN, -1.0, -0.0, 44100.0, 44100.004, -1e-45]),
        _ => r.unit() * 50.0,
    };
    match r.below(10) {
        0 => Call::Message(r.below(80) as u32, value),
        1 | 2 => Call::Message(r.below(14) as u32, value),
        3 => Call::Mix(value),
        4 if r.one_in(8) => Call::Message(r.word(), value),
        _ => {
            let mut block = input(r, size);
            if r.one_in(12) && size > 0 {
                let at = 4 * r.below(size);
                block[at..at + 4].copy_from_slice(&r.bits().to_le_bytes());
            }
            let mut lengths = [block.len(), 4 * size, 4 * size];
            if r.one_in(15) {
                let which = r.below(3);
                lengths[which] = if r.one_in(2) { r.below(40) } else { lengths[which] + r.between(0, 2) - 1 };
            }
            block.resize(lengths[0], 0);
            Call::Block(Form::Floats, block, lengths[1], lengths[2])
        }
    }
}

/// A case of any kind: `plate` is a board to start from, else a random one.
pub fn any_case(r: &mut Random, plate: Option<Vec<u8>>, limits: Limits) -> Case {
    let mut board = plate.unwrap_or_else(|| {
        if r.one_in(20) {
            return to_bytes(&edge_board(r));
        }
        let most = r.pick(&[9, 9, 9, 128]);
        let size = r.between(1, most);
        to_bytes(&random_board(r, &[size], limits))
    });
    if r.one_in(2) {
        for _ in 0..r.pick(&[1, 1, 1, 2, 5]) {
            damage_board(r, &mut board);
        }
    }
    let accepted = judge(&board).ok();
    let size = accepted.as_ref().map_or(2, |board| board.size);
    let needed = accepted.as_ref().map_or(64, Board::memory_length);
    let memory_length = match r.below(30) {
        0 => Some(r.below(2000)),
        1 => Some(needed + r.between(0, 8) - 4.min(needed)),
        _ => None,
    };
    let changes = accepted.as_ref().filter(|_| r.one_in(2)).map_or(vec![], |board| memory_changes(r, board));
    let calls = (0..r.between(1, 6)).map(|_| any_call(r, size)).collect();
    Case { board, memory_length, changes, calls }
}
