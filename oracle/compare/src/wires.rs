//! Random cases of boards that are rewired while they play: wires added and pulled between blocks and messages, and every
//! refusal of such a call.
use crate::boards::{node, random_board, to_bytes, Limits};
use crate::cases::{Call, Case, Change, Panel, Said};
use crate::damage::{damage_board, fitting_message, refused_block, whole_block};
use crate::model::{judge, Board};
use crate::random::Random;

/// Sums, most of them, between node 0 and the input node, so that nearly every wire may come and go; the others have lines,
/// poles and phases that stand still while nothing leads from them to node 0.
fn sums(r: &mut Random, count: usize) -> Board {
    let mut nodes = vec![node(3, 0, 0.0)];
    let mut wires = vec![];
    for k in 1..count - 1 {
        let n = r.between(1, 9) as u32;
        let next = match r.below(12) {
            0 => node(1, 0, 0.0),
            1 => node(7, n, 0.0),
            2 => node(8, n, r.unit()),
            3 => node(9, 0, r.unit()),
            4 => node(10, 0, r.unit().abs() * 44100.0),
            _ => node(2, 0, 0.0),
        };
        if (7..=9).contains(&next.kind) {
            wires.push((r.pick(&[k - 1, k + 1, count - 1]), k));
        }
        nodes.push(next);
    }
    nodes.push(node(1, 0, 0.0));
    Board { size: r.between(1, 4), input: count - 1, nodes, wires }
}

/// A wire that the board can take, if a few tries find one.
fn free_wire(r: &mut Random, board: &Board) -> Option<(usize, usize)> {
    let count = board.nodes.len();
    let wires = std::iter::repeat_with(|| (r.below(count), r.below(count)));
    wires.take(60).find(|&(source, target)| {
        let most = match board.nodes[target].kind {
            _ if target == board.input || target == source => return false,
            1 => 1,
            2 | 3 => 8,
            5 | 6 | 8 => 2,
            _ => 0,
        };
        let sources = board.sources(target);
        sources.contains(&source) || sources.len() < most
    })
}

/// Adds wires at random until there are `count`, if the board can take so many.
fn fill(r: &mut Random, board: &mut Board, count: usize) {
    while board.wires.len() < count {
        match free_wire(r, board) {
            Some(wire) => board.wires.push(wire),
            None => return,
        }
    }
}

/// What costs or holds most: a chain of 64 nodes, down which the walk goes 64 deep; the same with as many wires as there
/// may be, or nearly; and a few wires that are repeated as often.
fn worst_board(r: &mut Random, which: usize) -> Board {
    let full = r.between(126, 128);
    let count = if which == 2 { r.pick(&[3, 9, 64]) } else { 64 };
    let mut board = sums(r, count);
    if which == 2 {
        let few = board.wires.len() + 6;
        fill(r, &mut board, few);
        while board.wires.len() < full && !board.wires.is_empty() {
            board.wires.push(r.pick(&board.wires));
        }
        return board;
    }
    // Node 0, the others in any order, the input node.
    let mut chain: Vec<usize> = (1..count - 1).collect();
    r.shuffle(&mut chain);
    chain.insert(0, 0);
    chain.push(count - 1);
    for k in 1..count - 1 {
        board.nodes[k] = node(2, 0, 0.0);
    }
    board.wires = chain.windows(2).map(|pair| (pair[1], pair[0])).collect();
    if which == 1 {
        fill(r, &mut board, full);
        r.shuffle(&mut board.wires);
    }
    board
}

/// A wire that can be pulled, if a few tries find one.
fn loose_wire(r: &mut Random, board: &Board) -> Option<(usize, usize)> {
    let tries = if board.wires.is_empty() { 0 } else { 12 };
    let wires = std::iter::repeat_with(|| r.below(board.wires.len()));
    let loose = |&k: &usize| {
        let mut fewer = board.clone();
        fewer.wires.remove(k);
        judge(&to_bytes(&fewer)).is_ok()
    };
    wires.take(tries).find(loose).map(|k| board.wires[k])
}

/// Any wire: missing nodes, numbers whose low byte is a node's, one node at both ends, into the input node, like a wire of
/// the board; most often one that is accepted.
fn any_wire(r: &mut Random, board: &Board, adding: bool) -> (usize, usize) {
    let count = board.nodes.len();
    let some = (r.below(count), r.below(count));
    let missing = r.pick(&[count, count + 1, 64, 128, 255, 256 + some.0, 256 + some.1, 32768 + some.0, 65535]);
    let like = if board.wires.is_empty() { some } else { r.pick(&board.wires) };
    match r.below(20) {
        0 => (missing, some.1),
        1 => (some.0, missing),
        2 => (like.0 + 256, like.1),
        3 => (like.0, like.1 + 256),
        4 => (missing, missing),
        5 => (some.0, some.0),
        6 => (some.0, board.input),
        7 => some,
        8 | 9 => like,
        _ if adding => free_wire(r, board).unwrap_or(like),
        _ => loose_wire(r, board).unwrap_or(like),
    }
}

/// A change of any kind on a board: mostly with room and the right length, else with too few bytes or another length, up
/// to the largest.
fn any_change(r: &mut Random, panel: &Panel) -> Change {
    let length = panel.board().len();
    let adding = r.one_in(2);
    let (source, target) = match judge(panel.board()) {
        Ok(board) => any_wire(r, &board, adding),
        Err(_) => (r.below(5), r.below(5)),
    };
    let room = if adding { 8 } else { 0 };
    let spare = room + r.pick(&[0, 0, 1, 4, 8, 40]);
    let (spare, said) = match r.below(16) {
        0 => (r.between(0, 16) as isize - 9, Said::Off(0)),
        1 => (-(r.below(length + 1) as isize), Said::Off(0)),
        // Another length than the board's, by single bytes and by records, with room and without.
        2 | 3 => {
            let more = r.pick(&[1, 2, 4, 7, 8, 9, 12, 14, 16]);
            let spare = room + r.pick(&[0, more - 1, more, more + 30]);
            (spare, Said::Off(if r.one_in(2) { more } else { -more }))
        }
        4 => {
            let any = [usize::MAX - 19, usize::MAX / 2 - 9, u32::MAX as usize - 11, (1 << 32) + length - 10, 0];
            (spare, Said::Is(r.pick(&any) + r.below(20)))
        }
        _ => (spare, Said::Off(0)),
    };
    Change { adding, source: source as u16, target: target as u16, spare, said }
}

/// Case k: a board in fresh memory, the worst ones in turn among them, `plate` if it is given, or a damaged one, with
/// blocks, messages, a refused call now and then, and changes of wires between them.
pub fn rewired_case(r: &mut Random, k: usize, plate: Option<Vec<u8>>, limits: Limits) -> Case {
    let most = r.pick(&[5, 5, 5, 128]);
    let size = r.between(1, most);
    let mut board = plate.unwrap_or_else(|| match k % 16 {
        which @ 0..=2 => to_bytes(&worst_board(r, which)),
        3..=8 => {
            let count = if r.one_in(10) { 64 } else { r.between(3, 9) };
            let mut board = sums(r, count);
            let wires = board.wires.len() + r.below(3 * count);
            fill(r, &mut board, wires);
            to_bytes(&board)
        }
        _ => to_bytes(&random_board(r, &[size], limits)),
    });
    if k % 16 == 15 {
        damage_board(r, &mut board);
    }
    let mut panel = Panel::new(&board);
    let mut calls = vec![];
    for _ in 0..r.between(1, 8) {
        for _ in 0..r.pick(&[0, 1, 1, 2, 3, 12]) {
            let change = any_change(r, &panel);
            panel.change(&change);
            calls.push(Call::Wire(change));
        }
        let now = judge(panel.board()).ok();
        let size = now.as_ref().map_or(2, |board| board.size);
        for _ in 0..r.between(0, 2) {
            calls.push(whole_block(r, size));
        }
        if r.one_in(4) {
            calls.extend(now.and_then(|board| fitting_message(r, &board)));
        }
        if r.one_in(12) {
            calls.push(Call::Message(r.below(70) as u32, f32::from_bits(r.bits())));
        }
        if r.one_in(12) {
            calls.push(refused_block(r, size));
        }
    }
    Case { board, memory_length: None, changes: vec![], calls }
}
