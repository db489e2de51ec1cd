//! Boards as bytes, printed, and at random.
use crate::model::{judge, Board, Node};
use crate::random::Random;

fn record(bytes: &mut Vec<u8>, kind: u16, body: &[u8]) {
    bytes.extend((body.len() as u16 + 4).to_le_bytes());
    bytes.extend(kind.to_le_bytes());
    bytes.extend(body);
}

pub fn to_bytes(board: &Board) -> Vec<u8> {
    let mut bytes = vec![];
    record(&mut bytes, 1, &[(board.size as u16).to_le_bytes(), (board.input as u16).to_le_bytes()].concat());
    for node in &board.nodes {
        record(&mut bytes, 2, &[&node.kind.to_le_bytes()[..], &node.n.to_le_bytes(), &node.f.to_le_bytes()].concat());
    }
    for &(source, target) in &board.wires {
        record(&mut bytes, 3, &[(source as u16).to_le_bytes(), (target as u16).to_le_bytes()].concat());
    }
    record(&mut bytes, 4, &[]);
    bytes
}

pub fn node(kind: u16, n: u32, f: f32) -> Node {
    Node { kind, n, f: f.to_bits() }
}

/// Document 01's printed board.
pub fn printed() -> Board {
    Board {
        size: 2,
        input: 1,
        nodes: vec![node(3, 0, 0.0), node(1, 0, 0.0), node(6, 0, 0.0), node(7, 1, 0.0), node(5, 0, 0.5)],
        wires: vec![(1, 2), (2, 3), (3, 4), (4, 2), (3, 0)],
    }
}

const NAMES: [&str; 10] =
    ["pass", "sum", "destination", "balance", "mul", "add", "delay", "all-pass", "one-pole", "sine"];

pub fn text(board: &Board) -> String {
    let mut lines = vec![format!("N {}, input {}", board.size, board.input)];
    for (k, node) in board.nodes.iter().enumerate() {
        let name = NAMES.get((node.kind as usize).wrapping_sub(1)).unwrap_or(&"?");
        let mut line = format!("  {k} {name}");
        if node.n != 0 {
            line += &format!(" {}", node.n);
        }
        if node.f != 0 {
            line += &format!(" {:?} ({:08x})", f32::from_bits(node.f), node.f);
        }
        lines.push(line);
    }
    let wires: Vec<_> = board.wires.iter().map(|(s, t)| format!("{s}→{t}")).collect();
    lines.push(format!("  wires {}", wires.join(", ")));
    lines.join("\n")
}

/// How long the lines of random boards may get.
#[derive(Clone, Copy)]
pub struct Limits {
    pub nodes: usize,
    pub line: usize,
}

fn random_node(r: &mut Random, limits: Limits) -> Node {
    let kind = r.pick(&[1, 2, 4, 5, 6, 7, 8, 8, 9, 10]);
    let n = match (kind, r.below(40)) {
        (7 | 8, 0) => r.between(1, limits.line),
        (7 | 8, 1..=9) => r.between(1, 200.min(limits.line)),
        (7 | 8, _) => r.between(1, 20),
        _ => 0,
    };
    let f = match kind {
        5 | 6 | 8 => r.finite(),
        9 if r.one_in(3) => r.finite(),
        9 => r.unit().abs(),
        // Frequencies up to the sample rate, where the phase stays at 1, and both zeros.
        10 => match r.below(6) {
            0 => 44100.0,
            1 => r.pick(&[0.0, -0.0, 22050.0, 11025.0, 1e-30]),
            2 => r.unit().abs() * 100.0,
            _ => r.unit().abs() * 44100.0,
        },
        _ => 0.0,
    };
    Node { kind, n: n as u32, f: f.to_bits() }
}

/// The nodes' sources, as many as each type takes. `ahead` keeps wires going from higher to lower nodes, so that no loop
/// arises; else any node may feed any other, node 0 among them.
fn random_wires(r: &mut Random, nodes: &[Node], input: usize, ahead: bool) -> Vec<(usize, usize)> {
    let mut wires = vec![];
    for (k, node) in nodes.iter().enumerate() {
        let possible: Vec<usize> = (0..nodes.len()).filter(|&s| s != k && (!ahead || s > k || s == input)).collect();
        let count = match node.kind {
            _ if k == input => 0,
            1 => r.pick(&[0, 1, 1, 1]),
            2 => r.between(0, 8),
            3 => r.pick(&[1, 1, 2, 2, 3, 8]),
            4 => 2,
            5 | 6 | 8 => r.between(1, 2),
            7 | 9 => 1,
            _ => 0,
        };
        let mut sources = possible;
        r.shuffle(&mut sources);
        sources.truncate(count);
        for source in sources {
            for _ in 0..if r.one_in(9) { r.between(2, 3) } else { 1 } {
                wires.push((source, k));
            }
        }
    }
    r.shuffle(&mut wires);
    wires
}

/// An accepted board with a block size of the list.
pub fn random_board(r: &mut Random, sizes: &[usize], limits: Limits) -> Board {
    loop {
        let most = if r.one_in(12) { limits.nodes } else { 12.min(limits.nodes) };
        let count = r.between(2, most);
        let input = if r.one_in(3) { r.between(1, count - 1) } else { 1 };
        let mut nodes = vec![node(3, 0, 0.0)];
        let plain = r.one_in(6);
        for k in 1..count {
            let mut next = random_node(r, limits);
            // Plain boards have a finite tail, unless a loop gives them none.
            while plain && !matches!(next.kind, 1..=5 | 7) {
                next = random_node(r, limits);
            }
            nodes.push(if k == input { node(1, 0, 0.0) } else { next });
        }
        let ahead = r.one_in(3) || (plain && !r.one_in(4));
        let wires = random_wires(r, &nodes, input, ahead);
        let board = Board { size: r.pick(sizes), input, nodes, wires };
        if judge(&to_bytes(&board)).is_ok() {
            return board;
        }
    }
}
