//! The original Rust as an oracle: a board in an `AudioContext`, and the `Plate` itself. Block sizes are types there, so
//! only the sizes listed at the end can be run.
use crate::model::Board;
use glicol_synth::delay::DelayN;
use glicol_synth::effect::{Balance, Plate};
use glicol_synth::filter::{AllPassFilterGain, OnePole};
use glicol_synth::operator::{Add, Mul};
use glicol_synth::oscillator::SinOsc;
pub use glicol_synth::replaced::sine;
use glicol_synth::{
    AudioContext, AudioContextBuilder, BoxedNodeSend, Buffer, Input, Message, Node, NodeData, Pass, Sum,
};
use hashbrown::HashMap;
use petgraph::graph::NodeIndex;

pub trait Original {
    /// Runs one block; the outputs are node 0's samples afterwards.
    fn block(&mut self, input: &[f32]);
    /// An accepted number message.
    fn message(&mut self, node: usize, value: f32);
    /// An accepted mix message.
    fn mix(&mut self, value: f32);
    /// A node's buffer.
    fn samples(&self, node: usize, channel: usize) -> &[f32];
    /// The wires in order of connection.
    fn wires(&self) -> Vec<(usize, usize)>;
}

fn wires_of<const N: usize>(context: &AudioContext<N>) -> Vec<(usize, usize)> {
    let ends = context.graph.edge_indices().map(|wire| context.graph.edge_endpoints(wire).unwrap());
    ends.map(|(source, target)| (source.index(), target.index())).collect()
}

struct OfBoard<const N: usize> {
    context: AudioContext<N>,
    board: Board,
}

fn mono<const N: usize>(node: impl Node<N> + Send + 'static) -> NodeData<BoxedNodeSend<N>, N> {
    NodeData::new1(BoxedNodeSend::new(node))
}

fn one_pole(b: f32) -> OnePole {
    let mut pole = OnePole::new(0.1);
    pole.b = b;
    pole.a = 1.0 - b;
    pole
}

/// An all-pass of n samples: the constructor takes milliseconds, so one is looked for that gives n.
fn all_pass(n: u32, gain: f32) -> AllPassFilterGain {
    let gives = |ms: f32| (ms / 1000. * 44100_f32) as u32 == n;
    let mut ms = (n as f64 / 44.1) as f32;
    for _ in 0..64 {
        if gives(ms) {
            return AllPassFilterGain::new().delay(ms).gain(gain);
        }
        ms = f32::from_bits(ms.to_bits() + 1);
    }
    panic!("no milliseconds for an all-pass of {n}")
}

impl<const N: usize> OfBoard<N> {
    fn new(board: &Board) -> Self {
        // The context makes node 0, a stereo Sum2, and an input node of its own as node 1.
        let mut context = AudioContextBuilder::<N>::new().channels(2).build();
        for (k, node) in board.nodes.iter().enumerate().skip(1) {
            let f = f32::from_bits(node.f);
            let data = match node.kind {
                1 => mono(Pass {}),
                2 => mono(Sum {}),
                4 => NodeData::new2(BoxedNodeSend::new(Balance::new())),
                5 => mono(Mul::new(f)),
                6 => mono(Add::new(f)),
                7 => mono(DelayN::new(node.n as usize)),
                8 => mono(all_pass(node.n, f)),
                9 => mono(one_pole(f)),
                10 => mono(SinOsc::new().freq(f)),
                kind => panic!("a node of type {kind}"),
            };
            if k == 1 {
                context.graph[NodeIndex::new(1)] = data;
            } else {
                assert_eq!(context.graph.add_node(data).index(), k);
            }
        }
        for &(source, target) in &board.wires {
            context.connect(NodeIndex::new(source), NodeIndex::new(target));
        }
        OfBoard { context, board: board.clone() }
    }
}

impl<const N: usize> Original for OfBoard<N> {
    fn block(&mut self, input: &[f32]) {
        // As `Plate` does it: into the input node's buffer, then the block.
        self.context.graph[NodeIndex::new(self.board.input)].buffers[0].copy_from_slice(input);
        self.context.next_block();
    }
    fn message(&mut self, node: usize, value: f32) {
        let position = if self.board.nodes[node].kind == 8 { 1 } else { 0 };
        self.context.send_msg(NodeIndex::new(node), Message::SetToNumber(position, value));
    }
    fn mix(&mut self, value: f32) {
        for (node, number) in [(41, value), (47, value), (43, 1. - value), (49, 1. - value)] {
            self.message(node, number);
        }
    }
    fn samples(&self, node: usize, channel: usize) -> &[f32] {
        &self.context.graph[NodeIndex::new(node)].buffers[channel]
    }
    fn wires(&self) -> Vec<(usize, usize)> {
        wires_of(&self.context)
    }
}

/// The original plate on an input block, as a node that a graph would run.
pub struct OfPlate<const N: usize> {
    plate: Plate<N>,
    /// Where `inputs`, made once, points to.
    input: Box<[Buffer<N>]>,
    inputs: HashMap<usize, Input<N>>,
    output: [Buffer<N>; 2],
}

impl<const N: usize> OfPlate<N> {
    pub fn new(mix: f32) -> Self {
        let mut plate = Plate::<N>::new(mix);
        Node::<N>::send_msg(&mut plate, Message::Index(0));
        let input: Box<[Buffer<N>]> = vec![Buffer::SILENT].into();
        let inputs = [(0, Input::new(&input, 0, 0))].into_iter().collect();
        OfPlate { plate, input, inputs, output: [Buffer::SILENT, Buffer::SILENT] }
    }
    pub fn outputs(&self) -> &[Buffer<N>; 2] {
        &self.output
    }
}

impl<const N: usize> Original for OfPlate<N> {
    fn block(&mut self, input: &[f32]) {
        self.input[0].copy_from_slice(input);
        self.plate.process(&mut self.inputs, &mut self.output);
    }
    fn message(&mut self, node: usize, value: f32) {
        self.plate.context.send_msg(NodeIndex::new(node), Message::SetToNumber(0, value));
    }
    fn mix(&mut self, value: f32) {
        Node::<N>::send_msg(&mut self.plate, Message::SetToNumber(0, value));
    }
    fn samples(&self, node: usize, channel: usize) -> &[f32] {
        if node == 0 {
            return &self.output[channel];
        }
        &self.plate.context.graph[NodeIndex::new(node)].buffers[channel]
    }
    fn wires(&self) -> Vec<(usize, usize)> {
        wires_of(&self.plate.context)
    }
}

macro_rules! sizes {
    ($($n:literal),*) => {
        /// The block sizes for which the original is compiled.
        pub const SIZES: &[usize] = &[$($n),*];

        /// The original with a board's nodes and wires; none if its block size is not listed.
        pub fn of_board(board: &Board) -> Option<Box<dyn Original>> {
            match board.size {
                $($n => Some(Box::new(OfBoard::<$n>::new(board))),)*
                _ => None,
            }
        }

        /// The original plate.
        pub fn of_plate(size: usize, mix: f32) -> Option<Box<dyn Original>> {
            match size {
                $($n => Some(Box::new(OfPlate::<$n>::new(mix))),)*
                _ => None,
            }
        }
    };
}

sizes!(1, 2, 3, 4, 5, 7, 8, 13, 16, 31, 32, 64, 100, 127, 128);
