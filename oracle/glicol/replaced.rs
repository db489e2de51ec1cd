//! What document 01 puts in place of the Rust. edits.py leads to it from the nodes.
use crate::Input;
use hashbrown::HashMap;

/// Sine of a phase from 0 to 1 ("Leaves").
#[inline]
pub fn sine(phase: f32) -> f32 {
    let u = (phase * 16777216.0) as u32;
    let (q, r) = (u >> 22 & 3, u & 0x3fffff);
    let t = if q & 1 == 1 { (1 << 22) - r } else { r } as u64;
    let z = t * t >> 20;
    let mut h = 60;
    for k in [2692, 78547, 1337020, 10837479, 26353589] {
        h = k - (z * h >> 24);
    }
    let value = (t * h >> 23) as i32;
    (if q > 1 { -value } else { value }) as f32 / 8388608.0
}

/// b of the plate's one-poles: the floats nearest e^(−7π/5) and e^(−π/5) ("Plate").
pub fn one_pole_b(rate: f32) -> f32 {
    if rate == 0.7 {
        f32::from_bits(0x3c498223)
    } else if rate == 0.1 {
        f32::from_bits(0x3f0892ad)
    } else {
        panic!("the plate has no one-pole of this rate")
    }
}

/// The limits of w: NaN or negative becomes 0, above n becomes n.
#[inline]
pub fn limited(w: f32, n: usize) -> f32 {
    if w.is_nan() || w < 0.0 {
        0.0
    } else if w > n as f32 {
        n as f32
    } else {
        w
    }
}

/// The inputs of a sum by first wire. The graph hands wires over newest first, and `wire` counts them; so the oldest wire
/// of a source is the last that is put into the map, and the oldest of all has the highest count.
#[inline]
pub fn by_first_wire<const N: usize>(inputs: &HashMap<usize, Input<N>>) -> impl Iterator<Item = &Input<N>> {
    let mut sorted: [Option<&Input<N>>; 8] = [None; 8];
    for (k, input) in inputs.values().enumerate() {
        let mut at = k;
        while at > 0 && sorted[at - 1].is_some_and(|other| other.wire < input.wire) {
            sorted[at] = sorted[at - 1];
            at -= 1;
        }
        sorted[at] = Some(input);
    }
    sorted.into_iter().flatten()
}
