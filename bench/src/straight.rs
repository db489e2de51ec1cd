//! The plate as one straight-line program on f32 arrays: no board, no bytes, no checks, each ring a vector. Roughly a lower
//! bound for what a block of it costs in this shape; the bench holds its samples against the library's first.
use compare::original::sine;

struct Ring {
    values: Vec<f32>,
    place: usize,
}

impl Ring {
    fn new(n: usize) -> Self {
        Ring { values: vec![0.0; n], place: 0 }
    }
    fn push(&mut self, x: f32) -> f32 {
        let oldest = std::mem::replace(&mut self.values[self.place], x);
        self.place += 1;
        if self.place == self.values.len() {
            self.place = 0;
        }
        oldest
    }
    fn oldest(&self) -> f32 {
        self.values[self.place]
    }
    /// Indexes up to n + 1, counted from the oldest.
    fn get(&self, index: usize) -> f32 {
        let n = self.values.len();
        let mut at = self.place + index;
        if at >= n {
            at -= n;
        }
        if at >= n {
            at -= n;
        }
        self.values[at]
    }
    fn delay(&mut self, block: &mut [f32]) {
        for v in block {
            *v = self.push(*v);
        }
    }
}

struct AllPass {
    x: Ring,
    y: Ring,
    gain: f32,
}

impl AllPass {
    fn new(n: usize, gain: f32) -> Self {
        AllPass { x: Ring::new(n), y: Ring::new(n), gain }
    }
    fn push(&mut self, x: f32, old_x: f32, old_y: f32) -> f32 {
        let y = (-self.gain * x + old_x) + self.gain * old_y;
        self.x.push(x);
        self.y.push(y);
        y
    }
    fn run(&mut self, block: &mut [f32]) {
        for v in block {
            *v = self.push(*v, self.x.oldest(), self.y.oldest());
        }
    }
    fn run_modulated(&mut self, block: &mut [f32], modulation: &[f32]) {
        let n = self.x.values.len() as f32;
        for (v, m) in block.iter_mut().zip(modulation) {
            let mut w = m / 1000.0 * 44100.0;
            if !(w > 0.0) {
                w = 0.0;
            }
            if w > n {
                w = n;
            }
            let pos = if w > 0.0 { n - w } else { 0.0 };
            let i = pos as usize;
            let r = pos - i as f32;
            let old_x = self.x.get(i) * r + self.x.get(i + 1) * (1.0 - r);
            let old_y = self.y.get(i) * r + self.y.get(i + 1) * (1.0 - r);
            *v = self.push(*v, old_x, old_y);
        }
    }
}

struct OnePole {
    b: f32,
    y1: f32,
}

impl OnePole {
    fn new(bits: u32) -> Self {
        OnePole { b: f32::from_bits(bits), y1: 0.0 }
    }
    fn run(&mut self, block: &mut [f32]) {
        let a = 1.0 - self.b;
        for v in block {
            self.y1 = *v * a + self.b * self.y1;
            *v = self.y1;
        }
    }
}

const DELAYS: [usize; 14] = [2205, 394, 2800, 1204, 2000, 179, 2679, 3500, 522, 2400, 2400, 1578, 2378, 2500];
const ALL_PASSES: [(usize, f32); 12] = [
    (210, 0.75),
    (158, 0.75),
    (560, 0.625),
    (410, 0.625),
    (4410, 0.7),
    (334, 0.5),
    (1577, 0.5),
    (4410, 0.5),
    (1323, 0.7),
    (273, 0.7),
    (1539, 0.7),
    (899, 0.7),
];

pub struct Plate {
    mix: f32,
    phase: f32,
    poles: [OnePole; 3],
    delays: Vec<Ring>,
    all_passes: Vec<AllPass>,
    /// The last block of aa, which ab reads: the late wire.
    aa: [f32; 128],
}

impl Plate {
    pub fn new(mix: f32) -> Self {
        Plate {
            mix,
            phase: 0.0,
            poles: [0x3c498223, 0x3f0892ad, 0x3f0892ad].map(OnePole::new),
            delays: DELAYS.map(Ring::new).into(),
            all_passes: ALL_PASSES.iter().map(|&(n, gain)| AllPass::new(n, gain)).collect(),
            aa: [0.0; 128],
        }
    }

    fn modulation(&mut self, block: &mut [f32]) {
        for v in block {
            *v = sine(self.phase) * 5.5 + 29.5;
            self.phase += 0.1 / 44100.0;
            if self.phase > 1.0 {
                self.phase -= 1.0;
            }
        }
    }

    /// The names are those of plate.rs.
    pub fn block(&mut self, x: &[f32], out0: &mut [f32], out1: &mut [f32]) {
        let n = x.len();
        let mut modulation = [0.0; 128];
        self.modulation(&mut modulation[..n]);
        let (d, a) = (&mut self.delays, &mut self.all_passes);
        let mut t = self.aa;
        d[2].delay(&mut t[..n]);
        let ab = t;
        d[3].delay(&mut t[..n]);
        d[4].delay(&mut t[..n]);
        self.poles[1].run(&mut t[..n]);
        a[5].run(&mut t[..n]);
        let ba = t;
        a[6].run(&mut t[..n]);
        let bb = t;
        a[7].run_modulated(&mut t[..n], &modulation[..n]);
        d[5].delay(&mut t[..n]);
        let ca = t;
        d[6].delay(&mut t[..n]);
        let cb = t;
        d[7].delay(&mut t[..n]);
        t[..n].iter_mut().for_each(|v| *v *= 0.3);
        a[8].run(&mut t[..n]);
        d[8].delay(&mut t[..n]);
        let da = t;
        d[9].delay(&mut t[..n]);
        let db = t;
        d[10].delay(&mut t[..n]);
        self.poles[2].run(&mut t[..n]);
        a[9].run(&mut t[..n]);
        let ea = t;
        a[10].run(&mut t[..n]);
        let eb = t;
        a[11].run(&mut t[..n]);
        d[11].delay(&mut t[..n]);
        let fa = t;
        d[12].delay(&mut t[..n]);
        let fb = t;
        d[13].delay(&mut t[..n]);
        let mut feedback = t;
        feedback[..n].iter_mut().for_each(|v| *v *= 0.3);

        t[..n].copy_from_slice(x);
        self.poles[0].run(&mut t[..n]);
        d[0].delay(&mut t[..n]);
        a[..4].iter_mut().for_each(|filter| filter.run(&mut t[..n]));
        t[..n].iter_mut().zip(&feedback).for_each(|(v, back)| *v += back);
        a[4].run_modulated(&mut t[..n], &modulation[..n]);
        d[1].delay(&mut t[..n]);
        self.aa = t;

        for i in 0..n {
            let dry = x[i] * (1.0 - self.mix);
            let left_subtract = 0.0 + bb[i] + db[i] + ea[i] + fa[i];
            let left = 0.0 + t[i] + ab[i] + cb[i] + left_subtract * -1.0;
            out0[i] = 0.0 + (0.0 + dry + left * self.mix);
            let right_subtract = 0.0 + eb[i] + ab[i] + ba[i] + ca[i];
            let right = 0.0 + da[i] + db[i] + fb[i] + right_subtract * -1.0;
            out1[i] = 0.0 + (0.0 + dry + right * self.mix);
        }
    }
}
