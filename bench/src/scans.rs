// The inputs: random small scans, and a gyroid.

use crate::plain::{Asked, LACKING};
use crate::table::PAIRS;

/// A stream of numbers, the same in each run.
pub struct Random(pub u64);

impl Random {
    pub fn below(&mut self, bound: u64) -> u64 {
        self.0 ^= self.0 << 13;
        self.0 ^= self.0 >> 7;
        self.0 ^= self.0 << 17;
        (self.0.wrapping_mul(0x2545_F491_4F6C_DD1D) >> 33) % bound
    }

    fn one_in(&mut self, bound: u64) -> bool {
        self.below(bound) == 0
    }
}

/// A scan with what is asked of it.
pub struct Case {
    pub asked: Asked,
    pub budget: u32,
    pub readings: Vec<u16>,
    pub places: usize,
}

fn on_border(sides: [u32; 3], number: usize) -> bool {
    let [nx, ny, nz] = sides.map(|side| side as usize);
    let (x, y, z) = (number % nx, number / nx % ny, number / nx / ny);
    [(x, nx), (y, ny), (z, nz)]
        .iter()
        .any(|&(at, side)| at == 0 || at + 1 == side)
}

/// A random small scan: mostly one that is drawn whole, sometimes one for each refusal.
pub fn small(random: &mut Random) -> Case {
    let mut sides = [0; 3].map(|_| 2 + random.below(5) as u32);
    if random.one_in(20) {
        sides[random.below(3) as usize] = random.below(2) as u32;
    }
    let threshold = if random.one_in(20) { 0 } else { 1 + random.below(4) as u16 };
    let mut pair = PAIRS[random.below(4) as usize];
    if random.one_in(20) {
        pair = ([0, 6, 18, 26, 27][random.below(5) as usize], [6, 18, 26][random.below(3) as usize]);
    }
    let mut length = sides.iter().map(|&side| side as usize).product::<usize>();
    if random.one_in(30) {
        length += 1;
    }
    let lacking = random.one_in(5);
    let spread = 2 + random.below(4);
    let border = [0, 9][random.below(2) as usize];
    let mut readings: Vec<u16> = (0..length)
        .map(|_| if lacking && random.one_in(40) { LACKING } else { random.below(spread) as u16 })
        .collect();
    if !random.one_in(20) {
        for (number, reading) in readings.iter_mut().enumerate() {
            if *reading != LACKING && sides[0] * sides[1] > 0 && on_border(sides, number) {
                *reading = border;
            }
        }
    }
    if lacking && !random.one_in(4) && sides[0] * sides[1] > 0 {
        for (number, reading) in readings.iter_mut().enumerate() {
            if *reading == LACKING && on_border(sides, number) {
                *reading = border;
            }
        }
    }
    let budget = match random.below(8) {
        0 => random.below(2) as u32,
        1 | 2 => 1 + random.below(10) as u32,
        _ => u32::MAX,
    };
    let places = match random.below(4) {
        0 => random.below(40) as usize,
        _ => 6 * length,
    };
    let asked = Asked {
        sides,
        threshold,
        below: random.one_in(2),
        pair,
    };
    Case {
        asked,
        budget,
        readings,
        places,
    }
}

/// The voxels of one period of the gyroid.
const PERIOD: f64 = 70.0;

/// The threshold of the gyroid's readings.
pub const LEVEL: u16 = 1000;

/// A solid bounded by a gyroid, with a hollow border.
pub fn gyroid(side: u32) -> Vec<u16> {
    let angle = |at: u32| f64::from(at) * std::f64::consts::TAU / PERIOD;
    let sines: Vec<(f64, f64)> = (0..side).map(|at| angle(at).sin_cos()).collect();
    let mut readings = Vec::with_capacity((side as usize).pow(3));
    for z in 0..side as usize {
        for y in 0..side as usize {
            for x in 0..side as usize {
                let ((sx, cx), (sy, cy), (sz, cz)) = (sines[x], sines[y], sines[z]);
                let value = sx * cy + sy * cz + sz * cx;
                let inner = [x, y, z].iter().all(|&at| at > 0 && at + 1 < side as usize);
                readings.push(if inner { (f64::from(LEVEL) + 400.0 * value) as u16 } else { 0 });
            }
        }
    }
    readings
}
