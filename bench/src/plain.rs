// The same rules in plain Rust, as a measure for the product: blocks, trays, opening and drawing.

use crate::table::{rows, PAIRS};

/// The mark of a voxel without a reading.
pub const LACKING: u16 = u16::MAX;

/// What is asked of a drawing.
#[derive(Clone, Copy, Debug)]
pub struct Asked {
    pub sides: [u32; 3],
    pub threshold: u16,
    pub below: bool,
    pub pair: (u16, u16),
}

/// The rows of every pair, laid out for drawing.
pub struct Tables([Table; 4]);

pub struct Table {
    rows: [([[u8; 3]; 6], u8); 256],
}

impl Tables {
    pub fn new() -> Tables {
        Tables([0, 1, 2, 3].map(|pair| {
            let mut table = Table {
                rows: [([[0; 3]; 6], 0); 256],
            };
            for (to, row) in table.rows.iter_mut().zip(rows(pair)) {
                to.0[..row.len()].copy_from_slice(&row);
                to.1 = row.len() as u8;
            }
            table
        }))
    }
}

/// Readings on a grid.
pub struct Block {
    sides: [usize; 3],
    values: Vec<u16>,
}

impl Block {
    pub fn new(sides: [u32; 3], values: Vec<u16>) -> Result<Block, u32> {
        let sides = sides.map(|side| side as usize);
        if sides.iter().any(|side| !(1..=256).contains(side)) {
            return Err(1);
        }
        if sides.iter().product::<usize>() != values.len() {
            return Err(1);
        }
        Ok(Block { sides, values })
    }

    /// The numbers of the voxels on the border, in order.
    fn border(&self) -> impl Iterator<Item = usize> + '_ {
        let [nx, ny, nz] = self.sides;
        (0..nz).flat_map(move |z| {
            (0..ny).flat_map(move |y| {
                let row = nx * (y + ny * z);
                let whole = z == 0 || z + 1 == nz || y == 0 || y + 1 == ny;
                let step = if whole { 1 } else { (nx - 1).max(1) };
                (row..row + nx).step_by(step)
            })
        })
    }
}

pub trait Tray {
    fn free(&self) -> usize;
    fn put(&mut self, triangle: [u32; 3]);
}

/// A tray of records.
pub struct Records {
    pub list: Vec<[u32; 3]>,
    places: usize,
}

impl Records {
    pub fn new(places: usize) -> Records {
        Records {
            list: Vec::with_capacity(places),
            places,
        }
    }
}

impl Tray for Records {
    fn free(&self) -> usize {
        self.places - self.list.len()
    }

    fn put(&mut self, triangle: [u32; 3]) {
        self.list.push(triangle);
    }
}

/// A tray of lines.
pub struct Lines {
    bytes: Vec<u8>,
    held: usize,
}

impl Lines {
    pub fn new(bytes: Vec<u8>) -> Lines {
        Lines { bytes, held: 0 }
    }

    pub fn text(&self) -> &[u8] {
        &self.bytes[..27 * self.held]
    }
}

fn write_digits(to: &mut [u8], mut number: u32) {
    for digit in to.iter_mut().rev() {
        *digit = b'0' + (number % 10) as u8;
        number /= 10;
    }
}

impl Tray for Lines {
    fn free(&self) -> usize {
        self.bytes.len() / 27 - self.held
    }

    fn put(&mut self, [p, q, r]: [u32; 3]) {
        let line = &mut self.bytes[27 * self.held..][..27];
        write_digits(&mut line[..8], p);
        line[8] = b',';
        write_digits(&mut line[9..17], q);
        line[17] = b',';
        write_digits(&mut line[18..26], r);
        line[26] = b'\n';
        self.held += 1;
    }
}

/// How a draw ended.
#[derive(Clone, Copy, PartialEq, Eq, Debug)]
pub enum Ending {
    Done,
    Budget,
    Lacking,
    Full,
}

pub struct Drawing<'a> {
    table: &'a Table,
    threshold: u16,
    below: bool,
    pub cubes: usize,
    pub count: usize,
}

impl<'a> Drawing<'a> {
    pub fn open(tables: &'a Tables, block: &Block, asked: Asked) -> Result<Drawing<'a>, u32> {
        if block.sides.contains(&1) {
            return Err(4);
        }
        if asked.threshold == 0 {
            return Err(5);
        }
        let pair = PAIRS.iter().position(|&pair| pair == asked.pair).ok_or(6u32)?;
        if block.border().any(|voxel| block.values[voxel] == LACKING) {
            return Err(7);
        }
        let drawing = Drawing {
            table: &tables.0[pair],
            threshold: asked.threshold,
            below: asked.below,
            cubes: 0,
            count: block.sides.iter().map(|side| side - 1).product(),
        };
        let kind = drawing.solid(block.values[0]);
        if block.border().any(|voxel| drawing.solid(block.values[voxel]) != kind) {
            return Err(8);
        }
        Ok(drawing)
    }

    fn solid(&self, reading: u16) -> bool {
        (reading >= self.threshold) != self.below
    }

    /// Draws at most so many cubes.
    pub fn draw<T: Tray>(&mut self, block: &Block, tray: &mut T, budget: usize) -> Ending {
        let [nx, ny, _] = block.sides;
        let (cx, cy) = (nx - 1, ny - 1);
        // The voxels of a cube, and the links of a cube in numbers, both from its lowest voxel on.
        let corners = [0, 1, nx, nx + 1, nx * ny, nx * ny + 1, nx * ny + nx, nx * ny + nx + 1];
        let lowers = [0, 2, 4, 6, 0, 1, 4, 5, 0, 1, 2, 3].map(|voxel: usize| corners[voxel]);
        let mut links = [0u32; 12];
        for (link, lower) in lowers.into_iter().enumerate() {
            links[link] = (3 * lower + link / 4) as u32;
        }
        let end = self.count.min(self.cubes.saturating_add(budget));
        let (mut x, row) = (self.cubes % cx, self.cubes / cx);
        let (mut y, mut z) = (row % cy, row / cy);
        while self.cubes < end {
            let base = x + nx * (y + ny * z);
            let voxels = &block.values[base..=base + corners[7]];
            let mut mask = 0;
            for (i, corner) in corners.into_iter().enumerate() {
                let reading = voxels[corner];
                if reading == LACKING {
                    return Ending::Lacking;
                }
                mask |= usize::from(self.solid(reading)) << i;
            }
            let (row, count) = &self.table.rows[mask];
            let row = &row[..*count as usize];
            if row.len() > tray.free() {
                return Ending::Full;
            }
            for triangle in row {
                tray.put(triangle.map(|link| 3 * base as u32 + links[link as usize]));
            }
            self.cubes += 1;
            x += 1;
            if x == cx {
                x = 0;
                y += 1;
                if y == cy {
                    y = 0;
                    z += 1;
                }
            }
        }
        if self.cubes == self.count {
            Ending::Done
        } else {
            Ending::Budget
        }
    }
}
