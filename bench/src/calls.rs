// The calls that are compared: those of the product, through its exports, and the same in plain Rust.

use crate::plain::{Asked, Block, Drawing, Ending, Lines, Records, Tables, Tray};

#[repr(C)]
struct Asking {
    x: u32,
    y: u32,
    z: u32,
    budget: u32,
    threshold: u16,
    s: u16,
    h: u16,
    below: bool,
}

/// How a scan was drawn.
#[repr(C)]
#[derive(Clone, Copy, PartialEq, Eq, Debug)]
pub struct Told {
    pub refusal: u32,
    pub cubes: u32,
    pub draws: u32,
    pub triangles: usize,
}

extern "C" {
    fn exported_open(asking: &Asking, readings: *const u16, length: usize) -> u8;
    fn exported_records(
        asking: &Asking,
        readings: *const u16,
        length: usize,
        numbers: *mut u32,
        places: usize,
    ) -> Told;
    fn exported_text(
        asking: &Asking,
        readings: *const u16,
        length: usize,
        text: *mut u8,
        bytes: usize,
    ) -> Told;
}

/// A version of the calls.
pub trait Version {
    fn open(&self, asked: Asked, readings: &[u16]) -> u32;
    fn records(&self, asked: Asked, budget: u32, readings: &[u16], numbers: &mut [u32]) -> Told;
    fn text(&self, asked: Asked, budget: u32, readings: &[u16], text: &mut [u8]) -> Told;
}

pub struct Product;

fn asking(asked: Asked, budget: u32) -> Asking {
    let ([x, y, z], (s, h)) = (asked.sides, asked.pair);
    Asking {
        x,
        y,
        z,
        budget,
        threshold: asked.threshold,
        s,
        h,
        below: asked.below,
    }
}

// SAFETY, of all three: the declarations fit the exports, which ask nothing but that each pointer
// and length are those of one slice, lent for the call.
impl Version for Product {
    fn open(&self, asked: Asked, readings: &[u16]) -> u32 {
        let asking = asking(asked, 0);
        unsafe { exported_open(&asking, readings.as_ptr(), readings.len()) }.into()
    }

    fn records(&self, asked: Asked, budget: u32, readings: &[u16], numbers: &mut [u32]) -> Told {
        let asking = asking(asked, budget);
        let (to, places) = (numbers.as_mut_ptr(), numbers.len());
        unsafe { exported_records(&asking, readings.as_ptr(), readings.len(), to, places) }
    }

    fn text(&self, asked: Asked, budget: u32, readings: &[u16], text: &mut [u8]) -> Told {
        let asking = asking(asked, budget);
        let (to, bytes) = (text.as_mut_ptr(), text.len());
        unsafe { exported_text(&asking, readings.as_ptr(), readings.len(), to, bytes) }
    }
}

pub struct Plain(pub Tables);

fn refused(refusal: u32) -> Told {
    Told {
        refusal,
        cubes: 0,
        draws: 0,
        triangles: 0,
    }
}

impl Plain {
    // A budget of 0 is refused before the readings are looked at.
    fn draw<T: Tray>(&self, asked: Asked, budget: u32, block: &Block, tray: &mut T) -> Told {
        let mut drawing = match Drawing::open(&self.0, block, asked) {
            Ok(_) | Err(7 | 8) if budget == 0 => return refused(10),
            Ok(drawing) => drawing,
            Err(refusal) => return refused(refusal),
        };
        let free = tray.free();
        for draws in 1.. {
            let refusal = match drawing.draw(block, tray, budget as usize) {
                Ending::Budget => continue,
                Ending::Done => 0,
                Ending::Lacking => 11,
                Ending::Full => 12,
            };
            return Told {
                refusal,
                cubes: drawing.cubes as u32,
                draws,
                triangles: free - tray.free(),
            };
        }
        unreachable!()
    }
}

impl Version for Plain {
    fn open(&self, asked: Asked, readings: &[u16]) -> u32 {
        Block::new(asked.sides, readings.to_vec())
            .and_then(|block| Drawing::open(&self.0, &block, asked).map(|_| 0))
            .unwrap_or_else(|refusal| refusal)
    }

    fn records(&self, asked: Asked, budget: u32, readings: &[u16], numbers: &mut [u32]) -> Told {
        let block = match Block::new(asked.sides, readings.to_vec()) {
            Ok(block) => block,
            Err(refusal) => return refused(refusal),
        };
        let mut tray = Records::new(numbers.len() / 3);
        let told = self.draw(asked, budget, &block, &mut tray);
        for (to, triangle) in numbers.chunks_exact_mut(3).zip(&tray.list) {
            to.copy_from_slice(triangle);
        }
        told
    }

    fn text(&self, asked: Asked, budget: u32, readings: &[u16], text: &mut [u8]) -> Told {
        let block = match Block::new(asked.sides, readings.to_vec()) {
            Ok(block) => block,
            Err(refusal) => return refused(refusal),
        };
        let mut tray = Lines::new(vec![0; text.len()]);
        let told = self.draw(asked, budget, &block, &mut tray);
        text[..tray.text().len()].copy_from_slice(tray.text());
        told
    }
}
