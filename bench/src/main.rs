// Compares the product with the same rules in plain Rust, on the same inputs in one run: results, times, allocations.

mod calls;
mod clock;
mod counting;
mod plain;
mod scans;
mod table;

use calls::{Plain, Product, Told, Version};
use plain::{Asked, Tables};
use scans::{gyroid, small, Case, Random, LEVEL};
use std::process::exit;

/// The random small scans.
const CASES: usize = 20_000;

/// The repeats of each timing.
const REPEATS: usize = 7;

fn fail(what: &str) -> ! {
    println!("DIFFERENT: {what}");
    exit(1);
}

/// Draws a case into both trays.
fn results(version: &dyn Version, case: &Case) -> (u32, Told, Vec<u32>, Told, Vec<u8>) {
    let Case { asked, budget, readings, places } = case;
    let opened = version.open(*asked, readings);
    let mut numbers = vec![7; 3 * places + 2];
    let records = version.records(*asked, *budget, readings, &mut numbers);
    let mut text = vec![b'#'; 27 * places + 20];
    let lines = version.text(*asked, *budget, readings, &mut text);
    (opened, records, numbers, lines, text)
}

fn compare_small(plain: &Plain) {
    let mut random = Random(0x9E37_79B9_7F4A_7C15);
    let mut ends = [0usize; 20];
    let mut triangles = 0;
    for n in 0..CASES {
        let case = small(&mut random);
        let product = results(&Product, &case);
        if product != results(plain, &case) {
            println!("{:?}\n{:?}", case.asked, case.readings);
            println!("{:?}\n{:?}", product.1, results(plain, &case).1);
            fail(&format!("small scan {n}"));
        }
        ends[product.1.refusal as usize] += 1;
        triangles += product.1.triangles;
    }
    println!("{CASES} small scans, {triangles} triangles: equal. Of these, by refusal or ending:");
    for (number, count) in ends.iter().enumerate().filter(|(_, count)| **count > 0) {
        println!("  {number}: {count}");
    }
    for number in [0, 1, 4, 5, 6, 7, 8, 10, 11, 12] {
        if ends[number] == 0 {
            fail("no scan for one of the endings");
        }
    }
}

fn median(mut times: Vec<f64>) -> f64 {
    times.sort_by(f64::total_cmp);
    times[times.len() / 2]
}

/// Runs two versions in turn, and gives the median time of each in nanoseconds.
fn race(mut one: impl FnMut(), mut other: impl FnMut()) -> (f64, f64) {
    let (mut ones, mut others) = (Vec::new(), Vec::new());
    for _ in 0..REPEATS {
        let start = clock::now();
        one();
        ones.push(clock::now() - start);
        let start = clock::now();
        other();
        others.push(clock::now() - start);
    }
    (median(ones), median(others))
}

fn show(what: &str, cubes: f64, (product, plain): (f64, f64)) {
    println!(
        "  {what}: {:.2} ns a cube, plain {:.2}, ratio {:.2}",
        product / cubes,
        plain / cubes,
        product / plain
    );
}

/// What is asked of the gyroid with that side.
fn asked(side: u32) -> Asked {
    Asked {
        sides: [side; 3],
        threshold: LEVEL,
        below: false,
        pair: (18, 6),
    }
}

fn race_gyroid(plain: &Plain, side: u32) {
    let readings = gyroid(side);
    let asked = asked(side);
    let cubes = f64::from(side - 1).powi(3);
    let places = readings.len() / 2;
    let (mut a, mut b) = (vec![0; 3 * places], vec![0; 3 * places]);
    let told = Product.records(asked, u32::MAX, &readings, &mut a);
    if told != plain.records(asked, u32::MAX, &readings, &mut b) || a != b {
        fail("the gyroid's triangles");
    }
    println!("Gyroid of side {side}: {} triangles, {:?}", told.triangles, told);
    let places = told.triangles;
    a.truncate(3 * places);
    b.truncate(3 * places);
    let opened = race(
        || assert_eq!(Product.open(asked, &readings), 0),
        || assert_eq!(plain.open(asked, &readings), 0),
    );
    show("copied and opened", cubes, opened);
    let records = race(
        || assert_eq!(Product.records(asked, u32::MAX, &readings, &mut a), told),
        || assert_eq!(plain.records(asked, u32::MAX, &readings, &mut b), told),
    );
    show("copied, opened and drawn into records", cubes, records);
    let drawn = (records.0 - opened.0, records.1 - opened.1);
    show("drawn into records alone", cubes, drawn);
    let (mut a, mut b) = (vec![0; 27 * places], vec![1; 27 * places]);
    let text = race(
        || assert_eq!(Product.text(asked, u32::MAX, &readings, &mut a), told),
        || assert_eq!(plain.text(asked, u32::MAX, &readings, &mut b), told),
    );
    if a != b {
        fail("the gyroid's text");
    }
    show("copied, opened and drawn into text", cubes, text);
    let drawn = (text.0 - opened.0, text.1 - opened.1);
    show("drawn into text alone", cubes, drawn);
}

/// Counts allocations of drawings by few and by many draws, of small and of large scans.
fn count_allocations() {
    let mut counts = Vec::new();
    for (side, budget) in [(16, u32::MAX), (64, u32::MAX), (64, 1000), (64, 1), (128, u32::MAX), (128, 1)] {
        let readings = gyroid(side);
        let asked = asked(side);
        let mut numbers = vec![0; 3 * readings.len() / 4];
        let mut text = vec![0; 27 * readings.len() / 4];
        let start = counting::asked();
        let told = Product.records(asked, budget, &readings, &mut numbers);
        let records = counting::asked() - start;
        let start = counting::asked();
        Product.text(asked, budget, &readings, &mut text);
        let lines = counting::asked() - start;
        println!("  {} cubes by {} draws: {records} allocations, into text {lines}", told.cubes, told.draws);
        counts.push((records, lines));
    }
    if counts.iter().any(|count| *count != counts[0]) || counts[0].0 == 0 {
        fail("the allocations of draws");
    }
}

fn main() {
    let plain = Plain(Tables::new());
    compare_small(&plain);
    println!("Allocations of a whole call, one block and one tray:");
    count_allocations();
    for side in [64, 128, 256] {
        race_gyroid(&plain, side);
    }
}
