//! Pivots of a dense dictionary in plain Rust. It prints the same lines as the program `pivot_bench`.
#[path = "../cpu_time.rs"]
mod cpu_time;
#[path = "../frac.d/fraction.rs"]
#[allow(dead_code)]
mod fraction;

use cpu_time::cpu_time;
use fraction::{Frac, Random, Wide};

/// About how many entries the timed pivots of one size go over.
const ENTRIES: usize = 1_000_000;

const ROW: usize = 1;
const COLUMN: usize = 1;

/// Rows of one width: those of basic variables, and the objective's behind them.
struct Dictionary {
    cells: Vec<Frac>,
    width: usize,
}

/// Which entries are drawn: their numerators and denominators are below these, and one of so many isn't 0.
#[derive(Clone, Copy)]
struct Entries {
    num: u128,
    den: u128,
    one_of: u128,
}

fn entry(random: &mut Random, entries: Entries) -> Frac {
    if entries.one_of > 1 && random.next() % entries.one_of != 0 {
        return Frac::ZERO;
    }
    random.fraction((entries.num, entries.den))
}

impl Dictionary {
    fn random(size: usize, entries: Entries) -> Dictionary {
        let mut random = Random { state: 1 };
        let width = size + 1;
        let mut cells: Vec<Frac> = (0..width * width).map(|_| entry(&mut random, entries)).collect();
        // A pivot needs an entry that isn't 0, and phase one isn't wanted.
        cells[(ROW - 1) * width + COLUMN] = Frac::make(3, 2).unwrap();
        for row in 0..size {
            let rhs = &mut cells[row * width];
            rhs.num = rhs.num.abs();
        }
        Dictionary { cells, width }
    }

    fn pivot(&mut self, row: usize, column: usize) -> Result<(), Wide> {
        let (above, rest) = self.cells.split_at_mut((row - 1) * self.width);
        let (solved, below) = rest.split_at_mut(self.width);
        let divisor = solved[column];
        for entry in &mut solved[..column] {
            *entry = entry.checked_div(&divisor)?;
        }
        for entry in &mut solved[column + 1..] {
            *entry = entry.checked_div(&divisor)?;
        }
        solved[column] = Frac::ONE.checked_div(&divisor)?;
        let (basic, objective) = below.split_at_mut(below.len() - self.width);
        for line in above.chunks_exact_mut(self.width).chain(basic.chunks_exact_mut(self.width)) {
            if line[column] != Frac::ZERO {
                line[0] = line[0].checked_sub(&line[column].checked_mul(&solved[0])?)?;
                eliminate(line, solved, column)?;
            }
        }
        if objective[column] == Frac::ZERO {
            return Ok(());
        }
        objective[0] = objective[0].checked_add(&objective[column].checked_mul(&solved[0])?)?;
        eliminate(objective, solved, column)
    }
}

/// All but the constant.
fn eliminate(line: &mut [Frac], solved: &[Frac], column: usize) -> Result<(), Wide> {
    let factor = line[column];
    subtract_products(&mut line[1..column], &factor, &solved[1..column])?;
    subtract_products(&mut line[column + 1..], &factor, &solved[column + 1..])?;
    line[column] = factor.checked_mul(&solved[column])?.neg();
    Ok(())
}

fn subtract_products(entries: &mut [Frac], factor: &Frac, solved: &[Frac]) -> Result<(), Wide> {
    for (entry, other) in entries.iter_mut().zip(solved) {
        *entry = entry.checked_sub(&factor.checked_mul(other)?)?;
    }
    Ok(())
}

fn mixed(check: u128, f: &Frac) -> u128 {
    check.rotate_left(7) ^ f.num.unsigned_abs() ^ f.den
}

fn measured(is_timed: bool, name: &str, size: usize, entries: Entries) -> Result<(), Wide> {
    let mut dictionary = Dictionary::random(size, entries);
    dictionary.pivot(ROW, COLUMN)?;
    let check = dictionary.cells.iter().fold(0, mixed);
    if !is_timed {
        println!("{name} {size} {check:032x}");
        return Ok(());
    }
    // A pivot on the same place leads back, so the numbers stay as they are.
    let pivots = 2 * (ENTRIES / (2 * dictionary.cells.len())).max(1);
    let start = cpu_time();
    for _ in 0..pivots {
        dictionary.pivot(ROW, COLUMN)?;
    }
    let tenths = (cpu_time() - start).as_nanos() * 10 / (pivots * dictionary.cells.len()) as u128;
    println!("{name} {size} {}.{} {check:032x}", tenths / 10, tenths % 10);
    Ok(())
}

fn main() {
    let is_timed = std::env::args().any(|word| word == "time");
    let small = Entries { num: 20, den: 6, one_of: 1 };
    let wide = Entries { num: 1 << 30, den: 1 << 10, one_of: 1 };
    let sparse = Entries { one_of: 10, ..small };
    let sizes = [("small", small, [20, 60, 200].as_slice()), ("wide", wide, &[20, 60, 200]), ("sparse", sparse, &[200])];
    for (name, entries, sizes) in sizes {
        for &size in sizes {
            if let Err(wide) = measured(is_timed, name, size, entries) {
                println!("{name} {size}: {wide:?} doesn't fit");
            }
        }
    }
}
