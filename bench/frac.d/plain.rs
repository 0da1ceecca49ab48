//! The operations of `frac128` as plain Rust. It prints the same lines as the program `frac_bench`.
#[path = "../cpu_time.rs"]
mod cpu_time;
#[allow(dead_code)]
mod fraction;

use cpu_time::cpu_time;
use fraction::{Frac, Random};
use std::cmp::Ordering;

const PAIRS: usize = 512;
const ROUNDS: u32 = 400;

type Pairs = [(Frac, Frac); PAIRS];

fn pairs_below(left: (u128, u128), right: (u128, u128)) -> Pairs {
    let mut random = Random { state: 1 };
    let mut pairs = [(Frac::ZERO, Frac::ZERO); PAIRS];
    for pair in pairs.iter_mut() {
        *pair = (random.fraction(left), random.fraction(right));
    }
    pairs
}

fn mixed(check: u128, made: Option<Frac>) -> u128 {
    match made {
        Some(f) => check.rotate_left(7) ^ f.num.unsigned_abs() ^ f.den,
        None => check.rotate_left(1),
    }
}

fn add_all(pairs: &Pairs, check: u128) -> u128 {
    pairs.iter().fold(check, |check, (left, right)| mixed(check, left.add(right)))
}

fn mul_all(pairs: &Pairs, check: u128) -> u128 {
    pairs.iter().fold(check, |check, (left, right)| mixed(check, left.mul(right)))
}

fn cmp_all(pairs: &Pairs, check: u128) -> u128 {
    pairs.iter().fold(check, |check, (left, right)| match left.cmp(right) {
        Ordering::Less => check.rotate_left(1),
        Ordering::Equal => check.rotate_left(3) ^ 1,
        Ordering::Greater => check.rotate_left(5) ^ 2,
    })
}

fn measured(is_timed: bool, name: &str, once: fn(&Pairs, u128) -> u128, pairs: &Pairs) {
    let mut check = once(pairs, 0);
    if !is_timed {
        println!("{name} {check:032x}");
        return;
    }
    let start = cpu_time();
    for _ in 0..ROUNDS {
        check = once(pairs, check);
    }
    let tenths = (cpu_time() - start).as_nanos() / (ROUNDS as u128 * PAIRS as u128 / 10);
    println!("{name} {}.{} {check:032x}", tenths / 10, tenths % 10);
}

fn main() {
    let is_timed = std::env::args().any(|word| word == "time");
    let most = 1 << 126;
    let small = pairs_below((1 << 31, 1 << 31), (1 << 31, 1 << 31));
    measured(is_timed, "add small", add_all, &small);
    measured(is_timed, "mul small", mul_all, &small);
    measured(is_timed, "cmp small", cmp_all, &small);
    let middle = pairs_below((1 << 63, 1 << 63), (1 << 63, 1 << 63));
    measured(is_timed, "add middle", add_all, &middle);
    measured(is_timed, "mul middle", mul_all, &middle);
    measured(is_timed, "cmp middle", cmp_all, &middle);
    let sums = pairs_below((1 << 96, 1 << 30), (1 << 96, 1 << 30));
    measured(is_timed, "add wide", add_all, &sums);
    let products = pairs_below((1 << 96, 1 << 30), (1 << 30, 1 << 96));
    measured(is_timed, "mul wide", mul_all, &products);
    let wide = pairs_below((most, most), (most, most));
    measured(is_timed, "cmp wide", cmp_all, &wide);
}
