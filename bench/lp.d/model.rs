//! A model, and the one that is being read.
use crate::fraction::Frac;
use std::collections::HashMap;
use std::hash::{BuildHasherDefault, Hasher};

pub const MAX_VARS: usize = 1_000;
pub const MAX_ROWS: usize = 1_000;
pub const MAX_TERMS: usize = 250_000;

#[derive(Clone, Copy, PartialEq, Eq, Debug)]
pub enum Sense {
    Less,
    Greater,
    Equal,
}

#[derive(Clone, Copy, PartialEq, Eq, Debug)]
pub enum Kind {
    Continuous,
    Integer,
    Binary,
}

#[derive(Clone)]
pub struct Var {
    pub name: Vec<u8>,
    pub lower: Option<Frac>,
    pub upper: Option<Frac>,
    pub obj: Frac,
    pub kind: Kind,
}

#[derive(Clone, Copy)]
pub struct Term {
    pub var: u32,
    pub coef: Frac,
}

#[derive(Clone)]
pub struct Row {
    pub name: Vec<u8>,
    pub sense: Sense,
    pub rhs: Frac,
    pub terms: Vec<Term>,
}

#[derive(Clone, Default)]
pub struct Model {
    pub maximize: bool,
    pub constant: Option<Frac>,
    pub vars: Vec<Var>,
    pub rows: Vec<Row>,
}

impl Model {
    /// A number that depends on all that was read.
    pub fn checksum(&self) -> u64 {
        let mut sum = self.maximize as u64;
        let mut add = |x: u64| sum = sum.wrapping_mul(31).wrapping_add(x);
        let number = |x: Option<Frac>| x.map_or(7, |x| x.num as u64 ^ (x.den as u64).rotate_left(32));
        add(number(self.constant));
        for var in &self.vars {
            add(var.name.len() as u64 + var.name[0] as u64 + var.kind as u64);
            add(number(var.lower) ^ number(var.upper).rotate_left(8) ^ number(Some(var.obj)).rotate_left(16));
        }
        for row in &self.rows {
            add(row.name.len() as u64 + row.name[0] as u64 + row.sense as u64);
            add(number(Some(row.rhs)));
            row.terms.iter().for_each(|term| add(term.var as u64 ^ number(Some(term.coef))));
        }
        sum
    }
}

/// A hash of eight bytes at a time.
#[derive(Default)]
pub struct FastHasher(u64);

impl FastHasher {
    fn mix(&mut self, word: u64) {
        let product = ((self.0 ^ word) as u128) * 0x9E37_79B9_7F4A_7C15_F39C_C060_5CED_C835;
        self.0 = (product as u64) ^ ((product >> 64) as u64);
    }
}

impl Hasher for FastHasher {
    fn write(&mut self, bytes: &[u8]) {
        let mut words = bytes.chunks_exact(8);
        for word in &mut words {
            self.mix(u64::from_le_bytes(word.try_into().unwrap()));
        }
        let mut last = 0;
        for byte in words.remainder() {
            last = last << 8 | u64::from(*byte);
        }
        self.mix(last ^ (bytes.len() as u64) << 56);
    }

    fn finish(&self) -> u64 {
        self.0
    }
}

pub type Names<'a> = HashMap<&'a [u8], u32, BuildHasherDefault<FastHasher>>;
