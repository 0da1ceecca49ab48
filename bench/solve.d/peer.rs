//! An exact solver in plain Rust, for comparison: what `bench/solve` runs beside the program. It reads the text of a model on standard
//! input, and writes its certificate. It has the program's own algorithms, dense dictionaries over the same fractions, and
//! proves nothing.
#[path = "../frac.d/fraction.rs"]
#[allow(dead_code)]
mod fraction;
#[path = "../lp.d/lexer.rs"]
mod lexer;
#[path = "../lp.d/model.rs"]
#[allow(dead_code)]
mod model;
#[path = "../lp.d/parser.rs"]
mod parser;
mod form;
mod search;
mod tableau;

use form::Weights;
use fraction::{Frac, Wide};
use search::{Cert, Limits, Node, Solve};
use std::fmt::{self, Write as _};
use std::io::{self, Read, Write};

struct Number<'a>(&'a Frac);

impl fmt::Display for Number<'_> {
    fn fmt(&self, f: &mut fmt::Formatter) -> fmt::Result {
        write!(f, "{}", self.0.num)?;
        if self.0.den != 1 { write!(f, "/{}", self.0.den) } else { Ok(()) }
    }
}

fn vector(out: &mut String, word: &str, xs: &[Frac]) {
    for x in xs {
        writeln!(out, "{word} {}", Number(x)).unwrap();
    }
}

fn leaf(out: &mut String, word: &str, weights: &Weights) {
    writeln!(out, "{word}").unwrap();
    for (side, list) in [("R", &weights.rows), ("L", &weights.lows), ("U", &weights.ups)] {
        for (place, weight) in list.iter().enumerate().filter(|(_, weight)| weight.num != 0) {
            writeln!(out, "{side} {} {}", place + 1, Number(weight)).unwrap();
        }
    }
}

fn certificate(out: &mut String, cert: &Cert) {
    match cert {
        Cert::Nothing => out.push_str("NONE\n"),
        Cert::Ray(point, ray) => {
            out.push_str("RAY\n");
            vector(out, "P", point);
            vector(out, "D", ray);
        }
        Cert::Tree(nodes) => {
            for node in nodes {
                match node {
                    Node::Split(var, k) => writeln!(out, "SPLIT {var} {k}").unwrap(),
                    Node::Bound(weights) => leaf(out, "BOUND", weights),
                    Node::Farkas(weights) => leaf(out, "FARKAS", weights),
                }
            }
        }
    }
}

fn operation(wide: &Wide) -> &'static str {
    match wide.op {
        '+' => "ADD",
        '-' => "SUB",
        '*' => "MUL",
        _ => "DIV",
    }
}

/// The limits behind `--iterations`, `--nodes` and `--work`.
fn limits() -> Limits {
    let mut limits = Limits { iterations: 100_000, nodes: 10_000, work: 1_000_000_000_000 };
    let mut words = std::env::args().skip(1).flat_map(|word| word.split('=').map(String::from).collect::<Vec<_>>());
    while let Some(name) = words.next() {
        let value = words.next().and_then(|digits| digits.parse().ok()).expect("a number");
        match name.as_str() {
            "--iterations" => limits.iterations = value,
            "--nodes" => limits.nodes = value,
            "--work" => limits.work = value,
            other => panic!("{other}"),
        }
    }
    limits
}

fn main() -> io::Result<()> {
    let mut text = Vec::new();
    io::stdin().lock().read_to_end(&mut text)?;
    let model = match parser::parse(&text) {
        Ok(model) => model,
        Err(fault) => {
            eprintln!("model: line {} column {} {:?}", fault.line, fault.column, fault.word);
            std::process::exit(1);
        }
    };
    let limits = limits();
    let mut solve = Solve::new(&model, &limits);
    let (status, cert) = solve.run();
    let mut out = String::new();
    writeln!(out, "OUTCOME {status} {} {} {}", solve.pivots, solve.nodes, solve.work).unwrap();
    if let Some((value, xs)) = &solve.best {
        writeln!(out, "VALUE {}", Number(value)).unwrap();
        vector(&mut out, "X", xs);
    }
    if let Some((at, wide)) = &solve.wide {
        writeln!(out, "WIDE {at} {} {} {}", operation(wide), Number(&wide.left), Number(&wide.right)).unwrap();
    }
    certificate(&mut out, &cert);
    out.push_str("END\n");
    io::stdout().lock().write_all(out.as_bytes())
}
