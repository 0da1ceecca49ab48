//! Models of the kinds that planners write, from a seed: `models KIND ROWS SEED` prints the text of one.
#[path = "../frac.d/fraction.rs"]
#[allow(dead_code)]
mod fraction;

use fraction::Random;
use std::fmt::Write;

fn between(random: &mut Random, low: i128, high: i128) -> i128 {
    low + random.below((high - low + 1) as u128)
}

fn terms(text: &mut String, terms: impl IntoIterator<Item = (i128, String)>) {
    for (coef, name) in terms {
        write!(text, " {} {} {name}", if coef < 0 { '-' } else { '+' }, coef.abs()).unwrap();
    }
}

fn row(text: &mut String, name: &str, of: impl IntoIterator<Item = (i128, String)>, end: &str) {
    write!(text, " {name}:").unwrap();
    terms(text, of);
    writeln!(text, " {end}").unwrap();
}

/// Plants with supplies, stores with demands, and a cost for each way.
fn transport(rows: usize, random: &mut Random) -> String {
    let plants = rows / 4;
    let stores = (rows - plants).min(1_000 / plants);
    let ways = |p: usize| (0..stores).map(move |s| format!("x{p}_{s}"));
    let mut text = String::from("Minimize\n cost:");
    for p in 0..plants {
        let costs: Vec<_> = ways(p).map(|way| (between(random, 2, 40), way)).collect();
        terms(&mut text, costs);
    }
    text.push_str("\nSubject To\n");
    for p in 0..plants {
        row(&mut text, &format!("supply{p}"), ways(p).map(|way| (1, way)), &format!("<= {}", between(random, 90, 140)));
    }
    for s in 0..stores {
        let demand = between(random, 10, 60 * plants as i128 / stores as i128 + 10);
        row(&mut text, &format!("demand{s}"), (0..plants).map(|p| (1, format!("x{p}_{s}"))), &format!(">= {demand}/2"));
    }
    text + "End\n"
}

/// Each of some people does one job of those that they can.
fn assignment(rows: usize, random: &mut Random) -> String {
    let people = rows / 2;
    let each = (1_000 / people).min(10).min(people);
    let can = |i: usize| (0..each).map(move |k| (i + k * k) % people);
    let mut text = String::from("Maximize\n worth:");
    for i in 0..people {
        let worths: Vec<_> = can(i).map(|j| (between(random, 1, 50), format!("x{i}_{j}"))).collect();
        terms(&mut text, worths);
    }
    text.push_str("\nSubject To\n");
    for i in 0..people {
        row(&mut text, &format!("person{i}"), can(i).map(|j| (1, format!("x{i}_{j}"))), "<= 1");
    }
    for j in 0..people {
        let doers: Vec<_> = (0..people).filter(|&i| can(i).any(|job| job == j)).collect();
        row(&mut text, &format!("job{j}"), doers.into_iter().map(|i| (1, format!("x{i}_{j}"))), "<= 1");
    }
    text + "End\n"
}

/// Things with a worth and several weights, each packed or not.
fn knapsack(rows: usize, random: &mut Random) -> String {
    let things = 12;
    let mut text = String::from("Maximize\n worth:");
    let worths: Vec<_> = (0..things).map(|i| (between(random, 10, 60), format!("x{i}"))).collect();
    terms(&mut text, worths);
    text.push_str("\nSubject To\n");
    for r in 0..rows {
        let weights: Vec<_> = (0..things).filter(|i| (i + r) % 3 == 0).map(|i| (between(random, 1, 9), format!("x{i}"))).collect();
        let most = weights.iter().map(|weight| weight.0).sum::<i128>() * 2 / 3;
        row(&mut text, &format!("weight{r}"), weights, &format!("<= {most}"));
    }
    text.push_str("Binaries\n");
    (0..things).for_each(|i| writeln!(text, " x{i}").unwrap());
    text + "End\n"
}

/// Rows with a few terms of small numbers.
fn random_rows(rows: usize, random: &mut Random) -> String {
    let vars = rows;
    let mut text = String::from("Maximize\n gain:");
    let gains: Vec<_> = (0..vars).map(|i| (between(random, 1, 9), format!("x{i}"))).collect();
    terms(&mut text, gains);
    text.push_str("\nSubject To\n");
    for r in 0..rows {
        let others = [(r * 7 + 3) % vars, (r * 3 + 1) % vars].into_iter().filter(|&i| i != r);
        let of: Vec<_> = [(2, format!("x{r}"))].into_iter().chain(others.map(|i| (1, format!("x{i}")))).collect();
        row(&mut text, &format!("row{r}"), of, &format!("<= {}", between(random, 4, 40)));
    }
    text + "End\n"
}

fn main() {
    let words: Vec<String> = std::env::args().collect();
    let (rows, seed) = (words[2].parse().expect("rows"), words[3].parse().expect("a seed"));
    let mut random = Random { state: seed };
    let text = match words[1].as_str() {
        "transport" => transport(rows, &mut random),
        "assignment" => assignment(rows, &mut random),
        "knapsack" => knapsack(rows, &mut random),
        "random" => random_rows(rows, &mut random),
        other => panic!("no kind {other}"),
    };
    print!("{text}");
}
