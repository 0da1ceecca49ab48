//! A session in plain Rust, for comparison: what `bench/session_throughput` runs beside the program. It reads a session's
//! commands and writes their answers, with the reader of `bench/lp` for the texts of models, and proves nothing.
//!
//! It knows the commands of that bench: `READ`, `SETVTAG`, `BATCH`, `BSTATUS` and `BYE`. As the program does, it finds names and
//! tags by tables, and judges a change on a second model, to which the changes of a log are made again after an update.
#[path = "../frac.d/fraction.rs"]
#[allow(dead_code)]
mod fraction;
#[path = "../lp.d/lexer.rs"]
mod lexer;
#[path = "../lp.d/model.rs"]
#[allow(dead_code)]
mod model;
#[path = "../lp.d/parser.rs"]
mod parser;

use model::{FastHasher, Model};
use std::collections::{HashMap, HashSet, VecDeque};
use std::hash::BuildHasherDefault;
use std::io::{self, BufRead, Read, Write};

const MAX_TEXT: usize = 1 << 20;

/// How many commands of an owner a hub counts and answers.
const MAX_COMMANDS: u32 = 65_536;

type Hashing = BuildHasherDefault<FastHasher>;
type Places = HashMap<Vec<u8>, u32, Hashing>;

/// A model with the tags of its variables, in which names and tags are found by tables.
#[derive(Clone, Default)]
struct Tagged {
    /// No command of the bench reads it, nor the rows' names.
    #[allow(dead_code)]
    model: Model,
    /// The tag of each variable.
    tags: Vec<Option<Vec<u8>>>,
    vars: Places,
    #[allow(dead_code)]
    rows: Places,
    taken: HashSet<Vec<u8>, Hashing>,
}

impl Tagged {
    fn of(model: Model) -> Tagged {
        let places = |(place, name): (usize, &Vec<u8>)| (name.clone(), place as u32);
        Tagged {
            tags: vec![None; model.vars.len()],
            vars: model.vars.iter().map(|var| &var.name).enumerate().map(places).collect(),
            rows: model.rows.iter().map(|row| &row.name).enumerate().map(places).collect(),
            taken: HashSet::default(),
            model,
        }
    }

    fn set_tag(&mut self, change: &TagChange) -> Result<(), &'static [u8]> {
        let Some(var) = self.vars.get(&change.name) else {
            return Err(b"ERR 5 NAME\n");
        };
        let own = &mut self.tags[*var as usize];
        let is_own = own.as_ref() == Some(&change.tag);
        if self.taken.contains(&change.tag) && !is_own {
            return Err(b"ERR 6 DUPLICATE\n");
        }
        if let Some(old) = own.replace(change.tag.clone()) {
            self.taken.remove(&old);
        }
        self.taken.insert(change.tag.clone());
        Ok(())
    }
}

/// A variable is to have the tag.
struct TagChange {
    name: Vec<u8>,
    tag: Vec<u8>,
}

/// Where the other model stands, by the changes of the log.
#[derive(Clone, Copy, Default)]
enum Side {
    #[default]
    Apart,
    Ahead,
    Behind,
}

/// What a session holds.
#[derive(Default)]
struct Session {
    owner: Vec<u8>,
    applied: Tagged,
    other: Tagged,
    log: VecDeque<TagChange>,
    side: Side,
    /// The status of each batch.
    batches: Vec<u8>,
    /// The commands that the hub has counted.
    asked: u32,
}

impl Session {
    fn read(&mut self, text: &[u8], output: &mut impl Write) -> io::Result<()> {
        match parser::parse(text) {
            Ok(model) => {
                self.applied = Tagged::of(model);
                self.other = Tagged::default();
                self.log.clear();
                self.side = Side::Apart;
                output.write_all(b"OK\n")
            }
            Err(fault) => writeln!(output, "ERR 4 MODEL {} {} {:?}", fault.line, fault.column, fault.word),
        }
    }

    fn bring_ahead(&mut self) {
        match self.side {
            Side::Apart => self.other = self.applied.clone(),
            Side::Ahead => {}
            Side::Behind => {
                while let Some(change) = self.log.pop_front() {
                    self.other.set_tag(&change).expect("it was accepted before");
                }
            }
        }
        self.side = Side::Ahead;
    }

    fn set_tag(&mut self, name: &[u8], tag: &[u8]) -> &'static [u8] {
        self.bring_ahead();
        let change = TagChange { name: name.to_vec(), tag: tag.to_vec() };
        if let Err(refusal) = self.other.set_tag(&change) {
            return refusal;
        }
        self.log.push_back(change);
        b"OK\n"
    }

    fn update(&mut self) {
        if let Side::Ahead = self.side {
            std::mem::swap(&mut self.applied, &mut self.other);
            self.side = Side::Behind;
        }
    }

    /// Counts a command that asks the hub, or answers that the limit is reached.
    fn is_counted(&mut self, output: &mut impl Write) -> io::Result<bool> {
        if self.asked == MAX_COMMANDS {
            output.write_all(b"ERR 15 OWNERFULL COMMANDS\n")?;
            return Ok(false);
        }
        self.asked += 1;
        Ok(true)
    }

    fn batch(&mut self, output: &mut impl Write) -> io::Result<()> {
        self.update();
        if self.applied.taken.is_empty() {
            return output.write_all(b"ERR 9 NOTAG\n");
        }
        if !self.is_counted(output)? {
            return Ok(());
        }
        self.batches.push(2);
        output.write_all(b"BATCH ")?;
        output.write_all(&self.owner)?;
        writeln!(output, ".{}", self.batches.len())
    }

    fn status(&mut self, id: &[u8], output: &mut impl Write) -> io::Result<()> {
        let Some((owner, number)) = batch_id(id) else {
            return output.write_all(b"ERR 2 LINE\n");
        };
        if !self.is_counted(output)? {
            return Ok(());
        }
        let status = (number as usize).checked_sub(1).and_then(|place| self.batches.get(place));
        match status {
            Some(status) if owner == self.owner => {
                output.write_all(b"BSTATUS ")?;
                output.write_all(id)?;
                writeln!(output, " {status}")
            }
            _ => output.write_all(b"ERR 13 BATCH\n"),
        }
    }
}

fn is_tag(text: &[u8]) -> bool {
    (1..=255).contains(&text.len()) && text.iter().all(u8::is_ascii_graphic)
}

/// The owner and the number of a batch's ID.
fn batch_id(id: &[u8]) -> Option<(&[u8], u32)> {
    let point = id.iter().position(|byte| *byte == b'.')?;
    let (owner, number) = (&id[..point], &id[point + 1..]);
    let is_owner = |byte: &u8| byte.is_ascii_lowercase() || byte.is_ascii_digit() || *byte == b'_';
    let leading_zero = number.len() > 1 && number[0] == b'0';
    if !(1..=32).contains(&owner.len()) || !owner.iter().all(is_owner) || leading_zero {
        return None;
    }
    Some((owner, decimal(number)?))
}

fn decimal(digits: &[u8]) -> Option<u32> {
    if digits.is_empty() || !digits.iter().all(u8::is_ascii_digit) {
        return None;
    }
    std::str::from_utf8(digits).ok()?.parse().ok()
}

/// The line without its end.
fn without_end(line: &[u8]) -> &[u8] {
    match line {
        [front @ .., b'\r', b'\n'] | [front @ .., b'\n'] => front,
        _ => line,
    }
}

fn main() -> io::Result<()> {
    let owner = std::env::args().nth(2).expect("session NAME").into_bytes();
    let mut session = Session { owner, ..Session::default() };
    let mut input = io::BufReader::with_capacity(1 << 16, io::stdin().lock());
    // As the program does, it writes each answer before it reads the next command.
    let mut output = io::stdout();
    let (mut line, mut block, mut answer) = (Vec::new(), Vec::new(), Vec::new());
    loop {
        line.clear();
        answer.clear();
        if input.read_until(b'\n', &mut line)? == 0 {
            return Ok(());
        }
        let mut words = without_end(&line).split(|byte| *byte == b' ' || *byte == b'\t').filter(|word| !word.is_empty());
        let words = [words.next(), words.next(), words.next(), words.next()];
        match words {
            [Some(b"BYE"), None, ..] => answer.extend(b"BYE\n"),
            [Some(b"READ"), Some(length), None, _] => match decimal(length).map(|length| length as usize) {
                Some(length) if length <= MAX_TEXT => {
                    block.resize(length, 0);
                    if input.read_exact(&mut block).is_err() {
                        return Ok(());
                    }
                    session.read(&block, &mut answer)?;
                }
                Some(_) => answer.extend(b"ERR 10 SIZE\n"),
                None => answer.extend(b"ERR 2 LINE\n"),
            },
            [Some(b"SETVTAG"), Some(name), Some(tag), None] if is_tag(tag) => answer.extend(session.set_tag(name, tag)),
            [Some(b"BATCH"), None, ..] => session.batch(&mut answer)?,
            [Some(b"BSTATUS"), Some(id), None, _] => session.status(id, &mut answer)?,
            _ => answer.extend(b"ERR 2 LINE\n"),
        }
        output.write_all(&answer)?;
        if matches!(words, [Some(b"BYE"), None, ..]) {
            return Ok(());
        }
    }
}
