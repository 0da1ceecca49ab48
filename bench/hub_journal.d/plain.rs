// The work of bench/hub_journal in plain Rust: the same bytes, the same values in the same tables, the same checks.
//
// `mount FILE` reads a journal of batches into a table; `table FILE` tells the bytes that the table takes;
// `calls FILE COUNT BYTES` begins a journal in a new file and makes the calls for so many bodies of so many bytes.
#![allow(dead_code)]
use std::collections::HashSet;
use std::env;
use std::fs::{File, OpenOptions};
use std::io::{Error, ErrorKind, Result};
use std::os::unix::fs::FileExt;

// ---- the file

fn opened(path: &str) -> Result<File> {
    OpenOptions::new().read(true).write(true).create(true).truncate(false).open(path)
}

fn write_through(file: &File, at: u64, bytes: &[u8]) -> Result<()> {
    file.write_all_at(bytes, at)?;
    file.sync_data()
}

fn calls(path: &str, count: u64, bytes: u32) -> Result<()> {
    let file = opened(path)?;
    write_through(&file, 0, b"GCSJ0001")?;
    write_through(&file, 8, &[0])?;
    let mut end = 8;
    let mut record = bytes.to_be_bytes().to_vec();
    record.resize(4 + bytes as usize, b'x');
    record.push(0);
    for _ in 0..count {
        write_through(&file, end + 1, &record)?;
        write_through(&file, end, &[1])?;
        end += 5 + u64::from(bytes);
    }
    Ok(())
}

fn first_record(bytes: &[u8]) -> Option<(&[u8], &[u8])> {
    let (&gate, rest) = bytes.split_first()?;
    let (length, rest) = rest.split_first_chunk::<4>()?;
    let length = u32::from_be_bytes(*length) as usize;
    if gate != 1 || rest.len() <= length {
        return None;
    }
    Some(rest.split_at(length))
}

fn bodies(path: &str) -> Result<Vec<Vec<u8>>> {
    let file = opened(path)?;
    file.sync_data()?;
    let mut bytes = vec![0; file.metadata()?.len() as usize];
    file.read_exact_at(&mut bytes, 0)?;
    if !bytes.starts_with(b"GCSJ0001") {
        return Err(Error::from(ErrorKind::InvalidData));
    }
    let mut bodies = Vec::new();
    let mut rest = &bytes[8..];
    while let Some((body, behind)) = first_record(rest) {
        bodies.push(body.to_vec());
        rest = behind;
    }
    let end = bytes.len() - rest.len();
    if rest.first() != Some(&0) {
        write_through(&file, end as u64, &[0])?;
    }
    Ok(bodies)
}

// ---- the table

#[derive(Clone, Copy)]
struct Frac {
    num: i128,
    den: i128,
}

struct Var {
    name: Vec<u8>,
    lower: Option<Frac>,
    upper: Option<Frac>,
    obj: Frac,
    kind: u8,
    tag: Option<Vec<u8>>,
}

struct Term {
    var: u32,
    coef: Frac,
}

struct Row {
    name: Vec<u8>,
    sense: u8,
    rhs: Frac,
    terms: Vec<Term>,
}

struct Body {
    direction: u8,
    constant: Frac,
    vars: Vec<Var>,
    rows: Vec<Row>,
    limits: [u64; 3],
    priority: i8,
    detail: u8,
}

struct Point {
    xs: Vec<Frac>,
    value: Frac,
}

struct WideAt {
    at: u64,
    kind: u8,
    left: Frac,
    right: Frac,
}

struct Found {
    status: u8,
    counts: [u64; 3],
    point: Option<Point>,
    wide: Option<WideAt>,
    cert: Option<Vec<u8>>,
}

#[derive(Clone, Copy, PartialEq)]
struct Owner {
    bytes: [u8; 32],
    len: u8,
}

#[derive(Clone, Copy, PartialEq)]
struct Id {
    owner: Owner,
    number: u32,
}

struct Batch {
    id: Id,
    status: u8,
    attempt: u32,
    body: Body,
    found: Option<Found>,
}

enum Record {
    Create(Id, u32, Body),
    Abort(Id, u32),
}

const SUBMITTED: u8 = 2;
const ABORTED: u8 = 3;

#[derive(Default)]
struct Table {
    batches: Vec<Batch>,
    lasts: Vec<Id>,
}

impl Table {
    fn greatest(&self, owner: &Owner) -> u32 {
        self.lasts.iter().find(|last| last.owner == *owner).map_or(0, |last| last.number)
    }

    fn place(&self, id: &Id) -> Option<usize> {
        self.batches.iter().rposition(|batch| batch.id == *id)
    }

    fn take(&mut self, record: Record) -> Option<()> {
        match record {
            Record::Create(id, attempt, body) => {
                if self.greatest(&id.owner) >= id.number {
                    return None;
                }
                self.lasts.retain(|last| last.owner != id.owner);
                self.lasts.push(id);
                self.batches.push(Batch { id, status: SUBMITTED, attempt, body, found: None });
            }
            Record::Abort(id, attempt) => {
                let place = self.place(&id)?;
                let batch = &mut self.batches[place];
                if batch.status != SUBMITTED || batch.attempt != attempt {
                    return None;
                }
                batch.status = ABORTED;
                batch.found = None;
            }
        }
        Some(())
    }

    /// The bytes that it takes, as they are allocated.
    fn bytes(&self) -> usize {
        self.batches.len() * size_of::<Batch>() + allocated(&self.lasts) + self.batches.iter().map(|b| b.body.bytes()).sum::<usize>()
    }
}

impl Body {
    fn bytes(&self) -> usize {
        let vars = self.vars.iter().map(|v| allocated(&v.name) + v.tag.as_ref().map_or(0, allocated)).sum::<usize>();
        let rows = self.rows.iter().map(|r| allocated(&r.name) + allocated(&r.terms)).sum::<usize>();
        allocated(&self.vars) + allocated(&self.rows) + vars + rows
    }
}

/// The bytes of a vector in a heap that rounds to 16 and keeps a length of 8 bytes beside each piece.
fn allocated<T>(vec: &Vec<T>) -> usize {
    match vec.capacity() * size_of::<T>() {
        0 => 0,
        bytes => (bytes + 8).next_multiple_of(16).max(32),
    }
}

fn table(path: &str) -> Result<Table> {
    let mut table = Table::default();
    for body in &bodies(path)? {
        Reader(body).whole().and_then(|record| table.take(record)).ok_or(ErrorKind::InvalidData)?;
    }
    Ok(table)
}

// ---- the bytes of a record

struct Reader<'a>(&'a [u8]);

impl<'a> Reader<'a> {
    fn take<const N: usize>(&mut self) -> Option<[u8; N]> {
        let (front, rest) = self.0.split_first_chunk::<N>()?;
        self.0 = rest;
        Some(*front)
    }

    fn code(&mut self, most: u8) -> Option<u8> {
        let [byte] = self.take()?;
        (byte <= most).then_some(byte)
    }

    fn number(&mut self) -> Option<u32> {
        Some(u32::from_be_bytes(self.take()?))
    }

    fn limited(&mut self, most: u64) -> Option<u64> {
        let n = u64::from_be_bytes(self.take()?);
        (n <= most).then_some(n)
    }

    fn text(&mut self) -> Option<&'a [u8]> {
        let [len] = self.take()?;
        let (text, rest) = self.0.split_at_checked(len as usize)?;
        self.0 = rest;
        Some(text)
    }

    fn lawful(&mut self, is_lawful: fn(&[u8]) -> bool) -> Option<Vec<u8>> {
        let text = self.text()?;
        is_lawful(text).then(|| text.to_vec())
    }

    fn frac(&mut self) -> Option<Frac> {
        let num = i128::from_be_bytes(self.take()?);
        let den = i128::from_be_bytes(self.take()?);
        let is_lawful = num != i128::MIN && den > 0 && gcd(num.unsigned_abs(), den as u128) == 1;
        is_lawful.then_some(Frac { num, den })
    }

    fn option<T>(&mut self, value: fn(&mut Reader<'a>) -> Option<T>) -> Option<Option<T>> {
        match self.code(1)? {
            0 => Some(None),
            _ => Some(Some(value(self)?)),
        }
    }

    fn list<T>(&mut self, value: fn(&mut Reader<'a>) -> Option<T>) -> Option<Vec<T>> {
        let mut list = Vec::new();
        for _ in 0..self.number()? {
            list.push(value(self)?);
        }
        Some(list)
    }

    fn var(&mut self) -> Option<Var> {
        Some(Var {
            name: self.lawful(is_name)?,
            lower: self.option(Reader::frac)?,
            upper: self.option(Reader::frac)?,
            obj: self.frac()?,
            kind: self.code(2)?,
            tag: self.option(|r| r.lawful(is_tag))?,
        })
    }

    fn row(&mut self) -> Option<Row> {
        Some(Row {
            name: self.lawful(is_name)?,
            sense: self.code(2)?,
            rhs: self.frac()?,
            terms: self.list(|r| Some(Term { var: r.number()?, coef: r.frac()? }))?,
        })
    }

    fn id(&mut self) -> Option<Id> {
        let text = self.text()?;
        let is_lawful = (1..=32).contains(&text.len()) && text.iter().all(|b| b.is_ascii_lowercase() || b.is_ascii_digit() || *b == b'_');
        let mut owner = Owner { bytes: [0; 32], len: text.len() as u8 };
        owner.bytes.get_mut(..text.len())?.copy_from_slice(text);
        Some(Id { owner: is_lawful.then_some(owner)?, number: self.number()? })
    }

    fn body(&mut self) -> Option<Body> {
        let limits = [self.limited(1_000_000_000)?, self.limited(1_000_000_000)?, self.limited(1_000_000_000_000_000)?];
        let priority = i8::from_be_bytes(self.take()?);
        if priority.unsigned_abs() > 100 {
            return None;
        }
        Some(Body {
            limits,
            priority,
            detail: self.code(1)?,
            direction: self.code(1)?,
            constant: self.frac()?,
            vars: self.list(Reader::var)?,
            rows: self.list(Reader::row)?,
        })
    }

    fn whole(mut self) -> Option<Record> {
        let record = match self.take()? {
            [1] => Record::Create(self.id()?, self.number()?, self.body()?),
            [2] => Record::Abort(self.id()?, self.number()?),
            _ => return None,
        };
        let is_orderly = match &record {
            Record::Create(_, _, body) => is_orderly(body),
            Record::Abort(..) => true,
        };
        (self.0.is_empty() && is_orderly).then_some(record)
    }
}

fn gcd(mut a: u128, mut b: u128) -> u128 {
    while b != 0 {
        if b == 1 {
            return 1;
        }
        if a <= u64::MAX as u128 && b <= u64::MAX as u128 {
            let (mut a, mut b) = (a as u64, b as u64);
            while b != 0 {
                (a, b) = (b, a % b);
            }
            return a as u128;
        }
        (a, b) = (b, a % b);
    }
    a
}

static RESERVED: [&str; 32] = [
    "minimize", "minimise", "minimum", "min", "maximize", "maximise", "maximum", "max", "subject", "such", "st", "st.", "s.t.",
    "bounds", "bound", "general", "generals", "gen", "binary", "binaries", "bin", "free", "end", "semi-continuous", "semis", "semi",
    "sos", "pwlobj", "multi-objectives", "scenario", "inf", "infinity",
];

fn is_name(text: &[u8]) -> bool {
    text.first().is_some_and(|b| !b.is_ascii_digit() && !b".+-[*^<>=()],".contains(b))
        && text.iter().all(|b| b.is_ascii_graphic() && !b"\\:".contains(b))
        && !RESERVED.iter().any(|word| word.as_bytes().eq_ignore_ascii_case(text))
}

fn is_tag(text: &[u8]) -> bool {
    !text.is_empty() && text.iter().all(u8::is_ascii_graphic)
}

fn is_near(bound: &Option<Frac>) -> bool {
    match bound {
        Some(x) => 100_000_000_000_000_000_000u128.checked_mul(x.den as u128).is_none_or(|most| x.num.unsigned_abs() < most),
        None => true,
    }
}

fn are_rising(terms: &[Term], vars: usize) -> bool {
    let mut least = 0;
    for term in terms {
        let place = term.var as usize;
        if place < least || place >= vars || term.coef.num == 0 {
            return false;
        }
        least = place + 1;
    }
    true
}

fn are_distinct<'a>(texts: impl Iterator<Item = &'a Vec<u8>>) -> bool {
    let mut seen = HashSet::new();
    for text in texts {
        if !seen.insert(text.as_slice()) {
            return false;
        }
    }
    true
}

fn is_orderly(b: &Body) -> bool {
    b.vars.len() <= 1000
        && b.rows.len() <= 1000
        && b.rows.iter().map(|r| r.terms.len()).sum::<usize>() <= 250_000
        && b.vars.iter().all(|v| is_near(&v.lower) && is_near(&v.upper))
        && b.rows.iter().all(|r| are_rising(&r.terms, b.vars.len()))
        && are_distinct(b.vars.iter().map(|v| &v.name))
        && are_distinct(b.rows.iter().map(|r| &r.name))
        && are_distinct(b.vars.iter().filter_map(|v| v.tag.as_ref()))
}

fn main() -> Result<()> {
    let words: Vec<String> = env::args().skip(1).collect();
    match words.iter().map(String::as_str).collect::<Vec<_>>()[..] {
        ["mount", path] => println!("batches {}", table(path)?.batches.len()),
        ["table", path] => println!("{}", table(path)?.bytes()),
        ["calls", path, count, bytes] => {
            calls(path, count.parse().map_err(|_| ErrorKind::InvalidInput)?, bytes.parse().map_err(|_| ErrorKind::InvalidInput)?)?
        }
        _ => return Err(Error::from(ErrorKind::InvalidInput)),
    }
    Ok(())
}
