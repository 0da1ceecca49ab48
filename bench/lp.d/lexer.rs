//! The tokens of a text.
use crate::fraction::Frac;
use crate::model::Sense;

#[derive(Clone, Copy, PartialEq, Eq, Debug)]
pub enum Word {
    NAMELENGTH,
    NUMBER,
    UNSUPPORTED,
    WORD,
    NOSECTION,
    SIZE,
    DOUBLEDNAME,
    AFTEREND,
}

#[derive(Clone, Copy, Debug)]
pub struct Fault {
    pub line: u32,
    pub column: u32,
    pub word: Word,
}

#[derive(Clone, Copy, PartialEq, Eq, Debug)]
pub enum Section {
    Minimize,
    Maximize,
    Subject,
    Such,
    Constraints,
    Bounds,
    General,
    Binary,
    Free,
    End,
}

#[derive(Clone, Copy, Debug)]
pub enum Quantity {
    Finite(Frac),
    TooWide { negative: bool, huge: bool },
    Infinite { negative: bool },
}

#[derive(Clone, Copy, Debug)]
pub enum Token<'a> {
    Sign(bool),
    Colon,
    Comparison(Sense),
    Number { signed: bool, quantity: Quantity },
    Keyword(Section),
    Label(&'a [u8]),
    Name(&'a [u8]),
}

#[derive(Clone, Copy)]
pub struct Spot {
    pub line: u32,
    pub column: u32,
}

impl Spot {
    pub fn fault(self, word: Word) -> Fault {
        Fault { line: self.line, column: self.column, word }
    }
}

pub struct Lexer<'a> {
    text: &'a [u8],
    at: usize,
    line: u32,
    line_start: usize,
}

fn is_white(byte: u8) -> bool {
    matches!(byte, b' ' | b'\t' | b'\n' | b'\r')
}

fn is_plain(byte: u8) -> bool {
    byte.is_ascii_graphic() && byte != b'\\'
}

impl<'a> Lexer<'a> {
    pub fn new(text: &'a [u8]) -> Lexer<'a> {
        Lexer { text, at: 0, line: 1, line_start: 0 }
    }

    pub fn spot(&self) -> Spot {
        Spot { line: self.line, column: (self.at - self.line_start) as u32 + 1 }
    }

    fn skip_gap(&mut self) {
        let mut in_comment = false;
        while let Some(&byte) = self.text.get(self.at) {
            match byte {
                b'\n' => {
                    in_comment = false;
                    self.line += 1;
                    self.line_start = self.at + 1;
                }
                _ if in_comment => {}
                b' ' | b'\t' | b'\r' => {}
                b'\\' => in_comment = true,
                _ => return,
            }
            self.at += 1;
        }
    }

    /// The next token and where it begins; the token is none at the end of the text.
    pub fn next(&mut self) -> Result<(Spot, Option<Token<'a>>), Fault> {
        self.skip_gap();
        let spot = self.spot();
        let rest = &self.text[self.at..];
        let plain = rest.iter().position(|byte| !is_plain(*byte)).unwrap_or(rest.len());
        if plain < rest.len() && !is_white(rest[plain]) && rest[plain] != b'\\' {
            let bad = Spot { line: spot.line, column: spot.column + plain as u32 };
            return Err(bad.fault(Word::WORD));
        }
        if plain == 0 {
            return Ok((spot, None));
        }
        let run = &rest[..plain];
        self.at += plain;
        if self.is_forbidden_pair(run, spot.line) {
            return Err(spot.fault(Word::UNSUPPORTED));
        }
        match token(run) {
            Ok(token) => Ok((spot, Some(token))),
            Err(word) => Err(spot.fault(word)),
        }
    }

    fn is_forbidden_pair(&mut self, run: &[u8], line: u32) -> bool {
        let second: &[u8] = match run[0].to_ascii_lowercase() {
            b'l' if run.eq_ignore_ascii_case(b"lazy") => b"constraints",
            b'g' if run.eq_ignore_ascii_case(b"general") => b"constraints",
            b'u' if run.eq_ignore_ascii_case(b"user") => b"cuts",
            _ => return false,
        };
        self.skip_gap();
        let rest = &self.text[self.at..];
        let len = rest.iter().position(|byte| is_white(*byte) || *byte == b'\\').unwrap_or(rest.len());
        self.line == line && rest[..len].eq_ignore_ascii_case(second)
    }
}

fn token(run: &[u8]) -> Result<Token<'_>, Word> {
    match run {
        b"+" => Ok(Token::Sign(false)),
        b"-" => Ok(Token::Sign(true)),
        b":" => Ok(Token::Colon),
        b"<" | b"<=" | b"=<" => Ok(Token::Comparison(Sense::Less)),
        b">" | b">=" | b"=>" => Ok(Token::Comparison(Sense::Greater)),
        b"=" => Ok(Token::Comparison(Sense::Equal)),
        b"->" | [b'[', ..] => Err(Word::UNSUPPORTED),
        [sign @ (b'+' | b'-'), size @ ..] => match is_infinite(size) {
            true => Ok(number(true, Quantity::Infinite { negative: *sign == b'-' })),
            false => Ok(number(true, read_number(*sign == b'-', size, run.len())?)),
        },
        [b'0'..=b'9' | b'.', ..] => Ok(number(false, read_number(false, run, run.len())?)),
        _ => match section(run) {
            Some(word) => Ok(Token::Keyword(word?)),
            None if is_infinite(run) => Ok(number(false, Quantity::Infinite { negative: false })),
            None => match run {
                [front @ .., b':'] if section(front).is_some() || is_infinite(front) => Err(Word::WORD),
                [front @ .., b':'] => Ok(Token::Label(name(front)?)),
                _ => Ok(Token::Name(name(run)?)),
            },
        },
    }
}

fn number<'a>(signed: bool, quantity: Quantity) -> Token<'a> {
    Token::Number { signed, quantity }
}

fn is_infinite(run: &[u8]) -> bool {
    run.eq_ignore_ascii_case(b"inf") || run.eq_ignore_ascii_case(b"infinity")
}

fn section(run: &[u8]) -> Option<Result<Section, Word>> {
    let is_any = |words: &[&str]| words.iter().any(|word| word.as_bytes().eq_ignore_ascii_case(run));
    let word = match run.first()?.to_ascii_lowercase() {
        b'm' if is_any(&["minimize", "minimise", "minimum", "min"]) => Section::Minimize,
        b'm' if is_any(&["maximize", "maximise", "maximum", "max"]) => Section::Maximize,
        b's' if is_any(&["subject"]) => Section::Subject,
        b's' if is_any(&["such"]) => Section::Such,
        b's' if is_any(&["st", "st.", "s.t."]) => Section::Constraints,
        b'b' if is_any(&["bounds", "bound"]) => Section::Bounds,
        b'b' if is_any(&["binary", "binaries", "bin"]) => Section::Binary,
        b'g' if is_any(&["general", "generals", "gen"]) => Section::General,
        b'f' if is_any(&["free"]) => Section::Free,
        b'e' if is_any(&["end"]) => Section::End,
        b'm' if is_any(&["multi-objectives"]) => return Some(Err(Word::UNSUPPORTED)),
        b'p' if is_any(&["pwlobj"]) => return Some(Err(Word::UNSUPPORTED)),
        b's' if is_any(&["semi-continuous", "semis", "semi", "sos", "scenario"]) => return Some(Err(Word::UNSUPPORTED)),
        _ => return None,
    };
    Some(Ok(word))
}

fn name(run: &[u8]) -> Result<&[u8], Word> {
    match run {
        [] | [b'*' | b'^' | b'<' | b'>' | b'=' | b'(' | b')' | b']' | b',', ..] => Err(Word::WORD),
        _ if run.contains(&b':') => Err(Word::WORD),
        _ if run.len() > 255 => Err(Word::NAMELENGTH),
        _ => Ok(run),
    }
}

fn digits(run: &[u8]) -> (&[u8], &[u8]) {
    run.split_at(run.iter().position(|byte| !byte.is_ascii_digit()).unwrap_or(run.len()))
}

/// The number that digits spell behind another one, where it is below 2^127.
fn number_after(front: u128, digits: &[u8]) -> Option<u128> {
    digits.iter().try_fold(front, |number, digit| {
        let longer = number.checked_mul(10)?.checked_add(u128::from(digit - b'0'))?;
        (longer < 1 << 127).then_some(longer)
    })
}

fn without_zeros(digits: &[u8]) -> &[u8] {
    &digits[digits.iter().position(|digit| *digit != b'0').unwrap_or(digits.len())..]
}

fn finite(negative: bool, over: u128, under: u128) -> Quantity {
    let num = if negative { -(over as i128) } else { over as i128 };
    Quantity::Finite(Frac::make(num, under as i128).unwrap())
}

fn read_number(negative: bool, run: &[u8], whole_len: usize) -> Result<Quantity, Word> {
    if whole_len > 255 {
        return Err(Word::NUMBER);
    }
    let (whole, rest) = digits(run);
    match rest {
        [] if !whole.is_empty() => read_decimal(negative, whole, &[], 0),
        [b'/', under @ ..] => read_ratio(negative, whole, under),
        [b'.', rest @ ..] => {
            let (behind, rest) = digits(rest);
            read_decimal(negative, whole, behind, exponent(rest)?)
        }
        _ => read_decimal(negative, whole, &[], exponent(rest)?),
    }
}

fn exponent(rest: &[u8]) -> Result<i64, Word> {
    let (negative, size) = match rest {
        [] => return Ok(0),
        [b'e' | b'E', b'-', size @ ..] => (true, size),
        [b'e' | b'E', b'+', size @ ..] | [b'e' | b'E', size @ ..] => (false, size),
        _ => return Err(Word::NUMBER),
    };
    if !(1..=4).contains(&size.len()) || !digits(size).1.is_empty() {
        return Err(Word::NUMBER);
    }
    let size = number_after(0, size).unwrap() as i64;
    Ok(if negative { -size } else { size })
}

fn read_decimal(negative: bool, whole: &[u8], behind: &[u8], exponent: i64) -> Result<Quantity, Word> {
    if whole.is_empty() && behind.is_empty() {
        return Err(Word::NUMBER);
    }
    let kept = &behind[..behind.iter().rposition(|digit| *digit != b'0').map_or(0, |last| last + 1)];
    let tens = exponent - kept.len() as i64;
    let number = number_after(0, whole).and_then(|front| number_after(front, kept));
    if number == Some(0) {
        return Ok(Quantity::Finite(Frac::ZERO));
    }
    let scale = |number: u128| (0..tens.unsigned_abs()).try_fold(number, |longer, _| number_after(longer, b"0"));
    let parts = number.and_then(|n| if tens >= 0 { Some((scale(n)?, 1)) } else { Some((n, scale(1)?)) });
    match parts {
        Some((over, under)) => Ok(finite(negative, over, under)),
        None => {
            let significant = match without_zeros(whole) {
                [] => without_zeros(kept).len(),
                digits => digits.len() + kept.len(),
            };
            Ok(Quantity::TooWide { negative, huge: significant as i64 + tens > 20 })
        }
    }
}

fn read_ratio(negative: bool, over: &[u8], under: &[u8]) -> Result<Quantity, Word> {
    if over.is_empty() || !digits(under).1.is_empty() || without_zeros(under).is_empty() {
        return Err(Word::NUMBER);
    }
    let (over, under) = (without_zeros(over), without_zeros(under));
    match (number_after(0, over), number_after(0, under)) {
        (Some(0), _) => Ok(Quantity::Finite(Frac::ZERO)),
        (Some(over), Some(under)) => Ok(finite(negative, over, under)),
        _ => {
            let len = under.len() + 20;
            let huge = over.len() > len || over.len() == len && over[..under.len()] >= *under;
            Ok(Quantity::TooWide { negative, huge })
        }
    }
}
