//! The model that a text spells, or its first fault.
use crate::fraction::Frac;
use crate::lexer::{Fault, Lexer, Quantity, Section, Spot, Token, Word};
use crate::model::{Kind, MAX_ROWS, MAX_TERMS, MAX_VARS, Model, Names, Row, Sense, Term, Var};

/// The row that is being read.
#[derive(Default)]
struct OpenRow {
    /// A term for each variable that was mentioned, in the order of mention.
    terms: Vec<Term>,
    /// How many of them aren't 0.
    count: usize,
    is_rising: bool,
}

struct Parser<'a> {
    lexer: Lexer<'a>,
    spot: Spot,
    token: Option<Token<'a>>,
    model: Model,
    constant: Frac,
    vars: Names<'a>,
    row_names: Names<'a>,
    /// Where a variable stands in a row, if it does: the row's place among all rows from 1 on, and the term's in it.
    places: Vec<(u32, u32)>,
    row: OpenRow,
    closed_terms: usize,
}

pub fn parse(text: &[u8]) -> Result<Model, Fault> {
    let mut parser = Parser {
        lexer: Lexer::new(text),
        spot: Spot { line: 1, column: 1 },
        token: None,
        model: Model::default(),
        constant: Frac::ZERO,
        vars: Names::default(),
        row_names: Names::default(),
        places: Vec::new(),
        row: OpenRow::default(),
        closed_terms: 0,
    };
    parser.advance()?;
    parser.objective()?;
    parser.rows()?;
    parser.sections()?;
    parser.model.constant = Some(parser.constant);
    Ok(parser.model)
}

impl<'a> Parser<'a> {
    fn advance(&mut self) -> Result<(), Fault> {
        (self.spot, self.token) = self.lexer.next()?;
        Ok(())
    }

    /// What is wrong with the token, which none of the cases fits.
    fn refused<T>(&self, word: Word) -> Result<T, Fault> {
        match self.token {
            Some(_) => Err(self.spot.fault(word)),
            None => Err(self.spot.fault(Word::NOSECTION)),
        }
    }

    fn finite(&self, negative: bool, quantity: Quantity) -> Result<Frac, Fault> {
        match quantity {
            Quantity::Finite(value) => Ok(if negative { value.neg() } else { value }),
            _ => Err(self.spot.fault(Word::NUMBER)),
        }
    }

    fn objective(&mut self) -> Result<(), Fault> {
        self.model.maximize = match self.token {
            Some(Token::Keyword(Section::Minimize)) => false,
            Some(Token::Keyword(Section::Maximize)) => true,
            _ => return Err(self.spot.fault(Word::NOSECTION)),
        };
        self.advance()?;
        let mut first = true;
        match self.token {
            Some(Token::Label(_)) => self.advance()?,
            Some(Token::Name(name)) => {
                let spot = self.spot;
                let next = self.advance();
                if !matches!((&next, self.token), (Ok(()), Some(Token::Colon))) {
                    self.add_to_objective(spot, Frac::ONE, spot, name)?;
                    first = false;
                }
                next?;
                if first {
                    self.advance()?;
                }
            }
            _ => {}
        }
        while self.objective_term(first)? {
            first = false;
        }
        self.constraints_word()
    }

    /// Reads a term or a number of the objective, where one stands there.
    fn objective_term(&mut self, first: bool) -> Result<bool, Fault> {
        let negative = match self.token {
            Some(Token::Sign(negative)) => {
                self.advance()?;
                negative
            }
            Some(Token::Number { signed: true, .. }) => false,
            Some(Token::Number { .. } | Token::Name(_)) if first => false,
            _ => return Ok(false),
        };
        match self.token {
            Some(Token::Name(name)) => {
                self.add_to_objective(self.spot, unit(negative), self.spot, name)?;
                self.advance()?;
            }
            Some(Token::Number { quantity, .. }) => {
                let value = self.finite(negative, quantity)?;
                let spot = self.spot;
                let next = self.advance();
                match (&next, self.token) {
                    (Ok(()), Some(Token::Name(name))) => {
                        self.add_to_objective(spot, value, self.spot, name)?;
                        self.advance()?;
                    }
                    _ => self.constant = added(self.constant, value, spot)?,
                }
                next?;
            }
            _ => return self.refused(Word::WORD),
        }
        Ok(true)
    }

    fn constraints_word(&mut self) -> Result<(), Fault> {
        let second: &[u8] = match self.token {
            Some(Token::Keyword(Section::Constraints)) => return self.advance(),
            Some(Token::Keyword(Section::Subject)) => b"to",
            Some(Token::Keyword(Section::Such)) => b"that",
            Some(Token::Keyword(_)) => return Err(self.spot.fault(Word::NOSECTION)),
            _ => return self.refused(Word::WORD),
        };
        self.advance()?;
        match self.token {
            Some(Token::Name(name)) if name.eq_ignore_ascii_case(second) => self.advance(),
            _ => self.refused(Word::WORD),
        }
    }

    /// The place of the variable, which is added where it isn't known.
    fn mention(&mut self, spot: Spot, name: &'a [u8]) -> Result<usize, Fault> {
        let count = self.model.vars.len();
        let place = *self.vars.entry(name).or_insert(count as u32) as usize;
        if place == count {
            if count == MAX_VARS {
                return Err(spot.fault(Word::SIZE));
            }
            let (lower, upper, obj, kind) = (Some(Frac::ZERO), None, Frac::ZERO, Kind::Continuous);
            self.model.vars.push(Var { name: name.to_vec(), lower, upper, obj, kind });
            self.places.push((0, 0));
        }
        Ok(place)
    }

    fn add_to_objective(&mut self, spot: Spot, coef: Frac, name_spot: Spot, name: &'a [u8]) -> Result<(), Fault> {
        let place = self.mention(name_spot, name)?;
        let var = &mut self.model.vars[place];
        var.obj = added(var.obj, coef, spot)?;
        Ok(())
    }

    fn rows(&mut self) -> Result<(), Fault> {
        let mut first = true;
        loop {
            let spot = self.spot;
            match self.token {
                Some(Token::Label(label)) => {
                    self.open_row(spot, label)?;
                    self.advance()?;
                    self.row_body(true)?;
                }
                Some(Token::Name(name)) => {
                    let next = self.advance();
                    if let (Ok(()), Some(Token::Colon)) = (&next, self.token) {
                        self.open_row(spot, name)?;
                        self.advance()?;
                        self.row_body(true)?;
                    } else {
                        self.open_unlabelled_row(spot)?;
                        self.add_to_row(spot, Frac::ONE, spot, name)?;
                        next?;
                        self.row_body(false)?;
                    }
                }
                Some(Token::Sign(_) | Token::Number { .. }) => {
                    self.open_unlabelled_row(spot)?;
                    self.row_body(true)?;
                }
                Some(Token::Comparison(_)) if first => {
                    self.open_unlabelled_row(spot)?;
                    self.row_body(true)?;
                }
                Some(Token::Comparison(_)) => return Err(spot.fault(Word::UNSUPPORTED)),
                Some(Token::Keyword(_)) => return Ok(()),
                _ => return self.refused(Word::WORD),
            }
            first = false;
        }
    }

    fn open_unlabelled_row(&mut self, spot: Spot) -> Result<(), Fault> {
        let title = format!("R{}", self.model.rows.len()).into_bytes();
        self.open_row_of(spot, title)
    }

    fn open_row(&mut self, spot: Spot, title: &'a [u8]) -> Result<(), Fault> {
        self.open_row_of(spot, title.to_vec())?;
        self.row_names.insert(title, 0);
        Ok(())
    }

    /// Begins a row. Only the names of labels stand in the table: a default name is its row's own by its number.
    fn open_row_of(&mut self, spot: Spot, name: Vec<u8>) -> Result<(), Fault> {
        if self.row_names.contains_key(&name[..]) || self.is_default_of_a_row(&name) {
            return Err(spot.fault(Word::DOUBLEDNAME));
        }
        if self.model.rows.len() == MAX_ROWS {
            return Err(spot.fault(Word::SIZE));
        }
        let (sense, rhs) = (Sense::Equal, Frac::ZERO);
        self.model.rows.push(Row { name, sense, rhs, terms: Vec::new() });
        self.row.terms.clear();
        self.row.count = 0;
        self.row.is_rising = true;
        Ok(())
    }

    fn is_default_of_a_row(&self, name: &[u8]) -> bool {
        let [b'R', digits @ ..] = name else {
            return false;
        };
        let number = std::str::from_utf8(digits).ok().and_then(|digits| digits.parse::<usize>().ok());
        number.and_then(|number| self.model.rows.get(number)).is_some_and(|row| row.name == name)
    }

    /// Reads the terms, the comparison and the right side.
    fn row_body(&mut self, mut first: bool) -> Result<(), Fault> {
        let sense = loop {
            let begins = first;
            let negative = match self.token {
                Some(Token::Comparison(sense)) => break sense,
                Some(Token::Sign(negative)) => {
                    self.advance()?;
                    negative
                }
                Some(Token::Number { signed: true, .. }) => false,
                Some(Token::Number { .. } | Token::Name(_)) if first => false,
                _ => return self.refused(Word::WORD),
            };
            self.row_term(begins, negative)?;
            first = false;
        };
        self.advance()?;
        let negative = match self.token {
            Some(Token::Sign(negative)) => {
                self.advance()?;
                negative
            }
            _ => false,
        };
        let Some(Token::Number { quantity, .. }) = self.token else {
            return self.refused(Word::WORD);
        };
        let rhs = self.finite(negative, quantity)?;
        self.close_row(sense, rhs);
        self.advance()
    }

    fn row_term(&mut self, first: bool, negative: bool) -> Result<(), Fault> {
        match self.token {
            Some(Token::Name(name)) => {
                self.add_to_row(self.spot, unit(negative), self.spot, name)?;
                self.advance()
            }
            Some(Token::Number { quantity, .. }) => {
                let value = self.finite(negative, quantity)?;
                let spot = self.spot;
                self.advance()?;
                match self.token {
                    Some(Token::Name(name)) => {
                        self.add_to_row(spot, value, self.spot, name)?;
                        self.advance()
                    }
                    Some(Token::Comparison(_)) if first => self.refused(Word::UNSUPPORTED),
                    _ => self.refused(Word::WORD),
                }
            }
            _ => self.refused(Word::WORD),
        }
    }

    fn add_to_row(&mut self, spot: Spot, coef: Frac, name_spot: Spot, name: &'a [u8]) -> Result<(), Fault> {
        let var = self.mention(name_spot, name)?;
        let number = self.model.rows.len() as u32;
        let row = &mut self.row;
        let (in_row, place) = self.places[var];
        if in_row == number {
            let known = &mut row.terms[place as usize].coef;
            let sum = added(*known, coef, spot)?;
            row.count = row.count + usize::from(sum.num != 0) - usize::from(known.num != 0);
            *known = sum;
        } else {
            self.places[var] = (number, row.terms.len() as u32);
            row.is_rising &= row.terms.last().is_none_or(|last| last.var < var as u32);
            row.count += usize::from(coef.num != 0);
            row.terms.push(Term { var: var as u32, coef });
        }
        if self.closed_terms + row.count > MAX_TERMS {
            return Err(name_spot.fault(Word::SIZE));
        }
        Ok(())
    }

    fn close_row(&mut self, sense: Sense, rhs: Frac) {
        if !self.row.is_rising {
            self.row.terms.sort_unstable_by_key(|term| term.var);
        }
        let mut terms = Vec::with_capacity(self.row.count);
        terms.extend(self.row.terms.iter().filter(|term| term.coef.num != 0));
        self.closed_terms += terms.len();
        let row = self.model.rows.last_mut().unwrap();
        (row.sense, row.rhs, row.terms) = (sense, rhs, terms);
    }

    fn sections(&mut self) -> Result<(), Fault> {
        loop {
            let Some(Token::Keyword(word)) = self.token else {
                return self.refused(Word::WORD);
            };
            match word {
                Section::Bounds => {
                    self.advance()?;
                    self.bounds()?;
                }
                Section::General => self.kinds(Kind::Integer)?,
                Section::Binary => self.kinds(Kind::Binary)?,
                Section::End => break,
                _ => return Err(self.spot.fault(Word::WORD)),
            }
        }
        self.advance()?;
        match self.token {
            Some(_) => Err(self.spot.fault(Word::AFTEREND)),
            None => Ok(()),
        }
    }

    fn kinds(&mut self, kind: Kind) -> Result<(), Fault> {
        self.advance()?;
        while let Some(Token::Name(name)) = self.token {
            let var = self.mention(self.spot, name)?;
            self.model.vars[var].kind = kind;
            self.advance()?;
        }
        Ok(())
    }

    fn bounds(&mut self) -> Result<(), Fault> {
        loop {
            match self.token {
                Some(Token::Name(name)) => {
                    let var = self.mention(self.spot, name)?;
                    self.advance()?;
                    match self.token {
                        Some(Token::Keyword(Section::Free)) => {
                            (self.model.vars[var].lower, self.model.vars[var].upper) = (None, None);
                            self.advance()?;
                        }
                        Some(Token::Comparison(sense)) => self.last_limit(var, sense)?,
                        _ => return self.refused(Word::WORD),
                    }
                }
                Some(Token::Sign(_) | Token::Number { .. }) => self.bound_from_the_left()?,
                _ => return Ok(()),
            }
        }
    }

    fn limit(&mut self) -> Result<(Spot, Limit), Fault> {
        let negative = match self.token {
            Some(Token::Sign(negative)) => {
                self.advance()?;
                negative
            }
            _ => false,
        };
        let Some(Token::Number { quantity, .. }) = self.token else {
            return self.refused(Word::WORD);
        };
        let limit = Limit::of(negative, quantity).ok_or(self.spot.fault(Word::NUMBER))?;
        Ok((self.spot, limit))
    }

    fn last_limit(&mut self, var: usize, sense: Sense) -> Result<(), Fault> {
        self.advance()?;
        let (spot, limit) = self.limit()?;
        if !limit.may_bound(sense) {
            return Err(spot.fault(Word::NUMBER));
        }
        limit.set(&mut self.model.vars[var], sense);
        self.advance()
    }

    fn bound_from_the_left(&mut self) -> Result<(), Fault> {
        let (spot, limit) = self.limit()?;
        self.advance()?;
        let Some(Token::Comparison(sense)) = self.token else {
            return self.refused(Word::WORD);
        };
        let turned = match sense {
            Sense::Less => Sense::Greater,
            Sense::Greater => Sense::Less,
            Sense::Equal => Sense::Equal,
        };
        if !limit.may_bound(turned) {
            return Err(spot.fault(Word::NUMBER));
        }
        self.advance()?;
        let Some(Token::Name(name)) = self.token else {
            return self.refused(Word::WORD);
        };
        let var = self.mention(self.spot, name)?;
        limit.set(&mut self.model.vars[var], turned);
        self.advance()?;
        match self.token {
            Some(Token::Comparison(again)) if again == sense && sense != Sense::Equal => self.last_limit(var, sense),
            _ => Ok(()),
        }
    }
}

#[derive(Clone, Copy)]
enum Limit {
    Limited(Frac),
    Unlimited { below: bool },
}

impl Limit {
    fn of(negative: bool, quantity: Quantity) -> Option<Limit> {
        match quantity {
            Quantity::Finite(value) => {
                let value = if negative { value.neg() } else { value };
                let bound = value.den.checked_mul(100_000_000_000_000_000_000);
                match bound.is_some_and(|bound| bound <= value.num.unsigned_abs()) {
                    true => Some(Limit::Unlimited { below: value.num < 0 }),
                    false => Some(Limit::Limited(value)),
                }
            }
            Quantity::TooWide { huge: false, .. } => None,
            Quantity::TooWide { negative: below, .. } | Quantity::Infinite { negative: below } => {
                Some(Limit::Unlimited { below: below != negative })
            }
        }
    }

    fn may_bound(self, sense: Sense) -> bool {
        match self {
            Limit::Limited(_) => true,
            Limit::Unlimited { below } => match sense {
                Sense::Less => !below,
                Sense::Greater => below,
                Sense::Equal => false,
            },
        }
    }

    fn set(self, var: &mut Var, sense: Sense) {
        let bound = match self {
            Limit::Limited(value) => Some(value),
            Limit::Unlimited { .. } => None,
        };
        if sense != Sense::Greater {
            var.upper = bound;
        }
        if sense != Sense::Less {
            var.lower = bound;
        }
    }
}

fn unit(negative: bool) -> Frac {
    if negative { Frac::ONE.neg() } else { Frac::ONE }
}

fn added(so_far: Frac, number: Frac, spot: Spot) -> Result<Frac, Fault> {
    so_far.add(&number).ok_or(spot.fault(Word::NUMBER))
}
