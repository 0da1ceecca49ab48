//! A dense dictionary, and the rule.
use crate::form::{Fits, Form};
use crate::fraction::Frac;

pub enum End {
    Best,
    NoPoint,
    Unbounded(usize),
}

pub enum Coming {
    Artificial,
    Column(usize),
    Ends(End),
}

/// Rows of one width: those of basic variables, the objective z, and in phase one w.
pub struct Tableau {
    cells: Vec<Frac>,
    width: usize,
    basic: Vec<usize>,
    nonbasic: Vec<usize>,
    columns: usize,
    is_phase_one: bool,
    is_open: bool,
}

impl Tableau {
    pub fn open(form: &Form) -> Tableau {
        let columns = form.objective.len() - 1;
        let is_phase_one = form.rows.iter().any(|row| row[0].num < 0);
        let minus_one = Frac::ONE.neg();
        let mut cells = Vec::with_capacity((form.rows.len() + 2) * (columns + 2));
        for row in &form.rows {
            cells.extend_from_slice(row);
            cells.extend(is_phase_one.then_some(minus_one));
        }
        cells.extend_from_slice(&form.objective);
        if is_phase_one {
            cells.push(Frac::ZERO);
            cells.extend(std::iter::repeat_n(Frac::ZERO, columns + 1));
            cells.push(minus_one);
        }
        Tableau {
            cells,
            width: columns + 1 + is_phase_one as usize,
            basic: (columns + 1..=columns + form.rows.len()).collect(),
            nonbasic: (1..=columns).chain(is_phase_one.then_some(0)).collect(),
            columns,
            is_phase_one,
            is_open: is_phase_one,
        }
    }

    pub fn size(&self) -> u64 {
        ((self.basic.len() + 1 + self.is_phase_one as usize) * self.width) as u64
    }

    fn row(&self, row: usize) -> &[Frac] {
        &self.cells[row * self.width..][..self.width]
    }

    fn objective(&self) -> &[Frac] {
        self.row(self.basic.len() + self.is_phase_one as usize)
    }

    /// What comes next: the artificial variable's pivot, one of a column, or the end.
    pub fn coming(&self) -> Coming {
        if self.is_open {
            return Coming::Artificial;
        }
        let objective = self.objective();
        let entering = (1..self.width).filter(|&c| objective[c].num > 0).min_by_key(|&c| self.nonbasic[c - 1]);
        match entering {
            None => Coming::Ends(if self.is_phase_one { End::NoPoint } else { End::Best }),
            Some(c) if (0..self.basic.len()).any(|r| self.row(r)[c].num > 0) => Coming::Column(c),
            Some(c) => Coming::Ends(End::Unbounded(c)),
        }
    }

    /// The row that leaves where this column enters.
    pub fn leaving(&self, column: usize) -> Fits<usize> {
        let mut best: Option<(usize, Frac)> = None;
        for r in 0..self.basic.len() {
            let row = self.row(r);
            if row[column].num > 0 {
                let ratio = row[0].checked_div(&row[column])?;
                let is_better = best.is_none_or(|(other, least)| {
                    ratio.cmp(&least).then_with(|| self.basic[r].cmp(&self.basic[other])).is_lt()
                });
                if is_better {
                    best = Some((r, ratio));
                }
            }
        }
        Ok(best.expect("some row bounds the rise").0)
    }

    pub fn pivot(&mut self, coming: &Coming) -> Fits<()> {
        match *coming {
            Coming::Artificial => {
                self.is_open = false;
                let row = (1..self.basic.len()).fold(0, |r, other| if self.row(other)[0].cmp(&self.row(r)[0]).is_lt() { other } else { r });
                self.exchange(row, self.width - 1)?;
            }
            Coming::Column(column) => self.exchange(self.leaving(column)?, column)?,
            Coming::Ends(_) => {}
        }
        if self.is_phase_one && !self.basic.contains(&0) && self.objective()[1..].iter().all(|c| c.num <= 0) {
            self.end_phase_one();
        }
        Ok(())
    }

    fn end_phase_one(&mut self) {
        let column = 1 + self.nonbasic.iter().position(|&v| v == 0).expect("the artificial variable is nonbasic");
        self.cells.truncate((self.basic.len() + 1) * self.width);
        let mut place = 0;
        self.cells.retain(|_| { place += 1; (place - 1) % self.width != column });
        self.nonbasic.remove(column - 1);
        self.width -= 1;
        self.is_phase_one = false;
    }

    fn exchange(&mut self, row: usize, column: usize) -> Fits<()> {
        let (above, rest) = self.cells.split_at_mut(row * self.width);
        let (solved, below) = rest.split_at_mut(self.width);
        let divisor = solved[column];
        for entry in &mut solved[..column] {
            *entry = entry.checked_div(&divisor)?;
        }
        for entry in &mut solved[column + 1..] {
            *entry = entry.checked_div(&divisor)?;
        }
        solved[column] = Frac::ONE.checked_div(&divisor)?;
        let basic_below = (self.basic.len() - row - 1) * self.width;
        let (below, objectives) = below.split_at_mut(basic_below);
        for line in above.chunks_exact_mut(self.width).chain(below.chunks_exact_mut(self.width)) {
            if line[column].num != 0 {
                line[0] = line[0].checked_sub(&line[column].checked_mul(&solved[0])?)?;
                eliminate(line, solved, column)?;
            }
        }
        for line in objectives.chunks_exact_mut(self.width) {
            if line[column].num != 0 {
                line[0] = line[0].checked_add(&line[column].checked_mul(&solved[0])?)?;
                eliminate(line, solved, column)?;
            }
        }
        std::mem::swap(&mut self.basic[row], &mut self.nonbasic[column - 1]);
        Ok(())
    }

    /// z's constant.
    pub fn value(&self) -> Frac {
        self.row(self.basic.len())[0]
    }

    /// The values of the columns.
    pub fn point(&self) -> Vec<Frac> {
        let mut point = vec![Frac::ZERO; self.columns];
        for (r, &v) in self.basic.iter().enumerate() {
            if (1..=self.columns).contains(&v) {
                point[v - 1] = self.row(r)[0];
            }
        }
        point
    }

    /// The direction in which the variable of this column rises by 1.
    pub fn ray(&self, column: usize) -> Vec<Frac> {
        let mut ray = vec![Frac::ZERO; self.columns];
        let rises = self.basic.iter().enumerate().map(|(r, &v)| (v, self.row(r)[column].neg()));
        for (v, rise) in rises.chain([(self.nonbasic[column - 1], Frac::ONE)]) {
            if (1..=self.columns).contains(&v) {
                ray[v - 1] = rise;
            }
        }
        ray
    }

    /// The weights of the rows and of the columns, by the row that is maximized.
    pub fn weights(&self) -> (Vec<Frac>, Vec<Frac>) {
        let mut all = vec![Frac::ZERO; self.columns + self.basic.len()];
        for (&v, coef) in self.nonbasic.iter().zip(&self.objective()[1..]) {
            if v > 0 {
                all[v - 1] = coef.neg();
            }
        }
        let ys = all.split_off(self.columns);
        (ys, all)
    }
}

/// All but the constant.
fn eliminate(line: &mut [Frac], solved: &[Frac], column: usize) -> Fits<()> {
    let factor = line[column];
    subtract_products(&mut line[1..column], &factor, &solved[1..column])?;
    subtract_products(&mut line[column + 1..], &factor, &solved[column + 1..])?;
    line[column] = factor.checked_mul(&solved[column])?.neg();
    Ok(())
}

fn subtract_products(entries: &mut [Frac], factor: &Frac, solved: &[Frac]) -> Fits<()> {
    for (entry, other) in entries.iter_mut().zip(solved) {
        *entry = entry.checked_sub(&factor.checked_mul(other)?)?;
    }
    Ok(())
}
