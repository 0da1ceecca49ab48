//! A model's standard form under cuts, and the ways back.
use crate::fraction::{Frac, Wide};
use crate::model::{Kind, Model, Sense};

pub type Fits<T> = Result<T, Wide>;

/// A bound that a split sets on a variable.
#[derive(Clone, Copy)]
pub struct Cut {
    pub var: usize,
    pub lower: Option<i128>,
    pub upper: Option<i128>,
}

/// How a variable stands in standard form: from its lower bound up, from its upper one down, or as a difference.
#[derive(Clone, Copy)]
pub enum Shape {
    Shifted(Frac, Option<Frac>),
    Mirrored(Frac),
    Free,
}

impl Shape {
    fn width(&self) -> usize {
        if let Shape::Free = self { 2 } else { 1 }
    }

    fn offset(&self) -> Option<&Frac> {
        match self {
            Shape::Shifted(offset, _) | Shape::Mirrored(offset) => Some(offset),
            Shape::Free => None,
        }
    }

    /// The upper bound of one that has both.
    fn span_end(&self) -> Option<(&Frac, &Frac)> {
        if let Shape::Shifted(lower, Some(upper)) = self { Some((lower, upper)) } else { None }
    }
}

/// Maximize, where each row is at most its side: a side, and then the coefficients of the columns.
pub struct Form {
    pub shapes: Vec<Shape>,
    pub rows: Vec<Vec<Frac>>,
    pub objective: Vec<Frac>,
}

pub fn whole(n: i128) -> Frac {
    Frac { num: n, den: 1 }
}

fn tighter(own: Option<Frac>, other: Option<Frac>, is_lower: bool) -> Option<Frac> {
    match (own, other) {
        (Some(a), Some(b)) => Some(if (a.cmp(&b).is_lt()) == is_lower { b } else { a }),
        (bound, None) | (None, bound) => bound,
    }
}

fn shapes_of(model: &Model, cuts: &[Cut]) -> Vec<Shape> {
    let mut bounds: Vec<_> = model.vars.iter().map(|var| (var.lower, var.upper)).collect();
    for (bound, var) in bounds.iter_mut().zip(&model.vars) {
        if var.kind == Kind::Binary {
            *bound = (tighter(bound.0, Some(Frac::ZERO), true), tighter(bound.1, Some(Frac::ONE), false));
        }
    }
    for cut in cuts {
        let bound = &mut bounds[cut.var];
        *bound = (tighter(bound.0, cut.lower.map(whole), true), tighter(bound.1, cut.upper.map(whole), false));
    }
    let shape = |bound: (Option<Frac>, Option<Frac>)| match bound {
        (Some(lower), upper) => Shape::Shifted(lower, upper),
        (None, Some(upper)) => Shape::Mirrored(upper),
        (None, None) => Shape::Free,
    };
    bounds.into_iter().map(shape).collect()
}

/// The places of the variables' columns.
fn columns_of(shapes: &[Shape]) -> Vec<usize> {
    shapes.iter().scan(1, |next, shape| { let own = *next; *next += shape.width(); Some(own) }).collect()
}

fn put(row: &mut [Frac], column: usize, shape: &Shape, coef: Frac) {
    match shape {
        Shape::Shifted(..) => row[column] = coef,
        Shape::Mirrored(_) => row[column] = coef.neg(),
        Shape::Free => (row[column], row[column + 1]) = (coef, coef.neg()),
    }
}

fn negated(row: &[Frac]) -> Vec<Frac> {
    row.iter().map(Frac::neg).collect()
}

impl Form {
    pub fn new(model: &Model, cuts: &[Cut]) -> Fits<Form> {
        let shapes = shapes_of(model, cuts);
        let columns = columns_of(&shapes);
        let width = 1 + shapes.iter().map(Shape::width).sum::<usize>();
        let mut rows = Vec::new();
        for row in &model.rows {
            let mut line = vec![Frac::ZERO; width];
            line[0] = row.rhs;
            for term in &row.terms {
                let shape = &shapes[term.var as usize];
                if let Some(offset) = shape.offset() {
                    line[0] = line[0].checked_sub(&term.coef.checked_mul(offset)?)?;
                }
                put(&mut line, columns[term.var as usize], shape, term.coef);
            }
            let turned = (row.sense != Sense::Less).then(|| negated(&line));
            if row.sense != Sense::Greater {
                rows.push(line);
            }
            rows.extend(turned);
        }
        for (shape, &column) in shapes.iter().zip(&columns) {
            if let Some((lower, upper)) = shape.span_end() {
                let mut line = vec![Frac::ZERO; width];
                line[0] = upper.checked_sub(lower)?;
                line[column] = Frac::ONE;
                rows.push(line);
            }
        }
        let mut objective = vec![Frac::ZERO; width];
        objective[0] = model.constant.unwrap_or(Frac::ZERO);
        for ((var, shape), &column) in model.vars.iter().zip(&shapes).zip(&columns) {
            if let Some(offset) = shape.offset() {
                objective[0] = objective[0].checked_add(&var.obj.checked_mul(offset)?)?;
            }
            put(&mut objective, column, shape, var.obj);
        }
        if !model.maximize {
            objective = negated(&objective);
        }
        Ok(Form { shapes, rows, objective })
    }
}

/// The variables' values from those of the columns.
pub fn point_back(shapes: &[Shape], xs: &[Frac]) -> Fits<Vec<Frac>> {
    let value = |(shape, column): (&Shape, usize)| match shape {
        Shape::Shifted(lower, _) => lower.checked_add(&xs[column - 1]),
        Shape::Mirrored(upper) => upper.checked_sub(&xs[column - 1]),
        Shape::Free => xs[column - 1].checked_sub(&xs[column]),
    };
    shapes.iter().zip(columns_of(shapes)).map(value).collect()
}

/// The same of a direction.
pub fn ray_back(shapes: &[Shape], ds: &[Frac]) -> Fits<Vec<Frac>> {
    let value = |(shape, column): (&Shape, usize)| match shape {
        Shape::Shifted(..) => Ok(ds[column - 1]),
        Shape::Mirrored(_) => Ok(ds[column - 1].neg()),
        Shape::Free => ds[column - 1].checked_sub(&ds[column]),
    };
    shapes.iter().zip(columns_of(shapes)).map(value).collect()
}

/// Weights of rows, of lower and of upper bounds, each by number, those that are 0 too.
pub struct Weights {
    pub rows: Vec<Frac>,
    pub lows: Vec<Frac>,
    pub ups: Vec<Frac>,
}

/// The model's weights from those of the rows and columns in standard form.
pub fn weights_back(model: &Model, shapes: &[Shape], ys: &[Frac], reduced: &[Frac]) -> Fits<Weights> {
    let mut weights = Weights { rows: Vec::new(), lows: Vec::new(), ups: Vec::new() };
    let mut place = 0;
    for row in &model.rows {
        weights.rows.push(match row.sense {
            Sense::Less => ys[place],
            Sense::Greater => ys[place].neg(),
            Sense::Equal => ys[place].checked_sub(&ys[place + 1])?,
        });
        place += if row.sense == Sense::Equal { 2 } else { 1 };
    }
    for (shape, column) in shapes.iter().zip(columns_of(shapes)) {
        let (low, up) = match shape {
            Shape::Shifted(_, upper) => (reduced[column - 1], if upper.is_some() { ys[place] } else { Frac::ZERO }),
            Shape::Mirrored(_) => (Frac::ZERO, reduced[column - 1]),
            Shape::Free => (Frac::ZERO, Frac::ZERO),
        };
        place += shape.span_end().is_some() as usize;
        weights.lows.push(low);
        weights.ups.push(up);
    }
    Ok(weights)
}
