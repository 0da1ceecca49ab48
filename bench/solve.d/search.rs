//! Branch and bound over relaxations, with a certificate.
use crate::form::{Cut, Fits, Form, Shape, Weights, point_back, ray_back, weights_back, whole};
use crate::fraction::{Frac, Wide};
use crate::model::{Kind, Model};
use crate::tableau::{Coming, End, Tableau};

pub struct Limits {
    pub iterations: u64,
    pub nodes: u64,
    pub work: u64,
}

pub enum Node {
    Split(usize, i128),
    Bound(Weights),
    Farkas(Weights),
}

pub enum Cert {
    Nothing,
    Ray(Vec<Frac>, Vec<Frac>),
    Tree(Vec<Node>),
}

pub struct Solve<'a> {
    model: &'a Model,
    limits: &'a Limits,
    pub pivots: u64,
    pub nodes: u64,
    pub work: u64,
    pub best: Option<(Frac, Vec<Frac>)>,
    pub wide: Option<(u64, Wide)>,
    tree: Vec<Node>,
    waiting: Vec<Vec<Cut>>,
}

/// A status with its certificate.
type Ended = (u8, Cert);

impl<'a> Solve<'a> {
    pub fn new(model: &'a Model, limits: &'a Limits) -> Solve<'a> {
        Solve {
            model,
            limits,
            pivots: 0,
            nodes: 0,
            work: 0,
            best: None,
            wide: None,
            tree: Vec::new(),
            waiting: vec![Vec::new()],
        }
    }

    fn has_integers(&self) -> bool {
        self.model.vars.iter().any(|var| var.kind != Kind::Continuous)
    }

    fn refused(&mut self, begun: u64, wide: Wide) -> Ended {
        self.wide = Some((begun, wide));
        (12, Cert::Nothing)
    }

    pub fn run(&mut self) -> Ended {
        while let Some(cuts) = self.waiting.pop() {
            if self.nodes >= self.limits.nodes {
                return (8, Cert::Nothing);
            }
            let form = match Form::new(self.model, &cuts) {
                Ok(form) => form,
                Err(wide) => return self.refused(self.pivots, wide),
            };
            let mut tableau = Tableau::open(&form);
            let end = loop {
                match tableau.coming() {
                    Coming::Ends(end) => break end,
                    coming => {
                        if self.pivots >= self.limits.iterations {
                            return (7, Cert::Nothing);
                        }
                        if self.work + tableau.size() > self.limits.work {
                            return (16, Cert::Nothing);
                        }
                        let size = tableau.size();
                        if let Err(wide) = tableau.pivot(&coming) {
                            return self.refused(self.pivots + 1, wide);
                        }
                        self.pivots += 1;
                        self.work += size;
                    }
                }
            };
            match self.finished(&cuts, &form.shapes, &tableau, end) {
                Ok(None) => {}
                Ok(Some(ended)) => return ended,
                Err(wide) => return self.refused(self.pivots, wide),
            }
        }
        (if self.best.is_some() { 2 } else { 3 }, Cert::Tree(std::mem::take(&mut self.tree)))
    }

    fn weights(&self, shapes: &[Shape], tableau: &Tableau) -> Fits<Weights> {
        let (ys, reduced) = tableau.weights();
        weights_back(self.model, shapes, &ys, &reduced)
    }

    fn close(&mut self, node: Node) {
        self.nodes += 1;
        self.tree.push(node);
    }

    fn finished(&mut self, cuts: &[Cut], shapes: &[Shape], tableau: &Tableau, end: End) -> Fits<Option<Ended>> {
        match end {
            End::NoPoint => {
                let weights = self.weights(shapes, tableau)?;
                self.close(Node::Farkas(weights));
                Ok(None)
            }
            End::Unbounded(_) if self.has_integers() => {
                self.nodes += 1;
                self.best = None;
                Ok(Some((4, Cert::Nothing)))
            }
            End::Unbounded(column) => {
                let point = point_back(shapes, &tableau.point())?;
                let ray = ray_back(shapes, &tableau.ray(column))?;
                self.nodes += 1;
                self.best = None;
                Ok(Some((5, Cert::Ray(point, ray))))
            }
            End::Best => self.at_best(cuts, shapes, tableau).map(|()| None),
        }
    }

    fn is_better(&self, value: &Frac) -> bool {
        match &self.best {
            None => true,
            Some((best, _)) if self.model.maximize => best.cmp(value).is_lt(),
            Some((best, _)) => value.cmp(best).is_lt(),
        }
    }

    fn at_best(&mut self, cuts: &[Cut], shapes: &[Shape], tableau: &Tableau) -> Fits<()> {
        let value = if self.model.maximize { tableau.value() } else { tableau.value().neg() };
        if self.is_better(&value) {
            let xs = point_back(shapes, &tableau.point())?;
            let is_split = |(var, x): (&crate::model::Var, &Frac)| var.kind != Kind::Continuous && x.den != 1;
            if let Some(var) = self.model.vars.iter().zip(&xs).position(is_split) {
                return self.split(cuts, var, &xs[var]);
            }
            self.best = Some((value, xs));
        }
        let weights = self.weights(shapes, tableau)?;
        self.close(Node::Bound(weights));
        Ok(())
    }

    fn split(&mut self, cuts: &[Cut], var: usize, x: &Frac) -> Fits<()> {
        let k = x.num.div_euclid(x.den as i128);
        let next = whole(k).checked_add(&Frac::ONE)?;
        let part = |lower, upper| cuts.iter().copied().chain([Cut { var, lower, upper }]).collect();
        self.waiting.push(part(Some(next.num), None));
        self.waiting.push(part(None, Some(k)));
        self.close(Node::Split(var + 1, k));
        Ok(())
    }
}
