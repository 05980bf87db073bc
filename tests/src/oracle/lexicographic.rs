//! Loops of several paths, lexicographic arguments over them, and the conditions of these. No byte in sight.
//!
//! A step goes through one of the paths. Each path has a component of its own, which is at least δ0 before the step and falls
//! by δ or more in it, while no earlier component rises. Each of these follows from the path's rows by multipliers: the
//! weighted rows sum exactly to a left side, and their right sides to a limit at most.

use super::conditions::{first_of, weighted, Row};
use super::Refusal;

/// A loop of several paths over the same variables.
#[derive(Clone, Debug, PartialEq, Eq)]
pub struct Branches {
    pub n: usize,
    /// The rows of each path.
    pub paths: Vec<Vec<Row>>,
}

/// A component: r, δ0 and δ.
#[derive(Clone, Debug, PartialEq, Eq)]
pub struct Component {
    pub r: Vec<i64>,
    pub start: i64,
    pub fall: i64,
}

/// What an argument holds for a path: the number of its own component, and a list of multipliers for each condition.
#[derive(Clone, Debug, PartialEq, Eq)]
pub struct Part {
    pub component: usize,
    pub bounded: Vec<i64>,
    pub ranking: Vec<i64>,
    /// One list for each earlier component.
    pub unaffecting: Vec<Vec<i64>>,
}

#[derive(Clone, Debug, PartialEq, Eq)]
pub struct Lexicographic {
    pub components: Vec<Component>,
    pub parts: Vec<Part>,
}

/// A condition of weighted rows: they sum to now·x + next·x', and their right sides to the limit at most.
pub struct Weighed<'a> {
    pub rows: &'a [Row],
    pub multipliers: &'a [i64],
    pub now: Vec<i64>,
    pub next: Vec<i64>,
    pub limit: i64,
}

impl Weighed<'_> {
    /// In how many columns of A, and of A', the sum is another; and whether the right sides are over the limit.
    pub fn faults(&self) -> (usize, usize, bool) {
        let sum = |of: &dyn Fn(&Row) -> i64| weighted(self.multipliers, self.rows, of);
        let columns = 0..self.now.len();
        let now = columns
            .clone()
            .filter(|&j| sum(&|row| row.now[j]) != self.now[j].into());
        let next = columns.filter(|&j| sum(&|row| row.next[j]) != self.next[j].into());
        let over = sum(&|row| row.right) > self.limit.into();
        (now.count(), next.count(), over)
    }

    pub fn holds(&self) -> bool {
        self.faults() == (0, 0, false)
    }
}

fn opposite(r: &[i64]) -> Vec<i64> {
    r.iter().map(|entry| -entry).collect()
}

impl Lexicographic {
    /// -r·x, at most -δ0, of the path's own component.
    pub fn bounded<'a>(&'a self, branches: &'a Branches, path: usize) -> Weighed<'a> {
        let part = &self.parts[path];
        let Component { r, start, .. } = &self.components[part.component];
        Weighed {
            rows: &branches.paths[path],
            multipliers: &part.bounded,
            now: opposite(r),
            next: vec![0; r.len()],
            limit: -start,
        }
    }

    /// -r·x + r·x', at most -δ, of the path's own component.
    pub fn ranking<'a>(&'a self, branches: &'a Branches, path: usize) -> Weighed<'a> {
        let part = &self.parts[path];
        let Component { r, fall, .. } = &self.components[part.component];
        Weighed {
            rows: &branches.paths[path],
            multipliers: &part.ranking,
            now: opposite(r),
            next: r.clone(),
            limit: -fall,
        }
    }

    /// -r·x + r·x', at most 0, of an earlier component.
    pub fn unaffecting<'a>(
        &'a self,
        branches: &'a Branches,
        path: usize,
        earlier: usize,
    ) -> Weighed<'a> {
        let r = &self.components[earlier].r;
        Weighed {
            rows: &branches.paths[path],
            multipliers: &self.parts[path].unaffecting[earlier],
            now: opposite(r),
            next: r.clone(),
            limit: 0,
        }
    }

    /// Path by path. 51: bounded; 52: ranking; 53: unaffecting, for every earlier component. The place is the path.
    pub fn failing(&self, branches: &Branches) -> Vec<Refusal> {
        let mut told = Vec::new();
        for path in 0..branches.paths.len() {
            let earlier = 0..self.parts[path].component;
            let conditions = [
                (51, self.bounded(branches, path).holds()),
                (52, self.ranking(branches, path).holds()),
                (
                    53,
                    earlier
                        .into_iter()
                        .all(|i| self.unaffecting(branches, path, i).holds()),
                ),
            ];
            let place = path as u64;
            let fails = conditions.into_iter().filter(|(_, holds)| !holds);
            told.extend(fails.map(|(number, _)| Refusal { number, place }));
        }
        told
    }

    pub fn judged(&self, branches: &Branches) -> Result<(), Refusal> {
        first_of(self.failing(branches))
    }
}
