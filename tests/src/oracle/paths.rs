//! Records of kinds 5 and 6, which are judged together and by no other call: their layouts, and the order of their refusals.

use super::conditions::Row;
use super::judging::Parts;
use super::layout::{
    Field, AN_ENTRY, A_DIRECTION, A_FALL, A_MULTIPLIER, A_RIGHT, COMPONENTS, PATHS, ROWS, VARIABLES,
};
use super::lexicographic::{Branches, Component, Lexicographic, Part};
use super::record::{count_at, framed, stated_length, values_from};
use super::{refuse, Refusal};

/// The numbers of the two kinds.
pub const PATH_LOOP: u64 = 5;
pub const LEXICOGRAPHIC: u64 = 6;

/// What settles the layout of a loop of kind 5: n, and m of each path.
#[derive(Clone, Debug, PartialEq, Eq)]
pub struct LoopShape {
    pub n: usize,
    pub rows: Vec<usize>,
}

impl LoopShape {
    fn all_rows(&self) -> usize {
        self.rows.iter().sum()
    }

    /// L = 6 + 2p + (m_1 + .. + m_p)(4n + 4).
    pub fn length(&self) -> usize {
        6 + 2 * self.rows.len() + self.all_rows() * (4 * self.n + 4)
    }

    /// Where the first row stands: after n, p and the m's.
    pub fn values_place(&self) -> usize {
        10 + 2 * self.rows.len()
    }

    /// The rows, path after path.
    pub fn fields(&self) -> Vec<Field> {
        let row = [vec![AN_ENTRY; 2 * self.n], vec![A_RIGHT]].concat();
        row.repeat(self.all_rows())
    }
}

/// What settles the layout of a certificate of kind 6: its loop's shape, the count of components, and each path's number.
#[derive(Clone, Debug, PartialEq, Eq)]
pub struct CertificateShape {
    pub of_loop: LoopShape,
    pub components: usize,
    pub numbers: Vec<usize>,
}

impl CertificateShape {
    /// Path by path: bounded, ranking, and one list for each earlier component, of m multipliers each.
    fn multipliers(&self) -> usize {
        let paths = self.of_loop.rows.iter().zip(&self.numbers);
        paths.map(|(m, number)| m * (2 + number)).sum()
    }

    /// L = 4 + 2p + 4C(n + 2) + the sum of 2 m_j (2 + c_j).
    pub fn length(&self) -> usize {
        let LoopShape { n, rows } = &self.of_loop;
        4 + 2 * rows.len() + 4 * self.components * (n + 2) + 2 * self.multipliers()
    }

    /// Where the first component stands: after the count and the paths' numbers.
    pub fn values_place(&self) -> usize {
        8 + 2 * self.of_loop.rows.len()
    }

    /// Component by component r, δ0 and δ; then the multipliers.
    pub fn fields(&self) -> Vec<Field> {
        let component = [vec![A_DIRECTION; self.of_loop.n], vec![A_RIGHT, A_FALL]].concat();
        [
            component.repeat(self.components),
            vec![A_MULTIPLIER; self.multipliers()],
        ]
        .concat()
    }
}

impl Branches {
    pub fn shape(&self) -> LoopShape {
        LoopShape {
            n: self.n,
            rows: self.paths.iter().map(Vec::len).collect(),
        }
    }
}

impl Lexicographic {
    /// The shape of the argument's record, for a loop of this shape.
    pub fn shape(&self, of_loop: LoopShape) -> CertificateShape {
        CertificateShape {
            of_loop,
            components: self.components.len(),
            numbers: self.parts.iter().map(|part| part.component).collect(),
        }
    }
}

/// A loop of kind 5, or why the record is none.
pub fn path_loop(bytes: &[u8]) -> Result<Branches, Refusal> {
    if framed(bytes)? != PATH_LOOP {
        return refuse(4, 4);
    }
    if stated_length(bytes) < 6 {
        return refuse(3, 0);
    }
    let (n, p) = (count_at(bytes, 6), count_at(bytes, 8));
    if !VARIABLES.holds(n) {
        return refuse(5, 6);
    }
    if !PATHS.holds(p) {
        return refuse(5, 8);
    }
    let (n, p) = (n as usize, p as usize);
    if stated_length(bytes) < 6 + 2 * p {
        return refuse(3, 0);
    }
    let mut rows = Vec::new();
    for path in 0..p {
        let place = 10 + 2 * path;
        let m = count_at(bytes, place);
        if !ROWS.holds(m) {
            return refuse(5, place);
        }
        rows.push(m as usize);
    }
    let shape = LoopShape { n, rows };
    if stated_length(bytes) != shape.length() {
        return refuse(3, 0);
    }
    let mut parts = Parts::of(values_from(bytes, shape.values_place(), shape.fields())?);
    let path = |m: &usize| -> Vec<Row> { parts.rows(*m, n) };
    let paths = shape.rows.iter().map(path).collect();
    Ok(Branches { n, paths })
}

/// The layout of a certificate of kind 6 for this loop, or why the record has none.
fn certificate_shape(bytes: &[u8], branches: &Branches) -> Result<CertificateShape, Refusal> {
    if framed(bytes)? != LEXICOGRAPHIC {
        return refuse(4, 4);
    }
    if stated_length(bytes) < 4 {
        return refuse(3, 0);
    }
    let components = count_at(bytes, 6);
    if !COMPONENTS.holds(components) {
        return refuse(5, 6);
    }
    let p = branches.paths.len();
    if stated_length(bytes) < 4 + 2 * p {
        return refuse(3, 0);
    }
    let mut numbers = Vec::new();
    for path in 0..p {
        let place = 8 + 2 * path;
        let number = count_at(bytes, place);
        if number >= components {
            return refuse(14, place);
        }
        numbers.push(number as usize);
    }
    let shape = CertificateShape {
        of_loop: branches.shape(),
        components: components as usize,
        numbers,
    };
    if stated_length(bytes) != shape.length() {
        return refuse(3, 0);
    }
    Ok(shape)
}

/// A certificate of kind 6 for this loop, or why the record is none.
pub fn lexicographic(bytes: &[u8], branches: &Branches) -> Result<Lexicographic, Refusal> {
    let shape = certificate_shape(bytes, branches)?;
    let n = branches.n;
    let mut parts = Parts::of(values_from(bytes, shape.values_place(), shape.fields())?);
    let component = |_| Component {
        r: parts.list(n),
        start: parts.one(),
        fall: parts.one(),
    };
    let components = (0..shape.components).map(component).collect();
    let paths = shape.of_loop.rows.iter().zip(&shape.numbers);
    let part = |(&m, &component): (&usize, &usize)| Part {
        component,
        bounded: parts.list(m),
        ranking: parts.list(m),
        unaffecting: (0..component).map(|_| parts.list(m)).collect(),
    };
    Ok(Lexicographic {
        components,
        parts: paths.map(part).collect(),
    })
}
