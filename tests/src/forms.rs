//! Loops and certificates in the paper's parts, turned into value lists and into bytes. Unlike a writer, this refuses
//! nothing: a number out of range is put down as far as its field holds it.

use crate::oracle::conditions::{Exclusion, Row};
use crate::oracle::judging::Certificate;
use crate::oracle::layout::{Field, Form, Kind, Shape};
use crate::oracle::lexicographic::{Branches, Component, Lexicographic, Part};
use crate::oracle::paths::{CertificateShape, LEXICOGRAPHIC, PATH_LOOP};
use crate::oracle::settling::Settling;

/// A loop with a certificate for it, which may or may not be accepted.
#[derive(Clone, Debug)]
pub struct Pair {
    pub n: usize,
    pub rows: Vec<Row>,
    pub certificate: Certificate,
}

impl Pair {
    pub fn loop_shape(&self) -> Shape {
        Shape {
            kind: Kind::Loop,
            n: self.n,
            m: self.rows.len(),
            ms: 0,
        }
    }

    pub fn loop_bytes(&self) -> Vec<u8> {
        bytes_of(self.loop_shape(), &row_values(&self.rows))
    }

    pub fn certificate_shape(&self) -> Shape {
        certificate_shape(&self.certificate, self.n, self.rows.len())
    }

    pub fn certificate_bytes(&self) -> Vec<u8> {
        bytes_of(
            self.certificate_shape(),
            &certificate_values(&self.certificate),
        )
    }
}

pub fn certificate_shape(certificate: &Certificate, n: usize, m: usize) -> Shape {
    let (kind, ms) = match certificate {
        Certificate::Ranking(_) => (Kind::Ranking, 0),
        Certificate::Exclusion(_) => (Kind::Exclusion, 0),
        Certificate::Lasso(lasso) => (Kind::Lasso, lasso.stem.len()),
        Certificate::Settling(_) => (Kind::Settling, 0),
    };
    Shape { kind, n, m, ms }
}

/// The values of rows, one after another.
pub fn row_values(rows: &[Row]) -> Vec<i64> {
    let values = |row: &Row| [&row.now[..], &row.next, &[row.right]].concat();
    rows.iter().flat_map(values).collect()
}

/// The values of a certificate in layout order.
pub fn certificate_values(certificate: &Certificate) -> Vec<i64> {
    match certificate {
        Certificate::Ranking(ranking) => [&ranking.y[..], &ranking.z].concat(),
        Certificate::Exclusion(Exclusion { q, u, v, w }) => [&[*q], &u[..], v, w].concat(),
        Certificate::Lasso(lasso) => [
            &[lasso.stem.len() as i64],
            &row_values(&lasso.stem)[..],
            &lasso.s,
            &[lasso.s0, lasso.k],
            &lasso.t,
            &[lasso.k2],
            &lasso.h,
            &[lasso.h0],
            &lasso.ranking.y,
            &lasso.ranking.z,
        ]
        .concat(),
        Certificate::Settling(Settling {
            g,
            t,
            k,
            e,
            ranking,
        }) => [&g[..], &[*t, *k], e, &ranking.y, &ranking.z].concat(),
    }
}

/// The bytes of a record of this shape with these values.
pub fn bytes_of(shape: Shape, values: &[i64]) -> Vec<u8> {
    let mut bytes = vec![0; 4 + shape.length()];
    put_length(&mut bytes, shape.length());
    Form::U16.put(shape.kind.number() as i64, &mut bytes, 4);
    if shape.kind == Kind::Loop {
        Form::U16.put(shape.n as i64, &mut bytes, 6);
        Form::U16.put(shape.m as i64, &mut bytes, 8);
    }
    put_values(
        &mut bytes,
        shape.kind.values_place(),
        &shape.fields(),
        values,
    );
    bytes
}

/// Puts the values of fields, the first of them at a place.
fn put_values(bytes: &mut [u8], mut place: usize, fields: &[Field], values: &[i64]) {
    for (field, &value) in fields.iter().zip(values) {
        field.form.put(value, bytes, place);
        place += field.form.width();
    }
}

/// A loop of several paths with an argument for it, which may or may not be accepted.
#[derive(Clone, Debug)]
pub struct PathPair {
    pub branches: Branches,
    pub argument: Lexicographic,
}

impl PathPair {
    pub fn certificate_shape(&self) -> CertificateShape {
        self.argument.shape(self.branches.shape())
    }

    pub fn loop_bytes(&self) -> Vec<u8> {
        let shape = self.branches.shape();
        let counts = [&[shape.n, shape.rows.len()], &shape.rows[..]].concat();
        let mut bytes = counted_bytes(PATH_LOOP, shape.length(), &counts);
        let values = row_values(&self.branches.paths.concat());
        put_values(&mut bytes, shape.values_place(), &shape.fields(), &values);
        bytes
    }

    pub fn certificate_bytes(&self) -> Vec<u8> {
        let shape = self.certificate_shape();
        let counts = [&[shape.components], &shape.numbers[..]].concat();
        let mut bytes = counted_bytes(LEXICOGRAPHIC, shape.length(), &counts);
        let values = argument_values(&self.argument);
        put_values(&mut bytes, shape.values_place(), &shape.fields(), &values);
        bytes
    }
}

/// L, a kind and counts, with the room of L.
fn counted_bytes(kind: u64, length: usize, counts: &[usize]) -> Vec<u8> {
    let mut bytes = vec![0; 4 + length];
    put_length(&mut bytes, length);
    Form::U16.put(kind as i64, &mut bytes, 4);
    for (i, &count) in counts.iter().enumerate() {
        Form::U16.put(count as i64, &mut bytes, 6 + 2 * i);
    }
    bytes
}

/// The values of an argument in layout order: component by component, then path by path its lists.
fn argument_values(argument: &Lexicographic) -> Vec<i64> {
    let component = |c: &Component| [&c.r[..], &[c.start, c.fall]].concat();
    let part = |part: &Part| {
        let lists = [&part.bounded[..], &part.ranking].concat();
        [lists, part.unaffecting.concat()].concat()
    };
    let components = argument.components.iter().flat_map(component);
    components
        .chain(argument.parts.iter().flat_map(part))
        .collect()
}

/// Puts L into the first four bytes.
pub fn put_length(bytes: &mut [u8], length: usize) {
    bytes[..4].copy_from_slice(&(length as u32).to_le_bytes());
}
