//! Numbers and their ranges; the kinds of record that go by one n and m, and the fields of each, in layout order. Those of
//! kinds 5 and 6 stand in `paths`.

/// The least and the greatest number that a thing may be.
#[derive(Clone, Copy, Debug, PartialEq, Eq)]
pub struct Range {
    pub low: i64,
    pub high: i64,
}

impl Range {
    const fn new(low: i64, high: i64) -> Range {
        Range { low, high }
    }

    pub fn holds(self, value: i64) -> bool {
        self.low <= value && value <= self.high
    }
}

/// Variables n.
pub const VARIABLES: Range = Range::new(1, 16);
/// Loop rows m, stem rows ms.
pub const ROWS: Range = Range::new(0, 64);
/// Entries of A, A', B, B', s, g.
pub const ENTRY: Range = Range::new(-30_000, 30_000);
/// b, d, s0, t.
pub const RIGHT: Range = Range::new(-2_000_000_000, 2_000_000_000);
/// Multipliers; h0 is one of them.
pub const MULTIPLIER: Range = Range::new(0, 60_000);
/// Scales k, k2, denominator q.
pub const SCALE: Range = Range::new(1, 60_000);
/// Entries of U, V, W.
pub const DIRECTION: Range = Range::new(-60_000, 60_000);
/// Paths of a loop, components of a lexicographic argument.
pub const PATHS: Range = Range::new(1, 8);
pub const COMPONENTS: Range = Range::new(1, 8);
/// How far a component falls: δ of kind 6.
pub const FALL: Range = Range::new(1, 1_000_000);
/// State entries.
pub const STATE: Range = Range::new(-1_000_000, 1_000_000);

/// How a number stands on file.
#[derive(Clone, Copy, Debug, PartialEq, Eq)]
pub enum Form {
    U16,
    I16,
    I32,
}

impl Form {
    pub fn width(self) -> usize {
        match self {
            Form::U16 | Form::I16 => 2,
            Form::I32 => 4,
        }
    }

    /// The least and the greatest number that the form can hold.
    pub fn holds(self) -> Range {
        match self {
            Form::U16 => Range::new(0, 65_535),
            Form::I16 => Range::new(-32_768, 32_767),
            Form::I32 => Range::new(-2_147_483_648, 2_147_483_647),
        }
    }

    /// The number whose bytes stand at a place.
    pub fn read(self, bytes: &[u8], place: usize) -> i64 {
        let bytes = &bytes[place..place + self.width()];
        match self {
            Form::U16 => u16::from_le_bytes([bytes[0], bytes[1]]).into(),
            Form::I16 => i16::from_le_bytes([bytes[0], bytes[1]]).into(),
            Form::I32 => i32::from_le_bytes([bytes[0], bytes[1], bytes[2], bytes[3]]).into(),
        }
    }

    /// Puts a number's bytes at a place; of a number that doesn't fit, the lowest bytes.
    pub fn put(self, value: i64, bytes: &mut [u8], place: usize) {
        let width = self.width();
        bytes[place..place + width].copy_from_slice(&value.to_le_bytes()[..width]);
    }
}

/// A number in a record: how it stands there, and its range.
#[derive(Clone, Copy, Debug)]
pub struct Field {
    pub form: Form,
    pub range: Range,
}

const fn field(form: Form, range: Range) -> Field {
    Field { form, range }
}

pub const AN_ENTRY: Field = field(Form::I16, ENTRY);
pub const A_RIGHT: Field = field(Form::I32, RIGHT);
pub const A_MULTIPLIER: Field = field(Form::U16, MULTIPLIER);
const A_SCALE: Field = field(Form::U16, SCALE);
pub const A_DIRECTION: Field = field(Form::I32, DIRECTION);
const A_ROW_COUNT: Field = field(Form::U16, ROWS);
pub const A_FALL: Field = field(Form::I32, FALL);

/// The kinds of record that go by one n and m.
#[derive(Clone, Copy, Debug, PartialEq, Eq)]
pub enum Kind {
    Loop,
    Ranking,
    Exclusion,
    Lasso,
    Settling,
}

pub const KINDS: [Kind; 5] = [
    Kind::Loop,
    Kind::Ranking,
    Kind::Exclusion,
    Kind::Lasso,
    Kind::Settling,
];

impl Kind {
    pub fn of(number: u64) -> Option<Kind> {
        KINDS.into_iter().find(|kind| kind.number() == number)
    }

    pub fn number(self) -> u64 {
        match self {
            Kind::Loop => 1,
            Kind::Ranking => 2,
            Kind::Exclusion => 3,
            Kind::Lasso => 4,
            Kind::Settling => 8,
        }
    }

    /// The L that is needed before the counts in the record can be looked at.
    pub fn counts_length(self) -> usize {
        match self {
            Kind::Loop => 6,
            Kind::Ranking | Kind::Exclusion | Kind::Settling => 2,
            Kind::Lasso => 4,
        }
    }

    /// Where the first value stands: after length and kind, and after n and m in kind 1.
    pub fn values_place(self) -> usize {
        match self {
            Kind::Loop => 10,
            _ => 6,
        }
    }
}

/// What settles a record's layout: its kind, n, m and, for a lasso, ms (0 for the others).
#[derive(Clone, Copy, Debug)]
pub struct Shape {
    pub kind: Kind,
    pub n: usize,
    pub m: usize,
    pub ms: usize,
}

impl Shape {
    /// The paper's formula for L.
    pub fn length(self) -> usize {
        let Shape { kind, n, m, ms } = self;
        match kind {
            Kind::Loop => 6 + m * (4 * n + 4),
            Kind::Ranking => 2 + 4 * m,
            Kind::Exclusion => 4 + 12 * n,
            Kind::Lasso => 18 + 2 * n + ms * (4 * n + 6) + 6 * m,
            Kind::Settling => 12 + 2 * n + 6 * m,
        }
    }

    /// Where each value stands in the record.
    pub fn places(self) -> Vec<usize> {
        let mut place = self.kind.values_place();
        let mut places = Vec::new();
        for field in self.fields() {
            places.push(place);
            place += field.form.width();
        }
        places
    }

    /// Which values are the parts g, t, k, E, Y, Z of a settling.
    pub fn settling_parts(self) -> [std::ops::Range<usize>; 6] {
        let mut start = 0;
        let Shape { n, m, .. } = self;
        [n, 1, 1, m, m + 1, m + 1].map(|count| {
            let part = start..start + count;
            start = part.end;
            part
        })
    }

    /// The values of the body in layout order, without the n and m of kind 1.
    pub fn fields(self) -> Vec<Field> {
        let Shape { kind, n, m, ms } = self;
        let mut fields = Vec::new();
        let mut add = |count: usize, field: Field| fields.extend(vec![field; count]);
        match kind {
            Kind::Loop => {
                for _row in 0..m {
                    add(2 * n, AN_ENTRY);
                    add(1, A_RIGHT);
                }
            }
            Kind::Ranking => add(2 * m, A_MULTIPLIER),
            Kind::Exclusion => {
                add(1, A_SCALE);
                add(3 * n, A_DIRECTION);
            }
            Kind::Lasso => {
                add(1, A_ROW_COUNT);
                for _stem_row in 0..ms {
                    add(2 * n, AN_ENTRY);
                    add(1, A_RIGHT);
                }
                add(n, AN_ENTRY); // s
                add(1, A_RIGHT); // s0
                add(1, A_SCALE); // k
                add(ms, A_MULTIPLIER); // T
                add(1, A_SCALE); // k2
                add(m, A_MULTIPLIER); // H
                add(1, A_MULTIPLIER); // h0
                add(2 * (m + 1), A_MULTIPLIER); // Y, then Z
            }
            Kind::Settling => {
                add(n, AN_ENTRY); // g
                add(1, A_RIGHT); // t
                add(1, A_SCALE); // k
                add(m, A_MULTIPLIER); // E
                add(2 * (m + 1), A_MULTIPLIER); // Y, then Z
            }
        }
        fields
    }
}
