//! What a message holds, in a form that neither side has: the two sides are brought to it and compared.

#[derive(Clone, PartialEq, Eq, Debug)]
pub struct RowField {
    pub name: Vec<u8>,
    pub table_id: i32,
    pub column_id: i16,
    pub type_id: u32,
    pub type_size: i16,
    pub type_modifier: i32,
    pub format_code: i16,
}

/// A start-up's argument: its name, its value.
pub type Pair = (Vec<u8>, Vec<u8>);

#[derive(Clone, PartialEq, Eq, Debug)]
pub enum Field {
    Num(i64),
    Text(Vec<u8>),
    Bytes(Vec<u8>),
    Oids(Vec<u32>),
    Formats(Vec<i16>),
    Values(Vec<Option<Vec<u8>>>),
    RowFields(Vec<RowField>),
    Errors(Vec<(u8, Vec<u8>)>),
    Pairs(Vec<Pair>),
    /// A DataRow as the Rust keeps it: the count, and the bytes after it, not taken apart.
    Unread(i64, Vec<u8>),
}

impl Field {
    /// How many elements a list with a count has.
    pub fn counted(&self) -> usize {
        match self {
            Field::Oids(list) => list.len(),
            Field::Formats(list) => list.len(),
            Field::Values(list) => list.len(),
            Field::RowFields(list) => list.len(),
            _ => 0,
        }
    }
}

/// A kind by its number (the numbers of the rows, protocol/specs Kinds) and its fields from left to right.
#[derive(Clone, PartialEq, Eq, Debug)]
pub struct Content {
    pub kind: u8,
    pub fields: Vec<Field>,
}

/// A text after the Rust's lossy reading.
fn lossy(text: &[u8]) -> Vec<u8> {
    String::from_utf8_lossy(text).into_owned().into_bytes()
}

impl Content {
    /// The same with each text read as the Rust reads it.
    pub fn lossy(&self) -> Content {
        let fields = self
            .fields
            .iter()
            .map(|f| match f {
                Field::Text(t) => Field::Text(lossy(t)),
                Field::RowFields(fields) => {
                    Field::RowFields(fields.iter().map(|f| RowField { name: lossy(&f.name), ..f.clone() }).collect())
                }
                Field::Errors(errors) => Field::Errors(errors.iter().map(|(c, t)| (*c, lossy(t))).collect()),
                Field::Pairs(pairs) => Field::Pairs(pairs.iter().map(|(name, value)| (lossy(name), lossy(value))).collect()),
                other => other.clone(),
            })
            .collect();
        Content { kind: self.kind, fields }
    }

    /// The same as the Rust keeps it: a DataRow's values joined, each with its length; a start-up's pairs in the order of their names. Two pairs
    /// of one name both stay. A DataRow is values and nothing else.
    pub fn kept(&self) -> Content {
        let field = match &self.fields[..] {
            [Field::Values(values)] => Field::Unread(values.len() as i64, joined(values)),
            [Field::Pairs(pairs)] => Field::Pairs(sorted(pairs)),
            _ => return self.clone(),
        };
        Content { kind: self.kind, fields: vec![field] }
    }

    /// The same with the last alone of several pairs with one name, which stand beside each other.
    pub fn last_of_each_name(&self) -> Content {
        let mut c = self.clone();
        if let [Field::Pairs(pairs)] = &mut c.fields[..] {
            *pairs = pairs.chunk_by(|a, b| a.0 == b.0).map(|same| same[same.len() - 1].clone()).collect();
        }
        c
    }
}

fn sorted(pairs: &[Pair]) -> Vec<Pair> {
    let mut pairs = pairs.to_vec();
    // a stable sort: of one name the last stays last
    pairs.sort_by(|a, b| a.0.cmp(&b.0));
    pairs
}

/// Values as they stand on the wire.
pub fn joined(values: &[Option<Vec<u8>>]) -> Vec<u8> {
    let mut out = Vec::new();
    for v in values {
        match v {
            None => out.extend_from_slice(&(-1i32).to_be_bytes()),
            Some(b) => {
                out.extend_from_slice(&(b.len() as i32).to_be_bytes());
                out.extend_from_slice(b);
            }
        }
    }
    out
}
