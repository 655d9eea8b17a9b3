//! A call, in whatever language it is written: what is passed, in which order.

use std::collections::{BTreeMap, BTreeSet};
use std::fmt;

/// All calls by their names.
pub type Calls = BTreeMap<String, Call>;

#[derive(Clone, Debug, PartialEq, Eq)]
pub struct Call {
    pub parameters: Vec<Parameter>,
    pub answer: Value,
}

#[derive(Clone, Debug, PartialEq, Eq)]
pub struct Parameter {
    pub name: String,
    pub value: Value,
}

#[derive(Clone, Debug, PartialEq, Eq)]
pub enum Value {
    /// By its type's name in Rust.
    Number(String),
    /// The fields of a struct, those of structs in it among them.
    Fields(Vec<Field>),
    /// A pointer and a count.
    Slice { written: bool, entry: Box<Value> },
}

/// A field of 64-bit numbers: one, or so many. No other has a place that is the
/// same whether the struct around it is flat or not.
#[derive(Clone, Debug, PartialEq, Eq)]
pub struct Field {
    name: String,
    numbers: Option<String>,
}

impl Field {
    pub fn new(name: &str, numbers: Option<&str>) -> Field {
        Field {
            name: name.to_string(),
            numbers: numbers.map(str::to_string),
        }
    }
}

impl fmt::Display for Parameter {
    fn fmt(&self, f: &mut fmt::Formatter) -> fmt::Result {
        write!(f, "{}: {}", self.name, self.value)
    }
}

impl fmt::Display for Value {
    fn fmt(&self, f: &mut fmt::Formatter) -> fmt::Result {
        match self {
            Value::Number(name) => f.write_str(name),
            Value::Fields(fields) => {
                let all: Vec<String> = fields.iter().map(Field::to_string).collect();
                write!(f, "{{{}}}", all.join(" "))
            }
            Value::Slice { written, entry } => {
                write!(f, "&{}[{entry}]", if *written { "mut " } else { "" })
            }
        }
    }
}

impl fmt::Display for Field {
    fn fmt(&self, f: &mut fmt::Formatter) -> fmt::Result {
        match &self.numbers {
            Some(numbers) => write!(f, "{}[{numbers}]", self.name),
            None => f.write_str(&self.name),
        }
    }
}

/// A line for each call that one side has otherwise than the other, or not at all;
/// and how many calls there are on either side.
pub fn differences(ours: &Calls, theirs: &Calls, place: &str) -> (usize, Vec<String>) {
    let names: BTreeSet<&String> = ours.keys().chain(theirs.keys()).collect();
    let lines = names.iter().filter_map(|&name| {
        let what = match (ours.get(name), theirs.get(name)) {
            (Some(one), Some(other)) => difference(one, other)?,
            (Some(_), None) => "it is missing".to_string(),
            (None, _) => "no crate exports it".to_string(),
        };
        Some(format!("{name}, {place}: {what}"))
    });
    (names.len(), lines.collect())
}

/// The first in which they differ.
fn difference(ours: &Call, theirs: &Call) -> Option<String> {
    if ours == theirs {
        return None;
    }
    let shown = |parameter: Option<&Parameter>| match parameter {
        Some(parameter) => parameter.to_string(),
        None => "nothing".to_string(),
    };
    let most = ours.parameters.len().max(theirs.parameters.len());
    let pairs = (0..most).map(|at| (ours.parameters.get(at), theirs.parameters.get(at)));
    let unlike = (1..).zip(pairs).find(|(_, (one, other))| one != other);
    Some(match unlike {
        Some((at, (one, other))) => {
            let (one, other) = (shown(one), shown(other));
            format!("parameter {at} is {other}, in the crates {one}")
        }
        None => format!(
            "it answers {}, in the crates {}",
            theirs.answer, ours.answer
        ),
    })
}
