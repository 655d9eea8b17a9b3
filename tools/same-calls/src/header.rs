//! The prototypes of a header in C.

use crate::calls::{Call, Calls, Field, Parameter, Value};
use crate::tokens::{self, parts, Reader};
use std::collections::BTreeMap;

/// The structs of the header: what stands between their brackets.
type Structs = BTreeMap<String, Vec<String>>;

/// The calls that a header declares. What it defines itself is passed over.
pub fn read(text: &str) -> Result<Calls, String> {
    let tokens = tokens::of(&without_directives(text));
    let (mut structs, mut calls) = (Structs::new(), Calls::new());
    let mut reader = Reader::new(&tokens);
    while !reader.is_empty() {
        // C++ alone sees the brackets after extern "C".
        if reader.take(&["extern", "\"C\"", "{"]) || reader.take(&["}"]) || reader.take(&[";"]) {
        } else if reader.take(&["static"]) {
            while reader.ahead(0) != "{" && !reader.is_empty() {
                reader.skip(1);
            }
            reader.within()?;
        } else if reader.ahead(0) == "struct" && reader.ahead(2) == "{" {
            reader.skip(1);
            let name = reader.name()?;
            structs.insert(name, reader.within()?.to_vec());
        } else {
            let kind = kind(&mut reader)?;
            let name = reader.name()?;
            let call = call(&kind, reader.within()?, &structs);
            let call = call.map_err(|why| format!("{name}: {why}"))?;
            reader.expect(";")?;
            if calls.insert(name.clone(), call).is_some() {
                return Err(format!("{name} is declared twice"));
            }
        }
    }
    Ok(calls)
}

/// Without the lines that begin with #, and those that a \ joins to them.
fn without_directives(text: &str) -> String {
    let mut kept = String::new();
    let mut goes_on = false;
    for line in text.lines() {
        let directive = goes_on || line.trim_start().starts_with('#');
        goes_on = directive && line.ends_with('\\');
        if !directive {
            kept.push_str(line);
        }
        kept.push('\n');
    }
    kept
}

/// The name of a type; that of a struct after the word.
fn kind(reader: &mut Reader) -> Result<String, String> {
    if reader.take(&["struct"]) {
        return Ok(format!("struct {}", reader.name()?));
    }
    reader.name()
}

fn call(answer: &str, parameters: &[String], structs: &Structs) -> Result<Call, String> {
    let mut all = Vec::new();
    let mut rest = parts(parameters).into_iter();
    while let Some(part) = rest.next() {
        let mut reader = Reader::new(part);
        let read_only = reader.take(&["const"]);
        let value = value(&kind(&mut reader)?, structs)?;
        let pointer = reader.take(&["*"]);
        let name = reader.name()?;
        reader.end()?;
        if pointer {
            let mut count = Reader::new(rest.next().unwrap_or(&[]));
            let counted = count.take(&["size_t"]) && count.name().is_ok();
            if !counted || count.end().is_err() {
                return Err(format!("no count follows the pointer {name}"));
            }
        }
        let value = match pointer {
            true => Value::Slice {
                written: !read_only,
                entry: Box::new(value),
            },
            false => value,
        };
        all.push(Parameter { name, value });
    }
    Ok(Call {
        parameters: all,
        answer: value(answer, structs)?,
    })
}

fn value(kind: &str, structs: &Structs) -> Result<Value, String> {
    match kind {
        "uint64_t" => Ok(Value::Number("u64".to_string())),
        "uint8_t" => Ok(Value::Number("u8".to_string())),
        _ => Ok(Value::Fields(fields(kind, structs)?)),
    }
}

fn fields(kind: &str, structs: &Structs) -> Result<Vec<Field>, String> {
    let name = kind.strip_prefix("struct ");
    let tokens = name
        .and_then(|name| structs.get(name))
        .ok_or_else(|| format!("{kind} is not known"))?;
    let mut all = Vec::new();
    for line in tokens
        .split(|token| token == ";")
        .filter(|line| !line.is_empty())
    {
        let mut reader = Reader::new(line);
        let kind = self::kind(&mut reader)?;
        loop {
            let name = reader.name()?;
            let numbers = match reader.ahead(0) {
                "[" => Some(reader.within()?.concat()),
                _ => None,
            };
            match kind.as_str() {
                "uint64_t" => all.push(Field::new(&name, numbers.as_deref())),
                inner if numbers.is_none() => all.extend(fields(inner, structs)?),
                _ => return Err(format!("field {name}: {kind} is not uint64_t")),
            }
            if !reader.take(&[","]) {
                break;
            }
        }
        reader.end()?;
    }
    Ok(all)
}
