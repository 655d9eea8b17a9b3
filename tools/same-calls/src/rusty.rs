//! What Rattle and Rust write alike: structs, parameters, types.

use crate::calls::{Field, Parameter, Value};
use crate::tokens::{parts, Reader};

/// A struct that is declared in a file, with its fields as they stand.
pub struct Struct {
    pub name: String,
    /// Whether it is `#[repr(C)]`.
    pub laid_out: bool,
    pub fields: Vec<(String, Vec<String>)>,
}

/// An exported function as it stands.
pub struct Function {
    pub name: String,
    pub parameters: Vec<String>,
    pub answer: String,
}

/// The structs and the exported functions of a file.
pub fn items(tokens: &[String]) -> Result<(Vec<Struct>, Vec<Function>), String> {
    let (mut structs, mut functions) = (Vec::new(), Vec::new());
    let mut reader = Reader::new(tokens);
    let mut attributes = Vec::new();
    while !reader.is_empty() {
        if reader.take(&["#"]) {
            reader.take(&["!"]);
            attributes.push(reader.within()?.concat());
        } else if reader.take(&["pub", "struct"]) {
            let laid_out = attributes.iter().any(|one| one == "repr(C)");
            structs.push(read_struct(&mut reader, laid_out)?);
            attributes.clear();
        } else if reader.take(&["pub", "extern", "\"C\"", "fn"]) {
            if attributes.iter().any(|one| one == "unsafe(no_mangle)") {
                functions.push(read_function(&mut reader)?);
            }
            attributes.clear();
        } else {
            reader.skip(1);
            attributes.clear();
        }
    }
    Ok((structs, functions))
}

fn read_struct(reader: &mut Reader, laid_out: bool) -> Result<Struct, String> {
    let name = reader.name()?;
    let mut fields = Vec::new();
    if reader.ahead(0) == "{" {
        for part in parts(reader.within()?) {
            let mut field = Reader::new(part);
            while field.take(&["#"]) {
                field.within()?;
            }
            field.take(&["pub"]);
            // A ghost field is a fact, and stands in no memory.
            if field.take(&["ghost"]) {
                continue;
            }
            let name = field.name()?;
            field.expect(":")?;
            let mut kind = Vec::new();
            while !field.is_empty() {
                kind.push(field.next().to_string());
            }
            fields.push((name, kind));
        }
    }
    Ok(Struct {
        name,
        laid_out,
        fields,
    })
}

fn read_function(reader: &mut Reader) -> Result<Function, String> {
    let name = reader.name()?;
    let parameters = reader.within()?.to_vec();
    reader.expect("-")?;
    reader.expect(">")?;
    Ok(Function {
        name,
        parameters,
        answer: reader.name()?,
    })
}

/// The structs of several files, each of which has a number.
pub trait Structs {
    /// The struct that a name means in a file, and the file where it stands.
    fn find(&self, name: &str, file: usize) -> Result<(&Struct, usize), String>;
}

/// Parameters between commas. A word of 128 bits is passed as two halves.
pub fn parameters(
    tokens: &[String],
    structs: &dyn Structs,
    file: usize,
) -> Result<Vec<Parameter>, String> {
    let mut all = Vec::new();
    for part in parts(tokens) {
        let mut reader = Reader::new(part);
        let name = reader.name()?;
        reader.expect(":")?;
        if reader.take(&["u128"]) {
            all.extend(["low", "high"].map(|half| Parameter {
                name: half.to_string(),
                value: Value::Number("u64".to_string()),
            }));
        } else {
            let value = parameter_value(&mut reader, structs, file)?;
            all.push(Parameter { name, value });
        }
        reader.end()?;
    }
    Ok(all)
}

fn parameter_value(
    reader: &mut Reader,
    structs: &dyn Structs,
    file: usize,
) -> Result<Value, String> {
    if !reader.take(&["&"]) {
        return value(&reader.name()?, structs, file);
    }
    let written = reader.take(&["mut"]);
    let mut inner = Reader::new(reader.within()?);
    let entry = Box::new(value(&inner.name()?, structs, file)?);
    inner.end()?;
    Ok(Value::Slice { written, entry })
}

/// A number, or a struct with all its fields.
pub fn value(name: &str, structs: &dyn Structs, file: usize) -> Result<Value, String> {
    match name {
        "u8" | "u64" => Ok(Value::Number(name.to_string())),
        _ => Ok(Value::Fields(fields(name, structs, file)?)),
    }
}

fn fields(name: &str, structs: &dyn Structs, file: usize) -> Result<Vec<Field>, String> {
    let (found, file) = structs.find(name, file)?;
    if !found.laid_out {
        return Err(format!("struct {name} is passed and not #[repr(C)]"));
    }
    let mut all = Vec::new();
    for (name, kind) in &found.fields {
        let kind: Vec<&str> = kind.iter().map(String::as_str).collect();
        match kind[..] {
            ["u64"] => all.push(Field::new(name, None)),
            ["[", "u64", ";", number, "]"] => all.push(Field::new(name, Some(number))),
            [inner] if inner.starts_with(char::is_uppercase) => {
                all.extend(fields(inner, structs, file)?);
            }
            _ => return Err(format!("field {name}: {:?} is not u64", kind.join(" "))),
        }
    }
    Ok(all)
}
