//! The table of calls of the Rust host, and the structs in the same file.

use crate::calls::{Call, Calls};
use crate::rusty::{self, Struct, Structs};
use crate::tokens::{self, Reader};

struct File(Vec<Struct>);

impl Structs for File {
    fn find(&self, name: &str, file: usize) -> Result<(&Struct, usize), String> {
        let found = self.0.iter().find(|one| one.name == name);
        let found = found.ok_or_else(|| format!("no struct {name} is found"))?;
        Ok((found, file))
    }
}

/// The calls of the table: `calls! { dohvrin_call = function(..) -> Answer; .. }`.
pub fn read(text: &str) -> Result<Calls, String> {
    let tokens = tokens::of(text);
    let (structs, _) = rusty::items(&tokens)?;
    let file = File(structs);
    let mut reader = Reader::new(&tokens);
    while !reader.take(&["calls", "!"]) {
        if reader.is_empty() {
            return Err("there is no table".to_string());
        }
        reader.skip(1);
    }
    let mut table = Reader::new(reader.within()?);
    let mut calls = Calls::new();
    while !table.is_empty() {
        let name = table.name()?;
        let call = line(&name, &mut table, &file).map_err(|why| format!("{name}: {why}"))?;
        if calls.insert(name.clone(), call).is_some() {
            return Err(format!("{name} is there twice"));
        }
    }
    Ok(calls)
}

/// What follows the name of a call; the function has that name without dohvrin_.
fn line(name: &str, table: &mut Reader, file: &File) -> Result<Call, String> {
    table.expect("=")?;
    let function = table.name()?;
    if name.strip_prefix("dohvrin_") != Some(&function) {
        return Err(format!("its function is called {function}"));
    }
    let parameters = rusty::parameters(table.within()?, file, 0)?;
    table.expect("-")?;
    table.expect(">")?;
    let answer = rusty::value(&table.name()?, file, 0)?;
    table.expect(";")?;
    Ok(Call { parameters, answer })
}
