//! The exported functions of all crates, in Rattle.

use crate::calls::{Call, Calls};
use crate::rusty::{self, Function, Struct, Structs};
use crate::tokens;
use std::collections::BTreeMap;
use std::fs;
use std::path::{Path, PathBuf};

/// A file of a crate.
struct Source {
    file: PathBuf,
    structs: Vec<Struct>,
    functions: Vec<Function>,
    /// What it uses of other files: the name, and the file where that stands.
    used: BTreeMap<String, PathBuf>,
}

/// All files.
struct Sources(Vec<Source>);

/// The calls of a folder of crates.
pub fn read(folder: &Path) -> Result<Calls, String> {
    let sources = Sources(sources(folder)?);
    let mut calls = Calls::new();
    for (file, source) in sources.0.iter().enumerate() {
        for function in &source.functions {
            let Function { name, .. } = function;
            let call = sources.call(function, file);
            let call = call.map_err(|why| format!("{}, {name}: {why}", source.file.display()))?;
            if calls.insert(name.clone(), call).is_some() {
                return Err(format!("{name} is exported twice"));
            }
        }
    }
    Ok(calls)
}

fn sources(folder: &Path) -> Result<Vec<Source>, String> {
    let mut all = Vec::new();
    for krate in entries(folder)? {
        // A folder without sources is no crate.
        for file in entries(&krate.join("src")).unwrap_or_default() {
            if file.extension().map_or(false, |is| is == "rt") {
                let read = source(&file, folder);
                all.push(read.map_err(|why| format!("{}: {why}", file.display()))?);
            }
        }
    }
    Ok(all)
}

fn entries(folder: &Path) -> Result<Vec<PathBuf>, String> {
    let read = fs::read_dir(folder).map_err(|error| format!("{}: {error}", folder.display()))?;
    Ok(read.flatten().map(|entry| entry.path()).collect())
}

fn source(file: &Path, folder: &Path) -> Result<Source, String> {
    let text = fs::read_to_string(file).map_err(|error| error.to_string())?;
    let tokens = tokens::of(&text);
    let (structs, functions) = rusty::items(&tokens)?;
    Ok(Source {
        file: file.to_path_buf(),
        structs,
        functions,
        used: used(&tokens, file, folder),
    })
}

/// What the lines `use a::b::{Name, Other};` say: Name and Other of the file b of crate a.
fn used(tokens: &[String], file: &Path, folder: &Path) -> BTreeMap<String, PathBuf> {
    let mut all = BTreeMap::new();
    for line in tokens.split(|token| token == ";") {
        let Some(start) = line.iter().rposition(|token| token == "use") else {
            continue;
        };
        let path = line[start + 1..].iter().map(String::as_str);
        let path: Vec<&str> = path.filter(|word| *word != ":").collect();
        let (before, names) = match path.iter().position(|word| *word == "{") {
            Some(at) => (&path[..at], &path[at + 1..]),
            None => path.split_at(path.len().saturating_sub(1)),
        };
        let place = match *before {
            [krate] => folder.join(krate).join("src/lib.rt"),
            ["super", module] => file.with_file_name(format!("{module}.rt")),
            [krate, module] => folder.join(krate).join(format!("src/{module}.rt")),
            _ => continue,
        };
        let names = names.iter().filter(|word| !["{", "}", ","].contains(word));
        all.extend(names.map(|name| (name.to_string(), place.clone())));
    }
    all
}

impl Sources {
    fn call(&self, function: &Function, file: usize) -> Result<Call, String> {
        Ok(Call {
            parameters: rusty::parameters(&function.parameters, self, file)?,
            answer: rusty::value(&function.answer, self, file)?,
        })
    }
}

impl Structs for Sources {
    fn find(&self, name: &str, file: usize) -> Result<(&Struct, usize), String> {
        let here = &self.0[file];
        if let Some(found) = here.structs.iter().find(|one| one.name == name) {
            return Ok((found, file));
        }
        let place = here.used.get(name);
        let other = place.and_then(|place| self.0.iter().position(|one| one.file == *place));
        match other {
            Some(other) if other != file => self.find(name, other),
            _ => Err(format!("no struct {name} is found")),
        }
    }
}
