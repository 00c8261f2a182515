//! The map of a module: what its text calls things and where it says them. It stands beside the
//! module as a text of its own (`MODULE.map`) that a person can read; the tool takes only what
//! `Map::text` writes.

use super::lexer::Place;
use crate::digest::{hex, sha256};
use crate::file::Record;
use crate::module::{
    Module, KIND_ARGUMENTS, KIND_FUNCTION, KIND_INTEGER, KIND_NAME_TERM, MAX_LIST,
};
use std::iter::Peekable;
use std::ops::Range;
use std::str::Lines;

/// The first line of a map.
pub const MAP_HEAD: &str = "rcm map 1";
/// The last one, so that a map that was cut is none.
const END: &str = "end";

/// What a text calls the things of its module, and where it says them.
#[derive(Clone, PartialEq, Eq, Debug)]
pub struct Map {
    /// The file of the text.
    pub source: String,
    /// SHA-256 of the module file.
    pub hash: [u8; 32],
    pub structs: Vec<StructNames>,
    pub functions: Vec<FunctionNames>,
}

#[derive(Clone, PartialEq, Eq, Debug)]
pub struct StructNames {
    pub name: String,
    pub place: Place,
    pub regions: Vec<String>,
    pub fields: Vec<String>,
}

/// Regions and registers have the parameters first. Registers that the assembler adds are called
/// `%1`, `%2`, .., as no text can call one.
#[derive(Clone, PartialEq, Eq, Debug)]
pub struct FunctionNames {
    pub name: String,
    pub place: Place,
    pub regions: Vec<String>,
    pub registers: Vec<String>,
    /// Each label with the instruction that it stands before, in the order of the text.
    pub labels: Vec<(String, u32)>,
    /// The place of each instruction; records of kind 35 are not counted.
    pub code: Vec<Place>,
}

impl Map {
    /// The map as a text.
    pub fn text(&self) -> String {
        let source = printable(&self.source);
        let mut text = format!("{MAP_HEAD}\nsource {source}\nmodule {}\n", hex(&self.hash));
        for one in &self.structs {
            text += &format!("struct {} {}\n", one.name, place_text(&one.place));
            text += &line("    regions", &one.regions);
            text += &line("    fields", &one.fields);
        }
        for one in &self.functions {
            text += &format!("fn {} {}\n", one.name, place_text(&one.place));
            text += &line("    regions", &one.regions);
            text += &line("    registers", &one.registers);
            let labels = one.labels.iter().map(|(name, at)| format!("{name}:{at}"));
            text += &line("    labels", &labels.collect::<Vec<_>>());
            let code = one.code.iter().map(place_text);
            text += &line("    code", &code.collect::<Vec<_>>());
        }
        text + END + "\n"
    }

    /// The map that a text is, or what is wrong with it.
    pub fn parse(text: &str) -> Result<Map, String> {
        let mut reader = Reader { lines: text.lines().peekable(), number: 0 };
        reader.exactly(MAP_HEAD)?;
        let source = reader.after("source")?.to_string();
        let hash = reader.hash()?;
        let mut map = Map { source, hash, structs: Vec::new(), functions: Vec::new() };
        while reader.begins("struct ") {
            let (name, place) = reader.head("struct")?;
            let (regions, fields) = (reader.names("    regions")?, reader.names("    fields")?);
            map.structs.push(StructNames { name, place, regions, fields });
        }
        while reader.begins("fn ") {
            let (name, place) = reader.head("fn")?;
            map.functions.push(FunctionNames {
                name,
                place,
                regions: reader.names("    regions")?,
                registers: reader.names("    registers")?,
                labels: reader.list("    labels", "a label with its instruction", label)?,
                code: reader.list("    code", "a line and a column", place_of)?,
            });
        }
        reader.exactly(END)?;
        // What words alone do not show: further lines, other spaces, numbers written otherwise, a
        // source whose name is not printable.
        if map.text() != text {
            return Err("expected a map as asm writes it".to_string());
        }
        Ok(map)
    }

    /// This is the map of the file, which holds this module: it names every part.
    pub fn fits(&self, file: &[u8], module: &Module) -> bool {
        let structs = self.structs.iter().zip(&module.names).all(|(names, structure)| {
            names.regions.len() == structure.regions && names.fields.len() == structure.fields.len()
        });
        let functions = self.functions.iter().zip(&module.functions).all(|(names, function)| {
            names.regions.len() == function.region_types.len()
                && names.registers.len() == function.register_types.len()
                && names.code.len() == function.code.len()
        });
        self.is_of(file)
            && self.structs.len() == module.names.len()
            && self.functions.len() == module.functions.len()
            && structs
            && functions
    }

    /// The hash is the file's.
    pub fn is_of(&self, file: &[u8]) -> bool {
        self.hash == sha256(file)
    }

    /// Where the text has the struct, function or instruction of a record. The file is the map's own
    /// but may be no module; types, and what stands behind records outside of functions, have no place.
    pub fn place_of(&self, records: &[Record], record: usize) -> Option<Place> {
        let spans = self.spans(records);
        spans.into_iter().find(|(span, _)| span.contains(&record)).map(|(_, place)| place)
    }

    /// The records of each struct, of each function's head and of each instruction.
    fn spans(&self, records: &[Record]) -> Vec<(Range<usize>, Place)> {
        let kind = |at: usize| records.get(at).map_or(0, Record::kind);
        let is_type = |at: &usize| (KIND_INTEGER..=KIND_NAME_TERM).contains(&kind(*at));
        let mut at = (0..).take_while(is_type).count();
        let mut spans = Vec::new();
        for one in &self.structs {
            spans.push((at..at + 2, one.place));
            at += 2;
        }
        for one in &self.functions {
            let registers = one.registers.len();
            let named = records.get(at).is_some_and(|head| usize::from(head.c()) == registers);
            if kind(at) != KIND_FUNCTION || !named {
                break;
            }
            let lists = usize::from(!one.regions.is_empty()) + registers.div_ceil(MAX_LIST);
            spans.push((at..at + 1 + lists, one.place));
            at += 1 + lists;
            for place in &one.code {
                let arguments = (at + 1..).take_while(|&next| kind(next) == KIND_ARGUMENTS).count();
                spans.push((at..at + 1 + arguments, *place));
                at += 1 + arguments;
            }
        }
        spans
    }
}

/// A file's name as it can be shown: what a terminal would take for an order, or a reader for a
/// second line, is a question mark.
pub fn printable(name: &str) -> String {
    name.chars().map(|letter| if letter.is_control() { '?' } else { letter }).collect()
}

/// A line of words behind a first one.
fn line(first: &str, words: &[String]) -> String {
    words.iter().fold(first.to_string(), |line, word| line + " " + word) + "\n"
}

/// A name as a text writes it, or one that the assembler made.
fn name(word: &str) -> Option<String> {
    let rest = word.strip_prefix('%').unwrap_or(word);
    let fits = |letter: char| letter.is_ascii_alphanumeric() || letter == '_';
    (!rest.is_empty() && rest.chars().all(fits)).then(|| word.to_string())
}

fn place_text(place: &Place) -> String {
    format!("{}:{}", place.line, place.column)
}

fn place_of(word: &str) -> Option<Place> {
    let (line, column) = word.split_once(':')?;
    Some(Place { line: line.parse().ok()?, column: column.parse().ok()? })
}

fn label(word: &str) -> Option<(String, u32)> {
    let (label, at) = word.split_once(':')?;
    Some((name(label)?, at.parse().ok()?))
}

/// The lines of a map, one after the other.
struct Reader<'t> {
    lines: Peekable<Lines<'t>>,
    /// The number of the line that was read last.
    number: usize,
}

impl<'t> Reader<'t> {
    fn begins(&mut self, with: &str) -> bool {
        self.lines.peek().is_some_and(|line| line.starts_with(with))
    }

    fn next(&mut self) -> &'t str {
        self.number += 1;
        self.lines.next().unwrap_or_default()
    }

    fn wrong<T>(&self, expected: &str) -> Result<T, String> {
        Err(format!("line {}: expected {expected}", self.number))
    }

    fn exactly(&mut self, wanted: &str) -> Result<(), String> {
        match self.next() == wanted {
            true => Ok(()),
            false => self.wrong(&format!("`{wanted}`")),
        }
    }

    /// What stands behind the first word of the next line, without the space before it.
    fn after(&mut self, first: &str) -> Result<&'t str, String> {
        let rest = self.next().strip_prefix(first);
        match rest.map(|rest| rest.strip_prefix(' ').unwrap_or(rest)) {
            Some(rest) => Ok(rest),
            None => self.wrong(&format!("`{}`", first.trim_start())),
        }
    }

    fn hash(&mut self) -> Result<[u8; 32], String> {
        let word = self.after("module")?;
        let mut hash = [0; 32];
        for (at, byte) in hash.iter_mut().enumerate() {
            let digits = word.get(2 * at..2 * at + 2);
            match digits.map(|digits| u8::from_str_radix(digits, 16)) {
                Some(Ok(value)) => *byte = value,
                _ => return self.wrong("the 64 digits of the module's SHA-256"),
            }
        }
        Ok(hash)
    }

    /// The name and place of a struct or function.
    fn head(&mut self, first: &str) -> Result<(String, Place), String> {
        let words = self.after(first)?.split_once(' ');
        match words.and_then(|(word, place)| Some((name(word)?, place_of(place)?))) {
            Some(head) => Ok(head),
            None => self.wrong(&format!("the name and place of a {first}")),
        }
    }

    fn names(&mut self, first: &str) -> Result<Vec<String>, String> {
        self.list(first, "a name", name)
    }

    fn list<T>(
        &mut self,
        first: &str,
        what: &str,
        value: fn(&str) -> Option<T>,
    ) -> Result<Vec<T>, String> {
        let words = self.after(first)?;
        match words.split_whitespace().map(value).collect() {
            Some(values) => Ok(values),
            None => self.wrong(what),
        }
    }
}
