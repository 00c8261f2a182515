//! What the things of a module are called where it is shown: by their numbers, or as its text calls
//! them where there is a map.

use super::lexer::Place;
use super::map::Map;
use std::fmt;

/// Names of registers, regions, functions, structs, fields and labels. By numbers: registers r0, r1,
/// .., regions R0, R1, .., functions f0, f1, .., structs s0, s1, .. with fields x0, x1, .., labels L
/// and the instruction's number.
#[derive(Clone, Copy)]
pub struct Names<'m> {
    map: Option<&'m Map>,
}

/// Where a type stands: whose regions are in scope. A term of the table stands nowhere.
#[derive(Clone, Copy)]
pub enum Scope {
    Function(usize),
    Struct(usize),
    Table,
}

/// A place in the source.
#[derive(Clone, Copy)]
pub struct Source<'m> {
    pub file: &'m str,
    pub place: Place,
}

impl Source<'_> {
    /// The file with the line alone.
    pub fn line(&self) -> String {
        format!("{}:{}", self.file, self.place.line)
    }

    /// The file's last name with the line, where every line of a text has it.
    pub fn short(&self) -> String {
        let name = self.file.rsplit('/').next().unwrap_or(self.file);
        format!("{name}:{}", self.place.line)
    }
}

impl fmt::Display for Source<'_> {
    fn fmt(&self, out: &mut fmt::Formatter) -> fmt::Result {
        write!(out, "{}:{}:{}", self.file, self.place.line, self.place.column)
    }
}

impl<'m> Names<'m> {
    pub fn numbered() -> Names<'m> {
        Names { map: None }
    }

    /// The names of a map that fits, else numbers.
    pub fn of(map: Option<&'m Map>) -> Names<'m> {
        Names { map }
    }

    pub fn are_numbers(&self) -> bool {
        self.map.is_none()
    }

    pub fn function(&self, function: usize) -> String {
        match self.map {
            Some(map) => map.functions[function].name.clone(),
            None => format!("f{function}"),
        }
    }

    pub fn register(&self, function: usize, register: u8) -> String {
        match self.map {
            Some(map) => map.functions[function].registers[usize::from(register)].clone(),
            None => format!("r{register}"),
        }
    }

    pub fn structure(&self, structure: u8) -> String {
        match self.map {
            Some(map) => map.structs[usize::from(structure)].name.clone(),
            None => format!("s{structure}"),
        }
    }

    pub fn field(&self, structure: u8, field: usize) -> String {
        match self.map {
            Some(map) => map.structs[usize::from(structure)].fields[field].clone(),
            None => format!("x{field}"),
        }
    }

    /// A region of the scope.
    pub fn region(&self, scope: Scope, region: u8) -> String {
        let index = usize::from(region);
        match (self.map, scope) {
            (Some(map), Scope::Function(function)) => {
                map.functions[function].regions[index].clone()
            }
            (Some(map), Scope::Struct(structure)) => map.structs[structure].regions[index].clone(),
            (_, Scope::Table) => region.to_string(),
            (None, _) => format!("R{region}"),
        }
    }

    /// The target of a branch: its first label, or the number where the text has none there.
    pub fn label(&self, function: usize, instruction: u32) -> String {
        let Some(map) = self.map else {
            return format!("L{instruction}");
        };
        let label = map.functions[function].labels.iter().find(|(_, at)| *at == instruction);
        label.map_or_else(|| instruction.to_string(), |(name, _)| name.clone())
    }

    fn source(&self, place: impl Fn(&Map) -> Place) -> Option<Source<'m>> {
        self.map.map(|map| Source { file: &map.source, place: place(map) })
    }

    /// Where the source has an instruction, a function and a struct.
    pub fn instruction_source(&self, function: usize, instruction: usize) -> Option<Source<'m>> {
        self.source(|map| map.functions[function].code[instruction])
    }

    pub fn function_source(&self, function: usize) -> Option<Source<'m>> {
        self.source(|map| map.functions[function].place)
    }

    pub fn struct_source(&self, structure: usize) -> Option<Source<'m>> {
        self.source(|map| map.structs[structure].place)
    }
}
