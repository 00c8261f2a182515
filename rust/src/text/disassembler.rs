//! Writes a module as a text that gives the same file again. Types are written where they are
//! used if that gives the same term table, else with a `type` line for each term; a file that is
//! no module is written record by record.

use super::assembler::assemble;
use super::names::{Names, Scope};
use super::syntax::{CONVERSIONS, OPERATIONS};
use crate::builder::{self, repair_checks};
use crate::file::{Record, BLOCK_BYTES, CHECK_AT, RECORDS_AT, RECORDS_PER_BLOCK, RECORD_BYTES};
use crate::module::{
    decode, Instruction, Module, Term, KIND_ARGUMENTS, KIND_CALL, KIND_FIELDS, KIND_REGISTER_TYPES,
};
use crate::types::{primitive_count, sizes, Sizes, MAX_SIZE};

/// A text that `assemble` turns into this file.
pub fn disassemble(file: &[u8]) -> String {
    let texts = decode(file).ok().map(|module| {
        [true, false].map(|inline| {
            let listing = Listing { inline, ..Listing::new(&module, Names::numbered()) };
            listing.text() + &file_lines(file)
        })
    });
    let found = texts.into_iter().flatten().find(|text| assemble(text).as_deref() == Ok(file));
    found.unwrap_or_else(|| raw_text(file))
}

/// The parts of a module as text, in these names.
pub struct Listing<'m> {
    pub module: &'m Module,
    pub names: Names<'m>,
    pub sizes: Sizes,
    /// Types are written in full; else by the names t0, t1, ...
    inline: bool,
}

fn comma(words: impl Iterator<Item = String>) -> String {
    words.collect::<Vec<String>>().join(", ")
}

/// A list in brackets, if there is something in it.
fn bracketed(open: &str, list: String, close: &str) -> String {
    if list.is_empty() {
        return list;
    }
    format!("{open}{list}{close}")
}

impl<'m> Listing<'m> {
    /// Types are written in full.
    pub fn new(module: &'m Module, names: Names<'m>) -> Listing<'m> {
        Listing { module, names, sizes: sizes(module), inline: true }
    }

    fn text(&self) -> String {
        let mut text = String::new();
        if !self.inline {
            for term in 0..self.module.terms.len() as u8 {
                text += &format!("type t{term} = {}\n", self.form_text(term, Scope::Table));
            }
        }
        for number in 0..self.module.names.len() {
            text += &self.struct_text(number);
        }
        for number in 0..self.module.functions.len() {
            text += &self.function_text(number);
        }
        text.trim_start().to_string()
    }

    fn struct_text(&self, number: usize) -> String {
        let structure = &self.module.names[number];
        let (scope, name) = (Scope::Struct(number), number as u8);
        let regions = comma((0..structure.regions as u8).map(|one| self.region_text(one, scope)));
        let regions = bracketed("(", regions, ")");
        let mut text = format!("\nstruct {}{regions} {{\n", self.names.structure(name));
        for (index, &field) in structure.fields.iter().enumerate() {
            let written = self.type_text(field, scope);
            text += &format!("    {}: {written}\n", self.names.field(name, index));
        }
        text + "}\n"
    }

    /// A region variable that is in scope by its name, others as numbers.
    pub fn region_text(&self, region: u8, scope: Scope) -> String {
        let in_scope = match scope {
            Scope::Function(number) => self.module.functions[number].region_types.len(),
            Scope::Struct(number) => self.module.names[number].regions,
            Scope::Table => 0,
        };
        if usize::from(region) < in_scope {
            return self.names.region(scope, region);
        }
        region.to_string()
    }

    pub fn type_text(&self, term: u8, scope: Scope) -> String {
        if !self.inline {
            return format!("t{term}");
        }
        self.form_text(term, scope)
    }

    fn form_text(&self, term: u8, scope: Scope) -> String {
        match &self.module.terms[usize::from(term)] {
            Term::Integer { width } => format!("i{}", 8 * u32::from(*width)),
            Term::Pointer { target, region } => {
                let target = self.type_text(*target, scope);
                format!("*{target} in {}", self.region_text(*region, scope))
            }
            Term::Array { element, count } => {
                format!("[{}; {count}]", self.type_text(*element, scope))
            }
            Term::Name { name, arguments } => {
                let regions = arguments.iter().map(|&region| self.region_text(region, scope));
                self.names.structure(*name) + &bracketed("(", comma(regions), ")")
            }
        }
    }

    fn function_text(&self, number: usize) -> String {
        let function = &self.module.functions[number];
        let scope = Scope::Function(number);
        let locals = function.region_types.len();
        let region = |index: usize| {
            let written = self.type_text(function.region_types[index], scope);
            format!("{}: {written}", self.names.region(scope, index as u8))
        };
        let register = |index: usize| self.names.register(number, index as u8);
        let parameter = |index: usize| {
            let written = self.type_text(function.register_types[index], scope);
            format!("{}: {written}", register(index))
        };
        let regions = bracketed("[", comma((0..function.region_parameters).map(region)), "]");
        let parameters = comma((0..function.parameters).map(parameter));
        let result = self.type_text(function.return_term, scope);
        let name = self.names.function(number);
        let mut text = format!("\nfn {name}{regions}({parameters}) -> {result} {{\n");
        for index in function.region_parameters..locals {
            text += &format!("    region {}\n", region(index));
        }
        let mut from = function.parameters;
        while let Some(&term) = function.register_types.get(from) {
            let alike = function.register_types[from..].iter().take_while(|&&next| next == term);
            let end = from + alike.count();
            let names = comma((from..end).map(register));
            text += &format!("    reg {names}: {}\n", self.type_text(term, scope));
            from = end;
        }
        text += "\n";
        let is_target = |at: usize| {
            let mut branches = function.code.iter().filter(|one| matches!(one.kind, 31 | 32));
            branches.any(|branch| branch.d as usize == at)
        };
        for (at, instruction) in function.code.iter().enumerate() {
            if is_target(at) {
                text += &format!("{}:\n", self.names.label(number, at as u32));
            }
            text += &format!("    {}\n", self.instruction_text(number, instruction));
        }
        text + "}\n"
    }

    /// An instruction of a function, its operands in range.
    pub fn instruction_text(&self, function: usize, instruction: &Instruction) -> String {
        let Instruction { kind, a, b, c, d, .. } = *instruction;
        if kind == KIND_CALL {
            return self.call_text(function, instruction);
        }
        // Operands that a kind does not use are zero, and every function has a register 0.
        let [a, b, c] = [a, b, c].map(|register| self.names.register(function, register));
        match kind {
            16 => format!("{a} = {d}"),
            17 => format!("{a} = {b}"),
            18 => format!("{a} = {b} {} {c}", OPERATIONS[d as usize]),
            23 => match self.path_text(function, instruction) {
                Some(path) => format!("{a} = {b}{path}"),
                None => format!("{a} = field {b} {d}"),
            },
            24 => format!("{a} = {b}[{c}]"),
            25 => format!("{a} = *{b}"),
            26 => format!("*{a} = {b}"),
            27 => format!("{a} = new"),
            28 => format!("free {a}"),
            29 => format!("{a} = form[{c}]"),
            30 => format!("output {b}"),
            31 => format!("goto {}", self.names.label(function, d)),
            32 => format!("if {a} goto {}", self.names.label(function, d)),
            34 => format!("return {a}"),
            _ => {
                let word = CONVERSIONS.iter().find(|(_, conversion)| *conversion == kind);
                let word = word.map_or("?", |(word, _)| word);
                format!("{a} = {word} {b}")
            }
        }
    }

    fn call_text(&self, function: usize, call: &Instruction) -> String {
        let callee = &self.module.functions[usize::from(call.b)];
        let scope = Scope::Function(function);
        let regions = &call.d.to_le_bytes()[..callee.region_parameters];
        let regions = comma(regions.iter().map(|&region| self.region_text(region, scope)));
        let register = |&register: &u8| self.names.register(function, register);
        let arguments = comma(call.arguments[..callee.parameters].iter().map(register));
        let (result, name) = (register(&call.a), self.names.function(usize::from(call.b)));
        format!("{result} = {name}{}({arguments})", bracketed("[", regions, "]"))
    }

    /// The target's term of a pointer register.
    pub fn target(&self, function: usize, register: u8) -> Option<u8> {
        let term = self.module.functions[function].register_types[usize::from(register)];
        match self.module.terms[usize::from(term)] {
            Term::Pointer { target, .. } => Some(target),
            _ => None,
        }
    }

    /// The path of a field instruction.
    fn path_text(&self, function: usize, field: &Instruction) -> Option<String> {
        let whole = self.target(function, field.b)?;
        self.path(whole, field.d, self.target(function, field.a))
    }

    /// The path from a term to a position in it: of those that lead there the one to a term like the
    /// wanted one, else the shortest. None where there is none, or where it is the whole.
    pub fn path(&self, whole: u8, position: u32, wanted: Option<u8>) -> Option<String> {
        if self.sizes.terms[usize::from(whole)] > MAX_SIZE {
            return None;
        }
        let fits = |term: u8| wanted.is_some_and(|wanted| self.alike(term, wanted));
        if position == 0 && fits(whole) {
            return None;
        }
        let mut shortest = None;
        let (mut term, mut left, mut path) = (whole, position, String::new());
        loop {
            let (part, inner, before) = self.part_at(term, left)?;
            path += &part;
            (term, left) = (inner, left - before);
            if left == 0 && fits(term) {
                return Some(path);
            }
            if left == 0 && shortest.is_none() {
                shortest = Some(path.clone());
            }
            if matches!(
                self.module.terms[usize::from(term)],
                Term::Integer { .. } | Term::Pointer { .. }
            ) {
                return shortest;
            }
        }
    }

    /// The field or element that a position lies in, with its term and the primitives before it.
    fn part_at(&self, term: u8, position: u32) -> Option<(String, u8, u32)> {
        match &self.module.terms[usize::from(term)] {
            Term::Array { element, count } => {
                let each = primitive_count(self.module, *element);
                let index = position / each;
                (index < *count).then(|| (format!("[{index}]"), *element, index * each))
            }
            Term::Name { name, .. } => {
                let mut before = 0;
                for (index, &field) in
                    self.module.names[usize::from(*name)].fields.iter().enumerate()
                {
                    let count = primitive_count(self.module, field);
                    if position < before + count {
                        let part = format!(".{}", self.names.field(*name, index));
                        return Some((part, field, before));
                    }
                    before += count;
                }
                None
            }
            Term::Integer { .. } | Term::Pointer { .. } => None,
        }
    }

    /// Equal but for regions.
    fn alike(&self, left: u8, right: u8) -> bool {
        let terms = &self.module.terms;
        match (&terms[usize::from(left)], &terms[usize::from(right)]) {
            (Term::Integer { width }, Term::Integer { width: other }) => width == other,
            (Term::Pointer { target, .. }, Term::Pointer { target: other, .. }) => {
                self.alike(*target, *other)
            }
            (
                Term::Array { element, count },
                Term::Array { element: other, count: other_count },
            ) => count == other_count && self.alike(*element, *other),
            (Term::Name { name, .. }, Term::Name { name: other, .. }) => name == other,
            _ => false,
        }
    }
}

/// The records of the whole blocks of a file, whatever their headers say.
pub fn file_records(file: &[u8]) -> Vec<Record> {
    let blocks = file.chunks_exact(BLOCK_BYTES);
    let bytes = blocks.flat_map(|block| block[RECORDS_AT..CHECK_AT].chunks_exact(RECORD_BYTES));
    bytes.map(|bytes| Record(bytes.try_into().expect("eight bytes"))).collect()
}

/// The file as far as a text's records say it: whole blocks, filled with zeros.
fn in_blocks(file: &[u8]) -> Vec<u8> {
    let blocks = file.len().div_ceil(BLOCK_BYTES).max(1);
    let mut whole = file.to_vec();
    whole.resize(blocks * BLOCK_BYTES, 0);
    whole
}

fn without_filler(mut records: Vec<Record>) -> Vec<Record> {
    while records.last().is_some_and(|record| record.0 == [0; RECORD_BYTES]) {
        records.pop();
    }
    records
}

/// What the file has beyond the records: further blocks, wrong headers, checks and length.
fn file_lines(file: &[u8]) -> String {
    let whole = in_blocks(file);
    let all = file_records(&whole);
    let blocks = whole.len() / BLOCK_BYTES;
    let needed = without_filler(all.clone()).len().div_ceil(RECORDS_PER_BLOCK).max(1);
    let mut text = String::new();
    if blocks > needed {
        text += &format!("file blocks = {blocks}\n");
    }
    let mut made = builder::file(&all);
    for at in 0..made.len() {
        if at % BLOCK_BYTES < RECORDS_AT && made[at] != whole[at] {
            text += &format!("file byte {at} = {}\n", whole[at]);
            made[at] = whole[at];
        }
    }
    repair_checks(&mut made);
    for block in 0..blocks {
        let check = block * BLOCK_BYTES + CHECK_AT;
        let written = &whole[check..check + 4];
        if made[check..check + 4] != *written && check < file.len() {
            let value = u32::from_le_bytes(written.try_into().expect("four bytes"));
            text += &format!("file check {block} = {value}\n");
        }
    }
    if file.len() != whole.len() {
        text += &format!("file length = {}\n", file.len());
    }
    if text.is_empty() {
        return text;
    }
    format!("\n{text}")
}

fn raw_text(file: &[u8]) -> String {
    let mut text = String::new();
    for record in without_filler(file_records(&in_blocks(file))) {
        let list = matches!(record.kind(), KIND_FIELDS..=KIND_REGISTER_TYPES | KIND_ARGUMENTS);
        let (kind, a, b, c, d) = (record.kind(), record.a(), record.b(), record.c(), record.d());
        text += &match list {
            true => format!("raw {}\n", record.0.map(|byte| byte.to_string()).join(" ")),
            false => format!("raw {kind} {a} {b} {c} {d}\n"),
        };
    }
    (text + &file_lines(file)).trim_start().to_string()
}
