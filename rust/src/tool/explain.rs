//! A refusal in plain words: the rule, and the block, record or instruction at its place decoded.
//! The number and the place are the checker's; the words only follow them. Stops are in `stops.rs`.

use super::files::MODULE_MAX;
use super::json::Json;
use super::{counted, numbers};
use crate::checker;
use crate::file::{block_check, Record, BLOCK_BYTES, CHECK_AT};
use crate::host::Answer;
use crate::module::{decode, Instruction, Module, Term, KIND_CALL};
use crate::state::STATE_BYTES;
use crate::text::{file_records, Listing, Map, Names, Scope, Source};

/// What a number means that document 01 does not have.
const UNKNOWN: &str = "no number of document 01";

/// What a refusal's number means.
fn refusal_title(number: u64) -> &'static str {
    numbers::refusal(number).map_or(UNKNOWN, |number| number.meaning)
}

/// What a stop's number means.
pub fn stop_title(number: u64) -> &'static str {
    numbers::stop(number).map_or(UNKNOWN, |number| number.meaning)
}

/// Refusal 20 of a saved state.
pub fn state_length(state: &[u8]) -> String {
    if state.len() > STATE_BYTES {
        return format!("refused 20 0: it has over {STATE_BYTES} bytes, a state has {STATE_BYTES}");
    }
    format!("refused 20 0: it has {} bytes, a state has {STATE_BYTES}", state.len())
}

/// What a record's kind is called.
fn kind_title(kind: u8) -> &'static str {
    const TERMS: [&str; 10] = [
        "filler",
        "integer",
        "pointer",
        "array",
        "struct as a type",
        "struct",
        "fields",
        "function",
        "region types",
        "register types",
    ];
    const CODE: [&str; 20] = [
        "constant",
        "copy",
        "operation",
        "zero-extend or cut",
        "sign-extend or cut",
        "address of a pointer",
        "check",
        "field",
        "index",
        "load",
        "store",
        "new",
        "free",
        "byte of the form",
        "output",
        "jump",
        "branch",
        "call",
        "return",
        "arguments",
    ];
    let code = usize::from(kind).checked_sub(16).and_then(|index| CODE.get(index));
    TERMS.get(usize::from(kind)).or(code).unwrap_or(&"unknown")
}

/// The refusal of a file: what stands at its place, where the source has it, and what was asked.
pub struct Refused<'m> {
    number: u64,
    place: u64,
    here: Option<String>,
    source: Option<Source<'m>>,
    asked: Option<&'static str>,
}

impl<'m> Refused<'m> {
    /// The map is one that fits the file.
    pub fn new(file: &[u8], map: Option<&'m Map>, answer: Answer) -> Refused<'m> {
        let [_, number, place, _] = answer;
        let (here, source) = what_stands(file, map, number, place as usize);
        let refusal = checker::check(file).err();
        let same = |found: &crate::file::Refusal| {
            (u64::from(found.number), found.place as u64) == (number, place)
        };
        let asked = refusal.filter(same).map(|refusal| refusal.asked);
        Refused { number, place, here, source, asked }
    }

    /// In lines: number and place, what the number means, what stands at the place and what was asked.
    pub fn text(&self) -> String {
        let title = refusal_title(self.number);
        let mut text = format!("refused {} {}\n{title}\n", self.number, self.place);
        if let Some(source) = self.source {
            text += &format!("at:    {source}\n");
        }
        if let Some(here) = &self.here {
            text += &format!("here:  {here}\n");
        }
        if let Some(asked) = self.asked {
            text += &format!("asked: {asked}\n");
        }
        text
    }

    /// The place in the source with what stands there, if the map has it.
    pub fn place(&self) -> Option<String> {
        let here = self.here.as_ref().map_or(String::new(), |here| format!(": {here}"));
        self.source.map(|source| format!("{}{here}", source.line()))
    }

    pub fn json(&self) -> Json {
        let mut members = vec![
            ("answer", Json::text("refused")),
            ("number", Json::Number(self.number)),
            ("place", Json::Number(self.place)),
            ("meaning", Json::text(refusal_title(self.number))),
        ];
        members.extend(self.here.as_ref().map(|here| ("here", Json::text(here))));
        members.extend(self.asked.map(|asked| ("asked", Json::text(asked))));
        members.extend(self.source.map(|source| ("source", source_json(&source))));
        Json::Object(members)
    }
}

/// A place in the source as JSON.
pub fn source_json(source: &Source) -> Json {
    Json::Object(vec![
        ("file", Json::text(source.file)),
        ("line", Json::Number(source.place.line as u64)),
        ("column", Json::Number(source.place.column as u64)),
    ])
}

/// What stands at a refusal's place, and where the source has it.
fn what_stands<'m>(
    file: &[u8],
    map: Option<&'m Map>,
    number: u64,
    place: usize,
) -> (Option<String>, Option<Source<'m>>) {
    let here = match number {
        1 if file.len() > MODULE_MAX => Some(format!("the file has over {MODULE_MAX} bytes")),
        1 => Some(format!("the file has {} bytes", file.len())),
        2 | 3 => block_text(file, number, place),
        4 => {
            let records = file_records(file);
            let here = match records.get(place) {
                None => "the file ends".to_string(),
                Some(record) => format!("record {place}: {}", record_text(record)),
            };
            let source = map.and_then(|map| {
                map.place_of(&records, place).map(|place| Source { file: &map.source, place })
            });
            return (Some(here), source);
        }
        5..=8 => {
            let names = Names::of(map);
            let module = decode(file).ok();
            let found = module.and_then(|module| {
                let listing = Listing::new(&module, names);
                part_at(&listing, number, place)
            });
            return found.map_or((None, None), |(part, text)| {
                (Some(format!("record {place}{text}")), part.source(&names))
            });
        }
        _ => None,
    };
    (here, None)
}

/// What a record of a module is of.
enum Part {
    Term,
    Struct(usize),
    Function(usize),
    Instruction(usize, usize),
}

impl Part {
    fn source<'m>(&self, names: &Names<'m>) -> Option<Source<'m>> {
        match *self {
            Part::Term => None,
            Part::Struct(number) => names.struct_source(number),
            Part::Function(number) => names.function_source(number),
            Part::Instruction(function, at) => names.instruction_source(function, at),
        }
    }
}

/// The part of a module that a refusal is about, and its words behind the record's number.
fn part_at(listing: &Listing, number: u64, place: usize) -> Option<(Part, String)> {
    match number {
        5 => term_or_struct(listing, place),
        6 => {
            let mut functions = listing.module.functions.iter();
            let number = functions.position(|function| function.place == place)?;
            Some((Part::Function(number), format!(": {}", signature(listing, number))))
        }
        _ => instruction_at(listing, place),
    }
}

fn block_text(file: &[u8], number: u64, place: usize) -> Option<String> {
    let block = file.chunks_exact(BLOCK_BYTES).nth(place)?;
    let blocks = file.len() / BLOCK_BYTES;
    let word = |at: usize| u16::from_le_bytes([block[at], block[at + 1]]);
    if number == 2 {
        let (said, count) = (word(0), word(2));
        return Some(format!("block {place} of {blocks} says it is block {said} of {count}"));
    }
    let written = u32::from_le_bytes(block[CHECK_AT..].try_into().expect("four bytes"));
    let sum = block_check(block);
    Some(format!("block {place} has the check {written}; its bytes give {sum}"))
}

fn record_text(record: &Record) -> String {
    let kind = record.kind();
    let (a, b, c, d) = (record.a(), record.b(), record.c(), record.d());
    format!("kind {kind} ({}), a {a}, b {b}, c {c}, d {d}", kind_title(kind))
}

fn term_or_struct(listing: &Listing, place: usize) -> Option<(Part, String)> {
    let module = listing.module;
    if place < module.terms.len() {
        let text = listing.type_text(place as u8, Scope::Table);
        let (part, of) = match &module.terms[place] {
            Term::Name { name, .. } => {
                let number = usize::from(*name);
                (Part::Struct(number), format!("; {}", struct_text(listing, number)))
            }
            _ => (Part::Term, String::new()),
        };
        return Some((part, format!(": type {place}, {text}{of}")));
    }
    let number = module.names.iter().position(|name| name.place == place)?;
    Some((Part::Struct(number), format!(": {}", struct_text(listing, number))))
}

fn struct_text(listing: &Listing, number: usize) -> String {
    let structure = &listing.module.names[number];
    let scope = Scope::Struct(number);
    let fields = structure.fields.iter().map(|&field| listing.type_text(field, scope));
    let fields = fields.collect::<Vec<_>>().join(", ");
    let regions = counted(structure.regions as u64, "region");
    let name = listing.names.structure(number as u8);
    format!("struct {name} with {regions} has the fields {fields}")
}

/// Regions of a function with the types of their objects, of which the first so many.
fn regions_text(listing: &Listing, number: usize, count: usize) -> String {
    let scope = Scope::Function(number);
    let terms = &listing.module.functions[number].region_types[..count];
    let texts = (0..).zip(terms).map(|(region, &term)| {
        format!("{}: {}", listing.region_text(region, scope), listing.type_text(term, scope))
    });
    texts.collect::<Vec<_>>().join(", ")
}

/// Registers of a function with their types, of which the first so many.
fn registers_text(listing: &Listing, number: usize, count: usize) -> String {
    let scope = Scope::Function(number);
    let terms = &listing.module.functions[number].register_types[..count];
    let texts = (0..).zip(terms).map(|(register, &term)| {
        let name = listing.names.register(number, register);
        format!("{name}: {}", listing.type_text(term, scope))
    });
    texts.collect::<Vec<_>>().join(", ")
}

fn result_text(listing: &Listing, number: usize) -> String {
    listing.type_text(listing.module.functions[number].return_term, Scope::Function(number))
}

/// A function's regions, registers and result.
fn signature(listing: &Listing, number: usize) -> String {
    let function = &listing.module.functions[number];
    let mut text = format!("function {}", listing.names.function(number));
    if !function.region_types.is_empty() {
        let parameters = function.region_parameters;
        let regions = regions_text(listing, number, function.region_types.len());
        text += &format!(", regions {regions} ({parameters} of them parameters)");
    }
    let registers = registers_text(listing, number, function.register_types.len());
    text += &format!(", registers {registers} ({} of them parameters)", function.parameters);
    text + &format!(", result {}", result_text(listing, number))
}

/// What a function asks of its callers, in its own regions.
fn head(listing: &Listing, number: usize) -> String {
    let function = &listing.module.functions[number];
    let regions = match regions_text(listing, number, function.region_parameters) {
        none if none.is_empty() => none,
        some => format!("[{some}]"),
    };
    let parameters = registers_text(listing, number, function.parameters);
    let (name, result) = (listing.names.function(number), result_text(listing, number));
    format!("the callee is {name}{regions}({parameters}) -> {result}")
}

fn instruction_at(listing: &Listing, place: usize) -> Option<(Part, String)> {
    for (number, function) in listing.module.functions.iter().enumerate() {
        if let Some(at) = function.code.iter().position(|one| one.place == place) {
            let instruction = &function.code[at];
            let text = listing.instruction_text(number, instruction);
            let types = operand_types(listing, number, instruction);
            let (name, kind) = (listing.names.function(number), kind_title(instruction.kind));
            let text = format!(", instruction {at} of {name} ({kind}): {text}{types}");
            return Some((Part::Instruction(number, at), text));
        }
    }
    None
}

/// The types of an instruction's registers, of the regions they point into, and of its callee.
fn operand_types(listing: &Listing, number: usize, instruction: &Instruction) -> String {
    let module: &Module = listing.module;
    let (function, scope) = (&module.functions[number], Scope::Function(number));
    let mut registers = instruction.registers();
    if instruction.kind == KIND_CALL {
        let callee = &module.functions[usize::from(instruction.b)];
        registers.extend_from_slice(&instruction.arguments[..callee.parameters]);
    }
    registers.sort_unstable();
    registers.dedup();
    let mut parts = Vec::new();
    let mut regions = Vec::new();
    for register in registers {
        let term = function.register_types[usize::from(register)];
        let name = listing.names.register(number, register);
        parts.push(format!("{name} is {}", listing.type_text(term, scope)));
        if let Term::Pointer { region, .. } = module.terms[usize::from(term)] {
            regions.push(region);
        }
    }
    regions.sort_unstable();
    regions.dedup();
    let holds = |region: u8, term: u8| {
        let (name, written) = (listing.region_text(region, scope), listing.type_text(term, scope));
        format!("region {name} holds {written}")
    };
    for region in regions {
        if let (22 | 27 | 28, Some(&term)) =
            (instruction.kind, function.region_types.get(usize::from(region)))
        {
            parts.push(holds(region, term));
        }
    }
    if instruction.kind == KIND_CALL {
        let given = instruction.d.to_le_bytes();
        let callee = usize::from(instruction.b);
        for &region in &given[..module.functions[callee].region_parameters] {
            parts.push(holds(region, function.region_types[usize::from(region)]));
        }
        parts.push(head(listing, callee));
    }
    if instruction.kind == 34 {
        parts.push(format!("the function's result is {}", result_text(listing, number)));
    }
    if parts.is_empty() {
        return String::new();
    }
    format!("; {}", parts.join("; "))
}
