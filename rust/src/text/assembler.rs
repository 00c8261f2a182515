//! Turns a parsed text into a module file. Types are put into the term table in the order of the
//! text: a `type` line always adds a term, a type written elsewhere uses an equal one that is
//! there. Code comes last, when all structs and signatures are known.

use super::code::{Code, Coder};
use super::diagnosis::diagnose;
use super::error::{in_order, Error};
use super::hints;
use super::lexer::Span;
use super::map::{FunctionNames, Map, StructNames};
use super::parser::parse;
use super::syntax::{FileLine, Function, Item, Name, Reference, Struct, Type, TypeForm, Typed};
use crate::builder::{self, repair_checks, FunctionBuilder, ModuleBuilder};
use crate::digest::sha256;
use crate::file::{Record, BLOCK_BYTES, CHECK_AT, RECORDS_PER_BLOCK, RECORD_BYTES};
use crate::module::{
    self, decode, Instruction, Module, Term, KIND_ARGUMENTS, KIND_CALL, MAX_ARRAY, MAX_FUNCTIONS,
    MAX_LIST, MAX_NAMES, MAX_REGIONS, MAX_REGION_PARAMETERS, MAX_TERMS,
};
use std::collections::{HashMap, HashSet};

/// What a text gives: the module file, the names and places of its parts, and what is allowed but
/// seldom meant.
pub struct Assembled {
    pub file: Vec<u8>,
    pub map: Map,
    pub warnings: Vec<Error>,
}

/// The module file that a text describes, whatever the checker will say of it, or the first error.
pub fn assemble(text: &str) -> Result<Vec<u8>, Error> {
    let (items, errors) = parse(text);
    Draft::new(&items, errors).file().map_err(|mut errors| errors.remove(0))
}

/// The same with its map and all errors.
pub fn assemble_unchecked(text: &str, source: &str) -> Result<Assembled, Vec<Error>> {
    let (items, errors) = parse(text);
    let draft = Draft::new(&items, errors);
    let file = draft.file()?;
    Ok(Assembled { map: draft.map(source, &file), file, warnings: Vec::new() })
}

/// The same if the text also keeps the checker's rules for types and code; else all errors, those
/// of the rules among them.
pub fn assemble_all(text: &str, source: &str) -> Result<Assembled, Vec<Error>> {
    let (items, errors) = parse(text);
    let draft = Draft::new(&items, errors);
    let found = diagnose(&draft);
    match draft.file() {
        Ok(file) if found.refusals.is_empty() => {
            Ok(Assembled { map: draft.map(source, &file), file, warnings: found.warnings })
        }
        made => {
            let mut errors = made.err().unwrap_or_default();
            errors.extend(found.refusals);
            Err(in_order(errors))
        }
    }
}

/// Why something has no number: an error, or only one that is said already.
pub enum Fault {
    New(Error),
    Known,
}

impl From<Error> for Fault {
    fn from(error: Error) -> Fault {
        Fault::New(error)
    }
}

/// A result, whose error is put to the others.
pub fn keep<T>(result: Result<T, impl Into<Fault>>, errors: &mut Vec<Error>) -> Option<T> {
    match result.map_err(Into::into) {
        Ok(known) => Some(known),
        Err(Fault::New(error)) => {
            errors.push(error);
            None
        }
        Err(Fault::Known) => None,
    }
}

/// The terms of a function's regions, registers and result.
pub struct Signature {
    pub regions: Vec<u8>,
    pub registers: Vec<u8>,
    pub return_term: u8,
    pub region_parameters: usize,
    pub parameters: usize,
    /// The registers and regions whose type is not known.
    pub unknown: HashSet<u8>,
    pub unknown_regions: HashSet<u8>,
    pub unknown_result: bool,
    /// The types that a call looks at are known, and not too many.
    pub callable: bool,
}

/// What is known of the names of a text.
pub struct Assembler<'t> {
    /// Terms and names; functions are built apart.
    pub module: Module,
    /// Where each term is written first.
    term_spans: Vec<Span>,
    types: HashMap<&'t str, u8>,
    structs: HashMap<&'t str, u8>,
    /// The names of each struct's fields.
    pub fields: Vec<Vec<&'t str>>,
    pub functions: HashMap<&'t str, u8>,
    pub signatures: Vec<Signature>,
    /// Types, structs and functions of which only the name could be read.
    unknown: HashSet<&'t str>,
    /// Structs whose fields are not known; something stands in for them.
    broken: HashSet<u8>,
    /// There are too many types, which is said already.
    full: bool,
    /// A file can hold as many types, structs, functions and lists as there are.
    pub within_limits: bool,
    errors: Vec<Error>,
}

/// What stands in for types that are not known.
const WORD: Term = Term::Integer { width: 4 };

/// So many functions are asked for the checker's rules where a text has more than a module can have:
/// their numbers, and one for a function that stands in, are those of records.
const MOST_ASKED: usize = u8::MAX as usize - 1;

fn at_most(limit: usize, count: usize, what: &str, span: Span) -> Result<(), Error> {
    if count > limit {
        return Error::at(span, format!("expected at most {limit} {what}, found {count}"));
    }
    Ok(())
}

pub fn names_of(typed: &[Typed]) -> impl Iterator<Item = &Name> {
    typed.iter().map(|one| &one.name)
}

fn functions(items: &[Item]) -> impl Iterator<Item = &Function> {
    items.iter().filter_map(|item| match item {
        Item::Function(function) => Some(function),
        _ => None,
    })
}

pub fn structs(items: &[Item]) -> impl Iterator<Item = &Struct> {
    items.iter().filter_map(|item| match item {
        Item::Struct(structure) => Some(structure),
        _ => None,
    })
}

impl<'t> Assembler<'t> {
    /// The types and signatures of a text. Structs and functions have their numbers before any type
    /// is read; `added` has the widths of the registers that the code of each function adds.
    fn new(items: &'t [Item], added: &[Vec<u8>]) -> Assembler<'t> {
        let unknown = items.iter().filter_map(|item| match item {
            Item::Unknown(name) | Item::UnknownFunction(name) => Some(name.text.as_str()),
            _ => None,
        });
        let unknown: HashSet<&str> = unknown.collect();
        let fields = structs(items).map(|one| names_of(&one.fields));
        let mut assembler = Assembler {
            module: Module { terms: Vec::new(), names: Vec::new(), functions: Vec::new() },
            term_spans: Vec::new(),
            types: HashMap::new(),
            structs: HashMap::new(),
            fields: fields.map(|names| names.map(|name| &name.text[..]).collect()).collect(),
            functions: HashMap::new(),
            signatures: Vec::new(),
            broken: HashSet::new(),
            full: false,
            within_limits: true,
            unknown,
            errors: Vec::new(),
        };
        assembler.structs = assembler.numbered(structs(items).map(|one| &one.name), "struct");
        assembler.functions = assembler.numbered(functions(items).map(|one| &one.name), "function");
        let wide = structs(items).enumerate();
        let wide = wide.filter(|(_, one)| one.regions.len() > MAX_REGION_PARAMETERS);
        assembler.broken = wide.map(|(number, _)| small(number)).collect();
        if let Some(over) = structs(items).nth(MAX_NAMES) {
            let count = structs(items).count();
            assembler.limit(at_most(MAX_NAMES, count, "structs", over.name.span));
        }
        if let Some(over) = functions(items).nth(MAX_FUNCTIONS) {
            let count = functions(items).count();
            assembler.limit(at_most(MAX_FUNCTIONS, count, "functions", over.name.span));
        }
        for item in items {
            match item {
                Item::Type { name, written } => assembler.declare_type(name, written),
                Item::Struct(structure) => assembler.declare_struct(structure),
                Item::Function(function) => {
                    let added = added.get(assembler.signatures.len());
                    assembler.declare_function(function, added.map_or(&[], Vec::as_slice));
                }
                _ => (),
            }
        }
        assembler.spread();
        assembler
    }

    /// A limit of the format is kept.
    fn limit(&mut self, result: Result<(), Error>) -> bool {
        let kept = self.take(result).is_some();
        self.within_limits &= kept;
        kept
    }

    /// What rests on a struct whose fields are not known has no known type either: structs that hold
    /// it, and registers, regions and results whose type names it.
    fn spread(&mut self) {
        let names = &self.module.names;
        let holds = |broken: &HashSet<u8>, number: u8| {
            let fields = &names[usize::from(number)].fields;
            fields.iter().any(|&field| self.rests(broken, field, false))
        };
        let mut broken = self.broken.clone();
        while let Some(number) = (0..names.len() as u8)
            .find(|&number| !broken.contains(&number) && holds(&broken, number))
        {
            broken.insert(number);
        }
        let mut signatures = std::mem::take(&mut self.signatures);
        for signature in &mut signatures {
            let rests = |terms: &[u8]| -> Vec<u8> {
                let terms = terms.iter().enumerate();
                let resting = terms.filter(|(_, &term)| self.rests(&broken, term, true));
                resting.map(|(number, _)| small(number)).collect()
            };
            let (registers, regions) = (rests(&signature.registers), rests(&signature.regions));
            let result = self.rests(&broken, signature.return_term, true);
            let outer =
                regions.iter().any(|&region| (region as usize) < signature.region_parameters)
                    || registers.iter().any(|&register| (register as usize) < signature.parameters);
            signature.callable &= !outer && !result;
            signature.unknown.extend(registers);
            signature.unknown_regions.extend(regions);
            signature.unknown_result |= result;
        }
        self.signatures = signatures;
        self.broken = broken;
    }

    /// A type holds one of these structs, or also only points to it.
    fn rests(&self, broken: &HashSet<u8>, term: u8, points: bool) -> bool {
        match &self.module.terms[usize::from(term)] {
            Term::Integer { .. } => false,
            Term::Pointer { target, .. } => points && self.rests(broken, *target, points),
            Term::Array { element, .. } => self.rests(broken, *element, points),
            Term::Name { name, .. } => broken.contains(name),
        }
    }

    fn take<T>(&mut self, result: Result<T, impl Into<Fault>>) -> Option<T> {
        keep(result, &mut self.errors)
    }

    /// Names with their numbers. A name that is there already is an error and keeps its number.
    pub fn numbered(
        &mut self,
        names: impl IntoIterator<Item = &'t Name>,
        what: &str,
    ) -> HashMap<&'t str, u8> {
        let mut numbers = HashMap::new();
        for (number, name) in names.into_iter().enumerate() {
            if numbers.contains_key(name.text.as_str()) {
                let message =
                    format!("expected a new name: there is a {what} `{}` already", name.text);
                self.errors.push(Error::new(name.span, message));
            } else {
                numbers.insert(name.text.as_str(), small(number));
            }
        }
        numbers
    }

    fn declare_type(&mut self, name: &'t Name, written: &Type) {
        let term = self.form(written, &HashMap::new());
        let number = term.and_then(|term| self.push(term, written.span));
        let Some(number) = self.take(number) else {
            self.unknown.insert(&name.text);
            return;
        };
        let place = if self.structs.contains_key(name.text.as_str()) {
            format!("`{}` is a struct", name.text)
        } else if self.types.contains_key(name.text.as_str()) {
            format!("there is a type `{}` already", name.text)
        } else {
            self.types.insert(&name.text, number);
            return;
        };
        self.errors.push(Error::new(name.span, format!("expected a new name: {place}")));
    }

    fn declare_struct(&mut self, structure: &'t Struct) {
        let number = self.module.names.len();
        if number == MAX_NAMES {
            return;
        }
        let span = structure.name.span;
        let regions = structure.regions.len();
        let mut known =
            self.limit(at_most(MAX_REGION_PARAMETERS, regions, "regions of a struct", span));
        known &= self.limit(at_most(MAX_LIST, structure.fields.len(), "fields", span));
        if structure.fields.is_empty() {
            known &= self.limit(Error::at(span, "expected at least one field"));
        }
        let numbers = self.numbered(&structure.regions, "region");
        self.numbered(names_of(&structure.fields), "field");
        let fields = self.terms(&structure.fields, &numbers);
        let fields = match fields.into_iter().collect::<Option<Vec<u8>>>() {
            Some(fields) if known => fields,
            _ => {
                self.broken.insert(small(number));
                vec![self.any(span)]
            }
        };
        let regions = regions.min(MAX_REGION_PARAMETERS);
        self.module.names.push(module::Name { place: 0, regions, fields });
    }

    fn declare_function(&mut self, function: &'t Function, added: &[u8]) {
        let span = function.name.span;
        self.limit(at_most(MAX_REGIONS, function.regions.len(), "regions", span));
        let outer =
            at_most(MAX_REGION_PARAMETERS, function.region_parameters, "region parameters", span);
        let mut callable = self.limit(outer);
        callable &= self.limit(at_most(MAX_LIST, function.parameters, "parameters", span));
        let regions = self.numbered(names_of(&function.regions), "region");
        let (outer, local) = function.regions.split_at(function.region_parameters);
        let (parameters, own) = function.registers.split_at(function.parameters);
        let mut region_terms = self.terms(outer, &regions);
        let mut registers = self.terms(parameters, &regions);
        let result = self.term(&function.return_type, &regions);
        let return_term = self.take(result);
        let known = region_terms.iter().chain(&registers).all(Option::is_some);
        region_terms.extend(self.terms(local, &regions));
        registers.extend(self.terms(own, &regions));
        for &width in added {
            let term = self.integer(width, span);
            registers.push(self.take(term));
        }
        let signature = Signature {
            unknown: missing(&registers),
            unknown_regions: missing(&region_terms),
            unknown_result: return_term.is_none(),
            callable: callable && known && return_term.is_some(),
            regions: self.stand_in(region_terms, span),
            registers: self.stand_in(registers, span),
            return_term: self.stand_in(vec![return_term], span)[0],
            region_parameters: function.region_parameters,
            parameters: function.parameters,
        };
        self.signatures.push(signature);
    }

    fn terms(&mut self, typed: &[Typed], regions: &HashMap<&str, u8>) -> Vec<Option<u8>> {
        let terms = typed.iter().map(|one| {
            let term = self.term(&one.written, regions);
            self.take(term)
        });
        terms.collect()
    }

    /// Terms with a known one in the place of each that is not; what has it is left out later.
    fn stand_in(&mut self, terms: Vec<Option<u8>>, span: Span) -> Vec<u8> {
        if terms.iter().all(Option::is_some) {
            return terms.into_iter().flatten().collect();
        }
        let any = self.any(span);
        terms.into_iter().map(|term| term.unwrap_or(any)).collect()
    }

    /// The type that stands in for one that is not known, also where there are too many types.
    fn any(&mut self, span: Span) -> u8 {
        self.word().unwrap_or_else(|| {
            self.module.terms.push(WORD);
            self.term_spans.push(span);
            small(self.module.terms.len() - 1)
        })
    }

    /// The number of i32, if it is a type of the text.
    fn word(&self) -> Option<u8> {
        self.module.terms.iter().position(|known| *known == WORD).map(small)
    }

    /// The number of a written type: that of a named type, of an equal term, or a new one.
    fn term(&mut self, written: &Type, regions: &HashMap<&str, u8>) -> Result<u8, Fault> {
        if let TypeForm::Named(name, arguments) = &written.form {
            if let (Some(number), true) = (self.types.get(name.as_str()), arguments.is_empty()) {
                return Ok(*number);
            }
        }
        let term = self.form(written, regions)?;
        self.equal_or_new(term, written.span)
    }

    fn equal_or_new(&mut self, term: Term, span: Span) -> Result<u8, Fault> {
        match self.module.terms.iter().position(|known| *known == term) {
            Some(number) => Ok(number as u8),
            None => self.push(term, span),
        }
    }

    fn integer(&mut self, width: u8, span: Span) -> Result<u8, Fault> {
        self.equal_or_new(Term::Integer { width }, span)
    }

    /// A new term. That there are too many is said once.
    fn push(&mut self, term: Term, span: Span) -> Result<u8, Fault> {
        let number = self.module.terms.len();
        if number >= MAX_TERMS && self.full {
            return Err(Fault::Known);
        }
        self.full = number >= MAX_TERMS;
        at_most(MAX_TERMS, number + 1, "types in a module", span)?;
        self.module.terms.push(term);
        self.term_spans.push(span);
        Ok(small(number))
    }

    fn form(&mut self, written: &Type, regions: &HashMap<&str, u8>) -> Result<Term, Fault> {
        Ok(match &written.form {
            TypeForm::Integer(width) => Term::Integer { width: *width },
            TypeForm::Pointer(target, region) => {
                let target = self.term(target, regions)?;
                Term::Pointer { target, region: region_number(region, regions)? }
            }
            TypeForm::Array(element, count) => {
                if !(1..=MAX_ARRAY).contains(count) {
                    let message = format!("expected a count from 1 to {MAX_ARRAY}, found {count}");
                    return Err(Error::new(written.span, message).into());
                }
                Term::Array { element: self.term(element, regions)?, count: *count }
            }
            TypeForm::Named(name, arguments) => {
                let number = self.struct_number(name, written.span)?;
                let span = written.span;
                if arguments.len() > MAX_REGION_PARAMETERS && self.broken.contains(&number) {
                    return Err(Fault::Known);
                }
                at_most(MAX_REGION_PARAMETERS, arguments.len(), "regions of a struct", span)?;
                let arguments = arguments.iter().map(|region| region_number(region, regions));
                Term::Name { name: number, arguments: arguments.collect::<Result<_, _>>()? }
            }
            TypeForm::Unknown => return Err(Fault::Known),
        })
    }

    fn struct_number(&self, name: &str, span: Span) -> Result<u8, Fault> {
        match self.structs.get(name) {
            Some(number) if usize::from(*number) < MAX_NAMES => Ok(*number),
            Some(_) => Err(Fault::Known),
            None if self.unknown.contains(name) => Err(Fault::Known),
            None => {
                let message = format!("expected a type: `{name}` is no struct or type so far");
                Err(Error::new(span, message).hinting(hints::of_type(name)).into())
            }
        }
    }

    /// The number of a function that is called.
    pub fn function_number(&self, name: &Name) -> Result<u8, Fault> {
        if self.unknown.contains(name.text.as_str()) {
            return Err(Fault::Known);
        }
        match number_of(&self.functions, name, "a function")? {
            number if usize::from(number) < MOST_ASKED => Ok(number),
            _ => Err(Fault::Known),
        }
    }
}

/// The number of a name that is defined.
pub fn number_of(names: &HashMap<&str, u8>, name: &Name, what: &str) -> Result<u8, Error> {
    match names.get(name.text.as_str()) {
        Some(number) => Ok(*number),
        None => Error::at(name.span, format!("expected {what}: `{}` is none", name.text)),
    }
}

/// The number of a region. That there are too many is said of the function.
pub fn region_number(region: &Reference, regions: &HashMap<&str, u8>) -> Result<u8, Fault> {
    match region {
        Reference::Named(name) => match number_of(regions, name, "a region in scope")? {
            number if usize::from(number) < MAX_REGIONS => Ok(number),
            _ => Err(Fault::Known),
        },
        Reference::Number(number, _) if (*number as usize) < MAX_REGIONS => Ok(*number as u8),
        Reference::Number(number, span) => {
            let message = format!("expected a region from 0 to 6, found {number}");
            Err(Error::new(*span, message).into())
        }
    }
}

/// A number of the format; what is over every limit has the last one.
pub fn small(number: usize) -> u8 {
    u8::try_from(number).unwrap_or(u8::MAX)
}

/// The numbers of those that are not known.
fn missing(terms: &[Option<u8>]) -> HashSet<u8> {
    let missing = terms.iter().enumerate().filter(|(_, term)| term.is_none());
    missing.map(|(number, _)| small(number)).collect()
}

/// A text as far as it could be read, with all that is wrong with it but for the checker's rules.
pub struct Draft<'t> {
    pub items: &'t [Item],
    pub assembler: Assembler<'t>,
    /// Of each function in the order of the text.
    pub code: Vec<Code<'t>>,
    pub errors: Vec<Error>,
}

impl<'t> Draft<'t> {
    fn new(items: &'t [Item], mut errors: Vec<Error>) -> Draft<'t> {
        let mut assembler = Assembler::new(items, &[]);
        let mut code = Vec::new();
        for (number, function) in functions(items).enumerate() {
            let regions = assembler.numbered(names_of(&function.regions), "region");
            let registers = assembler.numbered(names_of(&function.registers), "register");
            let coder = Coder::new(&assembler, number, function, regions, registers);
            let (one, faults) = coder.code();
            code.push(one);
            assembler.errors.extend(faults);
        }
        errors.append(&mut assembler.errors);
        // Registers that the code adds have their terms where the function's others are.
        let added: Vec<Vec<u8>> = code.iter().map(|one| one.added()).collect();
        if added.iter().any(|widths| !widths.is_empty()) {
            assembler = Assembler::new(items, &added);
            if errors.is_empty() {
                errors.append(&mut assembler.errors);
            }
        }
        for one in &code {
            if let Err(error) = one.keeps_limits() {
                assembler.within_limits = false;
                errors.push(error);
            }
        }
        Draft { items, assembler, code, errors: in_order(errors) }
    }

    /// Something in the text makes a function, or may.
    pub fn has_functions(&self) -> bool {
        let other = |item: &Item| matches!(item, Item::Raw(..) | Item::UnknownFunction(_));
        !self.code.is_empty() || self.items.iter().any(other)
    }

    /// The records of the file with the parts of the text that they come from, of functions with
    /// this code.
    pub fn records(&self, code: &[Code]) -> Vec<(Record, Span)> {
        let tables = ModuleBuilder::of(&self.assembler.module);
        let mut records: Vec<(Record, Span)> =
            tables.terms.into_iter().zip(self.assembler.term_spans.iter().copied()).collect();
        let spans = structs(self.items).flat_map(|structure| [structure.name.span; 2]);
        records.extend(tables.names.into_iter().zip(spans));
        let mut functions = code.iter().zip(&self.assembler.signatures);
        for item in self.items {
            match item {
                Item::Function(_) => {
                    let (code, signature) = functions.next().expect("code for each function");
                    records.extend(function_records(code, signature));
                }
                Item::Raw(record, span) => records.push((*record, *span)),
                _ => (),
            }
        }
        records
    }

    /// The module of the functions that the text writes without raw records, also where it has more
    /// of something than a file can hold, with the part of the text for each place.
    pub fn module(&self, code: &[Code]) -> (Module, Vec<Span>) {
        let mut module = self.assembler.module.clone();
        let mut spans = self.assembler.term_spans.clone();
        // What is left out may be function 0: then another stands in for it.
        let first = self.items.iter().find(|item| {
            matches!(item, Item::Function(_) | Item::UnknownFunction(_) | Item::Raw(..))
        });
        let stands_in = match (first, code.first()) {
            (Some(Item::UnknownFunction(_) | Item::Raw(..)), Some(second)) => {
                let word = self.assembler.word().unwrap_or_else(|| {
                    module.terms.push(WORD);
                    spans.push(second.function.name.span);
                    small(module.terms.len() - 1)
                });
                module.functions.push(empty_function(0, word));
                1
            }
            _ => 0,
        };
        for (name, structure) in module.names.iter_mut().zip(structs(self.items)) {
            name.place = spans.len();
            spans.push(structure.name.span);
        }
        for (code, signature) in code.iter().zip(&self.assembler.signatures).take(MOST_ASKED) {
            let mut function = module::Function {
                region_parameters: signature.region_parameters,
                region_types: signature.regions.clone(),
                parameters: signature.parameters,
                register_types: signature.registers.clone(),
                ..empty_function(spans.len(), signature.return_term)
            };
            spans.push(code.function.name.span);
            function.code = instructions(code, stands_in, &mut spans);
            module.functions.push(function);
        }
        (module, spans)
    }

    fn file(&self) -> Result<Vec<u8>, Vec<Error>> {
        if !self.errors.is_empty() {
            return Err(self.errors.clone());
        }
        let lines = self.items.iter().filter_map(|item| match item {
            Item::File(line, span) => Some((line, *span)),
            _ => None,
        });
        let records = self.records(&self.code).into_iter().map(|(record, _)| record).collect();
        file(records, &lines.collect::<Vec<_>>()).map_err(|error| vec![error])
    }

    fn map(&self, source: &str, file: &[u8]) -> Map {
        let structs = structs(self.items).map(|structure| StructNames {
            name: structure.name.text.clone(),
            place: structure.name.span.place,
            regions: structure.regions.iter().map(|region| region.text.clone()).collect(),
            fields: names_of(&structure.fields).map(|field| field.text.clone()).collect(),
        });
        let records = self.records(&self.code);
        // Records that lines about the file have made have no place in the text.
        let functions = match decode(file) {
            Ok(module) if last_place(&module) < records.len() => {
                functions_of(&self.code, &records, &module)
            }
            Ok(_) => Vec::new(),
            // Behind raw records nothing is known of a file that is no module.
            Err(_) if self.items.iter().any(|item| matches!(item, Item::Raw(..))) => Vec::new(),
            Err(_) => self.code.iter().map(Code::names).collect(),
        };
        Map {
            source: source.to_string(),
            hash: sha256(file),
            structs: structs.collect(),
            functions,
        }
    }
}

/// The last record that an instruction of the module stands at.
fn last_place(module: &Module) -> usize {
    let instructions = module.functions.iter().flat_map(|function| &function.code);
    instructions.map(|instruction| instruction.place).max().unwrap_or(0)
}

/// The names of each function of the module; those that raw records make have numbers alone.
fn functions_of(code: &[Code], records: &[(Record, Span)], module: &Module) -> Vec<FunctionNames> {
    let functions = module.functions.iter().enumerate().map(|(number, function)| {
        let place = |record: usize| records[record].1.place;
        let head = place(function.place);
        let written = code.iter().find(|code| code.function.name.span.place == head);
        let numbers = |prefix: char, count: usize| {
            (0..count).map(|number| format!("{prefix}{number}")).collect()
        };
        written.map(Code::names).unwrap_or_else(|| FunctionNames {
            name: format!("f{number}"),
            place: head,
            regions: numbers('R', function.region_types.len()),
            registers: numbers('r', function.register_types.len()),
            labels: Vec::new(),
            code: function.code.iter().map(|one| place(one.place)).collect(),
        })
    });
    functions.collect()
}

/// A function without parameters, registers and code.
fn empty_function(place: usize, return_term: u8) -> module::Function {
    module::Function {
        place,
        region_parameters: 0,
        region_types: Vec::new(),
        parameters: 0,
        register_types: Vec::new(),
        return_term,
        code: Vec::new(),
    }
}

/// The instructions of a function at the next places. The functions that they call stand behind so
/// many others.
fn instructions(code: &Code, behind: u8, spans: &mut Vec<Span>) -> Vec<Instruction> {
    let mut instructions: Vec<Instruction> = Vec::new();
    for (record, span) in &code.records {
        if record.kind() == KIND_ARGUMENTS {
            let call = instructions.last_mut().expect("arguments follow their call");
            call.arguments = record.list();
            continue;
        }
        let callee = if record.kind() == KIND_CALL { behind } else { 0 };
        instructions.push(Instruction {
            place: spans.len(),
            kind: record.kind(),
            a: record.a(),
            b: record.b() + callee,
            c: record.c(),
            d: record.d(),
            arguments: [0; MAX_LIST],
        });
        spans.push(*span);
    }
    instructions
}

/// Head, types and code of a function.
fn function_records(code: &Code, signature: &Signature) -> Vec<(Record, Span)> {
    let built = FunctionBuilder {
        region_parameters: signature.region_parameters as u8,
        regions: signature.regions.clone(),
        parameters: signature.parameters as u8,
        registers: signature.registers.clone(),
        return_term: signature.return_term,
        code: code.records.iter().map(|(record, _)| *record).collect(),
    };
    let records = built.records();
    let head = records.len() - code.records.len();
    let head = records.into_iter().take(head).map(|record| (record, code.function.name.span));
    head.chain(code.records.iter().copied()).collect()
}

/// The file of the records, with what the text says about the file itself: blocks and bytes
/// before the checks are made, checks and length after.
fn file(mut records: Vec<Record>, lines: &[(&FileLine, Span)]) -> Result<Vec<u8>, Error> {
    let needed = records.len().div_ceil(RECORDS_PER_BLOCK).max(1);
    for (line, span) in lines {
        if let FileLine::Blocks(blocks) = line {
            if (*blocks as usize) < needed {
                let message = format!("expected at least {needed} blocks for these records");
                return Error::at(*span, message);
            }
            let filler = Record([0; RECORD_BYTES]);
            records.resize(*blocks as usize * RECORDS_PER_BLOCK, filler);
        }
    }
    let mut file = builder::file(&records);
    let length = file.len();
    let outside = |span: Span| Error::at(span, format!("expected a place in {length} bytes"));
    for (line, span) in lines {
        if let FileLine::Byte { at, value } = line {
            match file.get_mut(*at as usize) {
                Some(byte) => *byte = *value as u8,
                None => return outside(*span),
            }
        }
    }
    repair_checks(&mut file);
    for (line, span) in lines {
        if let FileLine::Check { block, value } = line {
            let at = *block as usize * BLOCK_BYTES + CHECK_AT;
            match file.get_mut(at..at + 4) {
                Some(check) => check.copy_from_slice(&value.to_le_bytes()),
                None => return outside(*span),
            }
        }
    }
    for (line, _) in lines {
        if let FileLine::Length(length) = line {
            file.resize(*length as usize, 0);
        }
    }
    Ok(file)
}
