//! What the checker would refuse in a text's types and code, each at its place and in the text's own
//! words, and what it allows but is seldom meant. The rules are the reference checker's; a module is
//! accepted or refused by the proved one alone.

use super::assembler::{structs, Draft};
use super::code::Code;
use super::error::Error;
use super::hints;
use super::lexer::{Place, Span};
use super::syntax::{Function, Item, Line, Name, Part, Statement, TypeForm, Typed};
use crate::builder::{self, code};
use crate::checker::{self, Typing, ENDS};
use crate::file::Record;
use crate::module::{self, decode, Instruction, Module, Term, KIND_CALL, MAX_INSTRUCTIONS, TARGET};
use crate::types::{regions_used, sizes, Sizes, Type, TypeId, Types, Variable, MAX_SIZE};
use std::collections::HashSet;

/// Rules that are broken, and what only warns.
#[derive(Default)]
pub struct Diagnosis {
    pub refusals: Vec<Error>,
    pub warnings: Vec<Error>,
}

/// What the checker would say of a text, as far as it could be read: lines that have no meaning are
/// left out. Where the text gives no file that can be decoded its functions are asked without it.
pub fn diagnose(draft: &Draft) -> Diagnosis {
    let sound = draft.errors.is_empty();
    if !draft.has_functions() {
        let start = Span { place: Place { line: 1, column: 1 }, end: 1 };
        let none = Error::refusing(start, "a module has a function", String::new());
        let refusals = if sound { vec![none] } else { Vec::new() };
        return Diagnosis { refusals, warnings: Vec::new() };
    }
    let mut refusals: Vec<Error> = draft.code.iter().flat_map(ends_astray).collect();
    let (module, spans, code) = match decoded(draft) {
        Ok(decoded) => decoded,
        Err(refusal) => {
            // It may only follow from what was left out.
            refusals.extend(refusal.filter(|_| sound));
            let code: Vec<Code> = draft.code.iter().map(|code| checkable(code, false)).collect();
            let (module, spans) = draft.module(&code);
            (module, spans, code)
        }
    };
    let text = Text { items: draft.items, module: &module, spans: &spans, code: &code };
    refusals.extend(text.refusals());
    let warnings = if refusals.is_empty() { text.warnings() } else { Vec::new() };
    Diagnosis { refusals, warnings }
}

/// The module of the text's file, the part of the text for each record, and the code in it; or the
/// rule that the file breaks, if there is a file.
fn decoded<'t>(draft: &Draft<'t>) -> Result<(Module, Vec<Span>, Vec<Code<'t>>), Option<Error>> {
    let unknown = |item: &Item| matches!(item, Item::UnknownFunction(_));
    if !draft.assembler.within_limits || draft.items.iter().any(unknown) {
        return Err(None);
    }
    let code: Vec<Code> = draft.code.iter().map(|code| checkable(code, true)).collect();
    let (records, spans): (Vec<Record>, Vec<Span>) = draft.records(&code).into_iter().unzip();
    match decode(&builder::file(&records)) {
        Ok(module) => Ok((module, spans, code)),
        Err(refusal) => {
            let span = spans.get(refusal.place).or(spans.last());
            Err(span.map(|span| Error::refusing(*span, refusal.asked, String::new())))
        }
    }
}

/// Jumps of a function that lead to no instruction, and a last line that has no records and is no
/// jump or return.
fn ends_astray(code: &Code) -> Vec<Error> {
    let mut errors = if code.whole { astray(code) } else { Vec::new() };
    if let (false, Some(Line::Instruction(last, span))) = (code.ended, code.function.code.last()) {
        if !matches!(last, Statement::Jump { .. } | Statement::Return { .. }) {
            errors.push(Error::refusing(*span, ENDS, String::new()).hinting(hints::END));
        }
    }
    errors
}

/// Code of which the checker can ask its typing rules, with raw records or without: jumps lead
/// somewhere, and a jump stands for a last line that has no meaning and for what is over the limit.
fn checkable<'t>(code: &Code<'t>, raw: bool) -> Code<'t> {
    let mut checkable = code.clone();
    let is_raw = |line: &Line| matches!(line, Line::Raw(..));
    let mut ended = code.ended && !code.records.is_empty();
    if !raw {
        let lines = code.function.code.iter();
        let raws: HashSet<(usize, usize)> = lines
            .filter_map(|line| match line {
                Line::Raw(_, span) => Some((span.place.line, span.place.column)),
                _ => None,
            })
            .collect();
        let kept = |span: &Span| !raws.contains(&(span.place.line, span.place.column));
        checkable.records.retain(|(_, span)| kept(span));
        ended &= !code.function.code.last().is_some_and(is_raw);
        if checkable.records.len() > 2 * MAX_INSTRUCTIONS {
            checkable.records.truncate(2 * MAX_INSTRUCTIONS);
            // A call goes with its arguments.
            let last = checkable.records.last().map(|(record, _)| record.kind());
            checkable.records.truncate(2 * MAX_INSTRUCTIONS - usize::from(last == Some(KIND_CALL)));
            ended = false;
        }
    }
    for (jump, _) in &mut checkable.records {
        if matches!(jump.kind(), 31 | 32) {
            *jump = builder::record(jump.kind(), jump.a(), jump.b(), jump.c(), 0);
        }
    }
    if !ended {
        checkable.records.push((code::jump(0), code.function.end));
    }
    checkable
}

/// Jumps that lead to no instruction. A line that branches over a jump leads past the function's
/// end if it stands last.
fn astray(code: &Code) -> Vec<Error> {
    let count = code.instructions();
    let branches_over = match code.function.code.last() {
        Some(Line::Instruction(Statement::Compare { operator, .. }, span)) => {
            (operator.negated && operator.operation != code::EQUAL).then_some(*span)
        }
        _ => None,
    };
    let jumps = code
        .records
        .iter()
        .filter(|(record, _)| matches!(record.kind(), 31 | 32) && record.d() as usize >= count);
    let jumps = jumps.map(|(_, span)| match branches_over {
        Some(last) if last == *span => {
            Error::refusing(*span, ENDS, String::new()).hinting(hints::END)
        }
        _ => Error::refusing(*span, TARGET, format!("the function has {count}")),
    });
    jumps.collect()
}

/// A module with the text that it comes from.
struct Text<'a, 't> {
    items: &'a [Item],
    module: &'a Module,
    /// The part of the text for each place.
    spans: &'a [Span],
    code: &'a [Code<'t>],
}

impl<'a> Text<'a, '_> {
    fn refusals(&self) -> Vec<Error> {
        let sizes = sizes(self.module);
        let faults = checker::faults(self.module).into_iter();
        let errors = faults.filter_map(|(part, refusal)| match refusal.number {
            5 => self.size_error(&sizes, refusal.place, refusal.asked),
            6 => Some(self.head_error(part, refusal.place, refusal.asked)),
            7 => Some(self.code_error(refusal.place, refusal.asked)),
            _ => {
                let error = Error::refusing(self.span(refusal.place), refusal.asked, String::new());
                Some(error.hinting(hints::END))
            }
        });
        errors.collect()
    }

    fn span(&self, place: usize) -> Span {
        self.spans[place]
    }

    /// The function of the text that a function of the module is, if no raw record makes it.
    fn written(&self, function: &module::Function) -> Option<&'a Function> {
        let head = self.span(function.place);
        self.code.iter().map(|code| code.function).find(|written| written.name.span == head)
    }

    /// A type or struct that breaks its rule by itself, and not only by what it holds.
    fn size_error(&self, sizes: &Sizes, place: usize, asked: &str) -> Option<Error> {
        let Module { terms, names, .. } = self.module;
        let large_term = |term: u8| sizes.terms[usize::from(term)] > MAX_SIZE;
        let large_name = |name: u8| sizes.names[usize::from(name)] > MAX_SIZE;
        let follows = match terms.get(place) {
            Some(Term::Array { element, .. }) => large_term(*element),
            Some(Term::Name { name, .. }) => large_name(*name),
            Some(_) => false,
            None => {
                let number = names.iter().position(|name| name.place == place)?;
                // A struct that holds itself or a later one, also in arrays, is wrong by itself.
                let earlier = |field: u8| match self.innermost(field) {
                    Term::Name { name, .. } => usize::from(*name) < number,
                    _ => true,
                };
                names[number].fields.iter().any(|&field| large_term(field) && earlier(field))
            }
        };
        let found = match terms.get(place) {
            Some(Term::Name { name, arguments }) => {
                let regions = names[usize::from(*name)].regions;
                format!("the struct has {regions}, here are {}", arguments.len())
            }
            _ => String::new(),
        };
        (!follows).then(|| Error::refusing(self.span(place), asked, found))
    }

    /// The term that an array holds in the end; another term itself.
    fn innermost(&self, term: u8) -> &Term {
        match &self.module.terms[usize::from(term)] {
            Term::Array { element, .. } => self.innermost(*element),
            other => other,
        }
    }

    /// A function whose types do not fit.
    fn head_error(&self, part: checker::Part, place: usize, asked: &str) -> Error {
        let function = self.module.functions.iter().find(|function| function.place == place);
        let Some(written) = function.and_then(|function| self.written(function)) else {
            return Error::refusing(self.span(place), asked, String::new());
        };
        let typed = |one: &Typed| (one.written.span, is(one));
        let (span, found) = match part {
            checker::Part::Head => (written.name.span, String::new()),
            checker::Part::Region(at) => typed(&written.regions[at]),
            checker::Part::Register(at) => typed(&written.registers[at]),
            checker::Part::Result => {
                (written.return_type.span, format!("the result is {}", written.return_type))
            }
        };
        let hint = match (part, &function.map(|function| self.leaves(function))) {
            (checker::Part::Result, Some(true)) => hints::LOCAL,
            _ => "",
        };
        Error::refusing(span, asked, found).hinting(hint)
    }

    /// The result names a local region.
    fn leaves(&self, function: &module::Function) -> bool {
        regions_used(self.module, function.return_term) > function.region_parameters
    }

    /// An instruction that breaks its rule.
    fn code_error(&self, place: usize, asked: &str) -> Error {
        let span = self.span(place);
        let functions = &self.module.functions;
        let behind = functions.partition_point(|function| function.place <= place);
        let function = &functions[behind - 1];
        let at = function.code.partition_point(|instruction| instruction.place < place);
        let instruction = &function.code[at];
        let Some(written) = self.written(function) else {
            return Error::refusing(span, asked, String::new());
        };
        let types = self.operands(function, written, instruction);
        let operands = Operands { module: self.module, function };
        let hint = match operands.hint(instruction) {
            "" => self.part_hint(written, span),
            hint => hint.to_string(),
        };
        Error::refusing(span, asked, types).hinting(hint)
    }

    /// The type of a pointer to the field or element of a line, as far as the text says it without
    /// names for types.
    fn part_hint(&self, written: &Function, span: Span) -> String {
        let line = written.code.iter().find_map(|line| match line {
            Line::Instruction(statement, at) if *at == span => Some(statement),
            _ => None,
        });
        let part = match line {
            Some(Statement::Path { b, path, .. }) => self.part_type(written, b, path),
            Some(Statement::Plain { kind: 24, b: Some(b), .. }) => {
                self.part_type(written, b, &[Part::Element(0, b.span)])
            }
            _ => None,
        };
        part.map_or(String::new(), |part| format!("a pointer to it is {part}"))
    }

    fn part_type(&self, written: &Function, pointer: &Name, path: &[Part]) -> Option<String> {
        let pointer = written.registers.iter().find(|one| one.name.text == pointer.text)?;
        let TypeForm::Pointer(target, region) = &pointer.written.form else { return None };
        let mut inner = (**target).clone();
        for part in path {
            inner = match (&inner.form, part) {
                (TypeForm::Array(element, _), Part::Element(..)) => (**element).clone(),
                (TypeForm::Named(name, given), Part::Field(field)) => {
                    let structure = structs(self.items).find(|one| one.name.text == *name)?;
                    let found = structure.fields.iter().find(|one| one.name.text == field.text)?;
                    found.written.with(&structure.regions, given)
                }
                _ => return None,
            };
        }
        Some(format!("*{inner} in {region}"))
    }

    /// The types of an instruction's registers, of the regions that it needs, and of its callee.
    fn operands(
        &self,
        function: &module::Function,
        written: &Function,
        instruction: &Instruction,
    ) -> String {
        let mut registers: Vec<u8> = instruction.registers();
        let mut regions: Vec<u8> = Vec::new();
        let mut parts = Vec::new();
        if instruction.kind == KIND_CALL {
            let callee = &self.module.functions[usize::from(instruction.b)];
            registers.extend(&instruction.arguments[..callee.parameters]);
            regions.extend(&instruction.d.to_le_bytes()[..callee.region_parameters]);
            parts.extend(self.written(callee).map(head));
        }
        if let (27 | 28, Term::Pointer { region, .. }) =
            (instruction.kind, self.term(function, instruction.a))
        {
            regions.push(*region);
        }
        if instruction.kind == 34 {
            parts.push(format!("the function's result is {}", written.return_type));
        }
        let mut types: Vec<String> = Vec::new();
        for register in registers {
            // Those behind the declared ones are not in the text.
            types.extend(written.registers.get(usize::from(register)).map(is));
        }
        let holds = |one: &Typed| format!("region {} holds {}", one.name.text, one.written);
        for region in regions {
            types.extend(written.regions.get(usize::from(region)).map(holds));
        }
        if let (16, Term::Integer { width }) =
            (instruction.kind, self.term(function, instruction.a))
        {
            types = vec![format!("{} does not fit i{}", instruction.d, 8 * u32::from(*width))];
        }
        let mut shown: Vec<String> = Vec::new();
        for one in types.into_iter().chain(parts) {
            if !shown.contains(&one) {
                shown.push(one);
            }
        }
        shown.join(", ")
    }

    fn term(&self, function: &module::Function, register: u8) -> &'a Term {
        Operands { module: self.module, function }.term(register)
    }

    /// Pointers to runs of primitives that are no field or element of what they are taken from.
    fn warnings(&self) -> Vec<Error> {
        let mut types = Types::new(self.module);
        let mut warnings = Vec::new();
        for function in &self.module.functions {
            let Some(written) = self.written(function) else { continue };
            let typing = Typing::new(self.module, &mut types, function);
            for field in function.code.iter().filter(|instruction| instruction.kind == 23) {
                let (Some((part, _)), Some((whole, _))) =
                    (typing.pointer(field.a), typing.pointer(field.b))
                else {
                    continue;
                };
                if !is_part(self.module, typing.types, whole, part, field.d as usize) {
                    let span = self.span(field.place);
                    let mut warning = Error::new(span, RUN);
                    warning.found = self.operands(function, written, field);
                    warnings.push(warning.hinting(self.part_hint(written, span)));
                }
            }
        }
        warnings
    }
}

const RUN: &str = "the pointer's target is no field or element of what it is taken from; its \
                   primitives only equal a run that stands there";

/// The part is the whole itself or a field or element that begins at this position.
fn is_part(
    module: &Module,
    types: &mut Types<Variable>,
    whole: TypeId,
    part: TypeId,
    position: usize,
) -> bool {
    let (mut inner, mut left) = (whole, position);
    loop {
        if left == 0 && inner == part {
            return true;
        }
        match types.get(inner).clone() {
            Type::Array(_, element) => {
                left %= types.primitives(element).len();
                inner = element;
            }
            Type::Name(name, arguments) => {
                let fields = &module.names[usize::from(name)].fields;
                for &field in fields {
                    inner = types.term(field, &arguments);
                    let count = types.primitives(inner).len();
                    if left < count {
                        break;
                    }
                    left -= count;
                }
            }
            Type::Integer(_) | Type::Pointer(..) => return false,
        }
    }
}

fn is(one: &Typed) -> String {
    format!("{} is {}", one.name.text, one.written)
}

/// What a function asks of its callers.
fn head(function: &Function) -> String {
    let list = |typed: &[Typed]| {
        let each = typed.iter().map(|one| format!("{}: {}", one.name.text, one.written));
        each.collect::<Vec<_>>().join(", ")
    };
    let regions = match list(&function.regions[..function.region_parameters]) {
        none if none.is_empty() => none,
        some => format!("[{some}]"),
    };
    let parameters = list(&function.registers[..function.parameters]);
    let Function { name, return_type, .. } = function;
    format!("the callee is {}{regions}({parameters}) -> {return_type}", name.text)
}

/// The types of an instruction's registers, for its hint.
struct Operands<'a, 'f> {
    module: &'a Module,
    function: &'f module::Function,
}

impl<'a> Operands<'a, '_> {
    fn form(&self, term: u8) -> &'a Term {
        &self.module.terms[usize::from(term)]
    }

    fn term(&self, register: u8) -> &'a Term {
        self.form(self.function.register_types[usize::from(register)])
    }

    /// What a pointer register points to.
    fn target(&self, register: u8) -> Option<&'a Term> {
        match self.term(register) {
            Term::Pointer { target, .. } => Some(self.form(*target)),
            _ => None,
        }
    }

    fn hint(&self, instruction: &Instruction) -> &'static str {
        let Instruction { kind, a, b, c, d, .. } = *instruction;
        let integer = |term: &Term| matches!(term, Term::Integer { .. });
        let is = |register: u8, wanted: u8| match self.term(register) {
            Term::Integer { width } => *width == wanted,
            _ => false,
        };
        let between = |to: &Term, from: &Term| match (integer(to), integer(from)) {
            (true, true) => hints::WIDTHS,
            (true, false) => hints::ADDRESS,
            (false, true) => hints::POINTER,
            (false, false) => "",
        };
        match kind {
            16 if !integer(self.term(a)) => hints::POINTER,
            17 => between(self.term(a), self.term(b)),
            18 if !integer(self.term(b)) || !integer(self.term(c)) => hints::ADDRESS,
            18 if self.term(b) != self.term(c) => hints::WIDTHS,
            18 if d >= code::EQUAL && !is(a, 1) => hints::FLAG,
            18 => hints::WIDTHS,
            24 if !is(c, 4) => hints::INDEX,
            24 if !matches!(self.target(b), Some(Term::Array { .. })) => hints::ARRAY,
            25 | 26 => {
                let (pointer, register) = if kind == 25 { (b, a) } else { (a, b) };
                match self.target(pointer) {
                    Some(Term::Name { .. } | Term::Array { .. }) => hints::PART,
                    Some(target) => between(self.term(register), target),
                    None => hints::DEREFERENCE,
                }
            }
            29 if !is(c, 4) => hints::INDEX,
            29 => hints::BYTE,
            30 => hints::OUTPUT,
            32 => hints::ADDRESS,
            34 => between(self.form(self.function.return_term), self.term(a)),
            _ => "",
        }
    }
}
