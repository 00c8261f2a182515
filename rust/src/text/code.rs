//! The records of a function's code. There is no immediate operand in the machine: numbers go into
//! registers that are added behind the declared ones, one for each width and number in a line, and
//! are used again by the next line. What an `if` compares goes into the first added i8.

use super::assembler::{
    keep, names_of, number_of, region_number, small, Assembler, Fault, Signature,
};
use super::error::Error;
use super::hints;
use super::lexer::Span;
use super::map::FunctionNames;
use super::syntax::{Function, Line, Name, Number, Operator, Part, Reference, Statement, Value};
use crate::builder::{code, record};
use crate::file::Record;
use crate::module::{Term, KIND_ARGUMENTS, MAX_INSTRUCTIONS, MAX_REGISTERS};
use crate::types::{primitive_count, sizes, MAX_SIZE};
use std::collections::{HashMap, HashSet};

const I8: u8 = 1;
const I32: u8 = 4;

/// A register that holds the numbers of lines: its width, and how many of that width stand before
/// it in its line.
#[derive(Clone, Copy, PartialEq, Eq)]
struct Added {
    width: u8,
    before: usize,
}

/// The code of one function.
#[derive(Clone)]
pub struct Code<'t> {
    pub function: &'t Function,
    added: Vec<Added>,
    /// Each record with the part of the text that it comes from.
    pub records: Vec<(Record, Span)>,
    labels: Vec<(&'t str, u32)>,
    /// Every line has its records.
    pub whole: bool,
    /// The last line has its records.
    pub ended: bool,
}

impl Code<'_> {
    /// The widths of the registers behind the declared ones.
    pub fn added(&self) -> Vec<u8> {
        self.added.iter().map(|added| added.width).collect()
    }

    /// Records of kind 35 are not counted.
    pub fn instructions(&self) -> usize {
        self.records.iter().filter(|(record, _)| record.kind() != KIND_ARGUMENTS).count()
    }

    pub fn keeps_limits(&self) -> Result<(), Error> {
        let Function { name, registers, end, .. } = self.function;
        let (count, added) = (registers.len() + self.added.len(), self.added.len());
        if count > MAX_REGISTERS {
            let mut message = format!("expected at most {MAX_REGISTERS} registers, found {count}");
            if added > 0 {
                message += &format!(", {added} of them added for numbers and comparisons");
            }
            return Error::at(name.span, message);
        }
        if !self.whole {
            return Ok(());
        }
        if count == 0 {
            return Error::at(name.span, "expected at least one register");
        }
        match self.instructions() {
            0 => Error::at(*end, "expected at least one instruction"),
            1..=MAX_INSTRUCTIONS => Ok(()),
            found => {
                let expected = format!("expected at most {MAX_INSTRUCTIONS} instructions");
                Error::at(*end, format!("{expected}, found {found}"))
            }
        }
    }

    /// What the text calls the function's parts. Added registers have names that no text can write.
    pub fn names(&self) -> FunctionNames {
        let Function { name, regions, registers, .. } = self.function;
        let declared = names_of(registers).map(|register| register.text.clone());
        let added = (1..=self.added.len()).map(|number| format!("%{number}"));
        let code = self.records.iter().filter(|(record, _)| record.kind() != KIND_ARGUMENTS);
        FunctionNames {
            name: name.text.clone(),
            place: name.span.place,
            regions: names_of(regions).map(|region| region.text.clone()).collect(),
            registers: declared.chain(added).collect(),
            labels: self.labels.iter().map(|(label, at)| (label.to_string(), *at)).collect(),
            code: code.map(|(_, span)| span.place).collect(),
        }
    }
}

/// Makes the code of one function.
pub struct Coder<'a, 't> {
    assembler: &'a Assembler<'t>,
    signature: &'a Signature,
    regions: HashMap<&'t str, u8>,
    registers: HashMap<&'t str, u8>,
    /// Registers, labels and functions that are not there: each is said once.
    missing: HashSet<String>,
    errors: Vec<Error>,
    code: Code<'t>,
    labels: HashMap<&'t str, u32>,
    /// The number of the next instruction.
    next: u32,
    /// Jumps by their records, whose targets are known when all labels are.
    jumps: Vec<(usize, &'t Reference)>,
    /// The widths of the numbers of this line so far.
    numbers: Vec<u8>,
    /// The line uses what has no known type.
    unknown: bool,
}

impl<'a, 't> Coder<'a, 't> {
    pub fn new(
        assembler: &'a Assembler<'t>,
        number: usize,
        function: &'t Function,
        regions: HashMap<&'t str, u8>,
        registers: HashMap<&'t str, u8>,
    ) -> Coder<'a, 't> {
        Coder {
            assembler,
            signature: &assembler.signatures[number],
            regions,
            registers,
            missing: HashSet::new(),
            errors: Vec::new(),
            code: Code {
                function,
                added: Vec::new(),
                records: Vec::new(),
                labels: Vec::new(),
                whole: true,
                ended: true,
            },
            labels: HashMap::new(),
            next: 0,
            jumps: Vec::new(),
            numbers: Vec::new(),
            unknown: false,
        }
    }

    /// The code as far as its lines have a meaning, and the errors of the others.
    pub fn code(mut self) -> (Code<'t>, Vec<Error>) {
        for line in &self.code.function.code {
            self.line(line);
        }
        // A function has a register; lines without a meaning may be those that would add one.
        if !self.code.whole && self.code.function.registers.is_empty() {
            self.added(I32, 0);
        }
        let lines = self.code.function.code.iter().rev();
        let at_end = lines.take_while(|line| matches!(line, Line::Label(_)));
        if let Some(Line::Label(name)) = at_end.last() {
            let error = Error::new(name.span, "expected an instruction after a label");
            self.errors.push(error.hinting(hints::END));
            (self.code.whole, self.code.ended) = (false, false);
        }
        for (at, target) in std::mem::take(&mut self.jumps) {
            let number = self.target(target);
            self.code.whole &= number.is_some();
            let jump = &mut self.code.records[at].0;
            *jump = record(jump.kind(), jump.a(), 0, 0, number.unwrap_or_default());
        }
        (self.code, self.errors)
    }

    fn line(&mut self, line: &'t Line) {
        match line {
            Line::Label(name) => self.label(name),
            Line::Raw(record, span) => {
                self.push(*record, *span);
                self.code.ended = true;
            }
            Line::Instruction(statement, span) => {
                let (records, jumps, next) = (self.code.records.len(), self.jumps.len(), self.next);
                self.numbers.clear();
                self.unknown = false;
                // Of several registers that are not there each is said.
                for name in statement.registers() {
                    let register = self.register(name);
                    keep(register, &mut self.errors);
                }
                let made = self.statement(statement, *span);
                self.code.ended = keep(made, &mut self.errors).is_some() && !self.unknown;
                if !self.code.ended {
                    self.code.records.truncate(records);
                    self.jumps.truncate(jumps);
                    self.next = next;
                }
            }
            Line::Unknown => self.code.ended = false,
        }
        self.code.whole &= self.code.ended;
    }

    fn label(&mut self, name: &'t Name) {
        if self.labels.contains_key(name.text.as_str()) {
            let message = format!("expected a new label: `{}` is there", name.text);
            self.errors.push(Error::new(name.span, message));
            return;
        }
        self.labels.insert(&name.text, self.next);
        self.code.labels.push((&name.text, self.next));
    }

    fn push(&mut self, record: Record, span: Span) {
        self.next += u32::from(record.kind() != KIND_ARGUMENTS);
        self.code.records.push((record, span));
    }

    /// Adds a jump or branch whose target is put in later.
    fn jump(&mut self, record: Record, target: &'t Reference, span: Span) {
        self.jumps.push((self.code.records.len(), target));
        self.push(record, span);
    }

    fn target(&mut self, target: &Reference) -> Option<u32> {
        let name = match target {
            Reference::Number(number, _) => return Some(*number),
            Reference::Named(name) => name,
        };
        let known = self.labels.get(name.text.as_str()).copied();
        if known.is_none() && self.missing.insert(format!("label {}", name.text)) {
            let message = format!("expected a label of this function: `{}` is none", name.text);
            self.errors.push(Error::new(name.span, message));
        }
        known
    }

    fn register(&mut self, name: &Name) -> Result<u8, Fault> {
        match number_of(&self.registers, name, "a register") {
            Ok(register) => {
                self.unknown |= self.signature.unknown.contains(&register) || register == u8::MAX;
                Ok(register)
            }
            Err(error) if self.missing.insert(format!("register {}", name.text)) => {
                Err(error.hinting(hints::of_value(&name.text)).into())
            }
            Err(_) => Err(Fault::Known),
        }
    }

    fn function(&mut self, name: &Name) -> Result<u8, Fault> {
        match self.assembler.function_number(name) {
            Err(Fault::New(error)) if self.missing.insert(format!("function {}", name.text)) => {
                Err(error.hinting(hints::of_value(&name.text)).into())
            }
            Err(_) => Err(Fault::Known),
            known => known,
        }
    }

    fn form_of(&self, term: u8) -> &'a Term {
        &self.assembler.module.terms[usize::from(term)]
    }

    fn term_of(&self, register: u8) -> &'a Term {
        self.form_of(self.signature.registers[usize::from(register)])
    }

    /// The register that is added for numbers of a width, behind so many in the line.
    fn added(&mut self, width: u8, before: usize) -> u8 {
        let wanted = Added { width, before };
        let known = self.code.added.iter().position(|added| *added == wanted);
        let at = known.unwrap_or_else(|| {
            self.code.added.push(wanted);
            self.code.added.len() - 1
        });
        let register = small(self.code.function.registers.len() + at);
        self.unknown |= register == u8::MAX;
        register
    }

    /// The register of a value; a number goes into an added one of this width.
    fn value(&mut self, value: &Value, width: u8) -> Result<u8, Fault> {
        let number = match value {
            Value::Register(name) => return self.register(name),
            Value::Number(number) => number,
        };
        let constant = constant(number, width)?;
        let before = self.numbers.iter().filter(|known| **known == width).count();
        self.numbers.push(width);
        let register = self.added(width, before);
        self.push(code::constant(register, constant), number.span);
        Ok(register)
    }

    /// The same where a value of this term is wanted.
    fn value_of(&mut self, value: &Value, term: &Term) -> Result<u8, Fault> {
        let number = match (value, term) {
            (_, Term::Integer { width }) => return self.value(value, *width),
            (Value::Register(name), _) => return self.register(name),
            (Value::Number(number), _) => number,
        };
        let (wanted, hint) = match term {
            _ if self.unknown => return Err(Fault::Known),
            Term::Pointer { .. } => ("a pointer", hints::of_value("NULL")),
            _ => ("a struct or an array", hints::STORE),
        };
        let message = format!("expected {wanted}, found the number {}", number.value);
        Err(Error::new(number.span, message).hinting(hint).into())
    }

    /// The width of an integer register that a number is put beside.
    fn width(&mut self, name: &Name) -> Result<u8, Fault> {
        let register = self.register(name)?;
        match self.term_of(register) {
            _ if self.unknown => Err(Fault::Known),
            Term::Integer { width } => Ok(*width),
            _ => {
                let message = format!("expected an integer: `{}` is none", name.text);
                Err(Error::new(name.span, message).hinting(hints::ADDRESS).into())
            }
        }
    }

    /// The registers of two operands. Numbers have the width of the other side, else of the result.
    fn operands(
        &mut self,
        left: &Value,
        right: &Value,
        result: Option<&Name>,
    ) -> Result<(u8, u8), Fault> {
        let width = match (left, right, result) {
            (Value::Register(left), Value::Register(right), _) => {
                return Ok((self.register(left)?, self.register(right)?));
            }
            (Value::Register(name), ..) | (_, Value::Register(name), _) => self.width(name)?,
            (_, _, Some(result)) => self.width(result)?,
            (left, right, None) => {
                let message = "expected a register on one side: numbers alone have no width";
                return Err(Error::new(left.span().to(right.span()), message).into());
            }
        };
        Ok((self.value(left, width)?, self.value(right, width)?))
    }

    fn statement(&mut self, statement: &'t Statement, span: Span) -> Result<(), Fault> {
        let made = match statement {
            Statement::Plain { kind, a, b, c, d } => {
                let mut number = |name: &Option<Name>| match name {
                    Some(name) => self.register(name),
                    None => Ok(0),
                };
                let (a, b, c) = (number(a)?, number(b)?, number(c)?);
                if let (27 | 28, Term::Pointer { region, .. }) = (kind, self.term_of(a)) {
                    self.unknown |= self.signature.unknown_regions.contains(region);
                }
                record(*kind, a, b, c, *d)
            }
            Statement::Constant { a, number } => {
                let register = self.register(a)?;
                match self.term_of(register) {
                    Term::Integer { width } => code::constant(register, constant(number, *width)?),
                    _ if number.negative => {
                        let message = "expected a constant that is not negative for a pointer";
                        return Err(Error::new(number.span, message).into());
                    }
                    _ => code::constant(register, number.value),
                }
            }
            Statement::Operation { a, left, operator, right } => {
                return self.operation(a, left, *operator, right, span);
            }
            Statement::Check { a, value } => {
                code::check(self.register(a)?, self.value(value, I32)?)
            }
            Statement::Path { a, b, path } => {
                let (a, register) = (self.register(a)?, self.register(b)?);
                code::field(a, register, self.position(b, register, path)?)
            }
            Statement::Store { a, value } => {
                let register = self.register(a)?;
                let target = match self.term_of(register) {
                    Term::Pointer { target, .. } => self.form_of(*target),
                    other => other,
                };
                code::store(register, self.value_of(value, target)?)
            }
            Statement::Form { a, place } => code::form(self.register(a)?, self.value(place, I32)?),
            Statement::Output { value } => code::output(self.value(value, I8)?),
            Statement::Jump { target } => {
                self.jump(code::jump(0), target, span);
                return Ok(());
            }
            Statement::Branch { value, target } => {
                let register = self.value(value, I32)?;
                self.jump(code::branch(register, 0), target, span);
                return Ok(());
            }
            Statement::Compare { left, operator, right, target } => {
                return self.compare(left, *operator, right, target, span);
            }
            Statement::Call { a, function, regions, arguments } => {
                let [call, list] = self.call(a, function, regions, arguments)?;
                self.push(call, span);
                list
            }
            Statement::Return { value } => {
                let term = self.form_of(self.signature.return_term);
                self.unknown |= self.signature.unknown_result;
                code::ret(self.value_of(value, term)?)
            }
        };
        self.push(made, span);
        Ok(())
    }

    /// `a = b > c` is `a = c < b`, and `a = b != c` the other of 0 and 1 than `a = b == c`.
    fn operation(
        &mut self,
        a: &Name,
        left: &Value,
        operator: Operator,
        right: &Value,
        span: Span,
    ) -> Result<(), Fault> {
        let result = (!operator.compares()).then_some(a);
        let (left, right) = self.operands(left, right, result)?;
        let (first, second) = if operator.swapped { (right, left) } else { (left, right) };
        let a = self.register(a)?;
        self.push(code::operation(operator.operation, a, first, second), span);
        if operator.negated {
            let one = self.added(I8, 0);
            self.push(code::constant(one, 1), span);
            self.push(code::operation(code::EXCLUSIVE_OR, a, a, one), span);
        }
        Ok(())
    }

    /// `if a < b goto l` compares and branches, `if a <= b goto l` branches over a jump where b < a,
    /// and `if a != b goto l` branches on the bits that differ.
    fn compare(
        &mut self,
        left: &'t Value,
        operator: Operator,
        right: &'t Value,
        target: &'t Reference,
        span: Span,
    ) -> Result<(), Fault> {
        let (first, second) = self.operands(left, right, None)?;
        if operator.negated && operator.operation == code::EQUAL {
            let either = left.register().or(right.register()).expect("a side has the width");
            let width = self.width(either)?;
            let differing = self.added(width, 0);
            self.push(code::operation(code::EXCLUSIVE_OR, differing, first, second), span);
            self.jump(code::branch(differing, 0), target, span);
            return Ok(());
        }
        let (first, second) = if operator.swapped { (second, first) } else { (first, second) };
        let flag = self.added(I8, 0);
        self.push(code::operation(operator.operation, flag, first, second), span);
        if operator.negated {
            let behind = self.next + 2;
            self.push(code::branch(flag, behind), span);
            self.jump(code::jump(0), target, span);
        } else {
            self.jump(code::branch(flag, 0), target, span);
        }
        Ok(())
    }

    /// The position of the primitive that a path leads to.
    fn position(&self, name: &Name, register: u8, path: &[Part]) -> Result<u32, Fault> {
        let module = &self.assembler.module;
        if self.unknown {
            return Err(Fault::Known);
        }
        let Term::Pointer { target, .. } = *self.term_of(register) else {
            let message = format!("expected a pointer: `{}` is none", name.text);
            return Err(Error::new(name.span, message).into());
        };
        if sizes(module).terms[usize::from(target)] > MAX_SIZE {
            let message = format!(
                "expected a target of at most 256 bytes: that of `{}` is larger or has no size; \
                 `field` takes a position all the same",
                name.text
            );
            return Err(Error::new(name.span, message).into());
        }
        let (mut term, mut position) = (target, 0);
        for part in path {
            let (inner, before) = self.part(term, part)?;
            position += before;
            term = inner;
        }
        Ok(position)
    }

    /// The term of a field or element, and the primitives before it.
    fn part(&self, term: u8, part: &Part) -> Result<(u8, u32), Error> {
        let module = &self.assembler.module;
        match (&module.terms[usize::from(term)], part) {
            (Term::Name { name, .. }, Part::Field(field)) => {
                let names = &self.assembler.fields[usize::from(*name)];
                let Some(index) = names.iter().position(|known| *known == field.text) else {
                    let message = format!("expected a field of the struct: `{}`", field.text);
                    return Error::at(field.span, message + " is none");
                };
                let terms = &module.names[usize::from(*name)].fields;
                let before = terms[..index].iter().map(|&term| primitive_count(module, term));
                Ok((terms[index], before.sum()))
            }
            (Term::Array { element, count }, Part::Element(index, _)) if index < count => {
                Ok((*element, index * primitive_count(module, *element)))
            }
            (Term::Array { count, .. }, Part::Element(_, span)) => {
                Error::at(*span, format!("expected an element below the count {count}"))
            }
            (_, Part::Field(field)) => Error::at(field.span, "expected a struct before a field"),
            (_, Part::Element(_, span)) => Error::at(*span, "expected an array before an element"),
        }
    }

    fn call(
        &mut self,
        a: &Name,
        function: &Name,
        regions: &[Reference],
        arguments: &[Value],
    ) -> Result<[Record; 2], Fault> {
        let number = self.function(function)?;
        let callee = &self.assembler.signatures[usize::from(number)];
        self.unknown |= !callee.callable;
        for (given, wanted, what) in [
            (regions.len(), callee.region_parameters, "regions"),
            (arguments.len(), callee.parameters, "arguments"),
        ] {
            if given != wanted {
                let what = if wanted == 1 { what.trim_end_matches('s') } else { what };
                let message = format!("expected {wanted} {what} for `{}`", function.text);
                let message = format!("{message}, found {given}");
                let lacks = given < wanted && what.starts_with("region");
                let hint = if lacks { hints::REGIONS } else { "" };
                return Err(Error::new(function.span, message).hinting(hint).into());
            }
        }
        let regions = regions.iter().map(|region| region_number(region, &self.regions));
        let regions = regions.collect::<Result<Vec<u8>, Fault>>()?;
        let known = |region: &u8| !self.signature.unknown_regions.contains(region);
        self.unknown |= !regions.iter().all(known);
        let a = self.register(a)?;
        let given = arguments.iter().zip(&callee.registers);
        let given = given.map(|(value, term)| self.value_of(value, self.form_of(*term)));
        let given = given.collect::<Result<Vec<u8>, Fault>>()?;
        if self.unknown {
            return Err(Fault::Known);
        }
        Ok(code::call(a, number, &regions, &given))
    }
}

/// A number in an integer's width. Whether one without a minus fits is the checker's to say.
fn constant(number: &Number, width: u8) -> Result<u32, Error> {
    let bits = 8 * u32::from(width);
    if !number.negative {
        return Ok(number.value);
    }
    if u64::from(number.value) > 1 << (bits - 1) {
        return Error::at(number.span, format!("expected a number that fits i{bits}"));
    }
    Ok(number.value.wrapping_neg() & (u32::MAX >> (32 - bits)))
}
