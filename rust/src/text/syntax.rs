//! A parsed text: what is written, names not yet resolved.

use super::lexer::Span;
use crate::file::Record;
use std::fmt;

/// A word with its place.
#[derive(Clone, PartialEq, Eq, Debug)]
pub struct Name {
    pub text: String,
    pub span: Span,
}

/// A region or a branch target: by name, or by number.
#[derive(Clone, PartialEq, Eq, Debug)]
pub enum Reference {
    Named(Name),
    Number(u32, Span),
}

#[derive(Clone, PartialEq, Eq, Debug)]
pub struct Type {
    pub form: TypeForm,
    pub span: Span,
}

#[derive(Clone, PartialEq, Eq, Debug)]
pub enum TypeForm {
    Integer(u8),
    Pointer(Box<Type>, Reference),
    Array(Box<Type>, u32),
    /// A struct with its regions, or a named type.
    Named(String, Vec<Reference>),
    /// What could not be read, which is an error already.
    Unknown,
}

/// A field, register or region with its type.
#[derive(Clone, PartialEq, Eq, Debug)]
pub struct Typed {
    pub name: Name,
    pub written: Type,
}

#[derive(Clone, PartialEq, Eq, Debug)]
pub struct Struct {
    pub name: Name,
    pub regions: Vec<Name>,
    pub fields: Vec<Typed>,
}

/// Regions and registers have the parameters first.
#[derive(Clone, PartialEq, Eq, Debug)]
pub struct Function {
    pub name: Name,
    pub region_parameters: usize,
    pub regions: Vec<Typed>,
    pub parameters: usize,
    pub registers: Vec<Typed>,
    pub return_type: Type,
    pub code: Vec<Line>,
    /// The closing brace.
    pub end: Span,
}

#[derive(Clone, PartialEq, Eq, Debug)]
pub enum Line {
    Label(Name),
    Instruction(Statement, Span),
    Raw(Record, Span),
    /// What could not be read, which is an error already.
    Unknown,
}

/// A step into a struct's field or an array's element.
#[derive(Clone, PartialEq, Eq, Debug)]
pub enum Part {
    Field(Name),
    Element(u32, Span),
}

/// What is read: a register or a number.
#[derive(Clone, PartialEq, Eq, Debug)]
pub enum Value {
    Register(Name),
    Number(Number),
}

/// A number as it is written; a minus may stand before it.
#[derive(Clone, PartialEq, Eq, Debug)]
pub struct Number {
    pub value: u32,
    pub negative: bool,
    pub span: Span,
}

/// How an operator is made of an operation of kind 18.
#[derive(Clone, Copy, PartialEq, Eq, Debug)]
pub struct Operator {
    pub operation: u32,
    /// The right side is the operation's first operand.
    pub swapped: bool,
    /// The operation's 0 means 1.
    pub negated: bool,
}

/// An instruction. `Plain` has the forms whose operands are registers and a number of the format.
#[derive(Clone, PartialEq, Eq, Debug)]
pub enum Statement {
    Plain { kind: u8, a: Option<Name>, b: Option<Name>, c: Option<Name>, d: u32 },
    Constant { a: Name, number: Number },
    Operation { a: Name, left: Value, operator: Operator, right: Value },
    Check { a: Name, value: Value },
    Path { a: Name, b: Name, path: Vec<Part> },
    Store { a: Name, value: Value },
    Form { a: Name, place: Value },
    Output { value: Value },
    Jump { target: Reference },
    Branch { value: Value, target: Reference },
    Compare { left: Value, operator: Operator, right: Value, target: Reference },
    Call { a: Name, function: Name, regions: Vec<Reference>, arguments: Vec<Value> },
    Return { value: Value },
}

/// What a text can say about its file beyond the records.
#[derive(Clone, PartialEq, Eq, Debug)]
pub enum FileLine {
    Blocks(u32),
    Byte { at: u32, value: u32 },
    Check { block: u32, value: u32 },
    Length(u32),
}

#[derive(Clone, PartialEq, Eq, Debug)]
pub enum Item {
    Type {
        name: Name,
        written: Type,
    },
    Struct(Struct),
    Function(Function),
    Raw(Record, Span),
    File(FileLine, Span),
    /// A type or struct of which only the name could be read.
    Unknown(Name),
    /// The same of a function.
    UnknownFunction(Name),
}

impl Type {
    /// The type with regions put for those of the struct that it is written in.
    pub fn with(&self, own: &[Name], given: &[Reference]) -> Type {
        let region = |written: &Reference| {
            let at = match written {
                Reference::Named(name) => own.iter().position(|own| own.text == name.text),
                Reference::Number(number, _) => Some(*number as usize),
            };
            at.and_then(|at| given.get(at)).unwrap_or(written).clone()
        };
        let inner = |inner: &Type| Box::new(inner.with(own, given));
        let form = match &self.form {
            TypeForm::Pointer(target, written) => TypeForm::Pointer(inner(target), region(written)),
            TypeForm::Array(element, count) => TypeForm::Array(inner(element), *count),
            TypeForm::Named(name, regions) => {
                TypeForm::Named(name.clone(), regions.iter().map(region).collect())
            }
            TypeForm::Integer(_) | TypeForm::Unknown => self.form.clone(),
        };
        Type { form, span: self.span }
    }
}

/// A type as the text writes it.
impl fmt::Display for Type {
    fn fmt(&self, out: &mut fmt::Formatter) -> fmt::Result {
        match &self.form {
            TypeForm::Integer(width) => write!(out, "i{}", 8 * u32::from(*width)),
            TypeForm::Pointer(target, region) => write!(out, "*{target} in {region}"),
            TypeForm::Array(element, count) => write!(out, "[{element}; {count}]"),
            TypeForm::Named(name, regions) if regions.is_empty() => write!(out, "{name}"),
            TypeForm::Named(name, regions) => {
                let regions: Vec<String> = regions.iter().map(Reference::to_string).collect();
                write!(out, "{name}({})", regions.join(", "))
            }
            TypeForm::Unknown => write!(out, "unknown"),
        }
    }
}

impl fmt::Display for Reference {
    fn fmt(&self, out: &mut fmt::Formatter) -> fmt::Result {
        match self {
            Reference::Named(name) => write!(out, "{}", name.text),
            Reference::Number(number, _) => write!(out, "{number}"),
        }
    }
}

impl Operator {
    pub fn compares(self) -> bool {
        self.operation >= FIRST_COMPARISON
    }
}

impl Statement {
    /// The names of registers in the statement.
    pub fn registers(&self) -> Vec<&Name> {
        fn of<'s>(values: &[&'s Value]) -> Vec<&'s Name> {
            values.iter().filter_map(|value| value.register()).collect()
        }
        match self {
            Statement::Plain { a, b, c, .. } => [a, b, c].into_iter().flatten().collect(),
            Statement::Constant { a, .. } => vec![a],
            Statement::Path { a, b, .. } => vec![a, b],
            Statement::Operation { a, left, right, .. } => [vec![a], of(&[left, right])].concat(),
            Statement::Check { a, value }
            | Statement::Store { a, value }
            | Statement::Form { a, place: value } => [vec![a], of(&[value])].concat(),
            Statement::Output { value }
            | Statement::Branch { value, .. }
            | Statement::Return { value } => of(&[value]),
            Statement::Compare { left, right, .. } => of(&[left, right]),
            Statement::Jump { .. } => Vec::new(),
            Statement::Call { a, arguments, .. } => {
                [vec![a], arguments.iter().filter_map(Value::register).collect()].concat()
            }
        }
    }
}

impl Value {
    pub fn register(&self) -> Option<&Name> {
        match self {
            Value::Register(name) => Some(name),
            Value::Number(_) => None,
        }
    }

    pub fn span(&self) -> Span {
        match self {
            Value::Register(name) => name.span,
            Value::Number(number) => number.span,
        }
    }
}

/// Words that cannot be names.
pub const KEYWORDS: [&str; 24] = [
    "i8", "i16", "i32", "in", "type", "struct", "fn", "region", "reg", "raw", "file", "unsigned",
    "signed", "nearest", "address", "check", "field", "new", "free", "form", "output", "goto",
    "if", "return",
];

/// The operations of kind 18 by number.
pub const OPERATIONS: [&str; 14] =
    ["+", "-", "*", "&", "|", "^", "<<", ">>", "/", "%", "/ nearest", "==", "<", "< signed"];

/// The first of the operations that compare.
const FIRST_COMPARISON: u32 = 11;

/// Instructions of the form `a = WORD b` with a register.
pub const CONVERSIONS: [(&str, u8); 4] =
    [("unsigned", 19), ("signed", 20), ("address", 21), ("check", 22)];

/// Comparisons beside those of kind 18: the one that they are made of, whether its operands are
/// swapped, and whether its 0 means 1.
const COMPARISONS: [(&str, &str, bool, bool); 7] = [
    ("!=", "==", false, true),
    (">", "<", true, false),
    ("<=", "<", true, true),
    (">=", "<", false, true),
    ("> signed", "< signed", true, false),
    ("<= signed", "< signed", true, true),
    (">= signed", "< signed", false, true),
];

/// The operator of a sign, with its word if it has one.
pub fn operator(written: &str) -> Option<Operator> {
    let known = COMPARISONS.iter().find(|(sign, ..)| *sign == written);
    let (sign, swapped, negated) = known
        .map_or((written, false, false), |&(_, made_of, swapped, negated)| {
            (made_of, swapped, negated)
        });
    let operation = OPERATIONS.iter().position(|known| *known == sign)? as u32;
    Some(Operator { operation, swapped, negated })
}
