//! The tables of a module and refusal 4 (document 01, "The module file" and "From the input").
//! The walk gives each record it reaches a role, by kinds and counts as written; then each record
//! is tested in its role. Behind the record where the walk breaks nothing is known.

use crate::file::{records, Record, Refusal};

pub const MAX_TERMS: usize = 128;
pub const MAX_NAMES: usize = 32;
pub const MAX_FUNCTIONS: usize = 32;
pub const MAX_INSTRUCTIONS: usize = 1024;
pub const MAX_REGISTERS: usize = 28;
/// Parameters of a function, and fields of a name.
pub const MAX_LIST: usize = 7;
/// Region variables that a function has, and that a term can write.
pub const MAX_REGIONS: usize = 7;
pub const MAX_REGION_PARAMETERS: usize = 4;
pub const MAX_ARRAY: u32 = 256;
pub const LAST_OPERATION: u32 = 13;

pub const KIND_INTEGER: u8 = 1;
pub const KIND_POINTER: u8 = 2;
pub const KIND_ARRAY: u8 = 3;
pub const KIND_NAME_TERM: u8 = 4;
pub const KIND_NAME: u8 = 5;
pub const KIND_FIELDS: u8 = 6;
pub const KIND_FUNCTION: u8 = 7;
pub const KIND_REGION_TYPES: u8 = 8;
pub const KIND_REGISTER_TYPES: u8 = 9;
pub const KIND_CALL: u8 = 33;
pub const KIND_ARGUMENTS: u8 = 35;
pub const FIRST_CODE_KIND: u8 = 16;
pub const LAST_CODE_KIND: u8 = 34;

/// What is asked of a jump and a branch.
pub const TARGET: &str = "a target below the function's number of instructions";

/// A type term; `target`, `element` and `name` are numbers of earlier terms and of a name.
#[derive(Clone, PartialEq, Eq, Debug)]
pub enum Term {
    Integer { width: u8 },
    Pointer { target: u8, region: u8 },
    Array { element: u8, count: u32 },
    Name { name: u8, arguments: Vec<u8> },
}

/// A name: a struct with region variables. `place` is its record 5.
#[derive(Clone, PartialEq, Eq, Debug)]
pub struct Name {
    pub place: usize,
    pub regions: usize,
    pub fields: Vec<u8>,
}

/// An instruction; `arguments` is record 35's list, zero for all kinds but 33.
#[derive(Clone, Copy, PartialEq, Eq, Debug)]
pub struct Instruction {
    pub place: usize,
    pub kind: u8,
    pub a: u8,
    pub b: u8,
    pub c: u8,
    pub d: u32,
    pub arguments: [u8; MAX_LIST],
}

impl Instruction {
    /// The registers among a, b, c.
    pub fn registers(&self) -> Vec<u8> {
        let classes = OPERANDS[usize::from(self.kind - FIRST_CODE_KIND)];
        let operands = [self.a, self.b, self.c].into_iter().zip(classes);
        operands.filter(|(_, class)| *class == Operand::Register).map(|(value, _)| value).collect()
    }
}

/// A function. `place` is its record 7; `region_types` has parameters first, then locals.
#[derive(Clone, PartialEq, Eq, Debug)]
pub struct Function {
    pub place: usize,
    pub region_parameters: usize,
    pub region_types: Vec<u8>,
    pub parameters: usize,
    pub register_types: Vec<u8>,
    pub return_term: u8,
    pub code: Vec<Instruction>,
}

/// A module without refusals 1 to 4. Term i is record i of the file.
#[derive(Clone, PartialEq, Eq, Debug)]
pub struct Module {
    pub terms: Vec<Term>,
    pub names: Vec<Name>,
    pub functions: Vec<Function>,
}

impl Module {
    /// Instructions of all functions; record 35 is not counted.
    pub fn instructions(&self) -> usize {
        self.functions.iter().map(|function| function.code.len()).sum()
    }
}

/// What an operand of an instruction is.
#[derive(Clone, Copy, PartialEq, Eq)]
enum Operand {
    Unused,
    Register,
    Any,
    Operation,
    Target,
    Function,
    Regions,
}

/// The operand classes of a, b, c, d for kinds 16 to 34.
const OPERANDS: [[Operand; 4]; 19] = {
    use Operand::{Any, Function, Operation, Regions, Register as R, Target, Unused as U};
    [
        [R, U, U, Any],            // 16 constant
        [R, R, U, U],              // 17 copy
        [R, R, R, Operation],      // 18 operation
        [R, R, U, U],              // 19 zero-extend or cut
        [R, R, U, U],              // 20 sign-extend or cut
        [R, R, U, U],              // 21 pointer to i32
        [R, R, U, U],              // 22 check
        [R, R, U, Any],            // 23 field
        [R, R, R, U],              // 24 index
        [R, R, U, U],              // 25 load
        [R, R, U, U],              // 26 store
        [R, U, U, U],              // 27 new
        [R, U, U, U],              // 28 free
        [R, U, R, U],              // 29 form
        [U, R, U, U],              // 30 output
        [U, U, U, Target],         // 31 jump
        [R, U, U, Target],         // 32 branch
        [R, Function, U, Regions], // 33 call
        [R, U, U, U],              // 34 return
    ]
};

/// What a record is in the file; functions by number, other indexes within their table or list.
#[derive(Clone, Copy)]
enum Role {
    Term(usize),
    Name(usize),
    Fields { header: Record },
    Function(usize),
    RegionTypes(usize),
    RegisterTypes { function: usize, from: usize },
    Instruction(usize),
    Arguments { function: usize, callee: u8 },
    Filler,
}

/// The roles of the records up to the break, and what the tables hold as far as reached.
struct Walk<'r> {
    records: &'r [Record],
    roles: Vec<Role>,
    terms: usize,
    names: usize,
    /// Record 7 of each function reached.
    functions: Vec<Record>,
    names_ended: bool,
    functions_ended: bool,
    broken: bool,
}

impl Walk<'_> {
    fn new(records: &[Record]) -> Walk<'_> {
        let mut walk = Walk {
            records,
            roles: Vec::with_capacity(records.len()),
            terms: 0,
            names: 0,
            functions: Vec::new(),
            names_ended: false,
            functions_ended: false,
            broken: false,
        };
        walk.broken = walk.tables().is_none();
        walk
    }

    /// The record that stands next, none at the file's end.
    fn next(&self) -> Option<Record> {
        self.records.get(self.roles.len()).copied()
    }

    fn next_kind(&self) -> Option<u8> {
        self.next().map(|record| record.kind())
    }

    /// Takes the next record in this role if it has this kind; none breaks the walk here.
    fn expect(&mut self, kind: u8, role: Role) -> Option<()> {
        (self.next_kind()? == kind).then(|| self.roles.push(role))
    }

    fn tables(&mut self) -> Option<()> {
        while let Some(KIND_INTEGER..=KIND_NAME_TERM) = self.next_kind() {
            self.roles.push(Role::Term(self.terms));
            self.terms += 1;
        }
        while let Some(header) = self.next().filter(|record| record.kind() == KIND_NAME) {
            self.roles.push(Role::Name(self.names));
            self.names += 1;
            self.expect(KIND_FIELDS, Role::Fields { header })?;
        }
        self.names_ended = matches!(self.next_kind(), None | Some(0 | KIND_FUNCTION));
        while let Some(header) = self.next().filter(|record| record.kind() == KIND_FUNCTION) {
            self.function(header)?;
        }
        self.functions_ended = matches!(self.next_kind(), None | Some(0));
        if !self.functions_ended || self.functions.is_empty() {
            return None;
        }
        self.roles.resize(self.records.len(), Role::Filler);
        Some(())
    }

    fn function(&mut self, header: Record) -> Option<()> {
        let function = self.functions.len();
        self.roles.push(Role::Function(function));
        self.functions.push(header);
        if written_regions(&header) > 0 {
            self.expect(KIND_REGION_TYPES, Role::RegionTypes(function))?;
        }
        for from in (0..usize::from(header.c())).step_by(MAX_LIST) {
            self.expect(KIND_REGISTER_TYPES, Role::RegisterTypes { function, from })?;
        }
        for _ in 0..written_instructions(&header) {
            let record = self.next()?;
            if !(FIRST_CODE_KIND..=LAST_CODE_KIND).contains(&record.kind()) {
                return None;
            }
            self.roles.push(Role::Instruction(function));
            if record.kind() == KIND_CALL {
                let callee = record.b();
                self.expect(KIND_ARGUMENTS, Role::Arguments { function, callee })?;
            }
        }
        Some(())
    }

    /// The lowest record at fault, one before the break or the break itself, and what was asked.
    fn first_fault(&self) -> Option<(usize, &'static str)> {
        let pairs = self.records.iter().zip(&self.roles).enumerate();
        let mut faults = pairs.filter_map(|(place, (record, role))| {
            self.record_fits(record, *role).err().map(|asked| (place, asked))
        });
        faults.next().or(self.broken.then(|| (self.roles.len(), self.wanted())))
    }

    /// What should stand where the walk breaks.
    fn wanted(&self) -> &'static str {
        let lists = |function: usize| {
            let roles = self.roles.iter();
            roles.filter(|role| matches!(role, Role::RegisterTypes { function: of, .. } if *of == function)).count()
        };
        let Some(role) = self.roles.last() else {
            return "a type, a struct or a function (kinds 1 to 5, 7) stands here";
        };
        match *role {
            Role::Name(_) => "the struct's fields (kind 6) stand here",
            Role::Function(function) if written_regions(&self.functions[function]) > 0 => {
                "the function's region types (kind 8) stand here"
            }
            Role::Function(function)
            | Role::RegionTypes(function)
            | Role::RegisterTypes { function, .. }
                if MAX_LIST * lists(function) < usize::from(self.functions[function].c()) =>
            {
                "register types (kind 9), seven to a record, stand here"
            }
            Role::Instruction(_) if self.records[self.roles.len() - 1].kind() == KIND_CALL => {
                "a call's arguments (kind 35) stand here"
            }
            Role::Instruction(function) | Role::Arguments { function, .. }
                if self.instructions_of(function)
                    == written_instructions(&self.functions[function]) =>
            {
                "a function (kind 7) or filler (kind 0) stands here"
            }
            Role::Term(_) | Role::Fields { .. } | Role::Filler => {
                "a type, a struct or a function stands here, types before structs before functions"
            }
            _ => "an instruction (kinds 16 to 34) stands here, as many as the function says",
        }
    }

    fn instructions_of(&self, function: usize) -> usize {
        let roles = self.roles.iter();
        roles.filter(|role| matches!(role, Role::Instruction(of) if *of == function)).count()
    }

    /// No value of this record is out of its range, names nothing or is set without use.
    fn record_fits(&self, record: &Record, role: Role) -> Fits {
        match role {
            Role::Term(number) => {
                asks(number < MAX_TERMS, "at most 128 types")?;
                self.term_fits(record, number)
            }
            Role::Name(number) => {
                asks(number < MAX_NAMES, "at most 32 structs")?;
                asks(usize::from(record.a()) <= MAX_REGION_PARAMETERS, "0 to 4 regions (a)")?;
                asks((1..=MAX_LIST).contains(&usize::from(record.b())), "1 to 7 fields (b)")?;
                asks(record.c() == 0 && record.d() == 0, "c and d are not used and zero")
            }
            Role::Fields { header } => self.term_list_fits(record, usize::from(header.b())),
            Role::Function(number) => self.header_fits(record, number),
            Role::RegionTypes(function) => {
                self.term_list_fits(record, written_regions(&self.functions[function]))
            }
            Role::RegisterTypes { function, from } => {
                let registers = usize::from(self.functions[function].c());
                self.term_list_fits(record, registers - from)
            }
            Role::Instruction(function) => self.instruction_fits(record, function),
            Role::Arguments { function, callee } => {
                let used = self.callee(callee).map(written_parameters);
                let registers = usize::from(self.functions[function].c());
                let fits = list_fits(&record.list(), used, registers);
                asks(fits, "a register of the caller for each parameter of the callee, then zeros")
            }
            Role::Filler => asks(record.0 == [0; 8], "filler is all zero"),
        }
    }

    fn header_fits(&self, record: &Record, number: usize) -> Fits {
        let registers = usize::from(record.c());
        let parameters = written_parameters(record);
        asks(number < MAX_FUNCTIONS, "at most 32 functions")?;
        asks(usize::from(record.a()) <= MAX_REGION_PARAMETERS, "0 to 4 region parameters (a)")?;
        asks(written_regions(record) <= MAX_REGIONS, "at most 7 regions (a + b)")?;
        asks((1..=MAX_REGISTERS).contains(&registers), "1 to 28 registers (c)")?;
        asks(usize::from(written_return(record)) < self.terms, "a return type that is there")?;
        asks(parameters <= MAX_LIST, "0 to 7 parameters (byte 5)")?;
        asks(parameters <= registers, "no more parameters than registers")?;
        let instructions = written_instructions(record);
        asks((1..=MAX_INSTRUCTIONS).contains(&instructions), "1 to 1,024 instructions")
    }

    fn instruction_fits(&self, record: &Record, function: usize) -> Fits {
        let header = &self.functions[function];
        let d = record.d();
        let classes = OPERANDS[usize::from(record.kind() - FIRST_CODE_KIND)];
        let values = [record.a(), record.b(), record.c()].map(u32::from);
        for (value, class) in values.into_iter().chain([d]).zip(classes) {
            match class {
                Operand::Unused => asks(value == 0, "bytes that the kind does not use are zero"),
                Operand::Register => {
                    asks(value < u32::from(header.c()), "registers that the function has")
                }
                Operand::Any => Ok(()),
                Operand::Operation => asks(value <= LAST_OPERATION, "an operation from 0 to 13"),
                Operand::Target => asks((value as usize) < written_instructions(header), TARGET),
                Operand::Function => asks(
                    !self.functions_ended || (value as usize) < self.functions.len(),
                    "a function that is there",
                ),
                Operand::Regions => {
                    let used = self.callee(record.b()).map(|callee| usize::from(callee.a()));
                    let fits = list_fits(&record.d_bytes(), used, written_regions(header));
                    asks(fits, "a region of the caller for each of the callee's, then zeros")
                }
            }?;
        }
        Ok(())
    }

    fn term_fits(&self, record: &Record, number: usize) -> Fits {
        let earlier = usize::from(record.a()) < number;
        let region = usize::from(record.b()) < MAX_REGIONS;
        let unused = |bytes: bool| asks(bytes, "bytes that the kind does not use are zero");
        let (no_b, no_c, no_d) = (record.b() == 0, record.c() == 0, record.d() == 0);
        match record.kind() {
            KIND_INTEGER => {
                asks(matches!(record.a(), 1 | 2 | 4), "a width of 1, 2 or 4 bytes (a)")?;
                unused(no_b && no_c && no_d)
            }
            KIND_POINTER => {
                asks(earlier, "a pointer's target is an earlier type (a)")?;
                asks(region, "a region from 0 to 6 (b)")?;
                unused(no_c && no_d)
            }
            KIND_ARRAY => {
                asks(earlier, "an array's element is an earlier type (a)")?;
                asks((1..=MAX_ARRAY).contains(&record.d()), "a count from 1 to 256 (d)")?;
                unused(no_b && no_c)
            }
            _ => {
                let arguments = usize::from(record.b());
                let named = !self.names_ended || usize::from(record.a()) < self.names;
                asks(named, "a struct that is there (a)")?;
                asks(arguments <= MAX_REGION_PARAMETERS, "0 to 4 region arguments (b)")?;
                let fits = list_fits(&record.d_bytes(), Some(arguments), MAX_REGIONS);
                asks(fits, "a region from 0 to 6 for each argument, then zeros (d)")?;
                unused(no_c)
            }
        }
    }

    fn term_list_fits(&self, record: &Record, used: usize) -> Fits {
        let fits = list_fits(&record.list(), Some(used), self.terms);
        asks(fits, "types that are there, as many as the list has, then zeros")
    }

    /// Record 7 of a function that the walk has reached.
    fn callee(&self, function: u8) -> Option<&Record> {
        self.functions.get(usize::from(function))
    }
}

/// Nothing, or what is asked and not so.
type Fits = Result<(), &'static str>;

fn asks(condition: bool, what: &'static str) -> Fits {
    condition.then_some(()).ok_or(what)
}

/// The bytes in use are below the limit, the others zero. How many are in use may be unknown (of
/// a callee behind the break): then each may be either.
fn list_fits(bytes: &[u8], used: Option<usize>, limit: usize) -> bool {
    bytes.iter().enumerate().all(|(i, &byte)| {
        let in_range = usize::from(byte) < limit;
        match used {
            Some(used) if i < used => in_range,
            Some(_) => byte == 0,
            None => in_range || byte == 0,
        }
    })
}

fn written_regions(header: &Record) -> usize {
    usize::from(header.a()) + usize::from(header.b())
}

fn written_return(header: &Record) -> u8 {
    header.0[4]
}

fn written_parameters(header: &Record) -> usize {
    usize::from(header.0[5])
}

fn written_instructions(header: &Record) -> usize {
    usize::from(u16::from_le_bytes([header.0[6], header.0[7]]))
}

/// The tables of a file, or refusal 1, 2, 3 or 4.
pub fn decode(file: &[u8]) -> Result<Module, Refusal> {
    let records = records(file)?;
    let walk = Walk::new(&records);
    if let Some((place, asked)) = walk.first_fault() {
        return Err(Refusal::asking(4, place, asked));
    }
    let mut module = Module {
        terms: Vec::with_capacity(walk.terms),
        names: Vec::with_capacity(walk.names),
        functions: Vec::with_capacity(walk.functions.len()),
    };
    for (place, (record, role)) in records.iter().zip(&walk.roles).enumerate() {
        match *role {
            Role::Term(_) => module.terms.push(term(record)),
            Role::Name(_) => module.names.push(Name {
                place,
                regions: usize::from(record.a()),
                fields: Vec::new(),
            }),
            Role::Fields { header } => {
                let name = module.names.last_mut().expect("a 6 follows a 5");
                name.fields = record.list()[..usize::from(header.b())].to_vec();
            }
            Role::Function(_) => module.functions.push(Function {
                place,
                region_parameters: usize::from(record.a()),
                region_types: Vec::new(),
                parameters: written_parameters(record),
                register_types: Vec::new(),
                return_term: written_return(record),
                code: Vec::with_capacity(written_instructions(record)),
            }),
            Role::RegionTypes(function) => {
                let used = written_regions(&walk.functions[function]);
                module.functions[function].region_types = record.list()[..used].to_vec();
            }
            Role::RegisterTypes { function, from } => {
                let used = (usize::from(walk.functions[function].c()) - from).min(MAX_LIST);
                let types = &mut module.functions[function].register_types;
                types.extend_from_slice(&record.list()[..used]);
            }
            Role::Instruction(function) => module.functions[function].code.push(Instruction {
                place,
                kind: record.kind(),
                a: record.a(),
                b: record.b(),
                c: record.c(),
                d: record.d(),
                arguments: [0; MAX_LIST],
            }),
            Role::Arguments { function, .. } => {
                let call = module.functions[function].code.last_mut();
                call.expect("a 35 follows a 33").arguments = record.list();
            }
            Role::Filler => break,
        }
    }
    Ok(module)
}

fn term(record: &Record) -> Term {
    match record.kind() {
        KIND_INTEGER => Term::Integer { width: record.a() },
        KIND_POINTER => Term::Pointer { target: record.a(), region: record.b() },
        KIND_ARRAY => Term::Array { element: record.a(), count: record.d() },
        _ => Term::Name {
            name: record.a(),
            arguments: record.d_bytes()[..usize::from(record.b())].to_vec(),
        },
    }
}
