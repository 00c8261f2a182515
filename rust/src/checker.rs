//! The checker's verdict: refusals 5 to 8 on the tables of a module (document 01, "Typing the
//! instructions" and "From the input").

use crate::file::Refusal;
use crate::module::{decode, Function, Instruction, Module, Term, FIRST_CODE_KIND, KIND_CALL};
use crate::types::{regions_used, sizes, Type, TypeId, Types, Variable, IDENTITY, MAX_SIZE};
use std::collections::HashSet;

const I8: u8 = 1;
const I32: u8 = 4;

/// An accepted module, or the first broken rule.
pub fn check(file: &[u8]) -> Result<Module, Refusal> {
    let module = decode(file)?;
    let every = |_: &Function, _: &Instruction| true;
    let fault = size_faults(&module)
        .next()
        .or_else(|| function_faults(&module).next().map(|(_, refusal)| refusal))
        .or_else(|| typing_faults(&module, every, 1).pop())
        .or_else(|| end_faults(&module).next());
    match fault {
        Some(refusal) => Err(refusal),
        None => Ok(module),
    }
}

/// What of a function a broken rule is about.
#[derive(Clone, Copy, PartialEq, Eq, Debug)]
pub enum Part {
    Head,
    Region(usize),
    Register(usize),
    Result,
}

/// Every broken rule in the order of the checker, with the part of the function it is about. Code is
/// asked as far as its types are sound: no instruction with a register whose type breaks a rule or
/// names a region that its function lacks, and no call of a function that breaks a rule itself.
pub fn faults(module: &Module) -> Vec<(Part, Refusal)> {
    let mut faults: Vec<(Part, Refusal)> =
        size_faults(module).map(|refusal| (Part::Head, refusal)).collect();
    let sound = Sound::new(module, faults.iter().map(|(_, refusal)| refusal.place).collect());
    faults.extend(function_faults(module));
    let unsound: HashSet<usize> = faults.iter().map(|(_, refusal)| refusal.place).collect();
    let asks = |function: &Function, instruction: &Instruction| {
        sound.instruction(function, instruction, &unsound)
    };
    let typing = typing_faults(module, asks, usize::MAX);
    faults.extend(typing.into_iter().map(|refusal| (Part::Head, refusal)));
    faults.extend(end_faults(module).map(|refusal| (Part::Head, refusal)));
    faults
}

/// The terms that keep refusal 5, and whose parts and targets do.
struct Sound<'m> {
    module: &'m Module,
    terms: Vec<bool>,
}

impl<'m> Sound<'m> {
    /// What does not rest on one of these places of terms and names.
    fn new(module: &'m Module, unsound: HashSet<usize>) -> Sound<'m> {
        let places = 0..module.terms.len();
        let mut terms: Vec<bool> = places.map(|place| !unsound.contains(&place)).collect();
        let mut names: Vec<bool> =
            module.names.iter().map(|name| !unsound.contains(&name.place)).collect();
        loop {
            let before = (terms.clone(), names.clone());
            for (number, term) in module.terms.iter().enumerate() {
                terms[number] &= match term {
                    Term::Integer { .. } => true,
                    Term::Pointer { target: inner, .. } | Term::Array { element: inner, .. } => {
                        terms[usize::from(*inner)]
                    }
                    Term::Name { name, .. } => names[usize::from(*name)],
                };
            }
            for (number, name) in module.names.iter().enumerate() {
                names[number] &= name.fields.iter().all(|&field| {
                    let pointer = matches!(module.terms[usize::from(field)], Term::Pointer { .. });
                    pointer || terms[usize::from(field)]
                });
            }
            if before == (terms.clone(), names.clone()) {
                return Sound { module, terms };
            }
        }
    }

    /// Its types are sound and in scope, and so are those of the function that it calls.
    fn instruction(
        &self,
        function: &Function,
        instruction: &Instruction,
        unsound: &HashSet<usize>,
    ) -> bool {
        let regions = function.region_types.len();
        let term = |&term: &u8| {
            self.terms[usize::from(term)] && regions_used(self.module, term) <= regions
        };
        let register_type = |number: u8| function.register_types[usize::from(number)];
        let register = |number: &u8| term(&register_type(*number));
        let region =
            |number: &u8| function.region_types.get(usize::from(*number)).is_some_and(term);
        if !instruction.registers().iter().all(register) {
            return false;
        }
        match instruction.kind {
            27 | 28 => match &self.module.terms[usize::from(register_type(instruction.a))] {
                Term::Pointer { region: number, .. } => region(number),
                _ => true,
            },
            34 => term(&function.return_term),
            KIND_CALL => {
                let callee = &self.module.functions[usize::from(instruction.b)];
                let (outer, parameters) = (callee.region_parameters, callee.parameters);
                let mut head = callee.register_types[..parameters]
                    .iter()
                    .chain(&callee.region_types[..outer])
                    .chain([&callee.return_term]);
                !unsound.contains(&callee.place)
                    && head.all(|&term| self.terms[usize::from(term)])
                    && instruction.arguments[..parameters].iter().all(register)
                    && instruction.d.to_le_bytes()[..outer].iter().all(region)
            }
            _ => true,
        }
    }
}

/// The terms and names without size, over 256 bytes, with a wrong argument count or with a field
/// that uses a region its name lacks, and what is asked. Terms stand before names.
fn size_faults(module: &Module) -> impl Iterator<Item = Refusal> + '_ {
    const SIZED: &str =
        "a size of at most 256 bytes; outside pointers a struct holds only earlier structs";
    let sizes = sizes(module);
    let terms = module.terms.iter().zip(sizes.terms).enumerate();
    let terms = terms.filter_map(|(number, (term, size))| {
        if size > MAX_SIZE {
            return Some(Refusal::asking(5, number, SIZED));
        }
        match term {
            Term::Name { name, arguments }
                if module.names[usize::from(*name)].regions != arguments.len() =>
            {
                Some(Refusal::asking(5, number, "as many regions as the struct has"))
            }
            _ => None,
        }
    });
    let names = module.names.iter().zip(sizes.names).filter_map(|(name, size)| {
        let lacks = |&field: &u8| regions_used(module, field) > name.regions;
        if size > MAX_SIZE {
            return Some(Refusal::asking(5, name.place, SIZED));
        }
        name.fields.iter().any(lacks).then(|| {
            Refusal::asking(5, name.place, "fields that use only the struct's own regions")
        })
    });
    terms.chain(names)
}

/// Refusals 6, function by function.
fn function_faults(module: &Module) -> impl Iterator<Item = (Part, Refusal)> + '_ {
    module.functions.iter().enumerate().flat_map(|(number, function)| {
        let parts = unfit_parts(module, number, function).into_iter();
        parts.map(|(part, asked)| (part, Refusal::asking(6, function.place, asked)))
    })
}

/// The parts of a function that break refusal 6, and what is asked of them.
fn unfit_parts(module: &Module, number: usize, function: &Function) -> Vec<(Part, &'static str)> {
    let primitive = |&term: &u8| {
        let form = &module.terms[usize::from(term)];
        matches!(form, Term::Integer { .. } | Term::Pointer { .. })
    };
    let within = |scope: usize| move |&term: &u8| regions_used(module, term) <= scope;
    let outer = function.region_parameters;
    let inner = function.region_types.len();
    let (parameters, locals) = function.register_types.split_at(function.parameters);
    let (parameter_regions, local_regions) = function.region_types.split_at(outer);
    let mut unfit = Vec::new();
    unfit_terms(&mut unfit, &function.register_types, 0, Part::Register, primitive, PRIMITIVE);
    if !primitive(&function.return_term) {
        unfit.push((Part::Result, "the result is an integer or a pointer"));
    }
    let asked = "parameters use only region parameters";
    unfit_terms(&mut unfit, parameters, 0, Part::Register, within(outer), asked);
    let asked = "the types of region parameters use only region parameters";
    unfit_terms(&mut unfit, parameter_regions, 0, Part::Region, within(outer), asked);
    if !within(outer)(&function.return_term) {
        let asked = "the result uses only region parameters: local regions close with the return";
        unfit.push((Part::Result, asked));
    }
    let asked = "registers use only the function's regions";
    unfit_terms(&mut unfit, locals, parameters.len(), Part::Register, within(inner), asked);
    let asked = "the types of local regions use only the function's regions";
    unfit_terms(&mut unfit, local_regions, outer, Part::Region, within(inner), asked);
    if number > 0 {
        return unfit;
    }
    let i32_term = |&term: &u8| module.terms[usize::from(term)] == Term::Integer { width: I32 };
    if outer > 0 {
        unfit.push((Part::Head, "function 0 has no region parameters"));
    }
    let asked = "the parameters of function 0 are i32";
    unfit_terms(&mut unfit, parameters, 0, Part::Register, i32_term, asked);
    if !i32_term(&function.return_term) {
        unfit.push((Part::Result, "the result of function 0 is i32"));
    }
    unfit
}

/// What refusal 8 asks.
pub const ENDS: &str = "the last instruction of a function is a jump or a return";
const PRIMITIVE: &str = "registers are integers or pointers";

/// Adds those of a list of terms that do not fit, numbered from a first number on.
fn unfit_terms(
    unfit: &mut Vec<(Part, &'static str)>,
    terms: &[u8],
    first: usize,
    part: fn(usize) -> Part,
    fits: impl Fn(&u8) -> bool,
    asked: &'static str,
) {
    let wrong = terms.iter().enumerate().filter(|(_, term)| !fits(term));
    unfit.extend(wrong.map(|(index, _)| (part(first + index), asked)));
}

/// Refusals 8: the last instructions that lead past the end.
fn end_faults(module: &Module) -> impl Iterator<Item = Refusal> + '_ {
    let last = module.functions.iter().filter_map(|function| function.code.last());
    last.filter(|last| last.kind != 31 && last.kind != 34)
        .map(|last| Refusal::asking(8, last.place, ENDS))
}

/// The rule of each kind in words, from kind 16 on.
const RULES: [&str; 19] = [
    "a constant fits its register, an integer",
    "a copy's registers have equal types",
    "an operation's operands are equal integers and its result is of that type; a quotient to the nearest is of i32; comparisons give i8",
    "a conversion is from integer to integer",
    "a conversion is from integer to integer",
    "the address of a pointer goes into an i32",
    "a check makes a pointer from an i32 or a pointer",
    "a field's pointer stays in its region and points to primitives that stand at this position of the target",
    "an index goes by an i32 into a pointer's array and gives a pointer to its element in the same region",
    "a load's register has the type that its pointer points to",
    "a stored register has the type that its pointer points to",
    "a new object's pointer has a target with the primitives of its region's type",
    "a freed object's pointer has a target with the primitives of its region's type",
    "a byte of the form goes by an i32 into an i8",
    "an i8 goes to the output",
    "a jump has no rule",
    "a branch looks at an integer",
    "a call's result goes into a register of the callee's result type, with the regions put in",
    "a returned register has the function's return type",
];

/// The instructions that break their rule, as far as they are asked, and at most so many.
fn typing_faults(
    module: &Module,
    asks: impl Fn(&Function, &Instruction) -> bool,
    most: usize,
) -> Vec<Refusal> {
    let mut types = Types::new(module);
    let mut faults = Vec::new();
    for function in &module.functions {
        let mut typing = Typing::new(module, &mut types, function);
        for instruction in &function.code {
            if asks(function, instruction) && typing.rule(instruction).is_none() {
                let asked = typing.asked(instruction);
                faults.push(Refusal::asking(7, instruction.place, asked));
                if faults.len() == most {
                    return faults;
                }
            }
        }
    }
    faults
}

fn terms(types: &mut Types<Variable>, terms: &[u8]) -> Vec<TypeId> {
    terms.iter().map(|&term| types.term(term, &IDENTITY)).collect()
}

/// The types of one function's registers and regions.
pub struct Typing<'t, 'm> {
    module: &'m Module,
    pub types: &'t mut Types<'m, Variable>,
    registers: Vec<TypeId>,
    regions: Vec<TypeId>,
    return_type: TypeId,
}

/// A rule holds or does not.
fn holds(condition: bool) -> Option<()> {
    condition.then_some(())
}

impl<'t, 'm> Typing<'t, 'm> {
    pub fn new(
        module: &'m Module,
        types: &'t mut Types<'m, Variable>,
        function: &Function,
    ) -> Typing<'t, 'm> {
        let registers = terms(types, &function.register_types);
        let regions = terms(types, &function.region_types);
        let return_type = types.term(function.return_term, &IDENTITY);
        Typing { module, types, registers, regions, return_type }
    }

    pub fn register(&self, register: u8) -> TypeId {
        self.registers[usize::from(register)]
    }

    /// The width of an integer register.
    fn integer(&self, register: u8) -> Option<u8> {
        match self.types.get(self.register(register)) {
            Type::Integer(width) => Some(*width),
            _ => None,
        }
    }

    /// The target and region of a pointer register.
    pub fn pointer(&self, register: u8) -> Option<(TypeId, Variable)> {
        match self.types.get(self.register(register)) {
            Type::Pointer(target, region) => Some((*target, *region)),
            _ => None,
        }
    }

    fn region_type(&self, region: Variable) -> TypeId {
        self.regions[usize::from(region.0)]
    }

    /// The instruction keeps its kind's rule; its operands are in range.
    pub fn rule(&mut self, instruction: &Instruction) -> Option<()> {
        let Instruction { kind, a, b, c, d, .. } = *instruction;
        match kind {
            16 => {
                let width = self.integer(a)?;
                holds(u64::from(d) < 1 << (8 * u32::from(width)))
            }
            17 => holds(self.register(a) == self.register(b)),
            18 => self.operation_rule(a, b, c, d),
            19 | 20 => self.integer(a).and(self.integer(b)).map(|_| ()),
            21 => self.pointer(b).and(holds(self.integer(a) == Some(I32))),
            22 => {
                self.pointer(a)?;
                holds(self.integer(b) == Some(I32) || self.pointer(b).is_some())
            }
            23 => {
                let (whole, from) = self.pointer(b)?;
                let (part, to) = self.pointer(a)?;
                holds(from == to && self.types.stands_at(part, whole, d as usize))
            }
            24 => {
                let (array, from) = self.pointer(b)?;
                let (target, to) = self.pointer(a)?;
                let Type::Array(_, element) = *self.types.get(array) else {
                    return None;
                };
                holds(self.integer(c) == Some(I32) && target == element && from == to)
            }
            25 => holds(self.pointer(b)?.0 == self.register(a)),
            26 => holds(self.pointer(a)?.0 == self.register(b)),
            27 | 28 => {
                let (target, region) = self.pointer(a)?;
                let whole = self.region_type(region);
                holds(self.types.primitives(target) == self.types.primitives(whole))
            }
            29 => holds(self.integer(a) == Some(I8) && self.integer(c) == Some(I32)),
            30 => holds(self.integer(b) == Some(I8)),
            31 => Some(()),
            32 => self.integer(a).map(|_| ()),
            KIND_CALL => self.call_rule(instruction),
            _ => holds(self.register(a) == self.return_type),
        }
    }

    fn operation_rule(&self, a: u8, b: u8, c: u8, operation: u32) -> Option<()> {
        let width = self.integer(b)?;
        let result = self.integer(a)?;
        holds(self.integer(c) == Some(width))?;
        holds(match operation {
            0..=9 => result == width,
            10 => result == I32 && width == I32,
            _ => result == I8,
        })
    }

    /// The rule that the instruction breaks, in words; of a call the part of it that is broken first.
    fn asked(&mut self, instruction: &Instruction) -> &'static str {
        match instruction.kind {
            KIND_CALL if self.regions_fit(instruction).is_none() => {
                "each region given to a call holds the type that the callee's region holds, with the regions put in"
            }
            KIND_CALL if self.arguments_fit(instruction).is_none() => {
                "each argument of a call has the type of the callee's parameter, with the regions put in"
            }
            kind => RULES[usize::from(kind - FIRST_CODE_KIND)],
        }
    }

    /// The function that is called, and the regions given to it, of which the first so many count.
    fn callee(&self, call: &Instruction) -> (&'m Function, [Variable; 4]) {
        (&self.module.functions[usize::from(call.b)], call.d.to_le_bytes().map(Variable))
    }

    fn regions_fit(&mut self, call: &Instruction) -> Option<()> {
        let (callee, given) = self.callee(call);
        let given = &given[..callee.region_parameters];
        for (&region, &written) in given.iter().zip(&callee.region_types) {
            holds(self.region_type(region) == self.types.term(written, given))?;
        }
        Some(())
    }

    fn arguments_fit(&mut self, call: &Instruction) -> Option<()> {
        let (callee, given) = self.callee(call);
        let written = &callee.register_types[..callee.parameters];
        for (&argument, &written) in call.arguments.iter().zip(written) {
            holds(self.register(argument) == self.types.term(written, &given))?;
        }
        Some(())
    }

    fn call_rule(&mut self, call: &Instruction) -> Option<()> {
        self.regions_fit(call)?;
        self.arguments_fit(call)?;
        let (callee, given) = self.callee(call);
        holds(self.register(call.a) == self.types.term(callee.return_term, &given))
    }
}
