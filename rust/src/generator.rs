//! Random modules that are accepted and run. Types, signatures and registers are drawn first,
//! with regions that fit the callees; code is then drawn from the instructions that the
//! registers' types allow. Nothing here decides what an answer should be.

use crate::builder::{self, code, FunctionBuilder, ModuleBuilder};
use crate::checker::Typing;
use crate::file::Record;
use crate::module::{
    Function, Instruction, Module, Name, Term, KIND_ARGUMENTS, KIND_CALL, MAX_INSTRUCTIONS,
    MAX_LIST, MAX_REGIONS, MAX_REGISTERS, MAX_TERMS,
};
use crate::prng::Prng;
use crate::state::PAGE_BYTES;
use crate::types::{regions_used, sizes, Type, Types, Variable, MAX_SIZE, NO_SIZE};

/// A module with what a run of it is lent.
#[derive(Clone, Debug)]
pub struct Sample {
    pub records: Vec<Record>,
    pub arguments: Vec<u8>,
    pub form: Vec<u8>,
}

impl Sample {
    pub fn file(&self) -> Vec<u8> {
        builder::file(&self.records)
    }
}

/// Names stay below this, so that arrays of them have a size.
const NAME_SIZE: u32 = 40;

/// A call that the regions of caller and callee allow.
#[derive(Clone, Debug)]
struct PlannedCall {
    callee: usize,
    regions: Vec<u8>,
}

/// The number of this term: that of an equal one, or sometimes a new one although one is there.
fn intern(rng: &mut Prng, terms: &mut Vec<Term>, term: Term) -> Option<u8> {
    let known = terms.iter().position(|other| *other == term);
    match known {
        Some(number) if terms.len() > MAX_TERMS - 24 || rng.percent(85) => Some(number as u8),
        _ if terms.len() < MAX_TERMS => {
            terms.push(term);
            Some((terms.len() - 1) as u8)
        }
        _ => None,
    }
}

/// A term with other regions put for its variables, if there is room for its parts.
fn substitute(rng: &mut Prng, terms: &mut Vec<Term>, term: u8, regions: &[u8]) -> Option<u8> {
    let put = match terms[usize::from(term)].clone() {
        Term::Integer { .. } => return Some(term),
        Term::Pointer { target, region } => {
            let target = substitute(rng, terms, target, regions)?;
            let region = *regions.get(usize::from(region))?;
            Term::Pointer { target, region }
        }
        Term::Array { element, count } => {
            let element = substitute(rng, terms, element, regions)?;
            Term::Array { element, count }
        }
        Term::Name { name, arguments } => {
            let put = arguments.iter().map(|&region| regions.get(usize::from(region)).copied());
            Term::Name { name, arguments: put.collect::<Option<_>>()? }
        }
    };
    intern(rng, terms, put)
}

fn is_primitive(term: &Term) -> bool {
    matches!(term, Term::Integer { .. } | Term::Pointer { .. })
}

fn integer_term(module: &Module, width: u8) -> u8 {
    let found = module.terms.iter().position(|term| *term == Term::Integer { width });
    found.expect("all three integers are drawn first") as u8
}

/// Terms and names that have sizes.
fn draw_types(rng: &mut Prng) -> Module {
    let name_regions: Vec<usize> = (0..rng.below(5)).map(|_| rng.between(0, 3)).collect();
    let mut terms: Vec<Term> = Vec::new();
    for width in if rng.percent(50) { [1, 2, 4] } else { [4, 2, 1] } {
        terms.push(Term::Integer { width });
    }
    // At most this size, whatever the names' fields are.
    let mut bounds = vec![4; 3];
    let regions = rng.pick(&[1, 2, 2, 3, 3, MAX_REGIONS]).expect("not empty");
    for _ in 0..rng.between(4, 18) {
        let inner = rng.below(terms.len()) as u8;
        let bound = bounds[usize::from(inner)];
        let (term, bound) = match rng.below(100) {
            0..40 => {
                let region = rng.below(regions) as u8;
                (Term::Pointer { target: inner, region }, 4)
            }
            40..60 => {
                let most = MAX_SIZE / bound;
                let count = match rng.below(100) {
                    0..80 => rng.between(1, most.min(6) as usize) as u32,
                    80..94 => rng.between(1, most as usize) as u32,
                    _ => most,
                };
                (Term::Array { element: inner, count }, bound * count)
            }
            _ if name_regions.is_empty() => continue,
            _ => {
                let name = rng.below(name_regions.len());
                let arguments = (0..name_regions[name]).map(|_| rng.below(regions) as u8).collect();
                (Term::Name { name: name as u8, arguments }, NAME_SIZE)
            }
        };
        terms.push(term);
        bounds.push(bound);
    }
    let mut module = Module { terms, names: Vec::new(), functions: Vec::new() };
    for &regions in &name_regions {
        // Terms of names that are not drawn yet have no size here and are left out.
        let known = sizes(&module).terms;
        let fits = |&term: &u8| {
            known[usize::from(term)] < NO_SIZE && regions_used(&module, term) <= regions
        };
        let fitting: Vec<u8> = (0..module.terms.len() as u8).filter(fits).collect();
        let mut fields = Vec::new();
        let mut room = NAME_SIZE;
        for _ in 0..rng.between(1, MAX_LIST) {
            let field = rng.pick(&fitting).expect("integers fit");
            if known[usize::from(field)] <= room {
                room -= known[usize::from(field)];
                fields.push(field);
            }
        }
        if fields.is_empty() {
            fields.push(integer_term(&module, 4));
        }
        module.names.push(Name { place: 0, regions, fields });
    }
    module
}

/// The fields or the element that a term has, regions put in.
fn parts(rng: &mut Prng, module: &mut Module, term: u8) -> Vec<u8> {
    match module.terms[usize::from(term)].clone() {
        Term::Integer { .. } | Term::Pointer { .. } => vec![],
        Term::Array { element, .. } => vec![element],
        Term::Name { name, arguments } => {
            let fields = module.names[usize::from(name)].fields.clone();
            let put = fields.into_iter();
            put.filter_map(|field| substitute(rng, &mut module.terms, field, &arguments)).collect()
        }
    }
}

/// The first or the last primitive of a term, regions put in.
fn edge(rng: &mut Prng, module: &mut Module, term: u8, last: bool) -> u8 {
    let inner = parts(rng, module, term);
    match if last { inner.last() } else { inner.first() } {
        Some(&inner) => edge(rng, module, inner, last),
        None => term,
    }
}

/// A term that uses only these regions; structs and arrays rather than integers.
fn draw_region_type(rng: &mut Prng, module: &Module, scope: usize) -> u8 {
    let all = 0..module.terms.len() as u8;
    let fitting: Vec<u8> = all.filter(|&term| regions_used(module, term) <= scope).collect();
    let several = |&term: &u8| !is_primitive(&module.terms[usize::from(term)]);
    let rich: Vec<u8> = match rng.below(100) {
        0..40 => fitting.iter().copied().filter(several).collect(),
        40..80 => fitting.iter().copied().filter(|&term| term > 2).collect(),
        _ => Vec::new(),
    };
    rng.pick(&rich).or_else(|| rng.pick(&fitting)).expect("integers fit")
}

/// The callee's region types with these regions put in equal the caller's.
fn regions_match(module: &Module, own: &[u8], callee: &Function, regions: &[u8]) -> bool {
    let mut types = Types::<Variable>::new(module);
    let put: Vec<Variable> = regions.iter().map(|&region| Variable(region)).collect();
    regions.iter().zip(&callee.region_types).all(|(&region, &written)| {
        let given = types.term(own[usize::from(region)], &crate::types::IDENTITY);
        given == types.term(written, &put)
    })
}

/// Regions for a call: of the caller's own, else new local ones with the types put in.
fn fit_regions(
    rng: &mut Prng,
    module: &mut Module,
    own: &mut Vec<u8>,
    callee: &Function,
) -> Option<Vec<u8>> {
    let count = callee.region_parameters;
    if !own.is_empty() {
        for _ in 0..8 {
            let regions: Vec<u8> = (0..count).map(|_| rng.below(own.len()) as u8).collect();
            if regions_match(module, own, callee, &regions) {
                return Some(regions);
            }
        }
    }
    // One new region given for all parameters, else one each.
    let first = own.len() as u8;
    let alike = rng.percent(40);
    let choices = [vec![first; count], (first..first + count as u8).collect::<Vec<u8>>()];
    for regions in choices.into_iter().skip(usize::from(!alike)) {
        let last = regions.iter().max().map_or(own.len(), |&region| usize::from(region) + 1);
        if last > MAX_REGIONS {
            continue;
        }
        let mut extended = own.clone();
        for &written in &callee.region_types[..last - own.len()] {
            extended.push(substitute(rng, &mut module.terms, written, &regions)?);
        }
        if regions_match(module, &extended, callee, &regions) {
            *own = extended;
            return Some(regions);
        }
    }
    None
}

/// The signature, regions and registers of function `number`, and the calls that fit it.
fn draw_function(
    rng: &mut Prng,
    module: &mut Module,
    number: usize,
    callees: &[(usize, Function)],
) -> (Function, Vec<PlannedCall>) {
    let i32_term = integer_term(module, 4);
    let region_parameters = if number == 0 { 0 } else { rng.below(4) };
    let mut regions: Vec<u8> = Vec::new();
    for _ in 0..region_parameters {
        let term = if !regions.is_empty() && rng.percent(30) {
            regions[0]
        } else {
            draw_region_type(rng, module, region_parameters)
        };
        regions.push(term);
    }
    let primitives_within = |module: &Module, scope: usize| -> Vec<u8> {
        let all = 0..module.terms.len() as u8;
        let fits = |&term: &u8| {
            is_primitive(&module.terms[usize::from(term)]) && regions_used(module, term) <= scope
        };
        all.filter(fits).collect()
    };
    let mut pointers = Vec::new();
    for (region, &target) in regions.clone().iter().enumerate() {
        let pointer = Term::Pointer { target, region: region as u8 };
        pointers.extend(intern(rng, &mut module.terms, pointer));
    }
    let draw_outer = |rng: &mut Prng, module: &Module| {
        let pointer = if rng.percent(60) { rng.pick(&pointers) } else { None };
        let any = primitives_within(module, region_parameters);
        pointer.or_else(|| rng.pick(&any)).expect("integers fit")
    };
    let mut registers: Vec<u8> = Vec::new();
    for _ in 0..rng.below(4) {
        registers.push(if number == 0 { i32_term } else { draw_outer(rng, module) });
    }
    let parameters = registers.len();
    let return_term = if number == 0 { i32_term } else { draw_outer(rng, module) };

    let mut calls = Vec::new();
    for _ in 0..rng.between(0, 3) {
        if let Some((callee, signature)) = callees.get(rng.below(callees.len() + 1)) {
            if let Some(fitting) = fit_regions(rng, module, &mut regions, signature) {
                calls.push(PlannedCall { callee: *callee, regions: fitting });
            }
        }
    }
    let wanted = if number == 0 { rng.between(1, 3) } else { rng.below(3) };
    let total = (regions.len() + wanted).min(MAX_REGIONS);
    while regions.len() < total {
        regions.push(draw_region_type(rng, module, total));
    }

    let mut wish = vec![return_term, i32_term, i32_term, i32_term];
    for call in &calls {
        let callee = &callees.iter().find(|(number, _)| *number == call.callee).expect("known").1;
        let types = &callee.register_types[..callee.parameters];
        for &written in types.iter().chain([&callee.return_term]) {
            wish.extend(substitute(rng, &mut module.terms, written, &call.regions));
        }
    }
    wish.extend([integer_term(module, 1), integer_term(module, 2), integer_term(module, 1)]);
    for region in 0..regions.len() as u8 {
        let mut part = regions[usize::from(region)];
        let mut add = |rng: &mut Prng, module: &mut Module, target: u8| {
            let pointer = Term::Pointer { target, region };
            wish.extend(intern(rng, &mut module.terms, pointer));
            if is_primitive(&module.terms[usize::from(target)]) && rng.percent(70) {
                wish.push(target);
            }
        };
        add(rng, module, part);
        if rng.percent(50) {
            let last = rng.percent(60);
            let primitive = edge(rng, module, part, last);
            add(rng, module, primitive);
        }
        for _ in 0..rng.below(4) {
            let inner = parts(rng, module, part);
            let Some(chosen) = rng.pick(&inner) else { break };
            add(rng, module, chosen);
            if rng.percent(60) {
                part = chosen;
            }
        }
    }
    wish.truncate(MAX_REGISTERS - parameters);
    registers.extend(wish);
    let function = Function {
        place: 0,
        region_parameters,
        region_types: regions,
        parameters,
        register_types: registers,
        return_term,
        code: Vec::new(),
    };
    (function, calls)
}

/// Draws code for one function.
struct Emitter<'t, 'm> {
    rng: &'t mut Prng,
    module: &'m Module,
    typing: Typing<'t, 'm>,
    function: &'m Function,
    calls: &'t [PlannedCall],
    integers: Vec<u8>,
    pointers: Vec<u8>,
    /// Pointer registers that very likely are not zero.
    filled: [bool; MAX_REGISTERS],
    /// Registers that a loop around counts with.
    reserved: Vec<u8>,
    code: Vec<Instruction>,
}

/// The places of a page, from the first on, that a pool's code mostly looks at.
const POOL_PLACES: u32 = 4;

/// Of a hundred pools, how many are made to grow over several pages, where registers allow.
const GROWING_POOLS: usize = 25;

/// A page of objects that code stores into, frees, hands out again and reads, used or free.
struct Pool {
    /// The pointer register for kinds 27 and 28, and its object's size.
    whole: u8,
    size: u32,
    /// The i32 registers for the page's address and for one in it.
    page: u8,
    address: u8,
    parts: Vec<Part>,
}

/// A primitive of a pool's objects: a pointer register, one for its value, and where it lies.
struct Part {
    pointer: u8,
    value: u8,
    distances: Vec<u32>,
}

/// A primitive of one object in a pool's page.
#[derive(Clone, Copy)]
struct Site {
    place: u32,
    part: usize,
    distance: u32,
}

impl Pool {
    fn places(&self) -> u32 {
        MAX_SIZE / self.size
    }

    /// The lowest or the highest primitive of a place that code can store to.
    fn edge(&self, place: u32, last: bool) -> Site {
        let all = self.parts.iter().enumerate().flat_map(|(part, of)| {
            of.distances.iter().map(move |&distance| Site { place, part, distance })
        });
        let edge = if last {
            all.max_by_key(|site| site.distance)
        } else {
            all.min_by_key(|site| site.distance)
        };
        edge.expect("a pool has a part, and a part a distance")
    }
}

fn instruction(kind: u8, a: u8, b: u8, c: u8, d: u32) -> Instruction {
    Instruction { place: 0, kind, a, b, c, d, arguments: [0; MAX_LIST] }
}

impl Emitter<'_, '_> {
    fn typed(&mut self, instruction: &Instruction) -> bool {
        self.typing.rule(instruction).is_some()
    }

    fn width(&self, register: u8) -> u8 {
        match self.module.terms[usize::from(self.function.register_types[usize::from(register)])] {
            Term::Integer { width } => width,
            _ => 4,
        }
    }

    /// The largest value of an integer register.
    fn largest(&self, register: u8) -> u32 {
        u32::MAX >> (32 - 8 * u32::from(self.width(register)))
    }

    fn free_of(&self, registers: &[u8]) -> Vec<u8> {
        registers.iter().copied().filter(|register| !self.reserved.contains(register)).collect()
    }

    fn i32_registers(&self) -> Vec<u8> {
        self.free_of(&self.integers).into_iter().filter(|&number| self.width(number) == 4).collect()
    }

    fn constant(&mut self, a: u8, value: u32) {
        self.code.push(instruction(16, a, 0, 0, value));
    }

    /// One of the typed instructions of this kind over these registers.
    fn pick_pair(&mut self, kind: u8, first: &[u8], second: &[u8]) -> Option<Instruction> {
        let mut found = Vec::new();
        for &a in first {
            for &b in second {
                let candidate = instruction(kind, a, b, 0, 0);
                if self.typed(&candidate) {
                    found.push(candidate);
                }
            }
        }
        self.rng.pick(&found)
    }

    /// Makes a pointer register not zero before it is used; none where that cannot be done, but
    /// for a few that are let through.
    fn fill(&mut self, pointer: u8) -> Option<()> {
        if self.filled[usize::from(pointer)] || self.rng.percent(3) {
            return Some(());
        }
        let new = instruction(27, pointer, 0, 0, 0);
        if self.typed(&new) {
            self.code.push(new);
            self.filled[usize::from(pointer)] = true;
            return Some(());
        }
        // A part of an object that can be made.
        let wholes = self.pointers.clone();
        let new = |whole: u8| instruction(27, whole, 0, 0, 0);
        let wholes: Vec<u8> = wholes.into_iter().filter(|&whole| self.typed(&new(whole))).collect();
        let field = self.pick_field(&[pointer], &wholes)?;
        self.fill(field.b)?;
        self.code.push(field);
        self.filled[usize::from(pointer)] = true;
        Some(())
    }

    fn pick_field(&mut self, parts: &[u8], wholes: &[u8]) -> Option<Instruction> {
        let mut found = Vec::new();
        for &a in parts {
            for &b in wholes {
                for d in 0..12 {
                    let candidate = instruction(23, a, b, 0, d);
                    if a != b && self.typed(&candidate) {
                        found.push(candidate);
                    }
                }
            }
        }
        self.rng.pick(&found)
    }

    fn set_filled(&mut self, register: u8, filled: bool) {
        self.filled[usize::from(register)] = filled;
    }

    /// Appends one instruction, with those that make it likely to pass; none may fit.
    fn emit(&mut self) -> Option<()> {
        let integers = self.free_of(&self.integers);
        let numbers = self.i32_registers();
        let pointers = self.pointers.clone();
        match self.rng.below(134) {
            0..8 => {
                let a = self.rng.pick(&integers)?;
                let value = if self.rng.percent(60) {
                    self.rng.below(40) as u32
                } else {
                    self.rng.word() as u32
                };
                self.constant(a, value & self.largest(a));
            }
            8..14 => {
                let copy = if self.rng.percent(50) {
                    self.pick_pair(17, &integers, &integers)
                } else {
                    self.pick_pair(17, &pointers, &pointers)
                }?;
                self.set_filled(copy.a, self.filled[usize::from(copy.b)]);
                self.code.push(copy);
            }
            14..30 => {
                let b = self.rng.pick(&self.integers)?;
                let divides_or_shifts = self.rng.percent(40);
                let (low, high) = if divides_or_shifts { (6, 10) } else { (0, 13) };
                let operation = self.rng.between(low, high) as u32;
                let width = self.width(b);
                let of_width = |width: u8| -> Vec<u8> {
                    let fits = |&register: &u8| self.width(register) == width;
                    integers.iter().copied().filter(fits).collect()
                };
                let operands = of_width(width);
                let results = of_width(if operation > 10 { 1 } else { width });
                let c = self.rng.pick(&operands)?;
                let a = self.rng.pick(&results)?;
                let candidate = instruction(18, a, b, c, operation);
                if !self.typed(&candidate) {
                    return None;
                }
                if (6..=10).contains(&operation) && self.rng.percent(93) {
                    let most = if self.rng.percent(90) { 7 } else { 40 };
                    let value = self.rng.between(1, most) as u32;
                    self.constant(c, value);
                }
                self.code.push(candidate);
            }
            30..36 => {
                let kind = self.rng.between(19, 20) as u8;
                let extend = self.pick_pair(kind, &integers, &integers)?;
                self.code.push(extend);
            }
            36..46 => self.emit_check(&numbers, &pointers)?,
            46..58 => {
                let field = self.pick_field(&pointers, &pointers)?;
                self.fill(field.b)?;
                self.code.push(field);
                self.set_filled(field.a, true);
            }
            58..66 => {
                let c = self.rng.pick(&numbers)?;
                let mut found = Vec::new();
                for &a in &pointers {
                    for &b in &pointers {
                        let candidate = instruction(24, a, b, c, 0);
                        if self.typed(&candidate) {
                            found.push(candidate);
                        }
                    }
                }
                let index = self.rng.pick(&found)?;
                if self.rng.percent(94) {
                    let value = self.rng.below(3) as u32;
                    let value = if self.rng.percent(70) { 0 } else { value };
                    self.constant(c, value);
                }
                self.fill(index.b)?;
                self.code.push(index);
                self.set_filled(index.a, true);
            }
            66..77 => {
                let targets = [&integers[..], &pointers[..]].concat();
                let load = self.pick_pair(25, &targets, &pointers)?;
                self.fill(load.b)?;
                self.code.push(load);
                self.set_filled(load.a, false);
            }
            77..88 => {
                let values = [&self.integers[..], &pointers[..]].concat();
                let store = self.pick_pair(26, &pointers, &values)?;
                self.fill(store.a)?;
                if pointers.contains(&store.b) {
                    let _may_stay_zero = self.fill(store.b);
                }
                self.code.push(store);
            }
            88..96 => {
                let kind = if self.rng.percent(70) { 27 } else { 28 };
                let object = self.pick_pair(kind, &pointers, &[0])?;
                if kind == 28 {
                    self.fill(object.a)?;
                } else {
                    self.set_filled(object.a, true);
                }
                self.code.push(object);
            }
            96..101 => {
                let c = self.rng.pick(&numbers)?;
                let bytes: Vec<u8> =
                    integers.into_iter().filter(|&register| self.width(register) == 1).collect();
                let a = self.rng.pick(&bytes)?;
                if self.rng.percent(97) {
                    let value = self.rng.below(10) as u32;
                    self.constant(c, value);
                }
                self.code.push(instruction(29, a, 0, c, 0));
            }
            101..106 => {
                let output = self.pick_pair(30, &[0], &self.integers.clone())?;
                self.code.push(output);
            }
            106..116 => self.emit_call()?,
            116..123 => {
                // Over a few instructions.
                let a = self.rng.pick(&self.integers)?;
                let at = self.code.len();
                self.code.push(instruction(32, a, 0, 0, 0));
                let before = self.filled;
                self.emit_some(4);
                for (register, filled) in self.filled.iter_mut().enumerate() {
                    *filled &= before[register];
                }
                // The code always goes on, so there is an instruction behind.
                self.code[at].d = self.code.len() as u32;
            }
            123..130 => self.emit_loop(6)?,
            _ => self.emit_pool()?,
        }
        Some(())
    }

    fn emit_some(&mut self, most: usize) {
        for _ in 0..self.rng.between(1, most) {
            self.emit();
        }
    }

    fn emit_check(&mut self, numbers: &[u8], pointers: &[u8]) -> Option<()> {
        let b = self.rng.pick(pointers)?;
        if self.rng.percent(4) {
            // From any pointer or number: often fails.
            let sources = [pointers, &self.integers[..]].concat();
            let check = self.pick_pair(22, pointers, &sources)?;
            self.code.push(check);
            self.set_filled(check.a, true);
            return Some(());
        }
        let number = self.rng.pick(numbers)?;
        self.fill(b)?;
        self.code.push(instruction(21, number, b, 0, 0));
        let alike: Vec<u8> = {
            let copy = |a: u8| instruction(17, a, b, 0, 0);
            pointers.iter().copied().filter(|&a| self.typed(&copy(a))).collect()
        };
        // A pointer of the same type, or one to what a field would give.
        let same_region = self.pick_field(pointers, &[b]).map(|field| field.a);
        let a = if self.rng.percent(85) { self.rng.pick(&alike) } else { same_region };
        let a = a.or_else(|| self.rng.pick(&alike))?;
        if self.rng.percent(5) {
            let c = self.rng.pick(numbers).filter(|&c| c != number)?;
            let value = self.rng.pick(&[1, 2, 4, 5, 8, 12, 16])?;
            self.constant(c, value);
            self.code.push(instruction(18, number, number, c, 0));
        }
        self.code.push(instruction(22, a, number, 0, 0));
        self.set_filled(a, true);
        Some(())
    }

    fn emit_call(&mut self) -> Option<()> {
        let calls = self.calls;
        let chosen = self.rng.below(calls.len() + 1);
        let PlannedCall { callee, regions } = calls.get(chosen)?;
        let signature = &self.module.functions[*callee];
        let mut call = instruction(KIND_CALL, 0, *callee as u8, 0, builder::packed(regions));
        let all: Vec<u8> = (0..self.function.register_types.len() as u8).collect();
        let put: Vec<Variable> = regions.iter().map(|&region| Variable(region)).collect();
        let types = &signature.register_types[..signature.parameters];
        for (i, &written) in types.iter().enumerate() {
            let wanted = self.typing.types.term(written, &put);
            let fits = |&register: &u8| self.typing.register(register) == wanted;
            let fitting: Vec<u8> = all.iter().copied().filter(fits).collect();
            call.arguments[i] = self.rng.pick(&fitting)?;
            if self.pointers.contains(&call.arguments[i]) {
                let _may_stay_zero = self.fill(call.arguments[i]);
            }
        }
        let wanted = self.typing.types.term(signature.return_term, &put);
        let results = self.free_of(&all);
        let fits = |&register: &u8| self.typing.register(register) == wanted;
        call.a = self.rng.pick(&results.into_iter().filter(fits).collect::<Vec<u8>>())?;
        self.code.push(call);
        self.set_filled(call.a, false);
        Some(())
    }

    /// Counts a register down to zero around some instructions.
    fn emit_loop(&mut self, body: usize) -> Option<()> {
        let numbers = self.i32_registers();
        let (counter, one) = (*numbers.first()?, *numbers.get(1)?);
        if self.reserved.len() >= 4 || numbers.len() < 3 {
            return None;
        }
        let rounds = match self.rng.below(100) {
            0..80 => self.rng.between(1, 6),
            80..96 => self.rng.between(7, 90),
            _ => 5000,
        };
        self.constant(counter, rounds as u32);
        self.constant(one, 1);
        self.reserved.extend([counter, one]);
        let start = self.code.len() as u32;
        self.emit_some(body);
        self.reserved.truncate(self.reserved.len() - 2);
        self.code.push(instruction(18, counter, counter, one, code::SUBTRACT));
        self.code.push(instruction(32, counter, 0, 0, start));
        Some(())
    }

    /// A pool that the registers can store into and load from.
    fn find_pool(&mut self) -> Option<Pool> {
        let mut numbers = self.i32_registers();
        let page = self.rng.pick(&numbers)?;
        numbers.retain(|&number| number != page);
        let address = self.rng.pick(&numbers)?;
        let pointers = self.pointers.clone();
        let whole = self.pick_pair(27, &pointers, &[0])?.a;
        let (object, region) = self.typing.pointer(whole)?;
        let mut values = [self.free_of(&self.integers), pointers.clone()].concat();
        values.retain(|&value| value != page);
        let mut parts = Vec::new();
        for &pointer in &pointers {
            let (target, its_region) = self.typing.pointer(pointer)?;
            if its_region != region {
                continue;
            }
            let lies = self.typing.types.run_distances(target, object);
            let distances: Vec<u32> = (0..).zip(lies).filter(|at| at.1).map(|at| at.0).collect();
            for &value in &values {
                if !distances.is_empty() && self.typed(&instruction(26, pointer, value, 0, 0)) {
                    parts.push(Part { pointer, value, distances: distances.clone() });
                }
            }
        }
        let size = self.typing.types.size(object);
        (!parts.is_empty()).then_some(Pool { whole, size, page, address, parts })
    }

    /// The first, the last or any of a part's primitives, in an object that is likely near another.
    fn draw_site(&mut self, pool: &Pool) -> Site {
        let near = self.rng.below(pool.places().min(POOL_PLACES) as usize) as u32;
        let place = if self.rng.percent(92) { near } else { pool.places() - 1 };
        let part = self.rng.below(pool.parts.len());
        let distances = &pool.parts[part].distances;
        let chosen = match self.rng.below(3) {
            0 => 0,
            1 => distances.len() - 1,
            _ => self.rng.below(distances.len()),
        };
        Site { place, part, distance: distances[chosen] }
    }

    /// A pointer into the pool's page by kind 22, which asks for no mark.
    fn point(&mut self, pool: &Pool, pointer: u8, offset: u32) {
        self.constant(pool.address, offset);
        self.code.push(instruction(18, pool.address, pool.page, pool.address, code::ADD));
        self.code.push(instruction(22, pointer, pool.address, 0, 0));
        self.set_filled(pointer, true);
    }

    /// Stores a value without a zero byte.
    fn store_at(&mut self, pool: &Pool, site: Site) {
        let Part { pointer, value, .. } = pool.parts[site.part];
        if self.pointers.contains(&value) {
            let _may_stay_zero = self.fill(value);
        }
        self.point(pool, pointer, site.place * pool.size + site.distance);
        if self.integers.contains(&value) {
            let bytes = self.rng.word() as u32 | 0x0101_0101;
            self.constant(value, bytes & self.largest(value));
        }
        self.code.push(instruction(26, pointer, value, 0, 0));
    }

    /// Loads a value and gives one of its bytes to the output, where registers allow.
    fn show_at(&mut self, pool: &Pool, site: Site) -> Option<()> {
        let Part { pointer, value, .. } = pool.parts[site.part];
        self.point(pool, pointer, site.place * pool.size + site.distance);
        self.code.push(instruction(25, value, pointer, 0, 0));
        self.set_filled(value, false);
        let of_width_1 = |register: &u8| self.width(*register) == 1;
        let bytes: Vec<u8> = self.free_of(&self.integers).into_iter().filter(of_width_1).collect();
        let byte = self.rng.pick(&bytes)?;
        let number = pool.address;
        let to_number = if self.pointers.contains(&value) { 21 } else { 19 };
        self.code.push(instruction(to_number, number, value, 0, 0));
        let mut others = self.i32_registers();
        others.retain(|&other| other != number);
        let lower = self.rng.below(usize::from(self.width(value))) as u32;
        if let Some(bits) = self.rng.pick(&others) {
            self.constant(bits, 8 * lower);
            self.code.push(instruction(18, number, number, bits, code::RIGHT_SHIFT));
        }
        self.code.push(instruction(19, byte, number, 0, 0));
        self.code.push(instruction(30, 0, byte, 0, 0));
        Some(())
    }

    fn free_at(&mut self, pool: &Pool, place: u32) {
        self.point(pool, pool.whole, place * pool.size);
        self.code.push(instruction(28, pool.whole, 0, 0, 0));
    }

    /// Hands a place out again, if no lower one is free, with bytes stored in it and right beside it,
    /// of which one is shown.
    fn refill_at(&mut self, pool: &Pool, place: u32) -> Option<()> {
        let mut sites = vec![pool.edge(place, false), pool.edge(place, true)];
        if place > 0 {
            sites.push(pool.edge(place - 1, true));
        }
        if place + 1 < pool.places() {
            sites.push(pool.edge(place + 1, false));
        }
        self.free_at(pool, place);
        for &site in &sites {
            self.store_at(pool, site);
        }
        self.code.push(instruction(27, pool.whole, 0, 0, 0));
        let site = self.rng.pick(&sites)?;
        self.show_at(pool, site)
    }

    /// Lets the pool's region grow to several pages, perhaps in turn with another, so that a search
    /// meets full pages and those of other regions.
    fn grow(&mut self, pool: &Pool) -> Option<()> {
        let numbers = self.i32_registers();
        let (counter, one) = (*numbers.first()?, *numbers.get(1)?);
        let mut objects = vec![instruction(27, pool.whole, 0, 0, 0)];
        if self.rng.percent(50) {
            let pointers = self.pointers.clone();
            objects.push(self.pick_pair(27, &pointers, &[0])?);
        }
        let full_pages = self.rng.between(1, 4) as u32;
        let more = self.rng.below(3) as u32;
        self.constant(counter, full_pages * pool.places() + more);
        self.constant(one, 1);
        let start = self.code.len() as u32;
        for new in objects {
            self.code.push(new);
            self.set_filled(new.a, true);
        }
        self.code.push(instruction(18, counter, counter, one, code::SUBTRACT));
        self.code.push(instruction(32, counter, 0, 0, start));
        Some(())
    }

    /// Frees and refills a pool, with stores into its objects and loads from them before and after.
    fn emit_pool(&mut self) -> Option<()> {
        if self.code.len() > MAX_INSTRUCTIONS / 2 {
            return None;
        }
        let pool = self.find_pool()?;
        let new = instruction(27, pool.whole, 0, 0, 0);
        for _ in 0..self.rng.between(1, 3) {
            self.code.push(new);
        }
        self.set_filled(pool.whole, true);
        self.code.push(instruction(21, pool.page, pool.whole, 0, 0));
        self.constant(pool.address, !(PAGE_BYTES as u32 - 1));
        self.code.push(instruction(18, pool.page, pool.page, pool.address, code::AND));
        self.reserved.push(pool.page);
        let mut site = self.draw_site(&pool);
        if self.rng.percent(GROWING_POOLS) && self.grow(&pool).is_some() {
            // A search meets a free place in the pool's page, mostly the region's first, and most
            // likely there is one in the last page, too.
            let _may_stay_hidden = self.refill_at(&pool, site.place);
        }
        for _ in 0..self.rng.between(3, 9) {
            match self.rng.below(10) {
                0..3 => self.store_at(&pool, site),
                3..5 => self.free_at(&pool, site.place),
                5..7 => self.code.push(new),
                7 => {
                    let _may_stay_hidden = self.refill_at(&pool, site.place);
                }
                8 => {
                    let _may_stay_hidden = self.show_at(&pool, site);
                }
                _ => self.emit_some(2),
            }
            if self.rng.percent(40) {
                site = self.draw_site(&pool);
            }
        }
        self.reserved.pop();
        Some(())
    }

    /// Runs into one of the limits: pages, output, frames.
    fn emit_limit(&mut self) -> Option<()> {
        let pointers = self.pointers.clone();
        let integers = self.integers.clone();
        let at = self.code.len() as u32;
        let endless = match self.rng.below(3) {
            0 => self.pick_pair(27, &pointers, &[0])?,
            1 => self.pick_pair(30, &[0], &integers)?,
            _ => return self.emit_call(),
        };
        self.code.push(endless);
        self.code.push(instruction(31, 0, 0, 0, at));
        Some(())
    }

    fn emit_body(mut self, length: usize) -> Vec<Instruction> {
        if self.rng.percent(25) {
            self.emit_pool();
        }
        self.emit_some(length);
        if self.rng.percent(4) {
            self.emit_limit();
        }
        if self.rng.percent(2) {
            let target = self.rng.below(self.code.len().max(1)) as u32;
            self.code.push(instruction(31, 0, 0, 0, target));
            return self.code;
        }
        let all: Vec<u8> = (0..self.function.register_types.len() as u8).collect();
        let result = self.pick_pair(34, &all, &[0]).expect("a register has the return type");
        self.code.push(result);
        self.code
    }
}

fn draw_code(
    rng: &mut Prng,
    module: &Module,
    function: &Function,
    calls: &[PlannedCall],
    length: usize,
) -> Vec<Instruction> {
    let mut types = Types::new(module);
    let typing = Typing::new(module, &mut types, function);
    let (mut integers, mut pointers) = (Vec::new(), Vec::new());
    for register in 0..function.register_types.len() as u8 {
        match typing.types.get(typing.register(register)) {
            Type::Integer(_) => integers.push(register),
            _ => pointers.push(register),
        }
    }
    let emitter = Emitter {
        rng,
        module,
        typing,
        function,
        calls,
        integers,
        pointers,
        filled: [false; MAX_REGISTERS],
        reserved: Vec::new(),
        code: Vec::new(),
    };
    emitter.emit_body(length)
}

/// A module that nearly always is accepted, with arguments and a form.
pub fn draw(rng: &mut Prng) -> Sample {
    let mut module = draw_types(rng);
    let count = rng.between(1, 5);
    // Callees first: a function's regions are chosen to fit those it calls.
    let mut drawn: Vec<(usize, Function)> = Vec::new();
    let mut calls = Vec::new();
    for number in (0..count).rev() {
        let (function, planned) = draw_function(rng, &mut module, number, &drawn);
        drawn.push((number, function));
        calls.push(planned);
    }
    drawn.reverse();
    calls.reverse();
    module.functions = drawn.into_iter().map(|(_, function)| function).collect();
    for (number, planned) in calls.iter_mut().enumerate() {
        // Every function can call itself for its own regions; function 0 can be called by all.
        let own = module.functions[number].region_parameters as u8;
        if rng.percent(12) {
            planned.push(PlannedCall { callee: number, regions: (0..own).collect() });
        }
        if rng.percent(5) {
            planned.push(PlannedCall { callee: 0, regions: vec![] });
        }
    }
    let mut codes = Vec::new();
    for (number, function) in module.functions.iter().enumerate() {
        let length = if number == 0 { 40 } else { 16 };
        codes.push(draw_code(rng, &module, function, &calls[number], length));
    }
    for (function, code) in module.functions.iter_mut().zip(codes) {
        function.code = code;
    }
    let words = module.functions[0].parameters;
    let arguments = (0..words).flat_map(|_| {
        let word = if rng.percent(70) { rng.below(20) as u32 } else { rng.word() as u32 };
        word.to_le_bytes()
    });
    let arguments = arguments.collect();
    let least = if rng.percent(90) { 8 } else { 0 };
    let form_length = rng.between(least, 40);
    Sample { records: records(&module), arguments, form: rng.bytes(form_length) }
}

/// The records of a module.
pub fn records(module: &Module) -> Vec<Record> {
    let mut builder = ModuleBuilder::of(module);
    for function in &module.functions {
        let mut code = Vec::new();
        for i in &function.code {
            code.push(builder::record(i.kind, i.a, i.b, i.c, i.d));
            if i.kind == KIND_CALL {
                code.push(builder::list_record(KIND_ARGUMENTS, &i.arguments));
            }
        }
        builder.function(&FunctionBuilder {
            region_parameters: function.region_parameters as u8,
            regions: function.region_types.clone(),
            parameters: function.parameters as u8,
            registers: function.register_types.clone(),
            return_term: function.return_term,
            code,
        });
    }
    builder.records()
}
