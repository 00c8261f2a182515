//! Flat types (document 01, "Flat types"): sizes, primitives, equality of terms, region use.
//! Types are interned, so that equal terms have equal numbers under any term numbers.

use crate::module::{Module, Term};
use std::collections::HashMap;
use std::hash::Hash;
use std::rc::Rc;

/// A size above this, or none at all, is written as `NO_SIZE`; sums and products stop there.
pub const MAX_SIZE: u32 = 256;
pub const NO_SIZE: u32 = MAX_SIZE + 1;
pub const POINTER_WIDTH: u32 = 4;

/// A region as the code writes it: a variable of its function or name.
#[derive(Clone, Copy, PartialEq, Eq, Hash, Debug)]
pub struct Variable(pub u8);

/// A region of the machine. Only a frame's map leads from a variable to one.
#[derive(Clone, Copy, PartialEq, Eq, Hash, PartialOrd, Ord, Debug)]
pub struct Live(pub u8);

/// All variables as themselves: the map that leaves a term as it is written.
pub const IDENTITY: [Variable; 7] =
    [Variable(0), Variable(1), Variable(2), Variable(3), Variable(4), Variable(5), Variable(6)];

/// The number of an interned type.
#[derive(Clone, Copy, PartialEq, Eq, Hash, Debug)]
pub struct TypeId(u32);

/// A type over regions R, inner types by number.
#[derive(Clone, PartialEq, Eq, Hash, Debug)]
pub enum Type<R> {
    Integer(u8),
    Pointer(TypeId, R),
    Array(u32, TypeId),
    Name(u8, Vec<R>),
}

/// The types met so far. Two of them are equal exactly when their numbers are.
pub struct Types<'m, R> {
    module: &'m Module,
    types: Vec<Type<R>>,
    ids: HashMap<Type<R>, TypeId>,
    primitives: HashMap<TypeId, Rc<[TypeId]>>,
}

impl<'m, R: Copy + Eq + Hash> Types<'m, R> {
    pub fn new(module: &'m Module) -> Types<'m, R> {
        Types { module, types: Vec::new(), ids: HashMap::new(), primitives: HashMap::new() }
    }

    pub fn get(&self, id: TypeId) -> &Type<R> {
        &self.types[id.0 as usize]
    }

    fn intern(&mut self, form: Type<R>) -> TypeId {
        if let Some(&id) = self.ids.get(&form) {
            return id;
        }
        let id = TypeId(self.types.len() as u32);
        self.types.push(form.clone());
        self.ids.insert(form, id);
        id
    }

    pub fn integer(&mut self, width: u8) -> TypeId {
        self.intern(Type::Integer(width))
    }

    /// A term with regions put for its variables.
    pub fn term(&mut self, term: u8, regions: &[R]) -> TypeId {
        let module = self.module;
        let form = match &module.terms[usize::from(term)] {
            Term::Integer { width } => Type::Integer(*width),
            Term::Pointer { target, region } => {
                Type::Pointer(self.term(*target, regions), regions[usize::from(*region)])
            }
            Term::Array { element, count } => Type::Array(*count, self.term(*element, regions)),
            Term::Name { name, arguments } => {
                let put = arguments.iter().map(|&variable| regions[usize::from(variable)]);
                Type::Name(*name, put.collect())
            }
        };
        self.intern(form)
    }

    /// The primitives of a type that has a size.
    pub fn primitives(&mut self, id: TypeId) -> Rc<[TypeId]> {
        if let Some(known) = self.primitives.get(&id) {
            return known.clone();
        }
        let flat: Vec<TypeId> = match self.get(id).clone() {
            Type::Integer(_) | Type::Pointer(..) => vec![id],
            Type::Array(count, element) => self.primitives(element).repeat(count as usize),
            Type::Name(name, arguments) => {
                let mut flat = Vec::new();
                for &field in &self.module.names[usize::from(name)].fields {
                    let field = self.term(field, &arguments);
                    flat.extend_from_slice(&self.primitives(field));
                }
                flat
            }
        };
        let flat: Rc<[TypeId]> = flat.into();
        self.primitives.insert(id, flat.clone());
        flat
    }

    /// The bytes of a primitive.
    pub fn width(&self, primitive: TypeId) -> u32 {
        match self.get(primitive) {
            Type::Integer(width) => u32::from(*width),
            _ => POINTER_WIDTH,
        }
    }

    /// The bytes of a type that has a size: primitives are packed.
    pub fn size(&mut self, id: TypeId) -> u32 {
        let primitives = self.primitives(id);
        primitives.iter().map(|&primitive| self.width(primitive)).sum()
    }

    /// The bytes before the primitive at a position.
    pub fn distance(&mut self, id: TypeId, position: usize) -> u32 {
        let primitives = self.primitives(id);
        primitives[..position].iter().map(|&primitive| self.width(primitive)).sum()
    }

    /// The primitives of `run` equal those of `whole` from a position, as many as it has.
    pub fn stands_at(&mut self, run: TypeId, whole: TypeId, position: usize) -> bool {
        let run = self.primitives(run);
        let whole = self.primitives(whole);
        whole.get(position..).is_some_and(|rest| rest.starts_with(&run))
    }

    /// The distances from an object's start at which a run of primitives lies inside it.
    pub fn run_distances(&mut self, run: TypeId, object: TypeId) -> [bool; MAX_SIZE as usize] {
        let mut distances = [false; MAX_SIZE as usize];
        let mut distance = 0;
        for (position, &primitive) in self.primitives(object).iter().enumerate() {
            distances[distance] = self.stands_at(run, object, position);
            distance += self.width(primitive) as usize;
        }
        distances
    }
}

/// The sizes of all names and terms, `NO_SIZE` where there is none or it is over 256.
pub struct Sizes {
    pub names: Vec<u32>,
    pub terms: Vec<u32>,
}

/// Sizes fall on the name number: a field asks only for names below its own.
pub fn sizes(module: &Module) -> Sizes {
    let mut names: Vec<u32> = Vec::new();
    for name in &module.names {
        let fields = name.fields.iter().map(|&field| term_size(module, &names, field));
        names.push(fields.fold(0, |sum, size| (sum + size).min(NO_SIZE)));
    }
    let terms = 0..module.terms.len() as u8;
    let terms = terms.map(|term| term_size(module, &names, term)).collect();
    Sizes { names, terms }
}

/// The size of a term where only these names are known.
fn term_size(module: &Module, names: &[u32], term: u8) -> u32 {
    match &module.terms[usize::from(term)] {
        Term::Integer { width } => u32::from(*width),
        Term::Pointer { .. } => POINTER_WIDTH,
        Term::Array { element, count } => (term_size(module, names, *element) * count).min(NO_SIZE),
        Term::Name { name, .. } => *names.get(usize::from(*name)).unwrap_or(&NO_SIZE),
    }
}

/// How many primitives a term that has a size is made of.
pub fn primitive_count(module: &Module, term: u8) -> u32 {
    match &module.terms[usize::from(term)] {
        Term::Integer { .. } | Term::Pointer { .. } => 1,
        Term::Array { element, count } => count * primitive_count(module, *element),
        Term::Name { name, .. } => {
            let fields = &module.names[usize::from(*name)].fields;
            fields.iter().map(|&field| primitive_count(module, field)).sum()
        }
    }
}

/// One above the highest region written in a term, under pointers too; 0 if none is.
pub fn regions_used(module: &Module, term: u8) -> usize {
    match &module.terms[usize::from(term)] {
        Term::Integer { .. } => 0,
        Term::Pointer { target, region } => {
            (usize::from(*region) + 1).max(regions_used(module, *target))
        }
        Term::Array { element, .. } => regions_used(module, *element),
        Term::Name { arguments, .. } => {
            arguments.iter().map(|&region| usize::from(region) + 1).max().unwrap_or(0)
        }
    }
}
