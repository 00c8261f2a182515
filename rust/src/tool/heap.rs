//! The live regions of a state and the objects of their pages with their parts by name, read from
//! the state's bytes (docs/STATE.md).

use crate::module::Term;
use crate::state::{State, PAGE_BYTES};
use crate::state_test::object_in_page;
use crate::text::{Listing, Scope};
use crate::types::{Live, Type, TypeId, Types, IDENTITY};

/// A live region: the frame it is local to, its variable there and its type.
pub struct Region {
    pub live: Live,
    pub frame: usize,
    /// What the function of that frame calls it.
    pub name: String,
    pub written: String,
    pub size: usize,
    term: u8,
}

/// An object: where it begins, and whether it is used or free.
#[derive(Clone, Copy)]
pub struct Object {
    pub start: usize,
    pub size: usize,
    pub used: bool,
    pub region: Live,
}

impl Object {
    pub fn mark(&self) -> &'static str {
        if self.used {
            "used"
        } else {
            "free"
        }
    }
}

/// A part of an object that is a primitive, or an array of them.
pub struct Field {
    pub at: usize,
    /// The way to it, empty for the whole object.
    pub path: String,
    pub written: String,
    pub values: Vec<u32>,
}

/// What the memory of a sound state holds.
pub struct Heap<'h> {
    pub listing: &'h Listing<'h>,
    pub state: &'h State,
    /// Lowest frame first.
    pub regions: Vec<Region>,
}

impl<'h> Heap<'h> {
    pub fn new(listing: &'h Listing<'h>, state: &'h State) -> Heap<'h> {
        let mut regions = Vec::new();
        for (index, frame) in state.frames.iter().enumerate() {
            let number = usize::from(frame.function);
            let (function, scope) = (&listing.module.functions[number], Scope::Function(number));
            for variable in function.region_parameters..function.region_types.len() {
                let term = function.region_types[variable];
                regions.push(Region {
                    live: frame.map[variable],
                    frame: index,
                    name: listing.names.region(scope, variable as u8),
                    written: listing.type_text(term, scope),
                    size: listing.sizes.terms[usize::from(term)] as usize,
                    term,
                });
            }
        }
        Heap { listing, state, regions }
    }

    pub fn region(&self, live: Live) -> Option<&Region> {
        self.regions.iter().find(|region| region.live == live)
    }

    /// A live region by the source's name where no other is called so, else by its number.
    fn region_name(&self, live: Live) -> String {
        let Some(region) = self.region(live).filter(|_| !self.listing.names.are_numbers()) else {
            return live.0.to_string();
        };
        match self.regions.iter().filter(|other| other.name == region.name).count() {
            1 => region.name.clone(),
            _ => live.0.to_string(),
        }
    }

    /// The object that an address lies in.
    pub fn object(&self, address: u32) -> Option<Object> {
        let (page, offset) = (address as usize / PAGE_BYTES, address % PAGE_BYTES as u32);
        let region = self.region((*self.state.owners.get(page)?)?)?;
        let place = object_in_page(offset, region.size as u32)?;
        let start = page * PAGE_BYTES + place.start as usize;
        Some(self.object_at(start, region.size, region.live))
    }

    /// The object of a size that begins at an address.
    pub fn object_at(&self, start: usize, size: usize, region: Live) -> Object {
        let (page, place) = (start / PAGE_BYTES, start % PAGE_BYTES / size);
        let used = self.state.marks[page][place / 64] >> (place % 64) & 1 == 1;
        Object { start, size, used, region }
    }

    /// A type with live regions put for its variables.
    fn closed(&self, types: &Types<Live>, id: TypeId) -> String {
        match types.get(id) {
            Type::Integer(width) => format!("i{}", 8 * u32::from(*width)),
            Type::Pointer(target, region) => {
                format!("*{} in {}", self.closed(types, *target), self.region_name(*region))
            }
            Type::Array(count, element) => format!("[{}; {count}]", self.closed(types, *element)),
            Type::Name(name, regions) if regions.is_empty() => self.listing.names.structure(*name),
            Type::Name(name, regions) => {
                let regions: Vec<String> =
                    regions.iter().map(|region| self.region_name(*region)).collect();
                format!("{}({})", self.listing.names.structure(*name), regions.join(", "))
            }
        }
    }

    /// The parts of an object in their order.
    pub fn fields(&self, object: &Object) -> Vec<Field> {
        let mut fields = Vec::new();
        if let Some(region) = self.region(object.region) {
            let mut types = Types::new(self.listing.module);
            let whole = types.term(region.term, &self.state.frames[region.frame].map);
            self.add_fields(&mut types, whole, String::new(), object.start, &mut fields);
        }
        fields
    }

    fn add_fields(
        &self,
        types: &mut Types<Live>,
        id: TypeId,
        path: String,
        at: usize,
        fields: &mut Vec<Field>,
    ) {
        let primitive = |id: TypeId, types: &Types<Live>| {
            matches!(types.get(id), Type::Integer(_) | Type::Pointer(..))
        };
        match types.get(id).clone() {
            Type::Array(count, element) if !primitive(element, types) => {
                let size = types.size(element) as usize;
                for index in 0..count as usize {
                    let path = format!("{path}[{index}]");
                    self.add_fields(types, element, path, at + index * size, fields);
                }
            }
            Type::Name(name, regions) => {
                let mut at = at;
                let terms = &self.listing.module.names[usize::from(name)].fields;
                for (index, &term) in terms.iter().enumerate() {
                    let field = types.term(term, &regions);
                    let own = self.listing.names.field(name, index);
                    let path = if path.is_empty() { own } else { format!("{path}.{own}") };
                    self.add_fields(types, field, path, at, fields);
                    at += types.size(field) as usize;
                }
            }
            _ => {
                let primitives = types.primitives(id);
                let width = types.width(primitives[0]) as usize;
                let bytes = &self.state.memory[at..at + types.size(id) as usize];
                let values = bytes.chunks_exact(width).map(number).collect();
                fields.push(Field { at, path, written: self.closed(types, id), values });
            }
        }
    }

    /// Where a register that is a pointer leads: an object, or a part of one. None for zero and for
    /// what is no pointer.
    pub fn leads(&self, frame: usize, register: usize) -> Option<(Object, Option<String>)> {
        let frame = &self.state.frames[frame];
        let function = &self.listing.module.functions[usize::from(frame.function)];
        let term = *function.register_types.get(register)?;
        let Term::Pointer { target, .. } = self.listing.module.terms[usize::from(term)] else {
            return None;
        };
        let address = frame.registers[register];
        let object = self.object(address)?;
        let whole = self.region(object.region)?.term;
        let position = self.position(whole, address as usize - object.start)?;
        let path = self.listing.path(whole, position, Some(target));
        Some((object, path.map(|path| path.trim_start_matches('.').to_string())))
    }

    /// The position of the primitive that begins at a distance in a term.
    fn position(&self, term: u8, distance: usize) -> Option<u32> {
        let mut types = Types::new(self.listing.module);
        let whole = types.term(term, &IDENTITY);
        let mut before = 0;
        for (position, &primitive) in types.primitives(whole).iter().enumerate() {
            if before == distance {
                return Some(position as u32);
            }
            before += types.width(primitive) as usize;
        }
        None
    }
}

fn number(bytes: &[u8]) -> u32 {
    bytes.iter().rev().fold(0, |value, &byte| value << 8 | u32::from(byte))
}
