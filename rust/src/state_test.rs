//! The state test, the values of types, and the reader of states (document 01, "The machine").
//! `State::from_bytes` and `passes` together are document 01's state test.

use crate::module::{Function, Module, KIND_CALL};
use crate::state::{
    Frame, State, ENDED, FIRST_STOP, LAST_STOP, LIVE_REGIONS, MAX_FRAMES, MEMORY_BYTES,
    OUTPUT_BYTES, PAGES, PAGE_BYTES, RUNNING,
};
use crate::types::{Live, Type, TypeId, Types, POINTER_WIDTH};
use std::collections::HashMap;
use std::ops::Range;
use std::rc::Rc;

/// The closed type of each live region: that of the frame it is local to, through its map.
pub struct HeapTyping<'m> {
    types: Types<'m, Live>,
    regions: [Option<TypeId>; LIVE_REGIONS],
    /// Where runs of a type lie in objects of another, for the pairs met so far.
    distances: HashMap<(TypeId, TypeId), Rc<[bool; PAGE_BYTES]>>,
}

fn function_of<'m>(module: &'m Module, frame: &Frame) -> &'m Function {
    &module.functions[usize::from(frame.function)]
}

/// The live regions that are local to a frame.
pub fn local_regions<'f>(module: &Module, frame: &'f Frame) -> &'f [Live] {
    let function = function_of(module, frame);
    &frame.map[function.region_parameters..function.region_types.len()]
}

/// The whole object, used or free, that an offset in a page lies in, as offsets.
pub fn object_in_page(offset: u32, size: u32) -> Option<Range<u32>> {
    let start = offset - offset % size;
    (start + size <= PAGE_BYTES as u32).then_some(start..start + size)
}

impl<'m> HeapTyping<'m> {
    /// The frames' functions are in range.
    pub fn new(module: &'m Module, frames: &[Frame]) -> HeapTyping<'m> {
        let mut types = Types::new(module);
        let mut regions = [None; LIVE_REGIONS];
        for frame in frames {
            let function = function_of(module, frame);
            let local_types = &function.region_types[function.region_parameters..];
            for (live, &term) in local_regions(module, frame).iter().zip(local_types) {
                regions[usize::from(live.0)] = Some(types.term(term, &frame.map));
            }
        }
        HeapTyping { types, regions, distances: HashMap::new() }
    }

    fn run_distances(&mut self, run: TypeId, object: TypeId) -> Rc<[bool; PAGE_BYTES]> {
        let types = &mut self.types;
        let known = self.distances.entry((run, object));
        known.or_insert_with(|| Rc::new(types.run_distances(run, object))).clone()
    }

    /// The number is a value of this closed primitive type.
    fn is_value(&mut self, owners: &[Option<Live>; PAGES], primitive: TypeId, value: u32) -> bool {
        let (target, region) = match *self.types.get(primitive) {
            Type::Integer(width) => return u64::from(value) < 1 << (8 * u32::from(width)),
            Type::Pointer(target, region) => (target, region),
            Type::Array(..) | Type::Name(..) => return false,
        };
        if value == 0 {
            return true;
        }
        let (page, offset) = (value as usize / PAGE_BYTES, value % PAGE_BYTES as u32);
        if owners.get(page) != Some(&Some(region)) {
            return false;
        }
        let Some(object) = self.regions[usize::from(region.0)] else {
            return false;
        };
        let Some(place) = object_in_page(offset, self.types.size(object)) else {
            return false;
        };
        self.run_distances(target, object)[(offset - place.start) as usize]
    }
}

/// The clauses of the state test that `State::from_bytes` does not have.
pub fn passes(module: &Module, state: &State) -> bool {
    header_passes(state)
        && frames_pass(module, &state.frames)
        && pages_pass(module, state)
        && values_pass(module, state)
}

fn header_passes(state: &State) -> bool {
    let frames = state.frames.len();
    let ended = state.status == ENDED;
    let in_range = matches!(state.status, RUNNING | ENDED | FIRST_STOP..=LAST_STOP);
    in_range
        && (ended || state.result == 0)
        && usize::from(state.output_count) <= OUTPUT_BYTES
        && if ended { frames == 0 } else { (1..=MAX_FRAMES).contains(&frames) }
}

fn frames_pass(module: &Module, frames: &[Frame]) -> bool {
    let mut live = [false; LIVE_REGIONS];
    for (depth, frame) in frames.iter().enumerate() {
        let Some(function) = module.functions.get(usize::from(frame.function)) else {
            return false;
        };
        let spare_map = &frame.map[function.region_types.len()..];
        let spare_registers = &frame.registers[function.register_types.len()..];
        if usize::from(frame.instruction) >= function.code.len()
            || spare_map.iter().any(|live| live.0 != 0)
            || spare_registers.iter().any(|&register| register != 0)
        {
            return false;
        }
        let chained = match depth.checked_sub(1) {
            None => frame.function == 0,
            Some(below) => called_by(module, &frames[below], frame),
        };
        if !chained {
            return false;
        }
        for region in local_regions(module, frame) {
            let number = usize::from(region.0);
            if number >= LIVE_REGIONS || live[number] {
                return false;
            }
            live[number] = true;
        }
    }
    true
}

/// The caller stands at a call of this frame's function, and the frame's map begins with the
/// call's regions through the caller's map.
fn called_by(module: &Module, caller: &Frame, frame: &Frame) -> bool {
    let call = &function_of(module, caller).code[usize::from(caller.instruction)];
    let parameters = function_of(module, frame).region_parameters;
    let given = call.d.to_le_bytes();
    call.kind == KIND_CALL
        && call.b == frame.function
        && (0..parameters).all(|i| frame.map[i] == caller.map[usize::from(given[i])])
}

/// Owners are live, page 0 has none, and marks stand only at the places of owned pages.
fn pages_pass(module: &Module, state: &State) -> bool {
    let mut typing = HeapTyping::new(module, &state.frames);
    (0..PAGES).all(|page| {
        let places = match state.owners[page] {
            None => 0,
            Some(_) if page == 0 => return false,
            Some(owner) => match typing.regions[usize::from(owner.0)] {
                None => return false,
                Some(object) => PAGE_BYTES / typing.types.size(object) as usize,
            },
        };
        let marked = |place: usize| state.marks[page][place / 64] >> (place % 64) & 1 == 1;
        !(places..PAGE_BYTES).any(marked)
    })
}

/// Each register and each primitive in each owned page is a value of its type.
fn values_pass(module: &Module, state: &State) -> bool {
    let mut typing = HeapTyping::new(module, &state.frames);
    for frame in &state.frames {
        let function = function_of(module, frame);
        for (&term, &value) in function.register_types.iter().zip(&frame.registers) {
            let primitive = typing.types.term(term, &frame.map);
            if !typing.is_value(&state.owners, primitive, value) {
                return false;
            }
        }
    }
    (1..PAGES).all(|page| page_values_pass(&mut typing, state, page))
}

fn page_values_pass(typing: &mut HeapTyping, state: &State, page: usize) -> bool {
    let object_of = |owner: Live| typing.regions[usize::from(owner.0)];
    let Some(object) = state.owners[page].and_then(object_of) else {
        return true;
    };
    let size = typing.types.size(object) as usize;
    let bytes = &state.memory[page * PAGE_BYTES..(page + 1) * PAGE_BYTES];
    let mut distance = 0;
    for &primitive in typing.types.primitives(object).iter() {
        // Any bytes are a value of an integer.
        if let Type::Pointer(..) = typing.types.get(primitive) {
            for object in bytes.chunks_exact(size) {
                let end = distance + POINTER_WIDTH as usize;
                let value = object[distance..end].try_into().expect("four bytes");
                if !typing.is_value(&state.owners, primitive, u32::from_le_bytes(value)) {
                    return false;
                }
            }
        }
        distance += typing.types.width(primitive) as usize;
    }
    true
}

/// The addresses of the whole object at an address, used or free, of a state that passes.
pub fn object_at(module: &Module, state: &State, address: u32) -> Option<Range<u32>> {
    if address as usize >= MEMORY_BYTES {
        return None;
    }
    let owner = state.owners[address as usize / PAGE_BYTES]?;
    let mut typing = HeapTyping::new(module, &state.frames);
    let object = typing.regions[usize::from(owner.0)]?;
    let offset = address % PAGE_BYTES as u32;
    let place = object_in_page(offset, typing.types.size(object))?;
    let page_start = address - offset;
    Some(page_start + place.start..page_start + place.end)
}
