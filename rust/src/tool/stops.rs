//! A stop in plain words: the instruction that stopped and the values that explain it.

use super::explain::{source_json, stop_title};
use super::heap::Heap;
use super::json::Json;
use super::standing::Standing;
use super::{counted, numbers};
use crate::builder::code;
use crate::module::{Module, Term};
use crate::state::{State, MEMORY_BYTES, PAGES, PAGE_BYTES};
use crate::text::{Listing, Names, Scope, Source};

/// A stop: what its number means, where and why, and what to do next.
pub struct Stopped<'m> {
    meaning: &'static str,
    /// The place, the instruction and the values that explain it.
    pub at: Option<String>,
    source: Option<Source<'m>>,
    advice: Option<&'static str>,
}

impl<'m> Stopped<'m> {
    pub fn new(
        module: &Module,
        names: Names<'m>,
        state: &State,
        form_length: usize,
        number: u64,
    ) -> Stopped<'m> {
        let frame = state.frames.last();
        let source = frame.and_then(|frame| {
            names.instruction_source(usize::from(frame.function), usize::from(frame.instruction))
        });
        Stopped {
            meaning: stop_title(number),
            at: stopped_at(module, names, state, form_length, number),
            source,
            advice: numbers::stop(number).map(|one| one.advice),
        }
    }

    /// A line for each.
    pub fn text(&self) -> String {
        let mut text = format!("{}\n", self.meaning);
        text.extend(self.at.as_ref().map(|at| format!("at {at}\n")));
        text.extend(self.advice.map(|advice| format!("what to do next: {advice}\n")));
        text
    }

    pub fn members(&self) -> Vec<(&'static str, Json)> {
        let mut members = vec![("meaning", Json::text(self.meaning))];
        members.extend(self.at.as_ref().map(|at| ("at", Json::text(at))));
        members.extend(self.source.map(|source| ("source", source_json(&source))));
        members.extend(self.advice.map(|advice| ("advice", Json::text(advice))));
        members
    }
}

/// The place of a stop, its instruction and the values that explain it.
fn stopped_at(
    module: &Module,
    names: Names,
    state: &State,
    form_length: usize,
    number: u64,
) -> Option<String> {
    let listing = Listing::new(module, names);
    let standing = Standing::top(&listing, state)?;
    let place = match standing.source() {
        Some(source) => source.line(),
        None => {
            format!("{} instruction {}", standing.function_name(), standing.frame.instruction)
        }
    };
    let why = reason(&standing, state, form_length, number);
    let why = why.map_or(String::new(), |why| format!(": {why}"));
    Some(format!("{place}: {}{why}", standing.text()))
}

fn reason(at: &Standing, state: &State, form_length: usize, number: u64) -> Option<String> {
    let (a, b, c) = (at.instruction.a, at.instruction.b, at.instruction.c);
    Some(match (number, at.instruction.kind) {
        (31, 26 | 28) => at.register(a),
        (31, _) => at.register(b),
        (32, _) => format!("{}, {}", at.register(b), what_lies(at, state, at.value(b))),
        (33, _) => format!("{}, the array has {}", at.register(c), array_count(at, b)?),
        (34, _) => pages_owned(at, state, a)?,
        (35, _) => format!("{} are in use", counted(state.frames.len() as u64, "frame")),
        (36, _) => operands(at, at.instruction.d == code::SIGNED_QUOTIENT),
        (37, _) => {
            let written = type_of(at, b);
            let bits = written.trim_start_matches('i').to_string();
            format!("{}, an {written} has {bits} bits", operands(at, false))
        }
        (38, _) => {
            let bytes = counted(form_length as u64, "byte");
            format!("{}, the form has {bytes}", at.register(c))
        }
        (39, _) => {
            let bytes = counted(u64::from(state.output_count), "byte");
            format!("{}, the output has {bytes} already", at.register(b))
        }
        _ => return None,
    })
}

/// The operands of an operation; those with a sign as they count.
fn operands(at: &Standing, signed: bool) -> String {
    let operand = |register: u8| match signed {
        true => at.register_as(register, at.value(register).cast_signed()),
        false => at.register(register),
    };
    let (b, c) = (at.instruction.b, at.instruction.c);
    if b == c {
        return operand(b);
    }
    format!("{}, {}", operand(b), operand(c))
}

fn type_of(at: &Standing, register: u8) -> String {
    let term = at.listing.module.functions[at.function].register_types[usize::from(register)];
    at.listing.type_text(term, Scope::Function(at.function))
}

fn array_count(at: &Standing, register: u8) -> Option<u32> {
    let target = at.listing.target(at.function, register)?;
    match at.listing.module.terms[usize::from(target)] {
        Term::Array { count, .. } => Some(count),
        _ => None,
    }
}

/// Who owns the pages where none is left for a new object.
fn pages_owned(at: &Standing, state: &State, register: u8) -> Option<String> {
    let function = &at.listing.module.functions[at.function];
    let term = function.register_types[usize::from(register)];
    let Term::Pointer { region, .. } = at.listing.module.terms[usize::from(term)] else {
        return None;
    };
    let live = at.frame.map[usize::from(region)];
    let own = state.owners.iter().filter(|owner| **owner == Some(live)).count();
    let scope = Scope::Function(at.function);
    let holds = function.region_types[usize::from(region)];
    let (name, written) =
        (at.listing.region_text(region, scope), at.listing.type_text(holds, scope));
    let size = counted(u64::from(at.listing.sizes.terms[usize::from(holds)]), "byte");
    let (owned, all) = (state.owned_pages(), PAGES - 1);
    Some(format!("{owned} of {all} pages are owned, {own} of them by {name}: {written}, {size}"))
}

/// What lies at an address where a check failed, and what the pointer asks for.
fn what_lies(at: &Standing, state: &State, address: u32) -> String {
    let asks = format!("{} is {}", at.name(at.instruction.a), type_of(at, at.instruction.a));
    let page = address as usize / PAGE_BYTES;
    if address as usize >= MEMORY_BYTES {
        return format!("beyond the last page; {asks}");
    }
    let Some(live) = state.owners[page] else {
        return format!("in page {page}, which no region owns; {asks}");
    };
    let heap = Heap::new(at.listing, state);
    let Some(region) = heap.region(live) else {
        return asks;
    };
    let whose = format!("region {} (frame {} {})", live.0, region.frame, region.name);
    let Some(object) = heap.object(address) else {
        return format!("behind the last object of page {page} in {whose}; {asks}");
    };
    let inside = match address as usize - object.start {
        0 => String::new(),
        distance => format!("{} into ", counted(distance as u64, "byte")),
    };
    let (start, mark, written) = (object.start, object.mark(), &region.written);
    format!("{inside}the {mark} object at {start} in {whose}: {written}; {asks}")
}
