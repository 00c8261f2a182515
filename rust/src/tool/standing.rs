//! The instruction that a frame stands at, with the values of its registers by name.

use crate::module::{Instruction, Module};
use crate::state::{Frame, State};
use crate::text::{Listing, Source};
use std::fmt::Display;

pub struct Standing<'s> {
    pub listing: &'s Listing<'s>,
    pub frame: &'s Frame,
    pub function: usize,
    pub instruction: &'s Instruction,
}

impl<'s> Standing<'s> {
    /// None where the module has no such instruction, which no sound state says.
    pub fn of(listing: &'s Listing<'s>, frame: &'s Frame) -> Option<Standing<'s>> {
        let function = usize::from(frame.function);
        let module: &'s Module = listing.module;
        let instruction =
            module.functions.get(function)?.code.get(usize::from(frame.instruction))?;
        Some(Standing { listing, frame, function, instruction })
    }

    /// Of the top frame of a state.
    pub fn top(listing: &'s Listing<'s>, state: &'s State) -> Option<Standing<'s>> {
        Standing::of(listing, state.frames.last()?)
    }

    /// The instruction in the text form.
    pub fn text(&self) -> String {
        self.listing.instruction_text(self.function, self.instruction)
    }

    pub fn function_name(&self) -> String {
        self.listing.names.function(self.function)
    }

    pub fn source(&self) -> Option<Source<'s>> {
        let instruction = usize::from(self.frame.instruction);
        self.listing.names.instruction_source(self.function, instruction)
    }

    pub fn value(&self, register: u8) -> u32 {
        self.frame.registers[usize::from(register)]
    }

    /// What a register is called.
    pub fn name(&self, register: u8) -> String {
        self.listing.names.register(self.function, register)
    }

    /// A register with its value.
    pub fn register(&self, register: u8) -> String {
        self.register_as(register, self.value(register))
    }

    pub fn register_as(&self, register: u8, value: impl Display) -> String {
        format!("{} = {value}", self.name(register))
    }
}
