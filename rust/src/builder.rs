//! Builds module files: records, tables in their order, blocks with correct checks. It tests
//! nothing, so that modules that are to be refused are built the same way.

use crate::file::{
    block_check, Record, BLOCK_BYTES, CHECK_AT, RECORDS_AT, RECORDS_PER_BLOCK, RECORD_BYTES,
};
use crate::module::{
    Module, Term, KIND_ARGUMENTS, KIND_ARRAY, KIND_CALL, KIND_FIELDS, KIND_FUNCTION, KIND_INTEGER,
    KIND_NAME, KIND_NAME_TERM, KIND_POINTER, KIND_REGION_TYPES, KIND_REGISTER_TYPES, MAX_LIST,
};

pub fn record(kind: u8, a: u8, b: u8, c: u8, d: u32) -> Record {
    let [d0, d1, d2, d3] = d.to_le_bytes();
    Record([kind, a, b, c, d0, d1, d2, d3])
}

/// A record that holds a list in bytes 1 to 7.
pub fn list_record(kind: u8, list: &[u8]) -> Record {
    let mut bytes = [0; RECORD_BYTES];
    bytes[0] = kind;
    bytes[1..=list.len()].copy_from_slice(list);
    Record(bytes)
}

/// Up to four bytes as the number d.
pub fn packed(bytes: &[u8]) -> u32 {
    let mut word = [0; 4];
    word[..bytes.len()].copy_from_slice(bytes);
    u32::from_le_bytes(word)
}

/// The file of these records: as few blocks as hold them, filled with zeros.
pub fn file(records: &[Record]) -> Vec<u8> {
    let blocks = records.len().div_ceil(RECORDS_PER_BLOCK).max(1);
    let mut file = vec![0; blocks * BLOCK_BYTES];
    for (place, block) in file.chunks_exact_mut(BLOCK_BYTES).enumerate() {
        block[0..2].copy_from_slice(&(place as u16).to_le_bytes());
        block[2..4].copy_from_slice(&(blocks as u16).to_le_bytes());
        let records = records.iter().skip(place * RECORDS_PER_BLOCK).take(RECORDS_PER_BLOCK);
        for (bytes, record) in block[RECORDS_AT..].chunks_exact_mut(RECORD_BYTES).zip(records) {
            bytes.copy_from_slice(&record.0);
        }
    }
    repair_checks(&mut file);
    file
}

/// Writes each whole block's check anew.
pub fn repair_checks(file: &mut [u8]) {
    for block in file.chunks_exact_mut(BLOCK_BYTES) {
        let check = block_check(block);
        block[CHECK_AT..].copy_from_slice(&check.to_le_bytes());
    }
}

/// The three tables of a module; each method gives the number of what it adds.
#[derive(Clone, Default, Debug)]
pub struct ModuleBuilder {
    pub terms: Vec<Record>,
    pub names: Vec<Record>,
    pub functions: Vec<Record>,
    function_count: u8,
}

/// A function; registers begin with the parameters, code has record 35 after each 33.
#[derive(Clone, Default, Debug)]
pub struct FunctionBuilder {
    pub region_parameters: u8,
    pub regions: Vec<u8>,
    pub parameters: u8,
    pub registers: Vec<u8>,
    pub return_term: u8,
    pub code: Vec<Record>,
}

impl ModuleBuilder {
    pub fn new() -> ModuleBuilder {
        ModuleBuilder::default()
    }

    /// The terms and names of a module, no function yet.
    pub fn of(module: &Module) -> ModuleBuilder {
        let mut builder = ModuleBuilder::new();
        for term in &module.terms {
            match term {
                Term::Integer { width } => builder.integer(*width),
                Term::Pointer { target, region } => builder.pointer(*target, *region),
                Term::Array { element, count } => builder.array(*element, *count),
                Term::Name { name, arguments } => builder.name_term(*name, arguments),
            };
        }
        for name in &module.names {
            builder.name(name.regions as u8, &name.fields);
        }
        builder
    }

    pub fn term(&mut self, record: Record) -> u8 {
        self.terms.push(record);
        (self.terms.len() - 1) as u8
    }

    pub fn integer(&mut self, width: u8) -> u8 {
        self.term(record(KIND_INTEGER, width, 0, 0, 0))
    }

    pub fn pointer(&mut self, target: u8, region: u8) -> u8 {
        self.term(record(KIND_POINTER, target, region, 0, 0))
    }

    pub fn array(&mut self, element: u8, count: u32) -> u8 {
        self.term(record(KIND_ARRAY, element, 0, 0, count))
    }

    pub fn name_term(&mut self, name: u8, arguments: &[u8]) -> u8 {
        self.term(record(KIND_NAME_TERM, name, arguments.len() as u8, 0, packed(arguments)))
    }

    pub fn name(&mut self, regions: u8, fields: &[u8]) -> u8 {
        self.names.push(record(KIND_NAME, regions, fields.len() as u8, 0, 0));
        self.names.push(list_record(KIND_FIELDS, fields));
        (self.names.len() / 2 - 1) as u8
    }

    pub fn function(&mut self, function: &FunctionBuilder) -> u8 {
        self.functions.extend(function.records());
        self.function_count += 1;
        self.function_count - 1
    }

    pub fn records(&self) -> Vec<Record> {
        [&self.terms[..], &self.names[..], &self.functions[..]].concat()
    }

    pub fn file(&self) -> Vec<u8> {
        file(&self.records())
    }
}

impl FunctionBuilder {
    pub fn instructions(&self) -> usize {
        self.code.iter().filter(|record| record.kind() != KIND_ARGUMENTS).count()
    }

    pub fn records(&self) -> Vec<Record> {
        let [low, high] = (self.instructions() as u16).to_le_bytes();
        let locals = self.regions.len() as u8 - self.region_parameters;
        let numbers = packed(&[self.return_term, self.parameters, low, high]);
        let registers = self.registers.len() as u8;
        let header = record(KIND_FUNCTION, self.region_parameters, locals, registers, numbers);
        let mut records = vec![header];
        if !self.regions.is_empty() {
            records.push(list_record(KIND_REGION_TYPES, &self.regions));
        }
        let lists = self.registers.chunks(MAX_LIST);
        records.extend(lists.map(|list| list_record(KIND_REGISTER_TYPES, list)));
        records.extend_from_slice(&self.code);
        records
    }
}

/// The instructions by name, operands in the file's order.
pub mod code {
    use super::{list_record, packed, record, Record, KIND_ARGUMENTS, KIND_CALL};

    pub const ADD: u32 = 0;
    pub const SUBTRACT: u32 = 1;
    pub const AND: u32 = 3;
    pub const EXCLUSIVE_OR: u32 = 5;
    pub const RIGHT_SHIFT: u32 = 7;
    pub const QUOTIENT: u32 = 8;
    pub const SIGNED_QUOTIENT: u32 = 10;
    pub const EQUAL: u32 = 11;
    pub const LESS: u32 = 12;
    pub const LESS_SIGNED: u32 = 13;

    pub fn constant(a: u8, value: u32) -> Record {
        record(16, a, 0, 0, value)
    }

    pub fn copy(a: u8, b: u8) -> Record {
        record(17, a, b, 0, 0)
    }

    pub fn operation(operation: u32, a: u8, b: u8, c: u8) -> Record {
        record(18, a, b, c, operation)
    }

    pub fn zero_extend(a: u8, b: u8) -> Record {
        record(19, a, b, 0, 0)
    }

    pub fn sign_extend(a: u8, b: u8) -> Record {
        record(20, a, b, 0, 0)
    }

    pub fn to_number(a: u8, b: u8) -> Record {
        record(21, a, b, 0, 0)
    }

    pub fn check(a: u8, b: u8) -> Record {
        record(22, a, b, 0, 0)
    }

    pub fn field(a: u8, b: u8, position: u32) -> Record {
        record(23, a, b, 0, position)
    }

    pub fn index(a: u8, b: u8, c: u8) -> Record {
        record(24, a, b, c, 0)
    }

    pub fn load(a: u8, b: u8) -> Record {
        record(25, a, b, 0, 0)
    }

    pub fn store(a: u8, b: u8) -> Record {
        record(26, a, b, 0, 0)
    }

    pub fn new(a: u8) -> Record {
        record(27, a, 0, 0, 0)
    }

    pub fn free(a: u8) -> Record {
        record(28, a, 0, 0, 0)
    }

    pub fn form(a: u8, c: u8) -> Record {
        record(29, a, 0, c, 0)
    }

    pub fn output(b: u8) -> Record {
        record(30, 0, b, 0, 0)
    }

    pub fn jump(target: u32) -> Record {
        record(31, 0, 0, 0, target)
    }

    pub fn branch(a: u8, target: u32) -> Record {
        record(32, a, 0, 0, target)
    }

    /// The call and its record 35.
    pub fn call(a: u8, function: u8, regions: &[u8], arguments: &[u8]) -> [Record; 2] {
        let call = record(KIND_CALL, a, function, 0, packed(regions));
        [call, list_record(KIND_ARGUMENTS, arguments)]
    }

    pub fn ret(a: u8) -> Record {
        record(34, a, 0, 0, 0)
    }
}
