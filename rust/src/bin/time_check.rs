//! Nanoseconds a record of the two checkers, best of several rounds in one run, on accepted modules
//! of 1 to 64 blocks that are full of instructions of every form, on one that asks for the fields
//! of many structs in turn, and on six that are made to be slow. Built with the feature `librcm`
//! and the folder of `librcm.a` in RCM_LIB_DIR.

use reference::builder::{code, file, record, FunctionBuilder, ModuleBuilder};
use reference::compare::Interface;
use reference::file::Record;
use reference::host::{self, Answer};
use reference::library::Library;
use std::hint::black_box;
use std::time::{Duration, Instant};

fn library_check(file: &[u8]) -> Answer {
    Library.check(file)
}

/// Arithmetic, memory and control over registers i32, i8, pointer to a pair, pointer to its first
/// field, pointer to an array, in one region.
fn body() -> Vec<Record> {
    let mut records = vec![
        code::constant(0, 7),
        code::operation(code::ADD, 0, 0, 0),
        code::operation(code::LESS, 1, 0, 0),
        code::new(2),
        code::field(3, 2, 0),
        code::store(3, 0),
        code::load(0, 3),
        code::to_number(0, 2),
        code::check(2, 0),
        code::field(4, 2, 1),
        code::index(3, 4, 0),
        code::output(1),
        code::free(2),
    ];
    records.extend(code::call(0, 1, &[0], &[0]));
    records
}

/// A module of `blocks` blocks, nearly all of it code, the rest filler.
fn module(blocks: usize) -> Vec<u8> {
    let mut module = ModuleBuilder::new();
    let i32_term = module.integer(4);
    let i8_term = module.integer(1);
    let array = module.array(i32_term, 3);
    let pair = module.name_term(0, &[]);
    let to_pair = module.pointer(pair, 0);
    let to_i32 = module.pointer(i32_term, 0);
    let to_array = module.pointer(array, 0);
    module.name(0, &[i32_term, array]);
    let registers = vec![i32_term, i8_term, to_pair, to_i32, to_array];
    let budget = blocks * 63 - 40;
    let functions = budget.div_ceil(950).max(1);
    let turns = (budget / functions - 8) / body().len();
    let filled = |region_parameters: u8| {
        let mut code: Vec<Record> = (0..turns).flat_map(|_| body()).collect();
        code.push(code::ret(0));
        FunctionBuilder {
            regions: vec![pair],
            region_parameters,
            registers: registers.clone(),
            parameters: region_parameters,
            return_term: i32_term,
            code,
        }
    };
    module.function(&filled(0));
    let callee = FunctionBuilder {
        regions: vec![pair],
        region_parameters: 1,
        registers: registers.clone(),
        parameters: 1,
        return_term: i32_term,
        code: vec![code::ret(0)],
    };
    module.function(&callee);
    for _ in 1..functions {
        module.function(&filled(1));
    }
    let mut records = module.records();
    records.resize(blocks * 63, record(0, 0, 0, 0, 0));
    file(&records)
}

/// The file of 64 blocks with four functions of these regions and registers, the first of them an
/// i32, whose instructions are these over and over.
fn full(
    mut module: ModuleBuilder,
    regions: Vec<u8>,
    registers: Vec<u8>,
    body: &[Record],
) -> Vec<u8> {
    for _ in 0..4 {
        let mut code: Vec<Record> = body.iter().copied().cycle().take(940).collect();
        code.push(code::ret(0));
        module.function(&FunctionBuilder {
            regions: regions.clone(),
            region_parameters: 0,
            registers: registers.clone(),
            parameters: 0,
            return_term: registers[0],
            code,
        });
    }
    let mut records = module.records();
    records.resize(64 * 63, record(0, 0, 0, 0, 0));
    file(&records)
}

/// A field of a struct: so many i8, or a struct of a lower number with its regions.
#[derive(Clone, PartialEq)]
enum Field {
    Bytes(u32),
    Struct(u8, Vec<u8>),
}

fn plain(number: u8) -> Field {
    Field::Struct(number, vec![])
}

/// Structs 31 deep, each a byte and the next, 256 bytes in all.
fn deep() -> Vec<Vec<Field>> {
    let mut structs = vec![vec![Field::Bytes(226)]];
    structs.extend((0..30).map(|inner| vec![Field::Bytes(1), plain(inner)]));
    structs
}

/// 252 structs side by side, each of one byte that lies 28 structs deep, and four bytes.
fn wide() -> Vec<Vec<Field>> {
    let mut structs = vec![vec![Field::Bytes(1)]];
    structs.extend((0..27).map(|inner| vec![plain(inner)]));
    structs.push(vec![plain(27); 7]);
    structs.push(vec![plain(28); 6]);
    structs.push([vec![plain(29); 6], vec![Field::Bytes(4)]].concat());
    structs
}

/// 256 structs side by side, each of one byte that lies 23 structs deep, twice as many at each of
/// eight levels, with four regions that change their places from one to the next.
fn permuted() -> Vec<Vec<Field>> {
    let orders =
        [[0, 1, 2, 3], [1, 0, 2, 3], [1, 2, 3, 0], [0, 2, 1, 3], [3, 2, 1, 0], [2, 3, 0, 1]];
    let inside = |inner: u8, order: usize| Field::Struct(inner, orders[order % 6].to_vec());
    let mut structs = vec![vec![Field::Bytes(1)]];
    for inner in 0..30 {
        let order = usize::from(inner);
        let mut fields = vec![inside(inner, 5 * order + 2)];
        if inner >= 22 {
            fields.push(inside(inner, 7 * order + 1));
        }
        structs.push(fields);
    }
    structs
}

/// The last struct of 256 primitives is made in a region of an array, and is used as that array.
fn one_run() -> (Vec<u32>, Vec<Record>) {
    (vec![256], vec![code::new(1), code::field(2, 1, 0)])
}

/// Each instruction asks for another run of 178 to 192 primitives: so many that none is found
/// among those remembered.
fn many_runs() -> (Vec<u32>, Vec<Record>) {
    let arrays: Vec<u32> = (0..15).map(|shorter| 192 - shorter).collect();
    let runs = |array: u8| (0..64).map(move |position| code::field(3 + array, 1, position));
    ([vec![256], arrays].concat(), (0..15).flat_map(runs).collect())
}

/// The terms of these structs' fields, each term once.
fn field_terms(module: &mut ModuleBuilder, i8_term: u8, structs: &[Vec<Field>]) -> Vec<Vec<u8>> {
    let mut known: Vec<(Field, u8)> = vec![];
    let mut term = |field: &Field| {
        if let Some((_, term)) = known.iter().find(|(other, _)| other == field) {
            return *term;
        }
        let term = match field {
            Field::Bytes(count) => module.array(i8_term, *count),
            Field::Struct(number, arguments) => module.name_term(*number, arguments),
        };
        known.push((field.clone(), term));
        term
    };
    structs.iter().map(|fields| fields.iter().map(&mut term).collect()).collect()
}

/// A module of 64 blocks whose instructions compare the primitives of the last of these structs,
/// of so many regions (register 1 points to it), with those of arrays of so many bytes (the
/// registers from 2 on): these instructions over and over. The regions have the first array.
fn slow(structs: &[Vec<Field>], regions: u8, (arrays, body): (Vec<u32>, Vec<Record>)) -> Vec<u8> {
    let mut module = ModuleBuilder::new();
    let i32_term = module.integer(4);
    let i8_term = module.integer(1);
    let arrays: Vec<u8> = arrays.iter().map(|&count| module.array(i8_term, count)).collect();
    let fields = field_terms(&mut module, i8_term, structs);
    let arguments: Vec<u8> = (0..regions).collect();
    let last = module.name_term(structs.len() as u8 - 1, &arguments);
    let to_struct = module.pointer(last, 0);
    let to_arrays = arrays.iter().map(|&array| module.pointer(array, 0));
    let registers = [i32_term, to_struct].into_iter().chain(to_arrays).collect();
    for fields in &fields {
        module.name(regions, fields);
    }
    full(module, vec![arrays[0]; usize::from(regions.max(1))], registers, &body)
}

/// A module of few blocks: 90 terms name the last of these structs, and refusal 5 measures each.
fn many_terms(structs: &[Vec<Field>]) -> Vec<u8> {
    let mut module = ModuleBuilder::new();
    let i32_term = module.integer(4);
    let i8_term = module.integer(1);
    let fields = field_terms(&mut module, i8_term, structs);
    for _ in 0..90 {
        module.name_term(structs.len() as u8 - 1, &[]);
    }
    for fields in &fields {
        module.name(0, fields);
    }
    module.function(&FunctionBuilder {
        regions: vec![],
        region_parameters: 0,
        registers: vec![i32_term],
        parameters: 0,
        return_term: i32_term,
        code: vec![code::ret(0)],
    });
    let mut records = module.records();
    let blocks = records.len().div_ceil(63);
    records.resize(blocks * 63, record(0, 0, 0, 0, 0));
    file(&records)
}

/// A module of 64 blocks with 12 structs of 7 fields, in which each instruction asks for another
/// field.
fn fields_in_turn() -> Vec<u8> {
    let mut module = ModuleBuilder::new();
    let i32_term = module.integer(4);
    let structs: Vec<u8> = (0..12).map(|number| module.name_term(number, &[])).collect();
    let to_i32 = module.pointer(i32_term, 0);
    let to_structs = structs.iter().map(|&term| module.pointer(term, 0));
    let registers = [i32_term, to_i32].into_iter().chain(to_structs).collect();
    for _ in &structs {
        module.name(0, &[i32_term; 7]);
    }
    let fields = |number: u8| (0..7).map(move |position| code::field(1, 2 + number, position));
    let body: Vec<Record> = (0..12).flat_map(fields).collect();
    full(module, vec![i32_term], registers, &body)
}

/// The shortest of several rounds of so many calls.
fn best(file: &[u8], calls: u32, check: impl Fn(&[u8]) -> Answer) -> Duration {
    let round = || {
        let start = Instant::now();
        for _ in 0..calls {
            black_box(check(black_box(file)));
        }
        start.elapsed() / calls
    };
    (0..9).map(|_| round()).min().expect("some rounds")
}

fn row(file: &[u8], calls: u32) {
    let answer = host::check(file);
    assert_eq!(answer[0], host::GOOD, "{answer:?}");
    assert_eq!(answer, library_check(file));
    let blocks = file.len() / 512;
    let records = blocks * 63;
    let nanoseconds = |time: Duration| time.as_nanos() as f64 / records as f64;
    let library = nanoseconds(best(file, calls, library_check));
    let interpreter = nanoseconds(best(file, calls, host::check));
    let ratio = library / interpreter;
    let byte = library * records as f64 / file.len() as f64;
    println!(
        "{blocks:6}  {records:7}   {library:17.1}  {byte:7.1}   {interpreter:21.1}   {ratio:5.2}"
    );
}

fn main() {
    println!("blocks  records   library ns/record  ns/byte   interpreter ns/record   ratio");
    for blocks in [1, 4, 16, 64] {
        row(&module(blocks), 200);
    }
    println!("84 fields of 12 structs in turn:");
    row(&fields_in_turn(), 20);
    println!("made to be slow, each instruction on 256 primitives of structs:");
    println!("31 deep; 252 side by side, 28 deep; 256 side by side, 23 deep, regions permuted");
    row(&slow(&deep(), 0, one_run()), 1);
    row(&slow(&wide(), 0, one_run()), 1);
    row(&slow(&permuted(), 4, one_run()), 1);
    println!("the first and the last of them, each instruction for another run:");
    row(&slow(&deep(), 0, many_runs()), 1);
    row(&slow(&permuted(), 4, many_runs()), 1);
    println!("90 terms that name the last of the structs side by side:");
    row(&many_terms(&wide()), 1);
}
