//! Every refusal number of a module from several causes, with its place, and near misses that
//! are accepted. The base is a module with structs, regions and a call, changed in one point.

use reference::builder::{code, file, list_record, packed, record, repair_checks};
use reference::builder::{FunctionBuilder, ModuleBuilder};
use reference::calls;
use reference::file::Record;
use reference::host;

const I32: u8 = 0;
const I8: u8 = 1;
const I16: u8 = 2;

fn verdict(records: &[Record]) -> (u64, u64) {
    let answer = calls::check(&file(records));
    match answer[0] {
        host::REFUSED => (answer[1], answer[2]),
        _ => (0, 0),
    }
}

const ACCEPTED: (u64, u64) = (0, 0);

/// Terms 0 i32, 1 i8, 2 i16.
fn integers() -> ModuleBuilder {
    let mut module = ModuleBuilder::new();
    for width in [4, 1, 2] {
        module.integer(width);
    }
    module
}

fn function_0(registers: &[u8], code: &[Record]) -> FunctionBuilder {
    FunctionBuilder {
        registers: registers.to_vec(),
        return_term: I32,
        code: code.to_vec(),
        ..FunctionBuilder::default()
    }
}

/// A module of integers alone with this code in function 0.
fn with_code(registers: &[u8], code: &[Record]) -> Vec<Record> {
    let mut module = integers();
    module.function(&function_0(registers, code));
    module.records()
}

/// Terms, one name, function 0 with two regions that calls function 1 for one of them.
/// Records: terms 0-6, name 7-8, function 0 at 9 (10 regions, 11 registers, code 12-18), function
/// 1 at 19 (20 regions, 21 registers, code 22-23).
fn base() -> Vec<Record> {
    let mut module = integers();
    let pointer = module.pointer(I32, 0); // 3
    let pair = module.name_term(0, &[0]); // 4
    let pair_pointer = module.pointer(pair, 0); // 5
    let other_pair = module.name_term(0, &[1]); // 6
    module.name(1, &[I32, pointer]);
    let mut function = function_0(&[I32, pair_pointer, pointer, I8], &[]);
    function.regions = vec![pair, other_pair];
    function.code = vec![
        code::new(1),                        // 12
        code::field(2, 1, 0),                // 13
        code::load(0, 2),                    // 14
        code::call(0, 1, &[0], &[1])[0],     // 15
        code::call(0, 1, &[0], &[1])[1],     // 16
        code::operation(code::ADD, 0, 0, 0), // 17
        code::ret(0),                        // 18
    ];
    module.function(&function);
    module.function(&FunctionBuilder {
        region_parameters: 1,
        regions: vec![pair],
        parameters: 1,
        registers: vec![pair_pointer, I32],
        return_term: I32,
        code: vec![code::constant(1, 5), code::ret(1)],
    });
    module.records()
}

fn changed(change: impl Fn(&mut Vec<Record>)) -> (u64, u64) {
    let mut records = base();
    change(&mut records);
    verdict(&records)
}

fn byte(place: usize, index: usize, value: u8) -> (u64, u64) {
    changed(|records| records[place].0[index] = value)
}

#[test]
fn the_base_is_accepted() {
    assert_eq!(calls::check(&file(&base())), [host::GOOD, 7, 1, 2 * 65_536 + 8]);
}

#[test]
fn refusal_1_length() {
    let whole = file(&base());
    let refused = |file: &[u8]| assert_eq!(calls::check(file), [0, 1, 0, 0]);
    refused(&[]);
    refused(&whole[..511]);
    refused(&[&whole[..], &[0]].concat());
    refused(&vec![0; 65 * 512]);
    // Also where blocks and checks are wrong.
    refused(&[9; 100]);
}

#[test]
fn refusals_2_and_3_go_block_by_block() {
    let mut records = base();
    records.resize(100, Record([0; 8]));
    let whole = file(&records);
    let with = |at: usize, value: u8, repair: bool| {
        let mut file = whole.clone();
        file[at] = value;
        if repair {
            repair_checks(&mut file);
        }
        let answer = calls::check(&file);
        (answer[1], answer[2])
    };
    assert_eq!(with(0, 1, true), (2, 0));
    assert_eq!(with(1, 1, true), (2, 0));
    assert_eq!(with(2, 1, true), (2, 0));
    assert_eq!(with(512, 0, true), (2, 1));
    assert_eq!(with(515, 1, true), (2, 1));
    assert_eq!(with(510, 9, false), (3, 0));
    assert_eq!(with(511, 1, false), (3, 0));
    assert_eq!(with(600, 1, false), (3, 1));
    // 2 before 3 in a block, but 3 of block 0 before 2 of block 1.
    assert_eq!(with(0, 1, false), (2, 0));
    let mut both = whole.clone();
    both[512] = 0;
    both[508] ^= 1;
    assert_eq!(calls::check(&both)[1..3], [3, 0]);
}

#[test]
fn refusal_4_order_and_ends() {
    assert_eq!(verdict(&[]), (4, 0));
    assert_eq!(verdict(&base()[..3]), (4, 3));
    assert_eq!(byte(0, 0, 99), (4, 0));
    // 6, 8, 9 and 35 missing, where they should stand.
    for place in [8, 10, 11, 16, 20, 21] {
        assert_eq!(changed(|records| _ = records.remove(place)), (4, place as u64));
    }
    // Code too short and too long for its header; a 35 astray.
    assert_eq!(byte(9, 6, 7), (4, 19));
    assert_eq!(byte(9, 6, 5), (4, 18));
    assert_eq!(changed(|records| records.insert(14, list_record(35, &[]))), (4, 14));
    // A term behind names, a name behind functions, a function behind filler.
    assert_eq!(changed(|records| records.insert(9, record(1, 4, 0, 0, 0))), (4, 9));
    assert_eq!(changed(|records| records.push(record(5, 0, 1, 0, 0))), (4, 24));
    let behind_filler = changed(|records| records.extend([Record([0; 8]), record(7, 0, 0, 1, 0)]));
    assert_eq!(behind_filler, (4, 25));
    assert_eq!(changed(|records| records.push(record(0, 0, 0, 0, 1))), (4, 24));
    // A file that ends in code has its record count as place.
    let endless = vec![code::constant(0, 0); 200];
    let mut records = with_code(&[I32], &endless);
    records.truncate(126);
    assert_eq!(verdict(&records), (4, 126));
    // No function and no record left.
    assert_eq!(verdict(&[record(1, 4, 0, 0, 0); 63]), (4, 63));
}

#[test]
fn refusal_4_ranges_of_the_tables() {
    let cases = [
        (0, 1, 3),
        (0, 1, 0),
        (0, 2, 1),
        (0, 7, 1),
        (3, 1, 3), // itself
        (3, 1, 5),
        (3, 2, 7),
        (3, 3, 1),
        (4, 1, 1), // name 1 is not there
        (4, 2, 5),
        (4, 4, 7),
        (4, 5, 1), // past the arguments
        (4, 3, 1),
        (7, 1, 5),
        (7, 2, 0),
        (7, 2, 8),
        (7, 3, 1),
        (7, 4, 1),
        (8, 1, 7), // a field that names nothing
        (8, 3, 1),
        (9, 1, 5),
        (9, 2, 8),
        (9, 3, 0),
        (9, 3, 29),
        (9, 4, 7),
        (9, 5, 5), // more parameters than registers
        (9, 5, 8),
        (9, 7, 5), // 1,286 instructions
        (10, 1, 7),
        (10, 3, 1),
        (11, 4, 200),
        (11, 5, 1),
    ];
    for (place, index, value) in cases {
        assert_eq!(byte(place, index, value), (4, place as u64), "{place} {index} {value}");
    }
    let array = |count: u32| {
        let mut module = integers();
        module.array(I8, count);
        module.function(&function_0(&[I32], &[code::ret(0)]));
        verdict(&module.records())
    };
    assert_eq!(array(0), (4, 3));
    assert_eq!(array(257), (4, 3));
    assert_eq!(array(256), ACCEPTED);
}

#[test]
fn refusal_4_limits_of_the_tables() {
    let tables = |terms: usize, names: usize, functions: usize| {
        let mut module = ModuleBuilder::new();
        for _ in 0..terms {
            module.integer(4);
        }
        for _ in 0..names {
            module.name(0, &[I32]);
        }
        for _ in 0..functions {
            module.function(&function_0(&[I32], &[code::ret(0)]));
        }
        verdict(&module.records())
    };
    assert_eq!(tables(128, 32, 32), ACCEPTED);
    assert_eq!(tables(129, 0, 1), (4, 128));
    assert_eq!(tables(300, 0, 1), (4, 128));
    assert_eq!(tables(1, 33, 1), (4, 65));
    assert_eq!(tables(1, 0, 33), (4, 1 + 3 * 32));
    let long = |count: usize| {
        let mut code = vec![code::constant(0, 0); count - 1];
        code.push(code::ret(0));
        verdict(&with_code(&[I32; 28], &code))
    };
    assert_eq!(long(1024), ACCEPTED);
    assert_eq!(long(1025), (4, 3));
}

#[test]
fn refusal_4_operands() {
    // Each kind with operands in range, and then each byte that is not.
    let registers = [I32, I8, I16, I32];
    let operands: [(u8, &[usize]); 12] = [
        (16, &[1, 2, 3]),
        (17, &[1, 2, 3, 4, 7]),
        (18, &[1, 2, 3, 4, 7]),
        (22, &[1, 2, 3, 4]),
        (23, &[1, 2, 3]),
        (24, &[1, 2, 3, 4]),
        (27, &[1, 2, 3, 4]),
        (29, &[1, 2, 3, 4]),
        (30, &[1, 2, 3, 4]),
        (31, &[1, 2, 3, 4]),
        (32, &[1, 2, 3, 4]),
        (34, &[1, 2, 3, 4]),
    ];
    for (kind, bytes) in operands {
        for &index in bytes {
            let mut bad = record(kind, 0, 0, 0, 0);
            bad.0[index] = 14;
            let records = with_code(&registers, &[bad, code::ret(0)]);
            assert_eq!(verdict(&records), (4, 5), "kind {kind} byte {index}");
        }
    }
    let d_counts_whole = with_code(&registers, &[code::operation(256, 0, 0, 0), code::ret(0)]);
    assert_eq!(verdict(&d_counts_whole), (4, 5));
    // A call's function, regions and arguments.
    assert_eq!(byte(15, 2, 2), (4, 15));
    assert_eq!(byte(15, 4, 2), (4, 15));
    assert_eq!(byte(15, 5, 1), (4, 15));
    assert_eq!(byte(15, 3, 1), (4, 15));
    assert_eq!(byte(16, 1, 4), (4, 16));
    assert_eq!(byte(16, 2, 1), (4, 16));
    assert_eq!(byte(16, 7, 1), (4, 16));
}

#[test]
fn behind_a_break_nothing_is_known() {
    // Record 18 has an unknown kind: function 1 is not reached, the names' end is.
    let broken = |change: &dyn Fn(&mut Vec<Record>)| {
        changed(|records| {
            records[18].0[0] = 200;
            change(records);
        })
    };
    assert_eq!(broken(&|_| ()), (4, 18));
    assert_eq!(broken(&|records| records[4].0[1] = 1), (4, 4));
    assert_eq!(broken(&|records| records[15].0[2] = 9), (4, 18));
    // Regions and arguments of a callee not reached: in range or zero.
    assert_eq!(broken(&|records| records[15].0[7] = 1), (4, 18));
    assert_eq!(broken(&|records| records[15].0[7] = 2), (4, 15));
    assert_eq!(broken(&|records| records[16].0[7] = 3), (4, 18));
    assert_eq!(broken(&|records| records[16].0[7] = 4), (4, 16));
    // A break before the names' end: name 1 may stand behind.
    let in_names = changed(|records| {
        records[4].0[1] = 1;
        records[8].0[0] = 200;
    });
    assert_eq!(in_names, (4, 8));
    // Faults before the break come first, by place.
    assert_eq!(broken(&|records| records[13].0[1] = 99), (4, 13));
    // The file ends inside code, before the function that is called could stand there.
    let mut code = code::call(0, 1, &[], &[]).to_vec();
    code.extend(vec![code::constant(0, 0); 200]);
    let mut records = with_code(&[I32], &code);
    records.truncate(126);
    assert_eq!(verdict(&records), (4, 126));
}

#[test]
fn refusal_5_sizes() {
    let types = |build: &dyn Fn(&mut ModuleBuilder)| {
        let mut module = integers();
        build(&mut module);
        module.function(&function_0(&[I32], &[code::ret(0)]));
        verdict(&module.records())
    };
    let bytes_and_one = |module: &mut ModuleBuilder| {
        let bytes = module.array(I8, 256);
        module.name(0, &[bytes, I8]);
    };
    assert_eq!(types(&|module| _ = module.array(I8, 256)), ACCEPTED);
    assert_eq!(types(&bytes_and_one), (5, 4));
    assert_eq!(types(&|module| _ = module.array(I32, 65)), (5, 3));
    // A term of a name without size stands before the name.
    let of_itself = |module: &mut ModuleBuilder| {
        let itself = module.name_term(0, &[]);
        module.name(0, &[itself]);
    };
    assert_eq!(types(&of_itself), (5, 3));
    let pointer_to_itself = |module: &mut ModuleBuilder| {
        let itself = module.name_term(0, &[0]);
        let pointer = module.pointer(itself, 0);
        module.name(1, &[pointer]);
    };
    assert_eq!(types(&pointer_to_itself), ACCEPTED);
    // A higher name outside pointers, cycle or not; an array does not hide it.
    let of_a_higher_one = |module: &mut ModuleBuilder| {
        let higher = module.name_term(1, &[]);
        let several = module.array(higher, 2);
        module.name(0, &[several]);
        module.name(0, &[I32]);
    };
    assert_eq!(types(&of_a_higher_one), (5, 5));
    // Wrong argument counts, at that term alone.
    let wrong_count = |arguments: &'static [u8]| {
        types(&move |module: &mut ModuleBuilder| {
            let term = module.name_term(0, arguments);
            module.pointer(term, 0);
            module.name(1, &[I32]);
        })
    };
    assert_eq!(wrong_count(&[]), (5, 3));
    assert_eq!(wrong_count(&[0]), ACCEPTED);
    assert_eq!(wrong_count(&[0, 0]), (5, 3));
    // A field that uses a region its name lacks, under a pointer or as an argument.
    let lacking = |regions: u8| {
        types(&move |module: &mut ModuleBuilder| {
            let inner = module.pointer(I32, 1);
            let outer = module.pointer(inner, 0);
            module.name(regions, &[outer]);
        })
    };
    assert_eq!(lacking(1), (5, 5));
    assert_eq!(lacking(2), ACCEPTED);
    let as_argument = |module: &mut ModuleBuilder| {
        let term = module.name_term(0, &[1]);
        module.name(1, &[I32]);
        module.name(1, &[term]);
    };
    assert_eq!(types(&as_argument), (5, 6));
}

#[test]
fn sizes_do_not_explode() {
    let mut module = integers();
    let terms: Vec<u8> = (0..31).map(|name| module.name_term(name, &[])).collect();
    module.name(0, &[I8; 7]);
    for term in terms {
        module.name(0, &[term; 7]);
    }
    module.function(&function_0(&[I32], &[code::ret(0)]));
    // 7, 49, then 343 bytes: the term of name 2.
    assert_eq!(verdict(&module.records()), (5, 5));

    // 245 primitives behind arrays of one at every turn, compared often.
    let mut module = integers();
    let mut inner = I8;
    let mut fields = Vec::new();
    for name in 0..3 {
        let ones = (0..30).fold(inner, |term, _| module.array(term, 1));
        fields.push(ones);
        inner = module.name_term(name, &[]);
    }
    let target = module.pointer(inner, 0);
    for &field in &fields {
        module.name(0, &[field; 6]);
    }
    let mut function = function_0(&[I32, target], &[]);
    function.regions = vec![inner];
    function.code = vec![code::field(1, 1, 0); 1000];
    function.code.push(code::ret(0));
    module.function(&function);
    assert_eq!(verdict(&module.records()), ACCEPTED);
}

#[test]
fn refusal_6_functions() {
    // Register or return that is not primitive.
    assert_eq!(byte(11, 2, 4), (6, 9));
    assert_eq!(byte(19, 4, 4), (6, 19));
    // Function 0: region parameters, a parameter or a return other than i32.
    let region_parameter = changed(|records| (records[9].0[1], records[9].0[2]) = (1, 1));
    assert_eq!(region_parameter, (6, 9));
    assert_eq!(byte(9, 4, I8), (6, 9));
    assert_eq!(byte(9, 5, 2), (6, 9));
    // A region beyond the scope, in a region type and in a register.
    assert_eq!(byte(20, 1, 6), (6, 19));
    let local_type = changed(|records| records[6] = record(4, 0, 1, 0, packed(&[2])));
    assert_eq!(local_type, (6, 9));
    let register = changed(|records| records[3] = record(2, I32, 2, 0, 0));
    assert_eq!(register, (5, 7));
    // 6 of any function before 7 of any.
    let both = changed(|records| {
        records[13] = code::field(2, 1, 9);
        records[19].0[4] = 4;
    });
    assert_eq!(both, (6, 19));
}

#[test]
fn refusal_6_local_regions_stay_inside() {
    // Function 1 with one region parameter and one local region.
    let scope = |return_region: u8, parameter_region: u8, parameter_type: u8, local_type: u8| {
        let mut module = integers();
        let pointers = [module.pointer(I32, 0), module.pointer(I32, 1)];
        module.function(&function_0(&[I32], &[code::ret(0)]));
        module.function(&FunctionBuilder {
            region_parameters: 1,
            regions: vec![pointers[parameter_type as usize], pointers[local_type as usize]],
            parameters: 1,
            registers: vec![pointers[parameter_region as usize], pointers[0], pointers[1]],
            return_term: pointers[return_region as usize],
            code: vec![code::ret(1 + return_region)],
        });
        verdict(&module.records())
    };
    assert_eq!(scope(0, 0, 0, 0), ACCEPTED);
    assert_eq!(scope(0, 0, 0, 1), ACCEPTED);
    // A return term that names a local region passes a first look.
    assert_eq!(scope(1, 0, 0, 0), (6, 8));
    assert_eq!(scope(0, 1, 0, 0), (6, 8));
    assert_eq!(scope(0, 0, 1, 0), (6, 8));
}

#[test]
fn refusal_7_numbers() {
    let registers = [I32, I8, I16, I32];
    let one = |instruction: Record| {
        let verdict = verdict(&with_code(&registers, &[instruction, code::ret(0)]));
        assert!(verdict == ACCEPTED || verdict == (7, 5), "{verdict:?}");
        verdict == ACCEPTED
    };
    assert!(one(code::constant(1, 255)) && !one(code::constant(1, 256)));
    assert!(one(code::constant(2, 65_535)) && !one(code::constant(2, 65_536)));
    assert!(one(code::constant(0, u32::MAX)));
    assert!(one(code::copy(0, 3)) && !one(code::copy(0, 1)));
    for operation in 0..=9 {
        assert!(one(code::operation(operation, 1, 1, 1)));
        assert!(!one(code::operation(operation, 0, 1, 1)));
        assert!(!one(code::operation(operation, 0, 0, 1)));
    }
    assert!(one(code::operation(10, 0, 3, 0)) && !one(code::operation(10, 2, 2, 2)));
    for operation in 11..=13 {
        assert!(one(code::operation(operation, 1, 2, 2)));
        assert!(!one(code::operation(operation, 2, 2, 2)));
        assert!(!one(code::operation(operation, 1, 2, 0)));
    }
    assert!(one(code::zero_extend(1, 0)) && one(code::sign_extend(0, 0)));
    assert!(!one(code::to_number(0, 0)) && !one(code::check(0, 0)));
    assert!(!one(code::load(0, 0)) && !one(code::store(0, 0)));
    assert!(!one(code::new(0)) && !one(code::free(0)));
    assert!(one(code::form(1, 0)) && !one(code::form(0, 0)) && !one(code::form(1, 1)));
    assert!(one(code::output(1)) && !one(code::output(0)));
    assert!(one(code::branch(1, 0)) && !one(code::ret(1)) && !one(code::ret(2)));
}

#[test]
fn refusal_7_pointers() {
    // Registers: 0 i32, 1 pair in 0, 2 i32 in 0, 3 i32 in 1, 4 pair in 1, 5 array in 0,
    // 6 {i32} in 0, 7 i8, 8 array of one in 0.
    let mut module = integers();
    let pair = module.name_term(0, &[]);
    let several = module.array(I32, 2);
    let single = module.name_term(1, &[]);
    let one = module.array(I32, 1);
    let registers = vec![
        I32,
        module.pointer(pair, 0),
        module.pointer(I32, 0),
        module.pointer(I32, 1),
        module.pointer(pair, 1),
        module.pointer(several, 0),
        module.pointer(single, 0),
        I8,
        module.pointer(one, 0),
    ];
    module.name(0, &[I32, I32]);
    module.name(0, &[I32]);
    let place = module.records().len() as u64 + 4;
    let typed = |instruction: Record| {
        let mut module = module.clone();
        let mut function = function_0(&registers, &[instruction, code::ret(0)]);
        function.regions = vec![pair, pair];
        module.function(&function);
        let verdict = verdict(&module.records());
        assert!(verdict == ACCEPTED || verdict == (7, place), "{verdict:?}");
        verdict == ACCEPTED
    };
    // 23 counts primitives, in the same region, and compares primitives.
    assert!(typed(code::field(2, 1, 0)) && typed(code::field(2, 1, 1)));
    assert!(!typed(code::field(2, 1, 2)) && !typed(code::field(2, 1, u32::MAX)));
    assert!(!typed(code::field(3, 1, 0)));
    assert!(typed(code::field(5, 1, 0)) && typed(code::field(6, 1, 1)));
    assert!(!typed(code::field(5, 1, 1)) && !typed(code::field(1, 2, 0)));
    // 24 wants an array, its element term, an i32 and the same region.
    assert!(typed(code::index(2, 5, 0)) && typed(code::index(2, 8, 0)));
    assert!(!typed(code::index(2, 1, 0)) && !typed(code::index(3, 5, 0)));
    assert!(!typed(code::index(6, 5, 0)) && !typed(code::index(2, 5, 7)));
    // 25 and 26 compare terms: {i32} is no i32.
    assert!(typed(code::load(0, 2)) && !typed(code::load(0, 6)) && !typed(code::load(7, 2)));
    assert!(typed(code::store(2, 0)) && !typed(code::store(6, 0)) && !typed(code::store(2, 7)));
    // 27 and 28: the primitives of the region's type.
    assert!(typed(code::new(1)) && typed(code::new(5)) && typed(code::new(4)));
    assert!(!typed(code::new(2)) && !typed(code::new(6)) && !typed(code::free(3)));
    assert!(typed(code::free(5)));
    // 17 compares terms; 21, 22 take any pointer.
    assert!(!typed(code::copy(1, 5)) && typed(code::copy(1, 1)));
    assert!(typed(code::to_number(0, 1)) && !typed(code::to_number(7, 1)));
    assert!(typed(code::check(1, 0)) && typed(code::check(3, 1)) && !typed(code::check(1, 7)));
    assert!(!typed(code::operation(code::ADD, 1, 1, 1)) && !typed(code::branch(1, 0)));
}

#[test]
fn refusal_7_calls() {
    // Region 1 has type pair [1] and so fits; the argument still points into region 0.
    assert_eq!(changed(|records| records[15] = code::call(0, 1, &[1], &[])[0]), (7, 15));
    let mut module = integers();
    let near = module.pointer(I32, 0);
    let far = module.pointer(I32, 1);
    let mut function = function_0(&[I32, near, far], &[]);
    function.regions = vec![I32, I32];
    let callee = FunctionBuilder {
        region_parameters: 1,
        regions: vec![I32],
        parameters: 1,
        registers: vec![near],
        return_term: near,
        code: vec![code::ret(0)],
    };
    let call = |a: u8, region: u8, argument: u8, region_type: u8| {
        let mut module = module.clone();
        let mut function = function.clone();
        function.regions[1] = region_type;
        function.code = code::call(a, 1, &[region], &[argument]).to_vec();
        function.code.push(code::ret(0));
        module.function(&function);
        module.function(&callee);
        verdict(&module.records())
    };
    assert_eq!(call(1, 0, 1, I32), ACCEPTED);
    assert_eq!(call(2, 1, 2, I32), ACCEPTED);
    assert_eq!(call(1, 1, 2, I32), (7, 8));
    assert_eq!(call(2, 1, 1, I32), (7, 8));
    assert_eq!(call(0, 0, 1, I32), (7, 8));
    // The region is in scope but its type is another: this passes a first look.
    assert_eq!(call(2, 1, 2, I8), (7, 8));
}

#[test]
fn refusal_8_and_its_order() {
    let ends_with = |last: &[Record]| verdict(&with_code(&[I32], last));
    assert_eq!(ends_with(&[code::constant(0, 1)]), (8, 5));
    assert_eq!(ends_with(&[code::branch(0, 0)]), (8, 5));
    assert_eq!(ends_with(&[code::jump(0)]), ACCEPTED);
    // The last instruction is the 33, not its 35.
    assert_eq!(ends_with(&code::call(0, 0, &[], &[])), (8, 5));
    // 7 of any function before 8 of any; the lower place of two 8s.
    let both = changed(|records| {
        records[18] = code::copy(0, 0);
        records[22] = code::copy(0, 1);
    });
    assert_eq!(both, (7, 22));
    let two = changed(|records| {
        records[18] = code::copy(0, 0);
        records[23] = code::copy(0, 0);
    });
    assert_eq!(two, (8, 18));
}

#[test]
fn equal_terms_under_other_numbers() {
    let mut module = integers();
    let twin = module.integer(4);
    let pointer = module.pointer(I32, 0);
    let twin_pointer = module.pointer(twin, 0);
    let mut function = function_0(&[twin, pointer, twin_pointer], &[]);
    function.regions = vec![twin];
    function.code = vec![code::copy(1, 2), code::new(1), code::load(0, 1), code::ret(0)];
    module.function(&function);
    assert_eq!(verdict(&module.records()), ACCEPTED);
}
