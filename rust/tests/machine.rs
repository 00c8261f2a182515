//! The machine: the small cases C1 to C10, what kind 27 clears, where its search ends, every stop,
//! opening, going on and the program's worked module, by hand.

mod common;

use common::{integers, main_function, run, worked_records, Session, I16, I32, I8};
use reference::builder::{code, file, FunctionBuilder, ModuleBuilder};
use reference::calls;
use reference::file::{block_check, Record};
use reference::host::{self, Answer};
use reference::machine::{search, Search};
use reference::module::decode;
use reference::state::State;
use reference::types::{sizes, Live, Types, Variable};

fn ended(value: u32, steps: u64) -> Answer {
    [host::ENDED, u64::from(value), steps, 0]
}

fn stopped(number: u64, steps: u64) -> Answer {
    [host::STOPPED, number, steps, 0]
}

fn running(steps: u64) -> Answer {
    [host::STILL_RUNNING, 0, steps, 0]
}

/// Runs code over registers 0, 1, 2 of one integer type, 3 of i8 and 4 of i32; register 4 is
/// returned.
fn run_numbers(term: u8, code: &[Record]) -> Answer {
    let code = [code, &[code::ret(4)]].concat();
    run(&integers(), &main_function(&[], &[term, term, term, I8, I32], &code))
}

/// The result of an operation, zero-extended.
fn operate(term: u8, operation: u32, b: u32, c: u32) -> Answer {
    let result = if operation > 10 { 3 } else { 0 };
    run_numbers(
        term,
        &[
            code::constant(1, b),
            code::constant(2, c),
            code::operation(operation, result, 1, 2),
            code::zero_extend(4, result),
        ],
    )
}

#[test]
fn worked_module() {
    let file = file(&worked_records());
    assert_eq!(block_check(&file), 3474);
    assert_eq!(calls::check(&file), [host::GOOD, 1, 0, 65_536 + 2]);
    assert_eq!(Session::open(file, &[]).go(1_000_000), ended(42, 2));
}

#[test]
fn c1_c2_flat_types() {
    let mut module = integers();
    let inner = module.pointer(I32, 0); // 3
    let term = module.name_term(0, &[2]); // 4
    let packed = module.name_term(1, &[]); // 5
    let pair = module.pointer(I32, 2); // 6
    module.name(1, &[I32, inner]);
    module.name(0, &[I8, I32]);
    module.function(&main_function(&[], &[I32], &[code::ret(0)]));
    let module = decode(&module.file()).expect("a module");
    assert_eq!(sizes(&module).terms[usize::from(packed)], 5);
    let mut types = Types::<Variable>::new(&module);
    let written = reference::types::IDENTITY;
    let (name, int, pointer) =
        (types.term(term, &written), types.term(I32, &written), types.term(pair, &written));
    assert_eq!(types.primitives(name)[..], [int, pointer]);
}

/// One region of a type, registers 0 i32, 1 pointer to it, 2 and 3 i32.
fn one_region(module: &mut ModuleBuilder, object: u8, code: &[Record]) -> FunctionBuilder {
    let pointer = module.pointer(object, 0);
    main_function(&[object], &[I32, pointer, I32, I32], code)
}

fn session(mut module: ModuleBuilder, function: &FunctionBuilder) -> Session {
    module.function(function);
    Session::open(module.file(), &[])
}

#[test]
fn c1_places_to_a_page() {
    let mut module = integers();
    let object = module.name_term(0, &[]);
    module.name(0, &[I8, I32]);
    let function = one_region(&mut module, object, &[code::new(1), code::jump(0)]);
    let mut session = session(module, &function);
    session.go(2 * 51 - 1);
    assert_eq!(session.register(1), 256 + 50 * 5);
    session.go(2);
    assert_eq!(session.register(1), 512);
    assert_eq!(session.object(256 + 4), Some((256, 5)));
    assert_eq!(session.object(256 + 254), Some((256 + 250, 5)));
    assert_eq!(session.object(256 + 255), None);
}

#[test]
fn c4_places_are_reused() {
    let mut module = integers();
    let mut function = one_region(&mut module, I32, &[]);
    function.registers.push(function.registers[1]);
    function.code = vec![
        code::new(1),
        code::new(4),
        code::constant(0, 77),
        code::store(4, 0),
        code::free(1),
        code::free(1),
        code::new(1),
        code::load(2, 4),
        code::ret(2),
    ];
    let mut session = session(module, &function);
    assert_eq!(session.go(2), running(2));
    assert_eq!((session.register(1), session.register(4)), (256, 260));
    session.go(2);
    assert_eq!(session.view().marks[1][0], 3);
    session.go(2);
    assert_eq!(session.view().marks[1][0], 2);
    session.go(1);
    assert_eq!(session.register(1), 256);
    assert_eq!(session.go(9), ended(77, 2));
    // The page's bytes last until the next grant.
    let view = session.view();
    assert_eq!((view.owned_pages(), view.marks[1], view.memory[260]), (0, [0; 4], 77));
}

/// The first page that is granted begins here.
const FIRST_PAGE: u32 = 256;

/// One region of arrays of i8: registers 0 i32, 1 pointer to the array, 4 pointer to i8, 5 i8.
fn pool(size: u32, code: &[Record]) -> Session {
    let mut module = integers();
    let object = module.array(I8, size);
    let byte = module.pointer(I8, 0);
    let mut function = one_region(&mut module, object, code);
    function.registers.extend([byte, I8]);
    function.code.push(code::ret(0));
    session(module, &function)
}

/// Stores a byte through kind 22, whether the object there is used or free.
fn store_at(address: u32, value: u8) -> [Record; 4] {
    [
        code::constant(0, address),
        code::check(4, 0),
        code::constant(5, u32::from(value)),
        code::store(4, 5),
    ]
}

/// Stores a byte other than zero into each of these places.
fn fill(bytes: std::ops::Range<u32>) -> Vec<Record> {
    bytes.flat_map(|address| store_at(address, address as u8 | 1)).collect()
}

/// Frees the object at this address.
fn free_at(address: u32) -> [Record; 3] {
    [code::constant(0, address), code::check(1, 0), code::free(1)]
}

fn bytes(session: &Session, bytes: std::ops::Range<u32>) -> Vec<u8> {
    session.view().memory[bytes.start as usize..bytes.end as usize].to_vec()
}

#[test]
fn an_object_is_cleared_when_it_is_handed_out_not_when_it_is_freed() {
    let object = FIRST_PAGE..FIRST_PAGE + 4;
    let code = [vec![code::new(1)], fill(object.clone()), vec![code::free(1), code::new(1)]];
    let mut session = pool(4, &code.concat());
    session.go(1 + 4 * 4);
    let stored = bytes(&session, object.clone());
    assert!(!stored.contains(&0));
    session.go(1);
    assert_eq!((session.view().marks[1][0], bytes(&session, object.clone())), (0, stored));
    session.go(1);
    assert_eq!((session.view().marks[1][0], bytes(&session, object)), (1, vec![0; 4]));
}

#[test]
fn all_bytes_of_an_object_are_cleared() {
    for size in [1, 2, 3, 5, 8, 64, 100, 255, 256] {
        let object = FIRST_PAGE..FIRST_PAGE + size;
        for at in [object.start, object.start + size / 2, object.end - 1] {
            let store = store_at(at, 7);
            let code = [&[code::new(1)], &store[..], &[code::free(1), code::new(1)]].concat();
            let mut session = pool(size, &code);
            session.go(1 + 4 + 1);
            assert_eq!(session.view().memory[at as usize], 7, "size {size}, byte {at}");
            session.go(1);
            assert_eq!(bytes(&session, object.clone()), vec![0; size as usize], "size {size}");
        }
    }
}

#[test]
fn the_neighbours_keep_their_bytes() {
    // Of three objects the middle one is handed out again; those beside it are used, or the higher
    // one is free.
    let three = FIRST_PAGE..FIRST_PAGE + 9;
    let middle = FIRST_PAGE + 3;
    for higher_free in [false, true] {
        let mut code = [vec![code::new(1); 3], fill(three.clone())].concat();
        code.extend(free_at(middle));
        if higher_free {
            code.extend(free_at(middle + 3));
        }
        let steps = code.len() as u64;
        code.push(code::new(1));
        let mut session = pool(3, &code);
        session.go(steps);
        let mut expected = bytes(&session, three.clone());
        assert!(!expected.contains(&0));
        session.go(1);
        expected[3..6].fill(0);
        assert_eq!((session.register(1), bytes(&session, three.clone())), (middle, expected));
    }
}

#[test]
fn an_object_stored_to_before_it_was_ever_handed_out_is_cleared() {
    let second = FIRST_PAGE + 4..FIRST_PAGE + 8;
    let code = [vec![code::new(1)], fill(second.clone()), vec![code::new(1)]].concat();
    let mut session = pool(4, &code);
    session.go(1 + 4 * 4);
    assert!(!bytes(&session, second.clone()).contains(&0));
    session.go(1);
    assert_eq!((session.register(1), bytes(&session, second.clone())), (second.start, vec![0; 4]));
}

#[test]
fn kind_22_reads_a_free_object() {
    let mut code = vec![code::new(1)];
    code.extend(store_at(FIRST_PAGE, 9));
    code.extend([code::free(1), code::check(4, 0), code::load(5, 4), code::zero_extend(0, 5)]);
    assert_eq!(pool(4, &code).go(100), ended(9, 1 + 4 + 4 + 1));
}

#[test]
fn a_27_that_stops_with_34_clears_nothing() {
    // The other region has a free object with bytes stored; all other pages are the first one's.
    let mut module = integers();
    let block = module.array(I8, 256);
    let blocks = module.pointer(block, 0);
    let numbers = module.pointer(I32, 1);
    let code = [
        code::new(1),
        code::constant(0, 77),
        code::store(1, 0),
        code::free(1),
        code::new(2),
        code::jump(4),
    ];
    let function = main_function(&[block, I32], &[I32, numbers, blocks], &code);
    let mut session = session(module, &function);
    assert_eq!(session.go(4 + 2 * 62), running(4 + 2 * 62));
    let mut expected = session.state.clone();
    assert_eq!(session.go(1), stopped(34, 1));
    expected[0] = 34;
    assert!(session.state == expected);
    assert_eq!((session.view().marks[1][0], session.view().memory[256]), (0, 77));
}

#[test]
fn c5_checks() {
    let check = |address: u32| {
        let mut module = integers();
        let code = [
            code::new(1),
            code::new(1),
            code::constant(0, address),
            code::check(1, 0),
            code::to_number(2, 1),
            code::ret(2),
        ];
        let function = one_region(&mut module, I32, &code);
        run(&module, &function)
    };
    assert_eq!(check(260), ended(260, 6));
    assert_eq!(check(508), ended(508, 6));
    for address in [0, 4, 258, 512, 16_384, 65_536 + 260, u32::MAX] {
        assert_eq!(check(address), stopped(32, 4), "{address}");
    }
}

#[test]
fn checks_do_not_match_across_objects() {
    // Objects {i8; i32; i8}: the run i8, i8 lies in none, though two objects have it side by side.
    let check = |address: u32, target_fields: &[u8]| {
        let mut module = integers();
        let object = module.name_term(0, &[]);
        let target = module.name_term(1, &[]);
        let pointer = module.pointer(target, 0);
        module.name(0, &[I8, I32, I8]);
        module.name(0, target_fields);
        let mut function = one_region(&mut module, object, &[]);
        function.registers.push(pointer);
        function.code =
            vec![code::new(1), code::constant(0, address), code::check(4, 0), code::ret(0)];
        run(&module, &function)[0] == host::ENDED
    };
    assert!(!check(256 + 5, &[I8, I8]));
    assert!(check(256 + 5, &[I8]) && check(256 + 6, &[I8]) && !check(256 + 2, &[I8]));
    assert!(check(256, &[I8, I32]) && check(256 + 1, &[I32, I8]) && !check(256, &[I32, I8]));
    // 42 objects of 6 bytes; none in the last 4 bytes of the page.
    assert!(check(256 + 246, &[I8]) && !check(256 + 252, &[I8]));
}

#[test]
fn c6_c7_c8_operations() {
    let nearest = |dividend: i32, divisor: i32| {
        operate(I32, code::SIGNED_QUOTIENT, dividend as u32, divisor as u32)
    };
    assert_eq!(nearest(5, 2), ended(3, 5));
    assert_eq!(nearest(-5, 2), ended(-3_i32 as u32, 5));
    assert_eq!(nearest(7, -2), ended(-4_i32 as u32, 5));
    assert_eq!(nearest(1, 3), ended(0, 5));
    assert_eq!(nearest(2, 3), ended(1, 5));
    assert_eq!(nearest(i32::MIN, 1), ended(i32::MIN as u32, 5));
    assert_eq!(nearest(i32::MIN, 2), ended(0xc000_0000, 5));
    assert_eq!(nearest(i32::MIN, i32::MIN), ended(1, 5));
    assert_eq!(nearest(i32::MAX, i32::MIN), ended(u32::MAX, 5));
    assert_eq!(nearest(i32::MIN, -1), stopped(36, 3));
    assert_eq!(nearest(3, 0), stopped(36, 3));
    assert_eq!(operate(I32, 0, u32::MAX, 1), ended(0, 5));
    assert_eq!(operate(I8, 0, 255, 2), ended(1, 5));
    assert_eq!(operate(I16, 1, 0, 1), ended(65_535, 5));
    assert_eq!(operate(I32, 2, 65_536, 65_537), ended(65_536, 5));
    assert_eq!(operate(I8, 3, 12, 10), ended(8, 5));
    assert_eq!(operate(I8, 4, 12, 10), ended(14, 5));
    assert_eq!(operate(I8, 5, 12, 10), ended(6, 5));
    assert_eq!(operate(I8, 6, 255, 7), ended(128, 5));
    assert_eq!(operate(I32, 7, 1 << 31, 31), ended(1, 5));
    assert_eq!(operate(I16, 8, 65_535, 2), ended(32_767, 5));
    assert_eq!(operate(I16, 9, 65_535, 4), ended(3, 5));
    assert_eq!(operate(I16, 11, 7, 7), ended(1, 5));
    assert_eq!(operate(I16, 11, 7, 8), ended(0, 5));
    assert_eq!(operate(I8, 12, 127, 128), ended(1, 5));
    assert_eq!(operate(I8, 13, 127, 128), ended(0, 5));
    assert_eq!(operate(I8, 13, 128, 127), ended(1, 5));
    assert_eq!(operate(I32, 13, u32::MAX, 0), ended(1, 5));
}

#[test]
fn stops_36_and_37() {
    for operation in [8, 9] {
        assert_eq!(operate(I16, operation, 1, 0), stopped(36, 3));
    }
    for (term, bits) in [(I8, 8), (I16, 16), (I32, 32)] {
        for operation in [6, 7] {
            assert_eq!(operate(term, operation, 1, bits), stopped(37, 3));
            assert_eq!(operate(term, operation, 0, bits - 1), ended(0, 5));
        }
    }
}

#[test]
fn extensions() {
    let extend = |kind: fn(u8, u8) -> Record, term: u8, value: u32| {
        run_numbers(term, &[code::constant(0, value), kind(4, 0)])
    };
    assert_eq!(extend(code::zero_extend, I8, 255), ended(255, 3));
    assert_eq!(extend(code::sign_extend, I8, 255), ended(u32::MAX, 3));
    assert_eq!(extend(code::sign_extend, I16, 0x7fff), ended(0x7fff, 3));
    assert_eq!(extend(code::sign_extend, I16, 0x8000), ended(0xffff_8000, 3));
    assert_eq!(extend(code::sign_extend, I32, 0x8000_0000), ended(0x8000_0000, 3));
    // Cut to i8, then seen again as i32.
    let cut = [code::constant(0, 0x1_80), code::sign_extend(3, 0), code::zero_extend(4, 3)];
    assert_eq!(run_numbers(I32, &cut), ended(0x80, 4));
}

#[test]
fn c9_frames() {
    // Function 0 calls itself until its argument is zero.
    let deep = |calls: u32| {
        let mut module = integers();
        let mut code = vec![code::branch(0, 2), code::ret(0), code::constant(1, 1)];
        code.push(code::operation(code::SUBTRACT, 0, 0, 1));
        code.extend(code::call(1, 0, &[], &[0]));
        code.push(code::ret(0));
        let mut function = main_function(&[], &[I32, I32], &code);
        function.parameters = 1;
        module.function(&function);
        Session::open(module.file(), &[calls])
    };
    let mut session = deep(15);
    assert_eq!(session.go(15 * 4), running(60));
    assert_eq!(session.view().frames.len(), 16);
    assert_eq!(session.go(1000), ended(14, 2 + 15));
    let mut session = deep(16);
    assert_eq!(session.go(1000), stopped(35, 64));
    assert_eq!(session.view().frames.len(), 16);
    assert!(session.passes());
}

#[test]
fn c10_budgets() {
    let mut session = session(integers(), &main_function(&[], &[I32], &[code::ret(0)]));
    let opened = session.state.clone();
    assert_eq!(session.go(0), running(0));
    assert_eq!(session.state, opened);
    // The budget is used up by the last step: ended, not running.
    assert_eq!(session.go(1), ended(0, 1));
    assert_eq!(session.go(0), [host::REFUSED, 22, 0, 0]);
    assert_eq!(session.go(u64::MAX), [host::REFUSED, 22, 0, 0]);
}

#[test]
fn pages_run_out_with_34() {
    let mut module = integers();
    let function = one_region(&mut module, I32, &[code::new(1), code::jump(0)]);
    let mut session = session(module, &function);
    assert_eq!(session.go(2 * 4032), running(2 * 4032));
    assert_eq!(session.register(1), 16_380);
    let before = session.clone();
    assert_eq!(session.go(5), stopped(34, 1));
    // A stop changes only the status.
    let mut expected = before.state.clone();
    expected[0] = 34;
    assert!(session.state == expected && session.output == before.output);
    assert!(session.passes());
    assert_eq!(session.go(1), [host::REFUSED, 22, 0, 0]);
}

#[test]
fn a_freed_place_prevents_34() {
    let mut module = integers();
    let block = module.array(I32, 64);
    let code = [
        code::new(1),
        code::constant(3, 1),
        code::operation(code::ADD, 0, 0, 3),
        code::constant(3, 63),
        code::operation(code::SUBTRACT, 2, 0, 3),
        code::branch(2, 0),
        code::free(1),
        code::new(1),
        code::new(1),
        code::ret(0),
    ];
    let function = one_region(&mut module, block, &code);
    let mut session = session(module, &function);
    assert_eq!(session.go(10_000), stopped(34, 63 * 6 + 3));
    assert_eq!(session.register(1), 63 * 256);
}

/// Pages from 1 on by their owners, if any, and whether all their places are used; two places to
/// each.
fn searched(pages: &[(Option<u8>, bool)], region: u8) -> Search {
    let mut state = State::empty();
    for (page, &(owner, full)) in (1..).zip(pages) {
        state.owners[page] = owner.map(Live);
        state.marks[page][0] = if full { 0b11 } else { 0b01 };
    }
    search(&state, Live(region), 2)
}

#[test]
fn the_search_ends_at_the_first_page_with_a_place() {
    let pages =
        [(Some(0), true), (Some(1), false), (Some(0), false), (Some(0), false), (None, false)];
    assert_eq!(searched(&pages, 0), Search { room: Some((3, 1)), last: 3 });
    assert_eq!(searched(&pages, 1), Search { room: Some((2, 1)), last: 2 });
}

#[test]
fn the_search_without_a_place_looks_at_all_the_regions_pages() {
    let pages =
        [(Some(0), true), (Some(1), false), (Some(0), true), (Some(2), true), (None, false)];
    assert_eq!(searched(&pages, 0), Search { room: None, last: 3 });
    assert_eq!(searched(&pages, 2), Search { room: None, last: 4 });
    assert_eq!(searched(&[(Some(5), true); 63], 5), Search { room: None, last: 63 });
}

#[test]
fn the_search_of_a_region_without_pages_looks_at_none() {
    let pages = [(Some(0), false), (None, false), (Some(1), true)];
    assert_eq!(searched(&pages, 2), Search { room: None, last: 0 });
    assert_eq!(searched(&[], 0), Search { room: None, last: 0 });
}

#[test]
fn stops_31_and_33() {
    let mut module = integers();
    let several = module.array(I16, 3);
    let element = module.pointer(I16, 0);
    let attempt = |object: bool, instruction: Record, index: u32| {
        let mut module = module.clone();
        let mut function = one_region(&mut module, several, &[]);
        function.registers.extend([element, I16]);
        function.code = vec![
            code::constant(0, index),
            if object { code::new(1) } else { code::copy(1, 1) },
            instruction,
            code::to_number(2, 4),
            code::ret(2),
        ];
        run(&module, &function)
    };
    // Adding a field offset to zero passes a first look.
    assert_eq!(attempt(false, code::field(4, 1, 1), 0), stopped(31, 3));
    assert_eq!(attempt(true, code::field(4, 1, 1), 0), ended(258, 5));
    // 31 comes before 33.
    assert_eq!(attempt(false, code::index(4, 1, 0), 9), stopped(31, 3));
    assert_eq!(attempt(true, code::index(4, 1, 0), 2), ended(260, 5));
    assert_eq!(attempt(true, code::index(4, 1, 0), 3), stopped(33, 3));
    assert_eq!(attempt(true, code::index(4, 1, 0), u32::MAX), stopped(33, 3));
    assert_eq!(attempt(true, code::load(5, 4), 0), stopped(31, 3));
    assert_eq!(attempt(true, code::store(4, 5), 0), stopped(31, 3));
    assert_eq!(attempt(false, code::free(1), 0), stopped(31, 3));
}

#[test]
fn form_and_output() {
    // Copies the form to the output until it ends.
    let code = [
        code::form(1, 0),
        code::output(1),
        code::constant(2, 1),
        code::operation(code::ADD, 0, 0, 2),
        code::jump(0),
    ];
    let mut session = session(integers(), &main_function(&[], &[I32, I8, I32], &code));
    assert_eq!(session.go_with(b"abc", 1000), stopped(38, 16));
    assert_eq!(&session.output[..4], b"abc\0");
    assert_eq!(session.view().output_count, 3);
    // A form is lent for a call: the next one may have another.
    let mut session = self::session(integers(), &main_function(&[], &[I32, I8, I32], &code));
    assert_eq!(session.go_with(b"ab", 7), running(7));
    assert_eq!(session.go_with(b"xyz", 5), running(5));
    assert_eq!(&session.output[..3], b"abz");
}

#[test]
fn output_full_stops_with_39() {
    let code = [code::constant(1, 7), code::output(1), code::jump(1)];
    let mut session = session(integers(), &main_function(&[], &[I32, I8], &code));
    assert_eq!(session.go(1 + 2 * 4096), running(1 + 2 * 4096));
    assert!(session.output.iter().all(|&byte| byte == 7));
    assert_eq!(session.go(10), stopped(39, 1));
    assert_eq!(session.view().output_count, 4096);
    assert!(session.passes());
}

#[test]
fn calls_with_regions() {
    // Function 1 makes an object in the region it is given and one in its own, and returns the
    // first; its own region is closed by the return and numbered after the caller's.
    let mut module = integers();
    let near = module.pointer(I32, 0);
    let local = module.pointer(I16, 1);
    let mut caller = main_function(&[I32, I16], &[I32, near, I32], &[]);
    caller.code.extend(code::call(1, 1, &[0], &[2]));
    caller.code.extend([code::load(0, 1), code::ret(0)]);
    module.function(&caller);
    module.function(&FunctionBuilder {
        region_parameters: 1,
        regions: vec![I32, I16],
        parameters: 1,
        registers: vec![I32, near, local, I32],
        return_term: near,
        code: vec![
            code::new(2),
            code::new(1),
            code::constant(3, 9),
            code::store(1, 3),
            code::ret(1),
        ],
    });
    let mut session = Session::open(module.file(), &[]);
    session.go(5);
    let view = session.view();
    let map: Vec<u8> = view.frames[1].map.iter().map(|live| live.0).collect();
    assert_eq!(map, [0, 2, 0, 0, 0, 0, 0]);
    assert_eq!(view.frames[0].instruction, 0);
    assert_eq!(
        (view.owners[1].map(|owner| owner.0), view.owners[2].map(|owner| owner.0)),
        (Some(2), Some(0))
    );
    assert!(session.passes());
    session.go(1);
    let view = session.view();
    assert_eq!((view.owned_pages(), view.owners[1], view.marks[1]), (1, None, [0; 4]));
    assert_eq!((view.frames.len(), view.frames[0].instruction), (1, 1));
    assert_eq!(session.register(1), 512);
    assert_eq!(session.object(513), Some((512, 4)));
    assert_eq!(session.object(256), None);
    assert_eq!(session.go(100), ended(9, 2));
}

#[test]
fn checks_where_a_region_is_given_twice() {
    // {i32 pointer in 0} and {i32 pointer in 1} are alike exactly when both are one live region.
    let check = |second: u8| {
        let mut module = integers();
        let near = module.pointer(I32, 0); // 3
        let far = module.pointer(I32, 1); // 4
        let holder = module.pointer(near, 2); // 5
        let other = module.pointer(far, 2); // 6
        let near_0 = module.pointer(near, 1); // 7: the holder's region in the caller is 1
        let mut caller = main_function(&[I32, near, I32], &[I32, near_0], &[]);
        caller.code = vec![code::new(1)];
        caller.code.extend(code::call(0, 1, &[0, second, 1], &[]));
        caller.code.push(code::ret(0));
        module.function(&caller);
        module.function(&FunctionBuilder {
            region_parameters: 3,
            regions: vec![I32, I32, near],
            parameters: 0,
            registers: vec![I32, holder, other],
            return_term: I32,
            code: vec![code::new(1), code::check(2, 1), code::ret(0)],
        });
        Session::open(module.file(), &[]).go(100)
    };
    assert_eq!(check(0), ended(0, 6));
    assert_eq!(check(2), stopped(32, 4));
}

#[test]
fn refusals_of_the_calls() {
    let mut module = integers();
    let mut function = main_function(&[], &[I32, I32], &[code::ret(0)]);
    function.parameters = 2;
    module.function(&function);
    let file = module.file();
    let mut state = vec![5; 24_576];
    let refused = |number: u64| [host::REFUSED, number, 0, 0];
    // 9 before 20, and nothing changes.
    assert_eq!(calls::open(&file, &[0; 7], &mut state), refused(9));
    assert_eq!(calls::open(&file, &[0; 9], &mut state[1..]), refused(9));
    assert_eq!(calls::open(&file, &[0; 8], &mut state[1..]), refused(20));
    assert!(state.iter().all(|&byte| byte == 5));
    assert_eq!(calls::open(&file, &[1, 2, 3, 4, 5, 6, 7, 8], &mut state)[0], host::GOOD);
    let mut output = vec![3; 4096];
    let opened = state.clone();
    let long = vec![0; 4097];
    assert_eq!(calls::go(&file, &long, &mut state, &mut output[1..], 1), refused(9));
    assert_eq!(calls::go(&file, &[], &mut state[1..], &mut output, 1), refused(20));
    assert_eq!(calls::go(&file, &[], &mut state, &mut output[1..], 1), refused(20));
    assert_eq!(calls::go(&file[1..], &long, &mut state, &mut output, 1), refused(1));
    assert_eq!(calls::test(&file, &state[1..]), refused(20));
    assert_eq!(calls::object(&file, &state[1..], 256), [0; 4]);
    assert!(state == opened && output.iter().all(|&byte| byte == 3));
    let full = vec![0; 4096];
    let answer = calls::go(&file, &full, &mut state, &mut output, 1);
    assert_eq!(answer, ended(0x0403_0201, 1));
    // A long form on an ended state is 9.
    assert_eq!(calls::go(&file, &long, &mut state, &mut output, 0), refused(9));
    assert_eq!(calls::go(&file, &full, &mut state, &mut output, 0), refused(22));
}
