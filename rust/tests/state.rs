//! The state test: for each clause a state that breaks it alone is refused with 21, and odd
//! states that keep all clauses pass. The bytes are written here by their place in the layout.

mod common;

use common::{integers, main_function, Session, I32};
use reference::builder::{code, FunctionBuilder};
use reference::calls;
use reference::host;
use reference::state::{State, STATE_BYTES};

const STATUS: usize = 0;
const FRAMES: usize = 1;
const OUTPUT_COUNT: usize = 2;
const RESULT: usize = 4;
const OWNERS: usize = 64;
const MARKS: usize = 128;
const FRAME_0: usize = 2176;
const FRAME_1: usize = FRAME_0 + 128;
const FRAME_2: usize = FRAME_1 + 128;
const MAP: usize = 112;
const FUNCTION: usize = 119;
const INSTRUCTION: usize = 120;
const FRAME_SPARE: usize = 122;
const PAGES: usize = 8192;

/// Two frames. Function 0 has regions 0 of i32 and 1 of {i32; i8; pointer to i32 in 0}, stands at
/// a call of function 1 for regions 1, 0; function 1 has a third, local region of pointers into
/// the first's objects. Page 1 belongs to live region 0, page 2 to 1, page 3 to 2.
/// Registers of function 0: 0 i32, 1 i32 in 0, 2 object in 1, 3 i8, 4 i16; of function 1: 0
/// object in its 0, 1 i32 in its 1, 2 pointer cell in its 2, 3 i32, 4 pointer to an object.
fn base() -> Session {
    let mut module = integers();
    let to_i32 = module.pointer(I32, 0);
    let object = module.name_term(0, &[0]);
    let to_object = module.pointer(object, 1);
    module.name(1, &[I32, common::I8, to_i32]);
    let mut function = main_function(
        &[I32, object],
        &[I32, to_i32, to_object, common::I8, common::I16],
        &[code::new(1), code::new(2)],
    );
    function.code.extend(code::call(0, 1, &[1, 0], &[2]));
    function.code.extend(code::call(0, 1, &[1, 0], &[2]));
    function.code.push(code::ret(0));
    // In function 1 the object's region is 0 and the i32's is 1.
    let own_object = module.name_term(0, &[1]);
    let to_own_object = module.pointer(own_object, 0);
    let to_own_i32 = module.pointer(I32, 1);
    let cell = module.pointer(to_own_object, 2);
    module.function(&function);
    module.function(&FunctionBuilder {
        region_parameters: 2,
        regions: vec![own_object, I32, to_own_object],
        parameters: 1,
        registers: vec![to_own_object, to_own_i32, cell, I32, to_own_object],
        return_term: I32,
        code: vec![
            code::new(2),
            code::store(2, 0),
            code::new(1),
            code::constant(3, 6),
            code::ret(3),
        ],
    });
    let mut session = Session::open(module.file(), &[]);
    assert_eq!(session.go(6), [host::STILL_RUNNING, 0, 6, 0]);
    assert!(session.passes());
    session
}

fn word(state: &mut [u8], at: usize, value: u32) {
    state[at..at + 4].copy_from_slice(&value.to_le_bytes());
}

fn with(change: impl Fn(&mut [u8])) -> Session {
    let mut session = base();
    change(&mut session.state);
    session
}

/// The changed state is refused with 21 by the test and by going on, and stays as it is.
fn refused(change: impl Fn(&mut [u8])) {
    let mut session = with(change);
    let before = session.clone();
    assert_eq!(session.test(), [host::REFUSED, 21, 0, 0]);
    assert_eq!(session.go(1), [host::REFUSED, 21, 0, 0]);
    assert!(session.state == before.state && session.output == before.output);
    assert_eq!(session.object(256), None);
}

fn passes(change: impl Fn(&mut [u8])) {
    let session = with(change);
    assert!(session.passes());
    assert_eq!(session.view().to_bytes(), session.state);
}

#[test]
fn the_base_is_laid_out_as_said() {
    let state = base().state;
    assert_eq!(state[STATUS..8], [0, 2, 0, 0, 0, 0, 0, 0]);
    assert_eq!(state[OWNERS..OWNERS + 5], [0, 1, 2, 3, 0]);
    assert_eq!(state[MARKS + 32], 3);
    assert_eq!(state[MARKS + 64], 1);
    assert_eq!(state[MARKS + 96], 1);
    assert_eq!(state[FRAME_0 + 4..FRAME_0 + 12], [0, 1, 0, 0, 0, 2, 0, 0]);
    assert_eq!(
        state[FRAME_0 + MAP..FRAME_0 + 128],
        [0, 1, 0, 0, 0, 0, 0, 0, 2, 0, 0, 0, 0, 0, 0, 0]
    );
    assert_eq!(state[FRAME_1..FRAME_1 + 12], [0, 2, 0, 0, 4, 1, 0, 0, 0, 3, 0, 0]);
    assert_eq!(state[FRAME_1 + MAP..FRAME_2], [1, 0, 2, 0, 0, 0, 0, 1, 3, 0, 0, 0, 0, 0, 0, 0]);
    assert_eq!(state[PAGES + 768..PAGES + 772], [0, 2, 0, 0]);
}

#[test]
fn status_result_and_output_count() {
    for status in [2, 30, 40, 255] {
        refused(|state| state[STATUS] = status);
    }
    for status in 31..=39 {
        passes(|state| state[STATUS] = status);
    }
    refused(|state| state[RESULT] = 1);
    refused(|state| state[OUTPUT_COUNT + 1] = 17);
    refused(|state| (state[OUTPUT_COUNT], state[OUTPUT_COUNT + 1]) = (1, 16));
    passes(|state| state[OUTPUT_COUNT + 1] = 16);
}

#[test]
fn frame_count() {
    refused(|state| state[FRAMES] = 0);
    refused(|state| state[FRAMES] = 3);
    refused(|state| state[FRAMES] = 17);
    // Ended with frames.
    refused(|state| state[STATUS] = 1);
}

#[test]
fn ended_states() {
    let ended = |change: &dyn Fn(&mut [u8])| {
        let mut session = base();
        session.state.fill(0);
        session.state[STATUS] = 1;
        change(&mut session.state);
        session.test()
    };
    assert_eq!(ended(&|_| ())[0], host::GOOD);
    assert_eq!(ended(&|state| word(state, RESULT, u32::MAX))[0], host::GOOD);
    assert_eq!(ended(&|state| state[PAGES..].fill(9))[0], host::GOOD);
    assert_eq!(ended(&|state| state[OWNERS + 1] = 1)[1], 21);
    assert_eq!(ended(&|state| state[MARKS + 32] = 1)[1], 21);
    assert_eq!(ended(&|state| state[STATUS] = 0)[1], 21);
    assert_eq!(ended(&|state| state[FRAME_0] = 1)[1], 21);
}

#[test]
fn functions_and_instructions() {
    refused(|state| state[FRAME_1 + FUNCTION] = 2);
    refused(|state| state[FRAME_1 + FUNCTION] = 0);
    refused(|state| state[FRAME_0 + FUNCTION] = 1);
    refused(|state| state[FRAME_1 + INSTRUCTION] = 5);
    refused(|state| state[FRAME_1 + INSTRUCTION + 1] = 1);
    passes(|state| state[FRAME_1 + INSTRUCTION] = 4);
    // The lower frame stands at a call of the upper's function: at either of two, at no other.
    passes(|state| state[FRAME_0 + INSTRUCTION] = 3);
    refused(|state| state[FRAME_0 + INSTRUCTION] = 1);
    refused(|state| state[FRAME_0 + INSTRUCTION] = 4);
}

#[test]
fn functions_that_are_alike() {
    // Three functions with one shape; function 0 calls function 1. Only the number tells them
    // apart: the lowest frame is of function 0, the upper one of the function called.
    let mut module = integers();
    for _ in 0..3 {
        let mut function = main_function(&[], &[I32], &code::call(0, 1, &[], &[]));
        function.code.push(code::ret(0));
        module.function(&function);
    }
    let mut session = Session::open(module.file(), &[]);
    for lowest in 0..3 {
        session.state[FRAME_0 + FUNCTION] = lowest;
        assert_eq!(session.passes(), lowest == 0);
    }
    session.state[FRAME_0 + FUNCTION] = 0;
    assert_eq!(session.go(1), [host::STILL_RUNNING, 0, 1, 0]);
    for called in 0..3 {
        session.state[FRAME_1 + FUNCTION] = called;
        assert_eq!(session.passes(), called == 1);
    }
}

#[test]
fn maps() {
    // The call's regions through the caller's map.
    refused(|state| state[FRAME_1 + MAP] = 0);
    refused(|state| state[FRAME_1 + MAP + 1] = 1);
    // Local regions all different, also from those below.
    refused(|state| state[FRAME_1 + MAP + 2] = 0);
    refused(|state| state[FRAME_1 + MAP + 2] = 1);
    // All else agrees with the map, so only the number breaks the test.
    for (region, allowed) in [(2, true), (5, true), (111, true), (112, false), (255, false)] {
        let change = |state: &mut [u8]| {
            state[FRAME_1 + MAP + 2] = region;
            state[OWNERS + 3] = region.wrapping_add(1);
        };
        if allowed {
            passes(change);
        } else {
            refused(change);
        }
    }
}

#[test]
fn local_regions_of_one_frame_differ() {
    // A frame alone whose two local regions are one: no page is owned.
    let mut session = base();
    let mut fresh = session.clone();
    assert_eq!(calls::open(&session.file, &[], &mut fresh.state)[0], host::GOOD);
    session.state = fresh.state.clone();
    session.state[FRAME_0 + MAP + 1] = 0;
    assert_eq!(session.test()[1], 21);
    for (first, second) in [(111, 5), (5, 111), (1, 0)] {
        session.state[FRAME_0 + MAP] = first;
        session.state[FRAME_0 + MAP + 1] = second;
        assert!(session.passes());
        let mut running = session.clone();
        assert_eq!(running.go(1000)[0], host::ENDED);
    }
}

#[test]
fn the_lowest_numbers_not_live_are_taken() {
    let mut session = base();
    assert_eq!(calls::open(&session.file, &[], &mut session.state)[0], host::GOOD);
    (session.state[FRAME_0 + MAP], session.state[FRAME_0 + MAP + 1]) = (111, 0);
    assert_eq!(session.go(3), [host::STILL_RUNNING, 0, 3, 0]);
    assert_eq!(session.state[FRAME_1 + MAP..FRAME_1 + MAP + 7], [0, 111, 1, 0, 0, 0, 0]);
    assert_eq!(session.state[OWNERS + 1..OWNERS + 4], [112, 1, 0]);
    assert!(session.passes());
}

#[test]
fn owners_and_marks() {
    refused(|state| state[OWNERS] = 1);
    // Not live, and out of range.
    refused(|state| state[OWNERS + 4] = 4);
    refused(|state| state[OWNERS + 4] = 113);
    refused(|state| state[OWNERS + 4] = 255);
    // An owned page more, used or not.
    passes(|state| state[OWNERS + 40] = 1);
    passes(|state| (state[OWNERS + 40], state[MARKS + 32 * 40 + 7]) = (1, 128));
    // Marks of unowned pages and of page 0; a page that loses its owner but not its marks.
    refused(|state| state[MARKS + 32 * 4] = 1);
    refused(|state| state[MARKS] = 1);
    refused(|state| state[OWNERS + 3] = 0);
    // i32 has 64 places, the object of 9 bytes 28: marks beyond are spare.
    passes(|state| state[MARKS + 32 + 7] = 128);
    refused(|state| state[MARKS + 32 + 8] = 1);
    passes(|state| state[MARKS + 64 + 3] = 8);
    refused(|state| state[MARKS + 64 + 3] = 16);
    refused(|state| state[MARKS + 64 + 31] = 128);
    // No mark at all: all objects free, their values still values.
    passes(|state| state[MARKS..FRAME_0].fill(0));
}

#[test]
fn registers() {
    // Integers below 256 to their width.
    passes(|state| word(state, FRAME_0, u32::MAX));
    passes(|state| word(state, FRAME_0 + 12, 255));
    refused(|state| word(state, FRAME_0 + 12, 256));
    refused(|state| word(state, FRAME_0 + 12, 0x0100_0000));
    passes(|state| word(state, FRAME_0 + 16, 65_535));
    refused(|state| word(state, FRAME_0 + 16, 65_536));
    // Pointers: zero, used and free objects; no other place, page or region.
    for address in [0, 256, 260, 508] {
        passes(|state| word(state, FRAME_0 + 4, address));
        passes(|state| word(state, FRAME_1 + 4, address));
    }
    for address in [1, 4, 255, 257, 258, 512, 768, 1024, 16_384, 65_536 + 256, u32::MAX] {
        refused(|state| word(state, FRAME_0 + 4, address));
        refused(|state| word(state, FRAME_1 + 4, address));
    }
    for address in [512, 521, 512 + 27 * 9] {
        passes(|state| word(state, FRAME_1 + 16, address));
    }
    // Inside an object, and behind the last whole one of its page.
    for address in [516, 517, 513, 512 + 28 * 9, 256] {
        refused(|state| word(state, FRAME_1 + 16, address));
    }
}

#[test]
fn values_in_pages() {
    // The pointer of the first object is at its byte 5, of the 28th too, free or not.
    for place in [0, 1, 27] {
        let at = PAGES + 512 + 9 * place + 5;
        passes(|state| word(state, at, 260));
        refused(|state| word(state, at, 262));
        refused(|state| word(state, at, 512));
    }
    // The cells of page 3 point to whole objects of page 2.
    passes(|state| word(state, PAGES + 768 + 252, 521));
    refused(|state| word(state, PAGES + 768 + 252, 522));
    // Integers and page tails may hold anything.
    passes(|state| state[PAGES + 256..PAGES + 512].fill(255));
    passes(|state| state[PAGES + 512..PAGES + 517].fill(255));
    passes(|state| state[PAGES + 512 + 252..PAGES + 768].fill(255));
    // And so may page 0 and unowned pages.
    passes(|state| state[PAGES..PAGES + 256].fill(255));
    passes(|state| state[PAGES + 1024..].fill(255));
    // The reader finds no object there.
    let session = with(|state| state[PAGES..PAGES + 256].fill(255));
    assert_eq!(session.object(0), None);
    assert_eq!(session.object(1024), None);
    assert_eq!(session.object(512 + 252), None);
    assert_eq!(session.object(512 + 251), Some((512 + 243, 9)));
    assert_eq!(session.object(u32::MAX), None);
}

/// Bytes 8 and 9 say which pages are the machine's: all of them.
#[test]
fn page_range() {
    for at in [8, 9] {
        for pages in 1..=255 {
            refused(|state| state[at] = pages);
        }
    }
    refused(|state| state[8..10].fill(1));
}

#[test]
fn spare_bytes() {
    for at in [10, 63, 4224, 8191] {
        refused(|state| state[at] = 1);
    }
    for spare in FRAME_SPARE..128 {
        refused(|state| state[FRAME_0 + spare] = 1);
        refused(|state| state[FRAME_1 + spare] = 1);
    }
    // Registers and map entries that the function does not have, and frames not in use.
    refused(|state| state[FRAME_0 + 20] = 1);
    refused(|state| state[FRAME_0 + 111] = 1);
    refused(|state| state[FRAME_0 + MAP + 2] = 1);
    refused(|state| state[FRAME_1 + MAP + 6] = 1);
    refused(|state| state[FRAME_2] = 1);
    refused(|state| state[FRAME_2 + FUNCTION] = 1);
    refused(|state| state[4223] = 1);
}

#[test]
fn odd_states_that_pass() {
    // Stopped with one frame, at its first instruction.
    let mut session = base();
    assert_eq!(calls::open(&session.file, &[], &mut session.state)[0], host::GOOD);
    session.state[STATUS] = 39;
    assert!(session.passes());
    assert_eq!(session.go(0), [host::REFUSED, 22, 0, 0]);
    // Running with the top frame at a call.
    session.state[STATUS] = 0;
    session.state[FRAME_0 + INSTRUCTION] = 2;
    assert!(session.passes());
    assert_eq!(session.go(1), [host::STILL_RUNNING, 0, 1, 0]);
    assert_eq!(session.state[FRAMES], 2);
    // A state of another length is 20, after the module's refusals.
    assert_eq!(calls::test(&session.file, &session.state[1..]), [host::REFUSED, 20, 0, 0]);
    assert_eq!(State::from_bytes(&[0; STATE_BYTES - 1]).err(), Some(reference::state::Malformed));
}

#[test]
fn a_call_writes_the_whole_new_frame_and_a_return_clears_it() {
    let mut session = base();
    assert_eq!(session.go(2), [host::STILL_RUNNING, 0, 2, 0]);
    assert_eq!(session.state[FRAMES], 1);
    assert!(session.state[FRAME_1..FRAME_2].iter().all(|&byte| byte == 0));
    assert_eq!(session.state[FRAME_0..FRAME_0 + 4], [6, 0, 0, 0]);
    assert_eq!(session.state[FRAME_0 + INSTRUCTION], 3);
    assert_eq!(session.state[OWNERS + 3], 0);
    assert_eq!(session.state[MARKS + 96], 0);
    // The page's bytes last.
    assert_eq!(session.state[PAGES + 768..PAGES + 772], [0, 2, 0, 0]);
}
