//! Damages modules and states that are sound: bytes, records, operands, types and counts, with
//! the checks repaired where a later refusal is wanted. Some damage does no harm.

use crate::builder::{self, code};
use crate::file::{Record, BLOCK_BYTES};
use crate::module::{
    KIND_ARRAY, KIND_FIELDS, KIND_FUNCTION, KIND_NAME, KIND_NAME_TERM, KIND_POINTER,
    KIND_REGION_TYPES, KIND_REGISTER_TYPES,
};
use crate::prng::Prng;
use crate::state::{
    FRAMES_AT, FRAME_BYTES, HEADER_END, MAP_AT, MARKS_AT, MARK_BYTES, MEMORY_AT, OWNERS_AT,
    PAGE_BYTES, STATE_BYTES,
};

/// A file made from these records with one or two faults, which may go unnoticed.
pub fn damage(rng: &mut Prng, mut records: Vec<Record>) -> Vec<u8> {
    match rng.below(100) {
        0..4 => damage_length(rng, builder::file(&records)),
        4..13 => damage_blocks(rng, builder::file(&records)),
        _ => {
            for _ in 0..if rng.percent(85) { 1 } else { 2 } {
                damage_records(rng, &mut records);
            }
            builder::file(&records)
        }
    }
}

fn damage_length(rng: &mut Prng, mut file: Vec<u8>) -> Vec<u8> {
    match rng.below(4) {
        0 => file.truncate(rng.below(file.len())),
        1 => file.extend(vec![0; rng.between(1, BLOCK_BYTES - 1)]),
        2 => file.resize(BLOCK_BYTES * rng.between(65, 70), 0),
        _ => file.clear(),
    }
    file
}

fn damage_blocks(rng: &mut Prng, mut file: Vec<u8>) -> Vec<u8> {
    let block = BLOCK_BYTES * rng.below(file.len() / BLOCK_BYTES);
    let at = if rng.percent(50) { block + rng.below(4) } else { rng.below(file.len()) };
    file[at] ^= 1 << rng.below(8);
    if rng.percent(40) {
        builder::repair_checks(&mut file);
    }
    file
}

fn damage_records(rng: &mut Prng, records: &mut Vec<Record>) {
    let of_kinds = |records: &[Record], kinds: std::ops::RangeInclusive<u8>| -> Vec<usize> {
        (0..records.len()).filter(|&i| kinds.contains(&records[i].kind())).collect()
    };
    let terms = of_kinds(records, 1..=4).len();
    if records.is_empty() {
        return;
    }
    let (at, other) = (rng.below(records.len()), rng.below(records.len()));
    match rng.below(16) {
        0 => records[at].0[rng.below(8)] = rng.byte(),
        1 => records[at].0[rng.below(8)] ^= 1 << rng.below(8),
        2 => {
            records.remove(at);
        }
        3 => records.insert(at, records[other]),
        4 => records.swap(at, other),
        5 => records[at].0[0] = rng.below(37) as u8,
        6 => {
            let length = if rng.percent(50) { 63 } else { at };
            let filler = rng.percent(50);
            records.truncate(length);
            if filler {
                records.push(builder::record(0, rng.below(2) as u8, 0, 0, 0));
            }
        }
        // Other registers.
        7 | 8 => {
            if let Some(i) = rng.pick(&of_kinds(records, 16..=35)) {
                let byte = rng.between(1, 3);
                records[i].0[byte] = rng.below(16) as u8;
            }
        }
        // Another operation, position, target or regions.
        9 => {
            if let Some(i) = rng.pick(&of_kinds(records, 16..=35)) {
                let byte = rng.between(4, 7);
                records[i].0[byte] = rng.below(20) as u8;
            }
        }
        // Other counts, arguments and targets of terms.
        10 => {
            if let Some(i) = rng.pick(&of_kinds(records, 2..=4)) {
                let old = records[i];
                records[i] = match old.kind() {
                    KIND_POINTER => {
                        builder::record(KIND_POINTER, old.a(), rng.below(7) as u8, 0, 0)
                    }
                    KIND_ARRAY => {
                        let count = rng.between(1, 256) as u32;
                        builder::record(KIND_ARRAY, old.a(), 0, 0, count)
                    }
                    _ => {
                        let list: Vec<u8> = (0..rng.below(5)).map(|_| rng.below(7) as u8).collect();
                        let d = builder::packed(&list);
                        builder::record(KIND_NAME_TERM, old.a(), list.len() as u8, 0, d)
                    }
                };
            }
        }
        // Other fields, and fewer or more regions of a name.
        11 => {
            if let Some(i) = rng.pick(&of_kinds(records, KIND_NAME..=KIND_FIELDS)) {
                if records[i].kind() == KIND_NAME {
                    records[i].0[1] = rng.below(5) as u8;
                } else {
                    records[i].0[1] = rng.below(terms.max(1)) as u8;
                }
            }
        }
        // Other types of regions, registers and returns.
        12 | 13 => {
            if let Some(i) = rng.pick(&of_kinds(records, KIND_FUNCTION..=KIND_REGISTER_TYPES)) {
                let list: Vec<usize> = (1..8).filter(|&byte| records[i].0[byte] != 0).collect();
                let byte = match records[i].kind() {
                    KIND_REGION_TYPES | KIND_REGISTER_TYPES => rng.pick(&list).unwrap_or(1),
                    _ => 4,
                };
                records[i].0[byte] = rng.below(terms.max(1)) as u8;
            }
        }
        // A region or register parameter more or fewer.
        14 => {
            if let Some(i) = rng.pick(&of_kinds(records, KIND_FUNCTION..=KIND_FUNCTION)) {
                let (a, b) = (records[i].a(), records[i].b());
                if rng.percent(50) && a + b > 0 {
                    let given = rng.below(usize::from(a + b) + 1) as u8;
                    records[i].0[1] = given;
                    records[i].0[2] = a + b - given;
                } else {
                    records[i].0[5] = rng.below(7) as u8;
                }
            }
        }
        // A last instruction that goes on: a register copied to itself.
        _ => {
            let last = |i: &usize| records.get(i + 1).is_none_or(|next| next.kind() < 16);
            let lasts: Vec<usize> = of_kinds(records, 16..=34).into_iter().filter(last).collect();
            if let Some(i) = rng.pick(&lasts) {
                let register = rng.below(4) as u8;
                records[i] = code::copy(register, register);
            }
        }
    }
}

/// Changes a byte or a word of a state, mostly where the outcome can still be a state.
pub fn change_state(rng: &mut Prng, state: &mut [u8]) {
    let frame = FRAMES_AT + FRAME_BYTES * rng.below(3);
    let at = match rng.below(10) {
        0 => rng.below(STATE_BYTES),
        1 => rng.below(HEADER_END),
        2 => OWNERS_AT + rng.below(8),
        3 => MARKS_AT + rng.below(5 * MARK_BYTES),
        4 | 5 => frame + rng.below(MAP_AT),
        6 | 7 => frame + rng.between(MAP_AT, FRAME_BYTES - 1),
        _ => MEMORY_AT + rng.below(5 * PAGE_BYTES),
    };
    match rng.below(3) {
        0 => state[at] ^= 1 << rng.below(8),
        1 => state[at] = rng.below(6) as u8,
        _ => {
            // An address in a low page, where a word may stand.
            let at = at & !3;
            let address = (PAGE_BYTES * rng.between(1, 4) + 4 * rng.below(8)) as u32;
            state[at..at + 4].copy_from_slice(&address.to_le_bytes());
        }
    }
}
