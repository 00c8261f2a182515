//! The text form: texts and the records they mean, texts that give the same file again on every
//! example and on random modules, accepted, damaged and of wrong lengths, what the short forms do,
//! and errors with their places.

mod common;

use common::{worked_records, Session};
use reference::builder::{code, file, list_record, record};
use reference::damage::damage;
use reference::file::{records, Record};
use reference::generator::draw;
use reference::host;
use reference::module::decode;
use reference::prng::Prng;
use reference::text::{assemble, assemble_all, assemble_unchecked, disassemble, report, Map};

/// The records of a text, filler left out.
fn assembled(text: &str) -> Vec<Record> {
    let file = assemble(text).unwrap_or_else(|error| panic!("{error}\n{text}"));
    let mut records = records(&file).expect("sound blocks");
    while records.last().is_some_and(|record| record.kind() == 0) {
        records.pop();
    }
    records
}

/// Assembles the disassembled file and expects the same bytes.
fn round_trip(file: &[u8]) -> String {
    let text = disassemble(file);
    let again = assemble(&text).unwrap_or_else(|error| panic!("{error}\n{text}"));
    assert!(again == file, "{text}");
    text
}

#[test]
fn worked_module() {
    let text = "fn main() -> i32 {\n    reg r: i32\n    r = 42\n    return r\n}\n";
    assert_eq!(assembled(text), worked_records());
    let back = round_trip(&file(&worked_records()));
    assert_eq!(back, "fn f0() -> i32 {\n    reg r0: i32\n\n    r0 = 42\n    return r0\n}\n");
}

#[test]
fn every_instruction() {
    let text = "
        struct pair(r) { number: i32, rest: [i8; 4], next: *pair(r) in r }
        fn main() -> i32 {
            region r: pair(r)
            reg i, j: i32
            reg flag: i8
            reg p: *pair(r) in r
            reg q: *i32 in r
            reg rest: *[i8; 4] in r
            reg byte: *i8 in r
            i = -1
            i = j
        back:
            i = i + j
            i = i / nearest j
            flag = i < signed j
            i = unsigned flag
            i = signed flag
            i = address p
            p = check i
            q = p.number
            rest = p.rest
            byte = p.rest[3]
            byte = rest[i]
            byte = rest[2]
            q = field q 0
            flag = *byte
            *byte = flag
            p = new
            free p
            flag = form[i]
            output flag
            goto back
            if flag goto back
            i = other[r](i, p)
            return i
        }
        fn other[s: pair(s)](n: i32, p: *pair(s) in s) -> i32 {
            return n
        }";
    let [call, arguments] = code::call(0, 1, &[0], &[0, 3]);
    let expected = [
        code::constant(0, u32::MAX),
        code::copy(0, 1),
        code::operation(code::ADD, 0, 0, 1),
        code::operation(code::SIGNED_QUOTIENT, 0, 0, 1),
        code::operation(code::LESS_SIGNED, 2, 0, 1),
        code::zero_extend(0, 2),
        code::sign_extend(0, 2),
        code::to_number(0, 3),
        code::check(3, 0),
        code::field(4, 3, 0),
        code::field(5, 3, 1),
        code::field(6, 3, 4),
        code::index(6, 5, 0),
        code::field(6, 5, 2),
        code::field(4, 4, 0),
        code::load(2, 6),
        code::store(6, 2),
        code::new(3),
        code::free(3),
        code::form(2, 0),
        code::output(2),
        code::jump(2),
        code::branch(2, 2),
        call,
        arguments,
        code::ret(0),
    ];
    let records = assembled(text);
    let at = records.iter().position(|record| record.kind() == 16).expect("the code");
    assert_eq!(records[at..at + expected.len()], expected);
    let file = assemble(text).expect("a good text");
    assert_eq!(host::check(&file)[0], host::GOOD, "{:?}", host::check(&file));
    let back = round_trip(&file);
    for line in ["r4 = r3.x0", "r5 = r3.x1", "r6 = r3.x1[3]", "r6 = r5[2]", "r4 = field r4 0"] {
        assert!(back.contains(line), "{line}\n{back}");
    }
}

#[test]
fn named_types_and_raw_records() {
    let text = "
        type word = i32
        type again = i32
        type link = *node(0) in 0
        struct node(r) { value: again, next: link }
        raw 7 0 0 1 0 0 2 0
        raw 9 0 0 0 0
        raw 16 0 0 0 0x2a
        raw 34, 0, 0, 0, 0
        file blocks = 2";
    let records = assembled(text);
    let expected = [
        record(1, 4, 0, 0, 0),
        record(1, 4, 0, 0, 0),
        record(4, 0, 1, 0, 0),
        record(2, 2, 0, 0, 0),
        record(5, 1, 2, 0, 0),
        list_record(6, &[1, 3]),
    ];
    assert_eq!(records[..6], expected);
    let file = assemble(text).expect("a good text");
    assert_eq!(file.len(), 1024);
    assert_eq!(host::check(&file), [1, 4, 1, 65_538]);
    round_trip(&file);
}

#[test]
fn random_modules() {
    let mut accepted = 0;
    let mut inline = 0;
    let mut broken = 0;
    for number in 0..1100 {
        let mut rng = Prng::new(number);
        let sample = draw(&mut rng);
        let file = sample.file();
        if host::check(&file)[0] == host::GOOD {
            accepted += 1;
            let text = round_trip(&file);
            assert!(!text.contains("raw"), "{text}");
            inline += u32::from(!text.starts_with("type"));
            keeps_rules(&file, &text);
        }
        let mut damaged = damage(&mut rng, sample.records);
        let text = round_trip(&damaged);
        // Refusals 1 to 3 are about the blocks, which a text has lines for.
        let [answer, number, ..] = host::check(&damaged);
        if answer == host::REFUSED && number >= 4 {
            let errors = assemble_all(&text, "text").err().expect("a broken rule");
            assert!(errors.iter().all(|error| error.refused), "{errors:?}\n{text}");
            let made = assemble_unchecked(&text, "text").expect("the same file");
            assert!(made.file == damaged);
            broken += 1;
        }
        damaged.truncate(rng.below(damaged.len() + 1));
        round_trip(&damaged);
    }
    assert!(accepted >= 1000, "{accepted} accepted, {inline} without type lines");
    assert!(broken >= 100, "{broken} with a broken rule");
}

/// The text of an accepted module has no error, gives the module and a map of it.
fn keeps_rules(file: &[u8], text: &str) {
    let made = assemble_all(text, "text").unwrap_or_else(|errors| panic!("{errors:?}\n{text}"));
    assert!(made.file == file, "{text}");
    assert!(made.map.fits(file, &decode(file).expect("a module")), "{text}");
    assert_eq!(Map::parse(&made.map.text()).as_ref(), Ok(&made.map), "{text}");
}

#[test]
fn errors_say_where_and_what() {
    let inside =
        |line: &str| format!("fn f() -> i32 {{\n    reg r: i32\n    {line}\n    return r\n}}");
    for (text, place, message) in [
        ("fn f( -> i32", (1, 7), "expected a parameter's name, found `->`"),
        ("type a = *i32", (1, 14), "expected `in`, found the end of the text"),
        ("type a = [i8; 300]", (1, 10), "expected a count from 1 to 256, found 300"),
        ("type a = b", (1, 10), "expected a type: `b` is no struct or type so far"),
        ("hello", (1, 1), "expected `type`, `struct`, `fn`, `raw` or `file`, found `hello`"),
        ("raw 1 2 3", (1, 5), "expected a record: five numbers"),
        ("type a = 5", (1, 10), "expected a type: i8, i16, i32"),
        (&format!("type a = {}i8", "*".repeat(100_000)), (1, 138), "a type of at most 128 levels"),
        ("type new = i8", (1, 6), "found `new`, a word of the language"),
        ("type a = i8 \u{e9}", (1, 13), "has no meaning here"),
        (&inside("r = s"), (3, 9), "expected a register: `s` is none"),
        (&inside("r = 99999999999"), (3, 9), "expected a number below 4294967296"),
        (&inside("goto x"), (3, 10), "expected a label of this function: `x` is none"),
        (&inside("r = g()"), (3, 9), "expected a function: `g` is none"),
        (&inside("r = f(r)"), (3, 9), "expected 0 arguments for `f`, found 1"),
        (&inside("if 1 < 2 goto 0"), (3, 8), "expected a register on one side: numbers alone"),
        (&inside("r = r + -2147483649"), (3, 13), "expected a number that fits i32"),
        (&inside("r = unsigned 5"), (3, 18), "expected a register, found the number 5"),
        (&inside("r = r == signed r"), (3, 14), "expected a register or a number, found `signed`"),
        (&inside("r = r + new"), (3, 13), "expected a register or a number, found `new`"),
        (&inside("r = r r"), (3, 11), "expected the end of the line, found `r`"),
        (&inside("r = r.x"), (3, 9), "expected a pointer: `r` is none"),
        (&inside("reg r: i8"), (3, 9), "expected a new name: there is a register `r` already"),
        ("fn f() -> i32 {\n reg r: i32\n}", (3, 1), "expected at least one instruction"),
        ("fn f() -> i32 {\n reg r: i8\n r = -129\n}", (3, 6), "expected a number that fits i8"),
        ("struct s {\n}", (1, 8), "expected at least one field"),
        ("fn f() -> i32 {\n reg r: *i8 in q\n}", (2, 16), "expected a region in scope"),
    ] {
        let error = assemble(text).expect_err(text);
        assert_eq!((error.place.line, error.place.column), place, "{text}\n{error}");
        assert!(error.message.contains(message), "{text}\n{error}");
    }
}

/// A function with one line: i32 a, b are registers 0 and 1, i8 s, t 2 and 3, p 4, and added ones
/// begin at 5.
fn around(line: &str) -> String {
    format!(
        "fn main() -> i32 {{
            region r: i32
            reg a, b: i32
            reg s, t: i8
            reg p: *i32 in r
        start:
            {line}
            goto start
        }}
        fn g(n: i32, c: i8) -> i32 {{
            return n
        }}"
    )
}

/// The records of each form that is made of several, as docs/ASSEMBLY.md has them.
#[test]
fn short_forms() {
    use code::{branch, constant, operation, EQUAL, EXCLUSIVE_OR, LESS, LESS_SIGNED};
    let (a, b, s, t, p, first, second) = (0, 1, 2, 3, 4, 5, 6);
    let not = |register| [constant(register, 1), operation(EXCLUSIVE_OR, s, s, register)];
    let call = |registers: &[u8]| code::call(a, 1, &[], registers).to_vec();
    let joined = |parts: &[&[Record]]| parts.concat();
    for (line, expected) in [
        ("a = b + 1", vec![constant(first, 1), operation(code::ADD, a, b, first)]),
        ("a = 7 - b", vec![constant(first, 7), operation(code::SUBTRACT, a, first, b)]),
        (
            "a = -7 / nearest 2",
            vec![
                constant(first, 0xffff_fff9),
                constant(second, 2),
                operation(code::SIGNED_QUOTIENT, a, first, second),
            ],
        ),
        ("s = t + -1", vec![constant(first, 255), operation(code::ADD, s, t, first)]),
        ("s = a == 10", vec![constant(first, 10), operation(EQUAL, s, a, first)]),
        ("s = a != b", joined(&[&[operation(EQUAL, s, a, b)], &not(first)])),
        ("s = a > b", vec![operation(LESS, s, b, a)]),
        ("s = a > signed b", vec![operation(LESS_SIGNED, s, b, a)]),
        ("s = a <= b", joined(&[&[operation(LESS, s, b, a)], &not(first)])),
        ("s = a <= signed b", joined(&[&[operation(LESS_SIGNED, s, b, a)], &not(first)])),
        ("s = a >= b", joined(&[&[operation(LESS, s, a, b)], &not(first)])),
        (
            "s = 9 >= signed a",
            joined(&[&[constant(first, 9), operation(LESS_SIGNED, s, first, a)], &not(second)]),
        ),
        ("if a < b goto start", vec![operation(LESS, first, a, b), branch(first, 0)]),
        ("if a > b goto start", vec![operation(LESS, first, b, a), branch(first, 0)]),
        (
            "if a == 0 goto start",
            vec![constant(first, 0), operation(EQUAL, second, a, first), branch(second, 0)],
        ),
        ("if a != b goto start", vec![operation(EXCLUSIVE_OR, first, a, b), branch(first, 0)]),
        (
            "if 'x' != s goto start",
            vec![constant(first, 120), operation(EXCLUSIVE_OR, first, first, s), branch(first, 0)],
        ),
        (
            "if a <= b goto start",
            vec![operation(LESS, first, b, a), branch(first, 3), code::jump(0)],
        ),
        (
            "if s >= signed -2 goto start",
            vec![
                constant(first, 254),
                operation(LESS_SIGNED, first, s, first),
                branch(first, 4),
                code::jump(0),
            ],
        ),
        ("if 1 goto start", vec![constant(first, 1), branch(first, 0)]),
        ("return 0", vec![constant(first, 0), code::ret(first)]),
        ("output 'x'", vec![constant(first, 120), code::output(first)]),
        ("*p = 5", vec![constant(first, 5), code::store(p, first)]),
        ("s = form[0]", vec![constant(first, 0), code::form(s, first)]),
        ("p = check 256", vec![constant(first, 256), code::check(p, first)]),
        ("a = g(1, s)", joined(&[&[constant(first, 1)], &call(&[first, s])])),
        (
            "a = g(1, 2)",
            joined(&[&[constant(first, 1), constant(second, 2)], &call(&[first, second])]),
        ),
    ] {
        let text = around(line);
        let records = assembled(&text);
        let at = records.iter().position(|record| record.kind() >= 16).expect("the code");
        let end = [code::jump(0)];
        assert_eq!(records[at..=at + expected.len()], [&expected[..], &end].concat(), "{line}");
        let file = assemble(&text).expect("a good text");
        keeps_rules(&file, &text);
        let back = round_trip(&file);
        assert!(!back.starts_with("type"), "{back}");
    }
}

/// Added registers are used again by the next line, and only those that are needed are added.
#[test]
fn added_registers() {
    let lines = "a = b + 1\n b = a * 9\n s = t | 4\n if a < 3 goto start\n a = g(1, 2)\n a = 1 + 2";
    let made = assemble_all(&around(lines), "text").unwrap_or_else(|errors| panic!("{errors:?}"));
    let registers = &made.map.functions[0].registers;
    assert_eq!(registers[5..], ["%1", "%2", "%3"], "i32, i8, and a second i32");
    assert_eq!(made.map.functions[1].registers, ["n", "c"]);
    let many = |count: usize| {
        let names: Vec<String> = (0..count).map(|number| format!("r{number}")).collect();
        let names = names.join(", ");
        format!("fn f() -> i32 {{\n reg {names}: i32\n if r0 < 1 goto 0\n return 0\n}}")
    };
    assert!(assemble(&many(26)).is_ok());
    let error = assemble(&many(27)).expect_err("too many");
    let message =
        "expected at most 28 registers, found 29, 2 of them added for numbers and comparisons";
    assert_eq!(error.message, message);
}

/// Every comparison in every form and width, on both sides of its boundaries.
#[test]
fn comparisons() {
    const SIGNS: [&str; 10] =
        ["==", "!=", "<", "<=", ">", ">=", "< signed", "<= signed", "> signed", ">= signed"];
    for bits in [8, 16, 32] {
        let (top, mask) = (1_u32 << (bits - 1), u32::MAX >> (32 - bits));
        let signed = |value: u32| i64::from(value ^ top) - i64::from(top);
        // One that reads as negative is written so.
        let written = |value: u32| match signed(value) {
            negative @ ..0 => negative.to_string(),
            _ => value.to_string(),
        };
        for (x, y) in [
            (0, 0),
            (0, 1),
            (1, 0),
            (mask, mask),
            (0, mask),
            (mask, 0),
            (mask - 1, mask),
            (mask, mask - 1),
            (top, top - 1),
            (top - 1, top),
            (top, top),
        ] {
            let mut text = format!(
                "fn main() -> i32 {{\n reg x, y: i{bits}\n reg s: i8\n x = {x}\n y = {y}\n"
            );
            let mut expected = Vec::new();
            for (number, sign) in SIGNS.into_iter().enumerate() {
                let order = match sign.ends_with("signed") {
                    true => signed(x).cmp(&signed(y)),
                    false => x.cmp(&y),
                };
                let holds = match sign.split(' ').next() {
                    Some("==") => order.is_eq(),
                    Some("!=") => order.is_ne(),
                    Some("<") => order.is_lt(),
                    Some("<=") => order.is_le(),
                    Some(">") => order.is_gt(),
                    _ => order.is_ge(),
                };
                let sides = [
                    ("x".to_string(), "y".to_string()),
                    ("x".to_string(), written(y)),
                    (written(x), "y".to_string()),
                ];
                for (side, (left, right)) in sides.into_iter().enumerate() {
                    text += &format!(" s = {left} {sign} {right}\n output s\n");
                    text += &format!(" if {left} {sign} {right} goto l{number}_{side}\n");
                    text += &format!(" output 7\n l{number}_{side}:\n");
                    expected.push(u8::from(holds));
                    expected.extend((!holds).then_some(7));
                }
            }
            text += " return 0\n}";
            let file = assemble(&text).unwrap_or_else(|error| panic!("{error}\n{text}"));
            let mut session = Session::open(file, &[]);
            assert_eq!(session.go(10_000)[0], host::ENDED, "{text}");
            let count = session.view().output_count as usize;
            assert_eq!(session.output[..count], expected, "i{bits} {x} {y}");
        }
    }
}

/// Random changes of a text never make the assembler fail otherwise than with errors, and a text
/// without errors is assembled unchecked too.
#[test]
fn damaged_texts() {
    const PIECES: [&str; 24] = [
        "&&",
        "{",
        "}",
        "if ",
        " goto ",
        "\nfn ",
        "\nstruct ",
        "\nraw ",
        "-",
        "1",
        "int ",
        ";",
        "//",
        "/*",
        "*/",
        "\n",
        "\nreg ",
        "\nreturn ",
        "r0",
        "'",
        "(",
        "]",
        " <= ",
        "\u{e9}",
    ];
    let sugar = std::fs::read_to_string(common::repository().join("examples/sugar.asm"));
    let sugar = sugar.expect("the example");
    for number in 0..600 {
        let mut rng = Prng::new(number);
        let mut text = match number % 3 {
            0 => sugar.clone(),
            _ => disassemble(&draw(&mut rng).file()),
        };
        for _ in 0..rng.between(1, 6) {
            let places: Vec<usize> = text.char_indices().map(|(at, _)| at).collect();
            let at = rng.pick(&places).unwrap_or_default();
            match rng.below(4) {
                0 | 1 => text.insert_str(at, rng.pick(&PIECES).expect("not empty")),
                2 if at < text.len() => {
                    text.remove(at);
                }
                _ if rng.below(8) == 0 => text.truncate(at),
                _ => (),
            }
        }
        let unchecked = assemble_unchecked(&text, "text");
        match assemble_all(&text, "text") {
            Ok(made) => {
                assert!(unchecked.is_ok_and(|same| same.file == made.file), "{text}");
                // What asm does not object to is accepted, whatever else the text says of its file.
                let plain = !text.contains("file ");
                assert!(!plain || reference::checker::check(&made.file).is_ok(), "{text}");
            }
            Err(errors) => {
                let refused = errors.iter().all(|error| error.refused);
                assert_eq!(unchecked.is_ok(), refused, "{text}\n{errors:?}");
                let ordered = errors.is_sorted_by_key(|error| error.place.line);
                assert!(ordered && !report("text", &text, "error", &errors).is_empty());
            }
        }
    }
}

/// Inside brackets lines do not count: regions and arguments of a call, parameters.
#[test]
fn lists_go_over_lines() {
    let head = "fn main() -> i32 {\n region r: i32\n reg a: i32\n";
    let callee = "fn f[\n r: i32,\n s: i32](\n x: i32,\n y: i32) -> i32 {\n return x\n}\n";
    let broken = format!("{head} a = f[r,\n r](a,\n a)\n return a\n}}\n{callee}");
    let plain = format!("{head} a = f[r, r](a, a)\n return a\n}}\n{callee}");
    assert_eq!(assemble(&broken), assemble(&plain), "{broken}");
    assert!(assemble(&plain).is_ok());
    // An index that is not closed takes no bracket of a later line.
    let open = format!("{head} a = a[r\n a = f[r, r](a, a)\n return a\n}}\n{callee}");
    let errors = assemble_all(&open, "text").err().expect("an error");
    assert_eq!(errors[0].place.line, 4, "{errors:?}");
}
