//! What `rcm asm` says of texts that have errors: all of them, at their places, with hints for what C
//! writes otherwise; the warning; the map that it writes; and texts that are assembled all the same.

mod common;

use common::{files, new_folder, rcm_in, repository};
use reference::digest::{hex, sha256};
use reference::module::decode;
use reference::text::{assemble, assemble_all, assemble_unchecked, report, Error, Map};
use reference::tool::{BAD_INPUT, DONE};
use std::path::Path;
use std::process::Command;

/// All errors of a text.
fn errors(text: &str) -> Vec<Error> {
    assemble_all(text, "text").err().unwrap_or_else(|| panic!("no error\n{text}"))
}

/// The one error of a text.
fn error(text: &str) -> Error {
    let errors = errors(text);
    assert_eq!(errors.len(), 1, "{text}\n{errors:?}");
    errors.into_iter().next().expect("one")
}

/// A function with one line of code, which is the fourteenth.
fn around(line: &str) -> String {
    format!(
        "struct node(r) {{
            value: i32
            next: *node(r) in r
        }}
        fn main() -> i32 {{
            region list: node(list)
            region rows: [i8; 6]
            reg a, b: i32
            reg small: i8
            reg half: i16
            reg p, q: *node(list) in list
            reg at: *i32 in list
            reg row: *[i8; 6] in rows
            {line}
        end:
            return a
        }}
        fn f(n: i32) -> i32 {{
            return n
        }}
        fn list_of[r: node(r)](n: i32) -> i32 {{
            return n
        }}"
    )
}

const LINE: usize = 14;

#[test]
fn hints_for_what_c_writes() {
    for (line, hint) in [
        ("a = b && a", "write `&` between flags of 0 and 1"),
        ("a = b || a", "write `|` between flags of 0 and 1"),
        ("if a && b goto end", "branch on one condition after the other"),
        ("a = !b", "`!a` is written `a == 0`"),
        ("a = ~b", "`~a` is written `a ^ -1`"),
        ("a++", "`a++` is written `a = a + 1`"),
        ("a--", "`a--` is written `a = a - 1`"),
        ("a += 1", "`a += b` is written `a = a + b`"),
        ("a <<= 1", "`a += b` is written `a = a + b`"),
        ("a = p->value", "`q = p.x` points to the field x, `a = *q` loads it"),
        ("p->value = a", "a value is stored through a pointer"),
        ("p.value = a", "a value is stored through a pointer"),
        ("row[0] = small", "a value is stored through a pointer"),
        ("at = &a", "registers have no address"),
        ("a = b ? 1 : 2", "a choice is `if a goto label`"),
        ("while (a < b) {", "a loop is a label"),
        ("for (a = 0; a < b; a++) {", "a loop is a label"),
        ("else {", "a choice is `if a == b goto label`"),
        ("int x = 5", "`reg a: i32`"),
        ("i32 x", "`reg a: i32`"),
        ("unsigned int x", "`reg a: i32`"),
        ("struct node *x", "`reg a: i32`"),
        ("reg x: int", "`int` is written i32"),
        ("reg x: *char in rows", "`char` is written i8"),
        ("reg x: void", "every function gives a value"),
        ("reg int x", "a name stands before its type"),
        ("p = NULL", "a pointer starts as zero and is tested by its address"),
        ("a = true", "write 1"),
        ("a = false", "write 0"),
        ("*p = 5", "a value is stored through a pointer"),
        ("a = b // the same", "a comment goes from `#`"),
        ("/* nothing */", "a comment goes from `#`"),
        ("a = b;", "a line ends without `;`"),
        ("if (a < b) goto end", "a condition has no brackets"),
        ("if a < b {", "code has no blocks"),
        ("if a + b goto end", "put the value into a register first"),
        ("a = b + 1 + 2", "put the value into a register first"),
        ("return f(a)", "put the value into a register first"),
        ("f(a)", "a call's value goes into a register"),
        ("return", "every function gives a value"),
        ("output \"text\"", "there are no strings"),
        ("if a = b goto end", "equal is written `==`"),
        ("a == 3", "`if a == b goto label` branches"),
        ("a = -b", "`-b` is written `0 - b`"),
        ("a = (i32) small", "`a = unsigned b` and `a = signed b`"),
        ("a = (a + 1) * 2", "put the value into a register first"),
        ("*p.value = a", "a value is stored through a pointer"),
        ("a = *p.value", "`q = p.x` points to the field x, `a = *q` loads it"),
        ("p = new node", "`p = new` makes an object of the type of p's region"),
        ("output(small)", "`output b`"),
        ("small = form[a + 1]", "put the value into a register first"),
        ("goto end:", "a label has its `:` only where it stands"),
        ("a = 1.5", "a number is written 42"),
        ("a = 1u", "a number is written 42"),
        ("a = 0b101", "a number is written 42"),
        ("a = 1e3", "a number is written 42"),
        ("a = 0x", "a number is written 42"),
        ("a = 010", "there are no octal numbers: write 8 or 10"),
        ("a = 09", "there are no octal numbers: write 9"),
        ("a = 00", "there are no octal numbers: write 0"),
        ("reg i8 x", "a name stands before its type"),
        ("a = list_of(a)", "the regions of a call stand in square brackets"),
        ("a = sizeof(a)", "`new` makes an object of its region's type"),
        // Rules of the checker.
        ("at = row[small]", "a place is an i32: `i = unsigned b`"),
        ("small = form[half]", "a place is an i32: `i = unsigned b`"),
        ("a = form[0]", "a byte of the form is an i8"),
        ("output a", "one byte is written: `b = unsigned a`"),
        ("small = p == q", "`a = address p`"),
        ("if p == q goto end", "`a = address p`"),
        ("if p != q goto end", "`a = address p`"),
        ("if p goto end", "`a = address p`"),
        ("a = p + 1", "`a = address p`"),
        ("a = p", "`a = address p`"),
        ("p = a", "`p = check a` makes one of an address"),
        ("p = 0", "`p = check a` makes one of an address"),
        ("a = b + half", "`a = unsigned b` and `a = signed b`"),
        ("a = small", "`a = unsigned b` and `a = signed b`"),
        ("half = *at", "`a = unsigned b` and `a = signed b`"),
        ("*at = half", "`a = unsigned b` and `a = signed b`"),
        ("return small", "`a = unsigned b` and `a = signed b`"),
        ("a = b < 5", "a comparison gives an i8"),
        ("at = p.next", "a pointer to it is **node(list) in list in list"),
        ("at = row[a]", "a pointer to it is *i8 in rows"),
        ("at = row[1]", "a pointer to it is *i8 in rows"),
        ("at = p[a]", "only a pointer to an array has elements"),
        ("a = *b", "only a pointer leads to a value"),
        ("a = *p", "point to a field or an element first"),
    ] {
        // Lines that open a block close it.
        let close = if line.ends_with('{') { "\n}" } else { "" };
        let found = error(&around(&format!("{line}{close}")));
        assert_eq!(found.place.line, LINE, "{line}\n{found}");
        assert!(found.hint.contains(hint), "{line}\n{found}\n{}", found.hint);
    }
}

#[test]
fn hints_for_items() {
    let body = "{\n return 0\n}";
    for (text, line, hint) in [
        (format!("int main() {body}"), 1, "a function is written `fn name(a: i32) -> i32 {`"),
        (format!("fn f() {body}"), 1, "every function gives a value"),
        (format!("fn f(int a) -> i32 {body}"), 1, "a name stands before its type"),
        (format!("fn f(void) -> i32 {body}"), 1, "a function without parameters is written"),
        (format!("fn f() -> void {body}"), 1, "every function gives a value"),
        (format!("struct s {{\n int x\n}}\nfn f() -> i32 {body}"), 2, "before its type"),
        (format!("struct s {{\n i8 x\n}}\nfn f() -> i32 {body}"), 2, "before its type"),
        (format!("struct s {{\n x: i8\n}};\nfn f() -> i32 {body}"), 3, "a line ends without `;`"),
        (format!("fn f() -> i32 {body};"), 3, "a line ends without `;`"),
        ("fn f() -> i32 {\n reg a: i32\n a = 1\n}".to_string(), 3, "the last line of a function"),
        (
            "fn f() -> i32 {\n reg a: i32\n back:\n if a <= 1 goto back\n}".to_string(),
            4,
            "the last line of a function",
        ),
        (
            format!("fn f() -> i32 {body}\nfn g() -> *i32 in r {{\n region r: i32\n reg p: *i32 in r\n return p\n}}"),
            4,
            "the caller gives the region",
        ),
        (
            "fn f() -> i32 {\n region r: i8\n reg a: i32\n a = g[r](0)\n return a\n}\nfn g[r: i8](p: *i8 in r) -> i32 {\n return 0\n}".to_string(),
            4,
            "a pointer starts as zero",
        ),
    ] {
        let found = error(&text);
        assert_eq!(found.place.line, line, "{text}\n{found}");
        assert!(found.hint.contains(hint), "{text}\n{found}\n{}", found.hint);
    }
}

/// Rules 5 and 6 at the type that breaks them, and not at what only holds it.
#[test]
fn types_that_break_rules() {
    let end = "fn main() -> i32 {\n return 0\n}";
    for (text, place, message) in [
        ("struct a {\n x: a\n y: i32\n}\nstruct b {\n x: [a; 2]\n}", (1, 8), "a size of at most"),
        ("struct a {\n v: i32\n x: [a; 4]\n}", (1, 8), "a struct holds only earlier structs"),
        ("struct a {\n x: [b; 1]\n}\nstruct b {\n y: a\n}", (1, 8), "only earlier structs"),
        ("struct a {\n x: [i32; 100]\n}", (2, 5), "a size of at most 256 bytes"),
        ("struct a(r) {\n x: *a in r\n}", (2, 6), "as many regions as the struct has"),
        ("struct a {\n x: *i8 in 0\n}", (1, 8), "fields that use only the struct's own regions"),
        ("fn f(n: i32) -> [i8; 4] {\n goto 0\n}", (1, 17), "the result is an integer or a pointer"),
        ("fn f() -> i32 {\n reg a, b: [i8; 4]\n return 0\n}", (2, 12), "integers or pointers"),
        ("fn f() -> i32 {\n reg a: *i8 in 3\n return 0\n}", (2, 9), "the function's regions"),
    ] {
        let text = format!("{end}\n{text}");
        let found = error(&text);
        assert!(found.refused, "{text}");
        assert_eq!((found.place.line - 3, found.place.column), place, "{text}\n{found}");
        assert!(found.message.contains(message), "{text}\n{found}");
    }
    let found = error("fn main(n: i8) -> i32 {\n return 0\n}");
    assert_eq!(found.message, "the parameters of function 0 are i32");
}

/// Several errors of one line are said if none follows from the other.
#[test]
fn several_errors_of_a_line() {
    let found = errors(&around("a = x + y"));
    let columns: Vec<usize> = found.iter().map(|error| error.place.column).collect();
    assert_eq!(columns, [17, 21], "{found:?}");
    let found = errors(&around("z = g(x, a, y)"));
    assert_eq!(found.len(), 4, "{found:?}");
}

/// Errors that only follow from another are not said.
#[test]
fn one_error_for_one_cause() {
    for (text, lines) in [
        // A register that is not declared, in each function once.
        (
            "fn f() -> i32 {\n reg a: i32\n a = b\n b = a\n return b\n}\nfn g() -> i32 {\n return b\n}",
            vec![3, 8],
        ),
        // A head or type that cannot be read.
        (
            "fn f() -> i32 {\n reg a: i32\n a = g(a)\n output a\n return a\n}\nfn g( -> i32 {\n a = !b\n}",
            vec![4, 7, 8],
        ),
        ("type word = *i32\nfn f() -> i32 {\n reg a: word\n a = 5\n return 0\n}", vec![1]),
        ("struct s {\n int x;\n}\nfn f() -> i32 {\n region r: s\n reg p: *s in r\n p = new\n return 0\n}", vec![2]),
        ("fn f() -> i32 {\n reg a: int\n reg b: i8\n b = a\n b = a + 1\n return 0\n}", vec![2]),
        // A block is one error, and its lines are read.
        ("fn f() -> i32 {\n reg a: i32\n while (a) {\n a = b\n } else {\n }\n return a\n}", vec![3, 4]),
        // A missing brace ends at the next item.
        ("fn f() -> i32 {\n return 0\nfn g() -> i32 {\n return x\n}", vec![3, 4]),
        // What stands between items.
        ("}\n a = 5\nfn f() -> i32 {\n return 0\n}", vec![1]),
        ("fn f() -> i32 {\n goto x\n goto x\n return 0\n}", vec![2]),
        // A text of which no function can be read, and one that has none.
        ("type word = i32\nfn f( {\n return 0\n}", vec![2]),
        ("type word = i32\n", vec![1]),
        ("", vec![1]),
    ] {
        let found: Vec<usize> = errors(text).iter().map(|error| error.place.line).collect();
        assert_eq!(found, lines, "{text}\n{:?}", errors(text));
    }
}

/// What is wrong in one place hides no rule that is broken in another.
#[test]
fn errors_hide_no_others() {
    // Each line marked with `!` has an error, and no other.
    let wrong =
        "fn two(n: i32) -> i32 {\n reg b: i8\n b = n !\n output n !\n b = 300 !\n return b !\n}";
    let main = "fn main(t: i32) -> i32 {\n return t\n}";
    let registers: String = (0..29).map(|number| format!(" reg a{number}: i32\n")).collect();
    let many: String = (0..140)
        .map(|count| {
            format!("type t{count} = [i8; {}]{}\n", count + 1, if count == 126 { " !" } else { "" })
        })
        .collect();
    for bad in [
        // Structs and types.
        "struct s { x: int } !",
        "struct s { !\n}",
        "struct s { x: [i8; 0] } !",
        "type word = int !",
        "type word = [i8; 257] !",
        "struct s { x: i8 }\nstruct t(r) {\n x: *s(r) in r !\n}",
        "struct s { x: [i32; 65] } !\nfn g() -> i32 {\n region r: s\n reg p: *s in r\n p = new\n return 0\n}",
        "struct s { x: s } !\nfn g() -> i32 {\n region r: s\n reg p: *s in r\n p = new\n free p\n return 0\n}",
        "struct s(a, b, c, d, e) { x: i8 } !\nfn g() -> i32 {\n region r: s(r, r, r, r, r)\n return 0\n}",
        "struct s { x: int } !\nstruct t { y: s }\nfn g() -> i32 {\n region r: t\n reg p: *t in r\n reg q: *i8 in r\n p = new\n q = p.y\n q = new\n return 0\n}",
        // Functions.
        "fn g(x: int, n: i32) -> i32 { !\n reg b: i8\n b = x\n b = n !\n return n\n}",
        "fn g(int x, n: i32) -> i32 { !\n reg b: i8\n b = x\n b = n !\n return n\n}",
        "fn g(x i32, n: i32) -> i32 { !\n reg b: i8\n b = x\n b = n !\n return n\n}",
        "fn g(x: *i8) in 0, n: i32) -> i32 { !\n n = g(n, n)\n return n\n}",
        "fn g(n: i32) -> int { !\n reg b: i8\n b = n !\n return b\n}",
        "fn g(n: i32) { !\n reg b: i8\n b = n !\n return b\n}",
        "fn g(a: i8, b: i8, c: i8, d: i8, e: i8, f: i8, g: i8, h: i8) -> i32 { !\n a = 300 !\n return 0\n}",
        "fn g[a: i8, b: i8, c: i8, d: i8, e: i8]() -> i32 { !\n output 300 !\n return 0\n}\nfn h() -> i32 {\n region r: i8\n reg a: i32\n a = g[r, r, r, r, r]()\n return 0\n}",
        "fn g() -> i32 {\n region q: nix !\n reg p: *i8 in q\n reg b: i8\n b = 300 !\n p = new\n return 0\n}",
        "fn g(n: i32) -> i32 {\n reg p: *i8 in 3 !\n reg b: i8\n b = *p\n b = n !\n return n\n}",
        "fn g() -> i32 { !\n}",
        "fn g() -> i32 {\n reg a: i32\n}!",
        "fn g() -> i32 {\n reg a: i32\n reg b: i8\n b = a !\n a = 1 !\n}",
        "fn g() -> i32 {\n reg a: i32\n reg b: int !\n b = 1 !\n}",
        "fn g() -> i32 {\n reg a: i32\n goto end\nend: !\n}",
        "fn g() -> i32 {\n reg a: i32\n raw 200 0 0 0 0 !\n return a\n}",
        "fn g(n: i32) -> i32\n{\n reg b: i8\n b = n !\n return n\n}",
        "fn g(n: i32) -> i32 {\u{a0}!\n reg b: i8\n b = n !\n return n\n}",
        // As C writes it.
        "int g(int x, int n) { !\n reg b: i8\n b = 300 !\n b = n\n n++ !\n return x; !\n}",
        "int g(int n)!\n{\n int c = n !\n c = n\n return c\n}",
        "static int k = 5 !\nint g(int n) { !\n int c = n !\n return c\n}",
        "int g(int n); !",
        "int g(void) { !\n reg b: i8\n b = 300 !\n return b\n}",
        &format!("fn g() -> i32 {{ !\n{registers} reg b: i8\n b = 300 !\n return a28\n}}"),
        &many,
    ] {
        for text in [format!("{main}\n{bad}\n{wrong}\n"), format!("{main}\n{wrong}\n{bad}\n")] {
            let marked = text.lines().enumerate().filter(|(_, line)| line.ends_with('!'));
            let expected: Vec<usize> = marked.map(|(at, _)| at + 1).collect();
            let text = text.replace('!', "");
            let found: Vec<usize> = errors(&text).iter().map(|one| one.place.line).collect();
            assert_eq!(found, expected, "{text}\n{:#?}", errors(&text));
        }
    }
    // Functions over the limit are asked too.
    let text = format!("{main}\n{wrong}")
        + &(0..32)
            .map(|at| format!("\nfn g{at}() -> i32 {{\n output 300\n return 0\n}}"))
            .collect::<String>();
    let found = errors(&text.replace('!', ""));
    assert_eq!(found.iter().filter(|error| error.refused).count(), 4 + 32);
    assert_eq!(found.iter().filter(|error| !error.refused).count(), 1);
    // The second function is not taken for function 0.
    let text = "fn main( {\n return 0\n}\nfn g(b: i8) -> i8 {\n return b\n}\nfn h(a: i32) -> i32 {\n reg b: i8\n b = g(b)\n a = g(b)\n return a\n}";
    let found: Vec<usize> = errors(text).iter().map(|error| error.place.line).collect();
    assert_eq!(found, [1, 10], "{:?}", errors(text));
    // That there is no function is said where nothing else is wrong.
    assert_eq!(error("struct s {\n x: i8\n};\n").place.line, 3);
}

/// However many errors there are and however long a line is, what is shown can be read.
#[test]
fn reports_are_bounded() {
    let names = vec!["a"; 20_000].join(", ");
    let text = format!("fn f() -> i32 {{\n reg {names}: i32\n return a\n}}\n");
    let found = errors(&text);
    let said = report("t", &text, "error", &found);
    assert!(said.len() < 50_000, "{}", said.len());
    assert!(said.ends_with(&format!("t: and {} more errors\n", found.len() - 100)), "{said}");
    for error in found.iter().filter(|error| error.place.line == 2).take(100) {
        let said = report("t", &text, "error", std::slice::from_ref(error));
        let lines: Vec<&str> = said.lines().collect();
        let mark = lines[2].find('^').expect("a mark");
        assert_eq!(&lines[1][mark..=mark], "a", "{said}");
        assert!(lines.iter().all(|line| line.len() < 120), "{said}");
    }
    // Long names, and lines with six digits.
    let long = "x".repeat(100_000);
    let text = format!("{}fn f() -> i32 {{\n return {long}\n}}", "\n".repeat(123_455));
    let said = report("t", &text, "error", &errors(&text));
    assert!(said.len() < 1_000, "{}", said.len());
    let lines: Vec<&str> = said.lines().collect();
    assert!(lines[1].starts_with("123457 |  return xxx"), "{said}");
    assert_eq!(lines[1].find('x'), lines[2].find('^'), "{said}");
    // Very many instructions and functions that are wrong.
    let lines = " b = a\n".repeat(100_000);
    let text = format!("fn f() -> i32 {{\n reg a: i32\n reg b: i8\n{lines} return a\n}}");
    assert!(errors(&text).len() > 1_000);
    let functions: String = (0..5_000)
        .map(|number| format!("fn f{number}(a: i8) -> i32 {{\n return a\n}}\n"))
        .collect();
    assert!(errors(&functions).len() > 32);
}

#[test]
fn numbers_and_characters() {
    let value = |written: &str| {
        let text = |value: &str| format!("fn f() -> i32 {{\n return {value}\n}}");
        assemble(&text(written)).expect("a module") == assemble(&text("65")).expect("a module")
    };
    for written in ["'A'", "'\\x41'", "0x41", "0X41", "6_5", "0x4_1"] {
        assert!(value(written), "{written}");
    }
    let made = |written: &str| assemble(&format!("fn f() -> i32 {{\n return {written}\n}}"));
    assert_eq!(made("'\\n'"), made("10"));
    assert_eq!(made("'\\0'"), made("0"));
    assert_eq!(made("'\\xfF'"), made("255"));
    assert_eq!(made("'\\'"), made("92"));
    for wrong in ["'\\x4'", "'\\q'", "'ab'", "''", "'\u{e9}'"] {
        assert!(made(wrong).is_err(), "{wrong}");
    }
    let found = error("fn f() -> i32 {\n return\u{a0}0\n}");
    assert_eq!(found.message, "U+00A0 has no meaning here");
}

const TEN: &str = "\
struct node(r) {
    value: i32
    next: *node(r) in r
}

fn main() -> i32 {
    region list: node(list)
    reg p: *node(list) in list
    reg at: *i16 in list
    reg sum, count: i32
    reg byte: i8

    p = new
    at = p.value
    sum = *at
    count = count + step
    byte = form[byte]
    if sum >= 10 && count goto done
    sum += 1;
    output sum
    goto finish
done:
    byte = byte + 300
    sum = total(p)
    return sum
}

fn total[r: node(r)](p: *node(r) in r) -> i32 {
    reg sum: int
    sum = 1
}
";

const TEN_SAID: &str = "\
ten.asm:14:5: error: a field's pointer stays in its region and points to primitives that stand at this position of the target
   14 |     at = p.value
      |     ^^^^^^^^^^^^ at is *i16 in list, p is *node(list) in list
   hint: a pointer to it is *i32 in list
ten.asm:15:5: error: a load's register has the type that its pointer points to
   15 |     sum = *at
      |     ^^^^^^^^^ sum is i32, at is *i16 in list
   hint: `a = unsigned b` and `a = signed b` bring an integer to the width of a
ten.asm:16:21: error: expected a register: `step` is none
   16 |     count = count + step
      |                     ^^^^
ten.asm:17:5: error: a byte of the form goes by an i32 into an i8
   17 |     byte = form[byte]
      |     ^^^^^^^^^^^^^^^^^ byte is i8
   hint: a place is an i32: `i = unsigned b` makes one of a smaller integer
ten.asm:18:18: error: expected `goto`, found `&&`
   18 |     if sum >= 10 && count goto done
      |                  ^^
   hint: branch on one condition after the other, or write `&` between flags of 0 and 1
ten.asm:19:9: error: expected `=`, found `+=`
   19 |     sum += 1;
      |         ^^
   hint: `a += b` is written `a = a + b`, and so with the other operations
ten.asm:20:5: error: an i8 goes to the output
   20 |     output sum
      |     ^^^^^^^^^^ sum is i32
   hint: one byte is written: `b = unsigned a` is the low byte of a in an i8 b
ten.asm:21:10: error: expected a label of this function: `finish` is none
   21 |     goto finish
      |          ^^^^^^
ten.asm:23:19: error: a constant fits its register, an integer
   23 |     byte = byte + 300
      |                   ^^^ 300 does not fit i8
ten.asm:24:11: error: expected 1 region for `total`, found 0
   24 |     sum = total(p)
      |           ^^^^^
   hint: the regions of a call stand in square brackets: `a = f[r](b)`
ten.asm:29:14: error: expected a type: `int` is no struct or type so far
   29 |     reg sum: int
      |              ^^^
   hint: `int` is written i32
ten.asm:30:5: error: the last instruction of a function is a jump or a return
   30 |     sum = 1
      |     ^^^^^^^
   hint: the last line of a function is `return a` or `goto label`
";

#[test]
fn all_errors_in_the_order_of_the_text() {
    assert_eq!(report("ten.asm", TEN, "error", &errors(TEN)), TEN_SAID);
    let folder = new_folder("diagnostics-ten");
    std::fs::write(folder.join("ten.asm"), TEN).expect("a text");
    let ran = rcm_in(&folder, "asm @ten.asm -o @module", false);
    assert_eq!((ran.status, ran.out.as_str()), (BAD_INPUT, ""));
    let source = folder.join("ten.asm").display().to_string();
    let last = format!("rcm: {source}: 12 errors, no module is written\n");
    assert_eq!(ran.error, TEN_SAID.replace("ten.asm", &source) + &last);
    assert_eq!(files(&folder), ["ten.asm"]);
}

/// Marks stand under what is meant, and nothing of a text moves a terminal's cursor.
#[test]
fn marks_and_odd_characters() {
    let text = "\u{feff}fn f() -> i32 {\r\n\treg a: i32\r\n\ta = \u{1b}[2J\r\n\treturn a\r\n}\r\n";
    let said =
        "t:3:6: error: U+001B has no meaning here\n    3 | \ta = \u{fffd}[2J\n      | \t    ^\n";
    assert_eq!(report("t", text, "error", &errors(text)), said);
    let good = text.replace("\u{1b}[2J", "5");
    let plain = good.trim_start_matches('\u{feff}').replace('\r', "");
    assert!(assemble(&good).expect("a good text") == assemble(&plain).expect("a good text"));
}

#[test]
fn runs_that_are_no_part_warn() {
    let text = |target: &str, value: &str| {
        format!(
            "struct pair {{\n a: i8\n rest: [i8; 5]\n}}\nfn main() -> i32 {{\n region r: pair\n \
             reg p: *pair in r\n reg q: *{target} in r\n q = {value}\n return 0\n}}"
        )
    };
    for (target, value, warns) in [
        ("i8", "p.a", false),
        ("[i8; 5]", "p.rest", false),
        ("i8", "p.rest[4]", false),
        ("pair", "field p 0", false),
        ("i8", "field p 0", false),
        ("[i8; 6]", "field p 0", true),
        ("[i8; 5]", "field p 0", true),
        ("[i8; 4]", "p.rest", true),
        ("[i8; 2]", "field p 3", true),
    ] {
        let text = text(target, value);
        let made =
            assemble_all(&text, "text").unwrap_or_else(|errors| panic!("{text}\n{errors:?}"));
        let lines: Vec<usize> = made.warnings.iter().map(|warning| warning.place.line).collect();
        assert_eq!(lines, if warns { vec![9] } else { vec![] }, "{text}");
    }
    let folder = new_folder("diagnostics-warning");
    std::fs::write(folder.join("text"), text("[i8; 4]", "p.rest")).expect("a text");
    let ran = rcm_in(&folder, "asm @text -o @module", false);
    assert_eq!((ran.status, ran.out.as_str()), (DONE, ""));
    assert!(
        ran.error.contains("text:9:2: warning: the pointer's target is no field"),
        "{}",
        ran.error
    );
    assert!(
        ran.error.contains("^^^^^^^^^^ q is *[i8; 4] in r, p is *pair in r\n"),
        "{}",
        ran.error
    );
    assert!(ran.error.ends_with("   hint: a pointer to it is *[i8; 5] in r\n"), "{}", ran.error);
    assert_eq!(files(&folder), ["module", "module.map", "text"]);
}

#[test]
fn the_map_beside_the_module() {
    let folder = new_folder("diagnostics-map");
    let text = "struct node(r) { value: i32, next: *node(r) in r }\n\
        fn main() -> i32 {\n region list: node(list)\n reg a, b: i32\nagain:\n a = f[list](1)\n \
        raw 17 0 1 0 0\n if a < 5 goto again\nlast: return a\n}\n\
        fn f[r: node(r)](n: i32) -> i32 {\n return n\n}\n";
    std::fs::write(folder.join("text"), text).expect("a text");
    let run = |line: &str| rcm_in(&folder, line, false);
    let read = |name: &str| std::fs::read(folder.join(name)).expect("a file");
    assert_eq!(run("asm @text -o @module").status, DONE);
    let map = Map::parse(&String::from_utf8(read("module.map")).expect("a text")).expect("a map");
    assert!(map.fits(&read("module"), &decode(&read("module")).expect("a module")));
    assert_eq!(map.source, folder.join("text").display().to_string());
    assert_eq!(
        (&map.structs[0].name[..], &map.structs[0].fields[..]),
        ("node", &["value", "next"].map(String::from)[..])
    );
    let main = &map.functions[0];
    assert_eq!((&main.name[..], &main.regions[..]), ("main", &["list".to_string()][..]));
    assert_eq!(main.registers, ["a", "b", "%1", "%2"]);
    assert_eq!(main.labels, [("again".to_string(), 0), ("last".to_string(), 6)]);
    let places: Vec<(usize, usize)> = main.code.iter().map(|at| (at.line, at.column)).collect();
    assert_eq!(places, [(6, 14), (6, 2), (7, 2), (8, 9), (8, 2), (8, 2), (9, 7)]);
    // Written over, as it is a map; left out where it is not wanted.
    assert_eq!(run("asm @text -o @module").status, DONE);
    assert_eq!(run("asm @text -o @plain --no-map").status, DONE);
    assert_eq!(run("asm @text -o /dev/null").status, DONE);
    let program = Command::new(env!("CARGO_BIN_EXE_rcm"))
        .args(["asm", "text", "-o", "-"])
        .current_dir(&folder)
        .output()
        .expect("a run");
    assert!(program.stdout == read("module"));
    assert_eq!(files(&folder), ["module", "module.map", "plain", "text"]);
    assert!(!Path::new("/dev/null.map").exists());
    // Somebody else's file stays, and nothing is written.
    std::fs::write(folder.join("other.map"), "rcm map 10\n").expect("a file");
    let ran = run("asm @text -o @other");
    assert_eq!(ran.status, BAD_INPUT);
    assert!(ran.error.contains("other.map is there and is no map"), "{}", ran.error);
    assert_eq!(read("other.map"), b"rcm map 10\n");
    assert_eq!(files(&folder), ["module", "module.map", "other.map", "plain", "text"]);
}

/// Functions that raw records make have numbers for names.
#[test]
fn maps_of_raw_functions() {
    let text =
        "type word = i32\nraw 7 0 0 1 0 0 2 0\nraw 9 0 0 0 0\nraw 16 0 0 0 42\nraw 34 0 0 0 0\n\
        fn f() -> i32 {\n reg a: i32\n return a\n}";
    let made = assemble_all(text, "text").unwrap_or_else(|errors| panic!("{errors:?}"));
    assert!(made.map.fits(&made.file, &decode(&made.file).expect("a module")));
    let names: Vec<&str> = made.map.functions.iter().map(|one| &one.name[..]).collect();
    assert_eq!(names, ["f0", "f"]);
    assert_eq!(made.map.functions[0].code[1].line, 5);
    // Bytes of the file can make a function of filler: then nobody has its names.
    let made_of_bytes =
        "fn f() -> i32 {\n reg a: i32\n return a\n}\nfile byte 36 = 7\nfile byte 39 = 1\n\
                         file byte 42 = 1\nfile byte 44 = 9\nfile byte 52 = 34\n";
    let made = assemble_all(made_of_bytes, "text").unwrap_or_else(|errors| panic!("{errors:?}"));
    let module = decode(&made.file).expect("a module");
    assert_eq!((module.functions.len(), made.map.fits(&made.file, &module)), (2, false));
    // A raw record that breaks a rule is shown at its line.
    let found = error(&text.replace("raw 16 0 0 0 42", "raw 16 5 0 0 42"));
    assert_eq!((found.place.line, found.refused), (4, true), "{found}");
    let found = error(&text.replace("return a", "raw 26 0 0 0 0\n return a"));
    assert_eq!((found.place.line, found.found.as_str()), (8, "a is i32"), "{found}");
}

/// What was assembled before texts were checked: the beginning of each file's SHA-256.
const EXAMPLES: [(&str, &str); 23] = [
    ("answer", "a971d072e1aaa00d"),
    ("list", "c2f687fcca8428db"),
    ("pool", "b0e0c2d7b835041b"),
    ("ranking", "b76680157b0b335f"),
    ("regions", "689f0d36be8c4d39"),
    ("refusals/1-length", "9408e2aade904c8e"),
    ("refusals/2-block-place", "0663ca1f55e60fe9"),
    ("refusals/3-block-check", "286fdcb3592c5150"),
    ("refusals/4-unknown-target", "2c534730db1a19cc"),
    ("refusals/5-no-size", "d415efe516c34d9b"),
    ("refusals/6-local-region-leaves", "f8e4c6f79113be23"),
    ("refusals/7-wrong-load", "d4b375b2dc019230"),
    ("refusals/8-runs-off-the-end", "fb356272552128fd"),
    ("stops/31-zero-address", "fed8e98fb391f32c"),
    ("stops/32-check-fails", "0462c28aa232eb3a"),
    ("stops/32-closed-region", "bb1686508f2648cf"),
    ("stops/33-index", "7297e00935b02d8a"),
    ("stops/34-no-page", "51c952f3d6b2543a"),
    ("stops/35-frames", "0f305dd76822ca0f"),
    ("stops/36-division", "5689609ee741cc75"),
    ("stops/37-shift", "c41990c12a9135ff"),
    ("stops/38-form-ended", "b0087b4902c23c7e"),
    ("stops/39-output-full", "3987a9be2627aa28"),
];

#[test]
fn unchecked_texts_give_the_files_they_gave() {
    let folder = new_folder("diagnostics-unchecked");
    for (name, digest) in EXAMPLES {
        let path = repository().join("examples").join(format!("{name}.asm"));
        let text = std::fs::read_to_string(&path).expect("a text");
        let made = assemble_unchecked(&text, name).unwrap_or_else(|errors| panic!("{errors:?}"));
        assert!(hex(&sha256(&made.file)).starts_with(digest), "{name}");
        let refused = ["4", "5", "6", "7", "8"].iter().any(|number| {
            name.strip_prefix("refusals/").is_some_and(|name| name.starts_with(number))
        });
        let ran = rcm_in(&folder, &format!("asm {} -o @module", path.display()), false);
        let expected = if refused { BAD_INPUT } else { DONE };
        assert_eq!(ran.status, expected, "{name}\n{}", ran.error);
        if refused {
            let last = "1 error, no module is written; --unchecked writes it all the same\n";
            assert!(ran.error.ends_with(last), "{}", ran.error);
            assert!(!folder.join("module").exists());
        } else {
            std::fs::remove_file(folder.join("module")).expect("the module");
        }
    }
}
