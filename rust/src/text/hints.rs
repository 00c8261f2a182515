//! What a C programmer writes first, and how it is written here.

/// Words that C has for integers, with the type that is meant.
const INTEGERS: [(&str, &str); 14] = [
    ("int", "i32"),
    ("long", "i32"),
    ("uint32_t", "i32"),
    ("int32_t", "i32"),
    ("u32", "i32"),
    ("size_t", "i32"),
    ("short", "i16"),
    ("uint16_t", "i16"),
    ("int16_t", "i16"),
    ("char", "i8"),
    ("uint8_t", "i8"),
    ("int8_t", "i8"),
    ("u8", "i8"),
    ("bool", "i8"),
];

/// Words that begin a declaration or a definition in C.
const DECLARING: [&str; 10] =
    ["void", "const", "static", "extern", "unsigned", "signed", "i8", "i16", "i32", "struct"];

fn integer(word: &str) -> Option<&'static str> {
    INTEGERS.iter().find(|(known, _)| *known == word).map(|(_, meant)| *meant)
}

/// A word where a type is wanted.
pub fn of_type(word: &str) -> String {
    match (word, integer(word)) {
        (_, Some(meant)) => format!("`{word}` is written {meant}"),
        ("void", _) => "every function gives a value: write `-> i32` and `return 0`; `void *` has \
                        no counterpart, a pointer has a type and a region"
            .to_string(),
        _ => String::new(),
    }
}

/// A word that begins a type, here or in C.
pub fn is_type(word: &str) -> bool {
    integer(word).is_some() || DECLARING.contains(&word)
}

/// A word at the beginning of an item.
pub fn of_item(word: &str) -> &'static str {
    if is_type(word) {
        return "a function is written `fn name(a: i32) -> i32 {`";
    }
    ""
}

/// A word at the beginning of a line of code that is no instruction.
pub fn of_line(word: &str) -> &'static str {
    match word {
        "while" | "for" | "do" | "break" | "continue" => {
            "a loop is a label, `if a < b goto label` and `goto label`"
        }
        "else" | "switch" | "case" | "default" => {
            "a choice is `if a == b goto label` and `goto label`"
        }
        _ if is_type(word) => "a register is declared in a line of its own: `reg a: i32`",
        _ => "",
    }
}

/// A name that is no register.
pub fn of_value(word: &str) -> &'static str {
    match word {
        "NULL" | "null" | "nullptr" => {
            "a pointer starts as zero and is tested by its address: `a = address p`, `if a == 0 \
             goto label`"
        }
        "true" => "write 1",
        "false" => "write 0",
        "sizeof" => "sizes are not asked for: `new` makes an object of its region's type",
        _ => "",
    }
}

/// A sign that has no meaning where it stands in a line of code.
pub fn of_sign(sign: &str) -> &'static str {
    match sign {
        "&&" => "branch on one condition after the other, or write `&` between flags of 0 and 1",
        "||" => "branch on one condition after the other, or write `|` between flags of 0 and 1",
        "!" => "`!a` is written `a == 0`",
        "~" => "`~a` is written `a ^ -1`",
        "++" => "`a++` is written `a = a + 1`",
        "--" => "`a--` is written `a = a - 1`",
        "+=" | "-=" | "*=" | "/=" | "%=" | "&=" | "|=" | "^=" | "<<=" | ">>=" => {
            "`a += b` is written `a = a + b`, and so with the other operations"
        }
        "->" => "`q = p.x` points to the field x, `a = *q` loads it",
        "&" => "registers have no address: pointers come from `new`, `p.x`, `p[i]` and `check`",
        "?" => "a choice is `if a goto label` and two lines that set the register",
        ";" => "a line ends without `;`",
        "{" | "}" => "code has no blocks: write labels, `if a == b goto label` and `goto label`",
        "\"" => "there are no strings: `output 'x'` writes one character",
        _ => "",
    }
}

/// Digits behind a zero, which C would read to the base 8.
pub fn of_octal(digits: &str) -> String {
    let decimal = match digits.trim_start_matches('0') {
        "" => "0",
        decimal => decimal,
    };
    match u32::from_str_radix(digits, 8) {
        Ok(octal) if octal.to_string() != decimal => {
            format!("there are no octal numbers: write {octal} or {decimal}")
        }
        _ => format!("there are no octal numbers: write {decimal}"),
    }
}

/// What follows a whole instruction in its line.
pub fn behind(sign: &str) -> &'static str {
    match of_sign(sign) {
        _ if sign == ":" => "a label has its `:` only where it stands: `goto label`",
        "" => "one line does one thing: put the value into a register first",
        hint => hint,
    }
}

pub const NUMBER: &str =
    "a number is written 42, 1_000, 0x2a, 'a' or -1; it has no suffix, no point and no exponent";
pub const TYPED: &str = "a name stands before its type: `a: i32`";
pub const VOID: &str = "a function without parameters is written `fn name() -> i32 {`";
pub const NEGATIVE: &str = "`-b` is written `0 - b`";
pub const EQUAL: &str = "equal is written `==`: `if a == b goto label`";
pub const COMPARISON: &str = "`c = a == b` puts 0 or 1 into an i8, `if a == b goto label` branches";
pub const NEW: &str = "`p = new` makes an object of the type of p's region";
pub const OUTPUT_FORM: &str = "a byte is written without brackets: `output b`";
pub const REGIONS: &str = "the regions of a call stand in square brackets: `a = f[r](b)`";
pub const PART: &str = "point to a field or an element first: `q = p.x` or `q = p[i]`";
pub const COMMENT: &str = "a comment goes from `#` to the end of the line";
pub const CONDITION: &str = "a condition has no brackets: `if a < b goto label`";
pub const CALL: &str = "a call's value goes into a register: `a = f(b)`";
pub const STORE: &str =
    "a value is stored through a pointer: `q = p.x` or `q = p[i]`, then `*q = a`";
pub const RESULT: &str =
    "every function gives a value: `fn f() -> i32`, and `return a` or `return 0`";

// For rules of the checker.
pub const ADDRESS: &str = "an address is a number: `a = address p`";
pub const POINTER: &str = "a pointer starts as zero; `p = check a` makes one of an address";
pub const WIDTHS: &str = "`a = unsigned b` and `a = signed b` bring an integer to the width of a";
pub const FLAG: &str = "a comparison gives an i8; `if b < c goto label` needs no register for it";
pub const INDEX: &str = "a place is an i32: `i = unsigned b` makes one of a smaller integer";
pub const ARRAY: &str = "only a pointer to an array has elements: `*[i8; 10] in r`";
pub const DEREFERENCE: &str = "only a pointer leads to a value: `*i32 in r`";
pub const BYTE: &str = "a byte of the form is an i8; `i = unsigned b` makes an i32 of it";
pub const OUTPUT: &str = "one byte is written: `b = unsigned a` is the low byte of a in an i8 b";
pub const LOCAL: &str = "the caller gives the region: `fn f[r: i32]() -> *i32 in r`";
pub const END: &str = "the last line of a function is `return a` or `goto label`";
