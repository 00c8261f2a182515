//! Maps beside modules: their text, when they are used, and what the tool shows with one and without:
//! refusals, stops, traces and the memory in the source's names.

mod common;

use common::{new_folder, rcm, repository};
use reference::digest::sha256;
use reference::module::{decode, KIND_ARGUMENTS};
use reference::text::{
    assemble_unchecked, file_records, Assembled, FunctionNames, Map, Place, StructNames,
};
use reference::tool::{DONE, REFUSED, RUNNING, STOPPED};
use std::path::{Path, PathBuf};
use std::process::Command;

fn folder(name: &str) -> PathBuf {
    new_folder(&format!("map-{name}"))
}

fn words(list: &str) -> Vec<String> {
    let names = list.split(',').map(|part| part.split(':').next().unwrap_or_default().trim());
    names.filter(|name| !name.is_empty()).map(str::to_string).collect()
}

/// The names before a type.
fn declared(line: &str) -> Vec<String> {
    words(line.split(':').next().unwrap_or_default())
}

/// What stands between two signs of a line, empty where they are not there.
fn between(line: &str, open: char, close: char) -> &str {
    let inside = line.split_once(open).and_then(|(_, rest)| rest.split_once(close));
    inside.map_or("", |(inside, _)| inside)
}

/// The map of a text in a simple reading of its own: a line for each struct, field, function,
/// declaration, label and instruction, and no register added.
fn simple_map(source: &str, text: &str, file: &[u8]) -> Map {
    let mut map = Map {
        source: source.to_string(),
        hash: sha256(file),
        structs: Vec::new(),
        functions: Vec::new(),
    };
    let mut in_struct = false;
    for (number, line) in (1..).zip(text.lines()) {
        let indent = line.len() - line.trim_start().len();
        let place = |before: usize| Place { line: number, column: indent + before + 1 };
        let line = line.split('#').next().unwrap_or_default().trim();
        let head = |rest: &str| rest.split(['(', '[', ' ']).next().unwrap_or_default().to_string();
        if let Some(rest) = line.strip_prefix("struct ") {
            in_struct = true;
            map.structs.push(StructNames {
                name: head(rest),
                place: place("struct ".len()),
                regions: words(between(line, '(', ')')),
                fields: Vec::new(),
            });
        } else if let Some(rest) = line.strip_prefix("fn ") {
            // Region parameters of the examples have at most one argument and one array each.
            let regions = rest.split('(').next().unwrap_or_default();
            let regions = regions.split_once('[').map_or("", |(_, rest)| rest);
            let parameters = rest.split_once("](").map_or(between(rest, '(', ')'), |(_, rest)| {
                rest.rsplit_once(") ->").map_or("", |(parameters, _)| parameters)
            });
            map.functions.push(FunctionNames {
                name: head(rest),
                place: place("fn ".len()),
                regions: words(regions),
                registers: words(parameters),
                labels: Vec::new(),
                code: Vec::new(),
            });
        } else if line == "}" || line.starts_with("file ") {
            in_struct = false;
        } else if in_struct {
            map.structs.last_mut().expect("a struct").fields.extend(declared(line));
        } else if let Some(function) = map.functions.last_mut() {
            if let Some(rest) = line.strip_prefix("region ") {
                function.regions.extend(declared(rest));
            } else if let Some(rest) = line.strip_prefix("reg ") {
                function.registers.extend(declared(rest));
            } else if let Some(label) = line.strip_suffix(':') {
                function.labels.push((label.to_string(), function.code.len() as u32));
            } else if !line.is_empty() && !line.starts_with(&format!("raw {KIND_ARGUMENTS} ")) {
                function.code.push(place(0));
            }
        }
    }
    map
}

/// An example's text from its first struct or function on, whatever stands before it.
fn text_of(name: &str) -> String {
    let text = std::fs::read_to_string(repository().join("examples").join(name)).expect("a text");
    let lines = text.lines().skip_while(|line| line.is_empty() || line.starts_with('#'));
    lines.map(|line| format!("{line}\n")).collect()
}

/// The module of an example as a file of the folder, with its map if wanted.
fn example(folder: &Path, name: &str, mapped: bool) -> Map {
    let text = text_of(name);
    module(
        folder,
        Path::new(name).file_name().expect("a name").to_str().expect("text"),
        &text,
        mapped,
    )
}

fn module(folder: &Path, source: &str, text: &str, mapped: bool) -> Map {
    let Assembled { file, map, .. } = assemble_unchecked(text, source).expect("a module");
    std::fs::write(folder.join("module"), &file).expect("a module");
    let _ = std::fs::remove_file(folder.join("module.map"));
    if mapped {
        std::fs::write(folder.join("module.map"), map.text()).expect("a map");
    }
    map
}

/// Status, standard output and standard error of a command on files of the folder.
fn on(folder: &Path, line: &str) -> (u8, String, String) {
    let file = |word: &str| match word.strip_prefix('@') {
        Some(name) => folder.join(name).display().to_string(),
        None => word.to_string(),
    };
    rcm(&line.split_whitespace().map(file).collect::<Vec<_>>(), false)
}

/// All texts of the examples by their names.
fn examples() -> Vec<String> {
    let mut names = Vec::new();
    for part in ["", "refusals", "stops"] {
        let folder = repository().join("examples").join(part);
        for entry in std::fs::read_dir(folder).expect("a folder").flatten() {
            let name = entry.file_name().to_string_lossy().to_string();
            if name.ends_with(".asm") {
                names.push(Path::new(part).join(name).display().to_string());
            }
        }
    }
    names.sort();
    names
}

#[test]
fn a_map_is_read_back() {
    let folder = folder("text");
    let (mut fitting, mut simple) = (0, 0);
    for name in examples() {
        let map = example(&folder, &name, true);
        assert_eq!(Map::parse(&map.text()).as_ref(), Ok(&map), "{name}");
        let file = std::fs::read(folder.join("module")).expect("a module");
        let added = |one: &FunctionNames| one.registers.iter().any(|name| name.starts_with('%'));
        if !map.functions.iter().any(added) {
            assert_eq!(map, simple_map(&map.source, &text_of(&name), &file), "{name}");
            simple += 1;
        }
        if let Ok(module) = decode(&file) {
            assert!(map.fits(&file, &module), "{name}\n{}", map.text());
            assert!(!map.fits(&[&file[..], &[0]].concat(), &module), "{name}");
            fitting += 1;
        }
    }
    assert!(fitting >= 18 && simple >= 20, "{fitting} {simple}");
}

const LIST_MAP: &str = "\
rcm map 1
source list.asm
module HASH
struct node 1:8
    regions r
    fields value next
fn main 6:4
    regions list
    registers count one head fresh at link more ten
    labels build:2 add:6
    code 15:5 16:5 18:5 19:5 20:5 21:5 23:5 24:5 25:5 26:5 27:5 28:5 29:5 30:5
fn sum 33:4
    regions r
    registers head there rest link at
    labels add:3
    code 38:5 39:5 40:5 42:5 43:5 44:5 45:5 46:5 47:5 48:5
end
";

#[test]
fn a_map_is_a_text_for_people() {
    let folder = folder("list");
    let map = example(&folder, "list.asm", true);
    let hash = reference::digest::hex(&map.hash);
    assert_eq!(map.text().replace(&hash, "HASH"), LIST_MAP);
    let text = map.text();
    // What is cut, doubled, left out or written otherwise is no map of the module.
    let file = std::fs::read(folder.join("module")).expect("a module");
    let module = decode(&file).expect("a module");
    let used = |text: &str| Map::parse(text).is_ok_and(|map| map.fits(&file, &module));
    assert!(used(&text));
    for end in 0..text.len() {
        assert!(!used(&text[..end]), "{}", &text[..end]);
    }
    let lines: Vec<&str> = text.split_inclusive('\n').collect();
    for at in 0..lines.len() {
        let (before, after) = (lines[..at].concat(), lines[at + 1..].concat());
        assert!(!used(&format!("{before}{after}")), "without {}", lines[at]);
        assert!(!used(&format!("{before}{}{}{after}", lines[at], lines[at])), "{}", lines[at]);
        assert!(!used(&format!("{before} {}{after}", lines[at])), "{}", lines[at]);
    }
    for (from, to) in [
        ("\n", "\r\n"),
        ("rcm map 1", "rcm map 2"),
        ("15:5", "015:5"),
        ("15:5", "+15:5"),
        ("15:5 ", "15:5  "),
        ("regions list", "regions"),
        ("count one", "count"),
        ("value next", "value next last"),
        ("count one", "count on!e"),
        ("build:2", "build"),
        ("module ", "module 0"),
        ("\nend", "\nend\nend"),
        // What a terminal would take for an order.
        ("source ", "source \u{1b}[2J"),
    ] {
        assert!(!used(&text.replacen(from, to, 1)), "{from} {to}");
    }
    assert!(used(&text.replacen("count one", "count %1", 1)));
    // A line break in the name of the source does not make a line.
    let strange = Map { source: "a\nend".to_string(), ..map };
    assert!(used(&strange.text()));
}

#[test]
fn a_map_that_does_not_fit_is_not_used_and_said_so() {
    let folder = folder("foreign");
    let other = example(&folder, "pool.asm", true).text();
    let map = example(&folder, "stops/33-index.asm", false);
    std::fs::write(folder.join("form"), []).expect("a form");
    let plain = on(&folder, "run @module @form --trace 9");
    assert_eq!((plain.0, plain.2.as_str()), (STOPPED, ""));
    let own = map.text();
    let unnamed = Map { functions: Vec::new(), ..map };
    for (text, reason) in [
        (other.into_bytes(), "not used: it is of another module"),
        (own.clone().into_bytes()[..own.len() - 1].to_vec(), "not used: expected a map as asm"),
        (
            own.replace("fn main", "fn ma-in").into_bytes(),
            "not used: line 4: expected the name and",
        ),
        (b"not a map\n".to_vec(), "not used: line 1: expected `rcm map 1`"),
        (Vec::new(), "not used: line 1: expected `rcm map 1`"),
        (vec![0xff; 64], "not used: 1: expected a text in UTF-8"),
        (unnamed.text().into_bytes(), "not used: it does not name every part of the module"),
    ] {
        std::fs::write(folder.join("module.map"), text).expect("a map");
        let (status, out, error) = on(&folder, "run @module @form --trace 9");
        assert_eq!((status, &out), (STOPPED, &plain.1), "{reason}");
        assert!(error.contains("module.map: ") && error.contains(reason), "{reason}\n{error}");
        assert_eq!(error.lines().count(), 1, "{error}");
    }
    std::fs::remove_file(folder.join("module.map")).expect("a map");
    std::fs::create_dir(folder.join("module.map")).expect("a folder");
    let (_, out, error) = on(&folder, "run @module @form --trace 9");
    assert_eq!(out, plain.1);
    assert!(error.ends_with("module.map: not used: expected a file\n"), "{error}");
}

#[test]
fn refusals_speak_the_source() {
    let folder = folder("refusals");
    for (name, lines) in [
        (
            "4-unknown-target",
            "at:    4-unknown-target.asm:3:5\nhere:  record 3: kind 31 (jump), a 0, b 0, c 0, d 9\n",
        ),
        (
            "5-no-size",
            "at:    5-no-size.asm:1:8\n\
             here:  record 0: type 0, box; struct box with 0 regions has the fields box, i32\n",
        ),
        (
            "6-local-region-leaves",
            "at:    6-local-region-leaves.asm:6:4\n\
             here:  record 5: function make, regions own: i32 (0 of them parameters), registers p: *i32 in own (0 of them parameters), result *i32 in own\n",
        ),
        (
            "7-wrong-load",
            "at:    7-wrong-load.asm:7:5\n\
             here:  record 7, instruction 1 of main (load): value = *p; value is i32; p is *i16 in r\n",
        ),
        (
            "8-runs-off-the-end",
            "at:    8-runs-off-the-end.asm:3:5\n\
             here:  record 3, instruction 0 of main (constant): r = 1; r is i32\n",
        ),
    ] {
        example(&folder, &format!("refusals/{name}.asm"), true);
        let (status, out, error) = on(&folder, "check @module");
        assert_eq!((status, error.as_str()), (REFUSED, ""), "{name}");
        assert!(out.contains(lines) && out.contains("\nasked: "), "{name}\n{out}");
        // A run says the same.
        let (_, _, error) = on(&folder, "run @module @module");
        assert!(error.contains(lines), "{name}\n{error}");
    }
}

/// A call in the source's names, with the regions that are given.
#[test]
fn a_refused_call_speaks_the_source() {
    let folder = folder("call");
    let text = "struct node(r) {\n    next: *node(r) in r\n}\n\
                fn main() -> i32 {\n    region list: node(list)\n    region other: i32\n    reg head: *node(list) in list\n    reg n: i32\n\n    n = length[other](head)\n    return n\n}\n\
                fn length[own: node(own)](first: *node(own) in own) -> i32 {\n    reg n: i32\n    return n\n}\n";
    module(&folder, "call.asm", text, true);
    let out = on(&folder, "check @module").1;
    for part in [
        "at:    call.asm:10:5\n",
        "n = length[other](head); head is *node(list) in list; n is i32; region other holds i32; ",
        "the callee is length[own: node(own)](first: *node(own) in own) -> i32\n",
    ] {
        assert!(out.contains(part), "{part}\n{out}");
    }
}

/// The line of a stop in a text, by numbers and in the source's names.
const STOPS: [(&str, &str, &str); 10] = [
    (
        "31-zero-address",
        "at f0 instruction 0: r1 = *r0: r0 = 0",
        "at 31-zero-address.asm:6: value = *p: p = 0",
    ),
    (
        "32-check-fails",
        "at f0 instruction 5: r1 = check r2: r2 = 258, 2 bytes into the used object at 256 in region 0 (frame 0 R0): i32; r1 is *i32 in R0",
        "at 32-check-fails.asm:11: q = check place: place = 258, 2 bytes into the used object at 256 in region 0 (frame 0 r): i32; q is *i32 in r",
    ),
    (
        "32-closed-region",
        "at f0 instruction 1: r2 = check r0: r0 = 256, in page 1, which no region owns; r2 is *i32 in R0",
        "at 32-closed-region.asm:7: tie = check number: number = 256, in page 1, which no region owns; tie is *i32 in own",
    ),
    (
        "33-index",
        "at f0 instruction 2: r1 = r0[r2]: r2 = 10, the array has 10",
        "at 33-index.asm:9: item = row[i]: i = 10, the array has 10",
    ),
    (
        "34-no-page",
        "at f0 instruction 0: r0 = new: 63 of 63 pages are owned, 63 of them by R0: i32, 4 bytes",
        "at 34-no-page.asm:6: p = new: 63 of 63 pages are owned, 63 of them by r: i32, 4 bytes",
    ),
    (
        "35-frames",
        "at f0 instruction 0: r0 = f0(): 16 frames are in use",
        "at 35-frames.asm:4: r = main(): 16 frames are in use",
    ),
    (
        "36-division",
        "at f0 instruction 1: r0 = r0 / r1: r0 = 5, r1 = 0",
        "at 36-division.asm:5: value = value / zero: value = 5, zero = 0",
    ),
    (
        "37-shift",
        "at f0 instruction 2: r0 = r0 << r1: r0 = 1, r1 = 8, an i8 has 8 bits",
        "at 37-shift.asm:7: value = value << bits: value = 1, bits = 8, an i8 has 8 bits",
    ),
    (
        "38-form-ended",
        "at f0 instruction 1: r2 = form[r0]: r0 = 3, the form has 3 bytes",
        "at 38-form-ended.asm:7: byte = form[at]: at = 3, the form has 3 bytes",
    ),
    (
        "39-output-full",
        "at f0 instruction 0: output r0: r0 = 0, the output has 4096 bytes already",
        "at 39-output-full.asm:5: output byte: byte = 0, the output has 4096 bytes already",
    ),
];

#[test]
fn each_stop_says_why() {
    let folder = folder("stops");
    std::fs::write(folder.join("form"), [1, 2, 3]).expect("a form");
    for (name, numbered, named) in STOPS {
        for (mapped, line) in [(false, numbered), (true, named)] {
            example(&folder, &format!("stops/{name}.asm"), mapped);
            let (status, out, error) = on(&folder, "run @module @form --output @output");
            assert_eq!((status, error.as_str()), (STOPPED, ""), "{name}");
            let lines: Vec<&str> = out.lines().collect();
            assert_eq!(lines[2], line, "{name}");
            assert!(lines[0].starts_with(&format!("stopped {} ", &name[..2])), "{out}");
            assert!(lines[3].starts_with("what to do next: "), "{out}");
        }
    }
}

/// A function with a region of rows and one of numbers, around one line.
fn around(declarations: &str, code: &str) -> String {
    format!(
        "struct pair {{\n    left: i8\n    right: i32\n}}\n\
         fn main() -> i32 {{\n    region rows: [i8; 40]\n    region pairs: pair\n    reg row: *[i8; 40] in rows\n    reg item: *i8 in rows\n    reg pair: *pair in pairs\n    reg right: *i32 in pairs\n    reg place, n, m: i32\n{declarations}\n    row = new\n    pair = new\n{code}\n    return n\n}}\n"
    )
}

#[test]
fn stops_of_other_instructions_say_why() {
    let folder = folder("other-stops");
    std::fs::write(folder.join("form"), []).expect("a form");
    for (code, line) in [
        ("*right = n", "*right = n: right = 0"),
        ("pair = check n", "pair = check n: n = 0, in page 0, which no region owns; pair is *pair in pairs"),
        ("n = 16384\n pair = check n", "n = 16384, beyond the last page; pair is *pair in pairs"),
        ("n = 256\n pair = check n", "n = 256, the used object at 256 in region 0 (frame 0 rows): [i8; 40]; pair is *pair in pairs"),
        ("free row\n n = 257\n pair = check n", "n = 257, 1 byte into the free object at 256 in region 0 (frame 0 rows): [i8; 40]; pair is *pair in pairs"),
        ("n = 500\n item = check n", "n = 500, behind the last object of page 1 in region 0 (frame 0 rows); item is *i8 in rows"),
        ("n = -2147483648\n m = -1\n n = n / nearest m", "n = n / nearest m: n = -2147483648, m = -1"),
        ("n = n % n", "n = n % n: n = 0"),
        ("row = check m", "row = check m: m = 0, in page 0, which no region owns; row is *[i8; 40] in rows"),
        ("n = 32\n m = m >> n", "m = m >> n: m = 0, n = 32, an i32 has 32 bits"),
    ] {
        module(&folder, "text", &around("", code), true);
        let (status, out, error) = on(&folder, "run @module @form");
        assert_eq!(status, STOPPED, "{code}\n{out}{error}");
        assert!(out.lines().nth(2).expect("a line").ends_with(line), "{line}\n{out}");
    }
    for (declared, code, line) in [
        ("    reg none: *pair in pairs", "right = none.right", "right = none.right: none = 0"),
        ("    reg none: *pair in pairs", "free none", "free none: none = 0"),
        ("    reg none: *[i8; 40] in rows", "item = none[n]", "item = none[n]: none = 0"),
    ] {
        module(&folder, "text", &around(declared, code), true);
        let out = on(&folder, "run @module @form").1;
        assert!(out.lines().nth(2).expect("a line").ends_with(line), "{line}\n{out}");
    }
}

/// Steps of the ranking: a call, a constant, a store, an operation that reads what it sets, a return,
/// a load, a branch that is taken and one that is not, a jump, a new object.
const NUMBERED: &str = "
      118  f0:9     r7 = new                      r7 = 280
      119  f0:10    r5 = f1[R0](r7, r0)           r7 = 280, r0 = 7
      120  f1:0      r2 = form[r1]                r1 = 7 -> r2 = 70
      121  f1:1      r3 = r0.x0                   r0 = 280 -> r3 = 280
      122  f1:2      *r3 = r2                     r3 = 280, r2 = 70
      123  f1:3      r4 = 1                       r4 = 1
      124  f1:4      r1 = r1 + r4                 r1 = 7, r4 = 1 -> r1 = 8
      125  f1:5      r2 = form[r1]                r1 = 8 -> r2 = 100
      126  f1:6      r3 = r0.x1                   r0 = 280 -> r3 = 281
      127  f1:7      *r3 = r2                     r3 = 281, r2 = 100
      128  f1:8      return r2                    r2 = 100 -> r5 = 100 in f0
      129  f0:11    r5 = f2[R0](r6, r7)           r6 = 256, r7 = 280
      130  f2:0      r5 = r1.x0                   r1 = 280 -> r5 = 280
      131  f2:1      r6 = *r5                     r5 = 280 -> r6 = 70
      132  f2:2      r2 = r0.x2                   r0 = 256 -> r2 = 258
      133  f2:3      r4 = *r2                     r2 = 258 -> r4 = 268
      134  f2:4      r9 = address r4              r4 = 268 -> r9 = 268
      135  f2:5      if r9 goto L7                r9 = 268 -> taken
      136  f2:7      r5 = r4.x0                   r4 = 268 -> r5 = 268
      137  f2:8      r7 = *r5                     r5 = 268 -> r7 = 90
      138  f2:9      r8 = r7 < r6                 r7 = 90, r6 = 70 -> r8 = 0
      139  f2:10     if r8 goto L13               r8 = 0 -> not taken
      140  f2:11     r0 = r4                      r4 = 268 -> r0 = 268
      141  f2:12     goto L2
running 141
";

const NAMED: &str = "
      118  ranking.asm:25 fresh = new                        fresh = 280
      119  ranking.asm:26 more = fill[list](fresh, at)       fresh = 280, at = 7
      120  ranking.asm:40  byte = form[at]                   at = 7 -> byte = 70
      121  ranking.asm:41  to = fresh.score                  fresh = 280 -> to = 280
      122  ranking.asm:42  *to = byte                        to = 280, byte = 70
      123  ranking.asm:43  one = 1                           one = 1
      124  ranking.asm:44  at = at + one                     at = 7, one = 1 -> at = 8
      125  ranking.asm:45  byte = form[at]                   at = 8 -> byte = 100
      126  ranking.asm:46  to = fresh.tag                    fresh = 280 -> to = 281
      127  ranking.asm:47  *to = byte                        to = 281, byte = 100
      128  ranking.asm:48  return byte                       byte = 100 -> more = 100 in main
      129  ranking.asm:27 more = insert[list](first, fresh)  first = 256, fresh = 280
      130  ranking.asm:59  at = fresh.score                  fresh = 280 -> at = 280
      131  ranking.asm:60  score = *at                       at = 280 -> score = 70
      132  ranking.asm:62  link = before.next                before = 256 -> link = 258
      133  ranking.asm:63  following = *link                 link = 258 -> following = 268
      134  ranking.asm:64  there = address following         following = 268 -> there = 268
      135  ranking.asm:65  if there goto compare             there = 268 -> taken
      136  ranking.asm:68  at = following.score              following = 268 -> at = 268
      137  ranking.asm:69  other = *at                       at = 268 -> other = 90
      138  ranking.asm:70  lower = other < score             other = 90, score = 70 -> lower = 0
      139  ranking.asm:71  if lower goto place               lower = 0 -> not taken
      140  ranking.asm:72  before = following                following = 268 -> before = 268
      141  ranking.asm:73  goto step
running 141
";

#[test]
fn traces_show_what_is_read_and_set() {
    let folder = folder("trace");
    std::fs::copy(repository().join("examples/ranking.form"), folder.join("form")).expect("a form");
    for (mapped, text) in [(false, NUMBERED), (true, NAMED)] {
        example(&folder, "ranking.asm", mapped);
        let (status, out, error) = on(&folder, "run @module @form --budget 141 --trace 24");
        assert_eq!((status, error.as_str()), (RUNNING, ""));
        assert_eq!(format!("\n{out}"), text);
    }
    // The last step of a run that ends, and one that stops.
    let out = on(&folder, "run @module @form --trace 1").1;
    assert!(
        out.contains("ranking.asm:23 return count                  count = 6 -> ended\n"),
        "{out}"
    );
    example(&folder, "stops/36-division.asm", true);
    let out = on(&folder, "run @module @form --trace 1").1;
    assert!(
        out.starts_with(
            "        2  36-division.asm:5 value = value / zero          value = 5, zero = 0\n"
        ),
        "{out}"
    );
    // The file's name alone, wherever it lies; a register that is read twice once.
    let text = around("", "n = m + m");
    module(&folder, "far/away/text.asm", &text, true);
    let out = on(&folder, "run @module @form --trace 2").1;
    assert!(
        out.starts_with("        3  text.asm:16 n = m + m                     m = 0 -> n = 0\n"),
        "{out}"
    );
}

/// Two frames of the ranking with everything that is shown of them.
const MEMORY: &str = "\
running; 2 frames; 0 bytes of output
frame 1: insert at ranking.asm:76: *own = following
    r -> region 0 (given)
    before = 268 -> object at 268
    fresh = 280 -> object at 280
    link = 270 -> next of the object at 268
    own = 282 -> next of the object at 280
    following = 262 -> object at 262
    at = 262 -> score of the object at 262
    score = 70
    other = 30
    lower = 1
    there = 262
frame 0: main at ranking.asm:27: more = insert[list](first, fresh)
    list -> region 0 (own)
    at = 7
    count = 6
    done = 3
    one = 1
    byte = 6
    more = 100
    first = 256 -> object at 256
    fresh = 280 -> object at 280

page  region  local to      type                  size  used
   1       0  frame 0 list  entry(list)              6  5 of 42    ##+..................

1 page owned, 62 left to grant

address 265: object at 262, 6 bytes, used, of region 0 (list): entry(list)
   262  score: i8 = 30
   263  tag: i8 = 97
   264  next: *entry(list) in list = 274

address 290: object at 286, 6 bytes, free, of region 0 (list): entry(list)
   286  score: i8 = 0
   287  tag: i8 = 0
   288  next: *entry(list) in list = 0

address 4100: no object lies there
";

/// The same by numbers, as far as it differs.
const NUMBERED_MEMORY: [&str; 9] = [
    "frame 1: f2:14 *r3 = r4\n    R0 -> region 0 (given)\n    r0 = 268 -> object at 268\n",
    "    r2 = 270 -> x2 of the object at 268\n",
    "    r5 = 262 -> x0 of the object at 262\n    r6 = 70\n",
    "frame 0: f0:11 r5 = f2[R0](r6, r7)\n    R0 -> region 0 (own)\n    r0 = 7\n",
    "page  region  local to     type                  size  used\n",
    "   1       0  frame 0 R0   s0(R0)                   6  5 of 42    ##+..................\n",
    "address 265: object at 262, 6 bytes, used, of region 0: s0(R0)\n",
    "   262  x0: i8 = 30\n   263  x1: i8 = 97\n",
    "   264  x2: *s0(0) in 0 = 274\n",
];

/// The ranking in the middle of its work, as module, form and state in the folder.
fn ranking(folder: &Path, mapped: bool) {
    std::fs::copy(repository().join("examples/ranking.form"), folder.join("form")).expect("a form");
    example(folder, "ranking.asm", mapped);
    let _ = std::fs::remove_file(folder.join("state"));
    let status = on(folder, "run @module @form --budget 150 --state @state").0;
    assert_eq!(status, RUNNING);
}

#[test]
fn pages_speak_the_source() {
    let folder = folder("pages");
    ranking(&folder, true);
    let addresses = "--address 265 --address 0x122 --address=0x1004";
    let line = format!("pages @module @state {addresses} --svg @picture");
    let (status, out, error) = on(&folder, &line);
    assert_eq!((status, error.as_str()), (DONE, ""));
    assert_eq!(out, MEMORY);
    let picture = std::fs::read_to_string(folder.join("picture")).expect("the picture");
    for part in [
        "frame 0: main at ranking.asm:27: more = insert[list](f..",
        "list -&gt; region 0 (own), entry(list), pages 1",
        "outlined: the objects at 262, 286",
    ] {
        assert!(picture.contains(part), "{part}");
    }
    assert_eq!(picture.matches("stroke=\"#000000\"").count(), 2);
    std::fs::remove_file(folder.join("module.map")).expect("a map");
    let out = on(&folder, &line).1;
    for part in NUMBERED_MEMORY {
        assert!(out.contains(part), "{part}\n{out}");
    }
    assert_eq!(out.lines().count(), MEMORY.lines().count());
    // One address that is no number: nothing is shown or drawn.
    std::fs::remove_file(folder.join("picture")).expect("a picture");
    let (_, out, error) =
        on(&folder, "pages @module @state --address 265 --address x --svg @picture");
    assert!(out.is_empty() && error.contains("--address wants a number, not `x`"), "{error}");
    assert!(!folder.join("picture").exists());
}

/// Structs in arrays and in structs, several regions of one name, pointers into the middle.
#[test]
fn objects_are_shown_by_their_parts() {
    let folder = folder("parts");
    let text = "struct pair {\n    left: i8\n    right: i16\n}\n\
        struct table(r) {\n    pairs: [pair; 2]\n    row: [i8; 20]\n    next: *table(r) in r\n    grid: [[i16; 2]; 2]\n}\n\
        fn main() -> i32 {\n    region own: table(own)\n    reg whole: *table(own) in own\n    reg right: *i16 in own\n    reg pairs: *[pair; 2] in own\n    reg cell: *i8 in own\n    reg n: i32\n    reg short: i16\n\n\
        whole = new\n    right = whole.pairs[1].right\n    short = 513\n    *right = short\n    pairs = whole.pairs\n    cell = whole.row[3]\n    free whole\n    n = inner[own](whole)\n    return n\n}\n\
        fn inner[given: table(given)](back: *table(given) in given) -> i32 {\n    region own: table(given)\n    reg whole: *table(given) in own\n    reg n: i32\n\n    whole = new\n    return n\n}\n";
    module(&folder, "parts.asm", text, true);
    std::fs::write(folder.join("form"), []).expect("a form");
    assert_eq!(on(&folder, "run @module @form --budget 9 --state @state").0, RUNNING);
    let (status, out, error) = on(&folder, "pages @module @state --address 256 --address 512");
    assert_eq!((status, error.as_str()), (DONE, ""));
    for part in [
        "    right = 260 -> pairs[1].right of the free object at 256\n",
        "    pairs = 256 -> pairs of the free object at 256\n",
        "    cell = 265 -> row[3] of the free object at 256\n",
        "    back = 256 -> free object at 256\n",
        "    whole = 512 -> object at 512\n",
        "   1       0  frame 0 own  table(own)",
        "   2       1  frame 1 own  table(given)",
        "address 256: object at 256, 38 bytes, free, of region 0 (own): table(own)\n",
        "   256  pairs[0].left: i8 = 0\n   257  pairs[0].right: i16 = 0\n",
        "   259  pairs[1].left: i8 = 0\n   260  pairs[1].right: i16 = 513\n",
        "   262  row: [i8; 20] = 0 0 0 0 0 0 0 0 0 0 0 0 ..\n",
        // Two live regions are called so: they go by their numbers.
        "   282  next: *table(0) in 0 = 0\n",
        "   286  grid[0]: [i16; 2] = 0 0\n   290  grid[1]: [i16; 2] = 0 0\n",
        "address 512: object at 512, 38 bytes, used, of region 1 (own): table(given)\n",
        "   538  next: *table(0) in 0 = 0\n",
    ] {
        assert!(out.contains(part), "{part}\n{out}");
    }
}

/// Values of a JSON text as python3 finds them, each on a line.
fn python(json: &str, expressions: &[&str]) -> Vec<String> {
    let prints: Vec<String> = expressions.iter().map(|one| format!("print(({one}))")).collect();
    let program = format!("import json, sys; v = json.loads(sys.argv[1]); {}", prints.join("; "));
    let output = Command::new("python3").args(["-c", &program, json]).output().expect("python3");
    assert!(output.status.success(), "{json}\n{}", String::from_utf8_lossy(&output.stderr));
    let text = String::from_utf8(output.stdout).expect("text");
    text.lines().map(str::to_string).collect()
}

#[test]
fn verdicts_as_json() {
    let folder = folder("check-json");
    example(&folder, "list.asm", true);
    let (status, out, error) = on(&folder, "check @module --json");
    assert_eq!((status, error.as_str(), out.lines().count()), (DONE, "", 1));
    let accepted =
        "{'answer': 'accepted', 'types': 6, 'structs': 1, 'functions': 2, 'instructions': 24}";
    assert_eq!(python(&out, &["v"]), [accepted]);
    for (name, mapped, source) in [
        ("7-wrong-load", true, "{'file': '7-wrong-load.asm', 'line': 7, 'column': 5}"),
        ("7-wrong-load", false, "None"),
        ("1-length", true, "None"),
    ] {
        example(&folder, &format!("refusals/{name}.asm"), mapped);
        let text = on(&folder, "check @module").1;
        let (status, out, error) = on(&folder, "check @module --json");
        assert_eq!((status, error.as_str(), out.lines().count()), (REFUSED, "", 1), "{name}");
        let first = "'%s %s %s' % (v['answer'], v['number'], v['place'])";
        let found = python(
            &out,
            &[
                "v.get('source')",
                first,
                "v['meaning']",
                "'here:  ' + v['here']",
                "'asked: ' + v['asked']",
            ],
        );
        assert_eq!(found[0], source, "{name}");
        // The words are those of the text.
        let lines: Vec<&str> = text.lines().filter(|line| !line.starts_with("at: ")).collect();
        assert_eq!(found[1..], lines, "{name}");
    }
}

#[test]
fn memory_as_json() {
    let folder = folder("pages-json");
    ranking(&folder, true);
    let line = "pages @module @state --address 265 --address 4100 --json";
    let (status, out, error) = on(&folder, line);
    assert_eq!((status, error.as_str(), out.lines().count()), (DONE, "", 1));
    let wanted = [
        ("list(v)", "['status', 'output', 'frames', 'regions', 'pages', 'left', 'objects']"),
        ("v['status'], v['output'], v['left']", "('running', 0, 62)"),
        ("[f['function'] for f in v['frames']]", "['main', 'insert']"),
        ("v['frames'][1]['source']", "{'file': 'ranking.asm', 'line': 76, 'column': 5}"),
        ("v['frames'][1]['text']", "*own = following"),
        ("v['frames'][1]['regions']", "[{'name': 'r', 'region': 0, 'own': False}]"),
        (
            "v['frames'][1]['registers'][2]",
            "{'name': 'link', 'type': '**entry(r) in r in r', 'value': 270, 'object': 268, 'part': 'next'}",
        ),
        ("v['frames'][1]['registers'][6]", "{'name': 'score', 'type': 'i8', 'value': 70}"),
        (
            "v['regions']",
            "[{'region': 0, 'frame': 0, 'name': 'list', 'type': 'entry(list)', 'size': 6}]",
        ),
        ("v['pages']", "[{'page': 1, 'region': 0, 'objects': 42, 'used': 5}]"),
        (
            "v['objects'][0]",
            "{'address': 265, 'start': 262, 'size': 6, 'used': True, 'region': 0, 'fields': [\
             {'address': 262, 'name': 'score', 'type': 'i8', 'values': [30]}, \
             {'address': 263, 'name': 'tag', 'type': 'i8', 'values': [97]}, \
             {'address': 264, 'name': 'next', 'type': '*entry(list) in list', 'values': [274]}]}",
        ),
        ("v['objects'][1]", "{'address': 4100}"),
    ];
    assert_eq!(
        python(&out, &wanted.map(|(expression, _)| expression)),
        wanted.map(|(_, value)| value)
    );
    // A state that has stopped, and one that has ended.
    std::fs::remove_file(folder.join("state")).expect("a state");
    assert_eq!(on(&folder, "run @module @form --state @state").0, DONE);
    let out = on(&folder, "pages @module @state --json").1;
    assert_eq!(python(&out, &["v['status'], v['value'], v['frames']"]), ["('ended', 6, [])"]);
    std::fs::remove_file(folder.join("state")).expect("a state");
    example(&folder, "stops/33-index.asm", false);
    assert_eq!(on(&folder, "run @module @form --state @state").0, STOPPED);
    let out = on(&folder, "pages @module @state --json").1;
    let stopped = "('stopped', 33, \"an index not below the array's count\")";
    let found =
        python(&out, &["v['status'], v['number'], v['meaning']", "'source' in v['frames'][0]"]);
    assert_eq!(found, [stopped, "False"]);
}

/// A map that calls everything by its number.
fn numbers(file: &[u8]) -> Option<Map> {
    let module = decode(file).ok()?;
    let list = |prefix: char, count: usize| (0..count).map(|i| format!("{prefix}{i}")).collect();
    let place = |line: usize| Place { line, column: 1 };
    let structs = module.names.iter().enumerate().map(|(number, one)| StructNames {
        name: format!("s{number}"),
        place: place(one.place),
        regions: list('R', one.regions),
        fields: list('x', one.fields.len()),
    });
    let functions = module.functions.iter().enumerate().map(|(number, one)| FunctionNames {
        name: format!("f{number}"),
        place: place(one.place),
        regions: list('R', one.region_types.len()),
        registers: list('r', one.register_types.len()),
        labels: (0..one.code.len() as u32).map(|at| (format!("L{at}"), at)).collect(),
        code: one.code.iter().map(|instruction| place(instruction.place)).collect(),
    });
    Some(Map {
        source: "records".to_string(),
        hash: sha256(file),
        structs: structs.collect(),
        functions: functions.collect(),
    })
}

/// On random modules, damaged or not, a map that calls everything by its number changes nothing but
/// places, and the place of a record is that record.
#[test]
fn names_change_nothing_else() {
    use reference::damage::damage;
    use reference::generator::draw;
    use reference::prng::Prng;
    let folder = folder("random");
    std::fs::write(folder.join("form"), [7; 40]).expect("a form");
    let (mut placed, mut traced) = (0, 0);
    for number in 0..300 {
        let mut rng = Prng::new(number);
        let drawn = draw(&mut rng);
        let file = match number % 2 {
            0 => damage(&mut rng, drawn.records),
            _ => reference::builder::file(&drawn.records),
        };
        let Some(map) = numbers(&file) else { continue };
        let (records, module) = (file_records(&file), decode(&file).expect("a module"));
        let heads = module.functions.iter().map(|one| one.place);
        let code = module.functions.iter().flat_map(|one| one.code.iter().map(|one| one.place));
        for record in module.names.iter().map(|one| one.place).chain(heads).chain(code) {
            assert_eq!(map.place_of(&records, record), Some(Place { line: record, column: 1 }));
        }
        std::fs::write(folder.join("module"), &file).expect("a module");
        let _ = std::fs::remove_file(folder.join("module.map"));
        let line = "run @module @form --budget 300 --trace 40";
        let plain = [on(&folder, "check @module").1, on(&folder, line).1];
        std::fs::write(folder.join("module.map"), map.text()).expect("a map");
        let named = [on(&folder, "check @module").1, on(&folder, line).1];
        let record = plain[0].split_whitespace().nth(2).expect("a place");
        let without: Vec<&str> = named[0].lines().filter(|line| !line.starts_with("at:")).collect();
        assert_eq!(without, plain[0].lines().collect::<Vec<_>>());
        if let Some(at) = named[0].lines().find_map(|line| line.strip_prefix("at:    ")) {
            // Of a type it is its struct's.
            let own = format!("records:{record}:1");
            assert!(at == own || plain[0].contains(": type "), "{at}\n{}", plain[0]);
            placed += 1;
        }
        let steps = |text: &str| {
            let lines = text.lines().filter(|line| line.starts_with(' '));
            let words = |line: &str| line.split_whitespace().skip(2).collect::<Vec<_>>().join(" ");
            lines.map(words).collect::<Vec<_>>()
        };
        assert_eq!(steps(&plain[1]), steps(&named[1]));
        traced += steps(&plain[1]).len();
    }
    assert!(placed >= 20 && traced >= 1000, "{placed} {traced}");
}

/// Of random states: where a register leads is the object that the reader finds there, and the parts
/// of an object fill it.
#[test]
fn pointers_lead_where_the_reader_finds_objects() {
    use reference::generator::draw;
    use reference::prng::Prng;
    let folder = folder("leads");
    std::fs::write(folder.join("form"), [7; 40]).expect("a form");
    let mut leading = 0;
    for number in 0..150 {
        let file = reference::builder::file(&draw(&mut Prng::new(number)).records);
        std::fs::write(folder.join("module"), &file).expect("a module");
        let _ = std::fs::remove_file(folder.join("state"));
        let _ = std::fs::remove_file(folder.join("state.info"));
        let line = "run @module @form --budget 60 --state @state --arguments";
        let arguments = decode(&file).map_or(0, |module| module.functions[0].parameters);
        on(&folder, &format!("{line}={}", vec!["3"; arguments].join(",")));
        if !folder.join("state").exists() {
            continue;
        }
        let (status, out, error) = on(&folder, "pages @module @state");
        assert_eq!((status, error.as_str()), (DONE, ""));
        // `r3 = 260 -> x1 of the object at 256`
        let leads = out.lines().filter_map(|line| line.trim_start().split_once(" -> "));
        let leads = leads.filter_map(|(register, lead)| {
            let address = register.split_once(" = ")?.1;
            Some((address.to_string(), lead.rsplit_once("object at ")?.1.to_string()))
        });
        let leads: Vec<(String, String)> = leads.collect();
        let addresses = leads.iter().map(|(address, _)| format!(" --address {address}"));
        let line = format!("pages @module @state{}", addresses.collect::<String>());
        let out = on(&folder, &line).1;
        for (address, start) in &leads {
            let found = format!("address {address}: object at {start}, ");
            assert!(out.contains(&found), "{found}\n{out}");
        }
        leading += leads.len();
        parts_fill(&out);
    }
    assert!(leading >= 100, "{leading}");
}

/// The parts of each object begin where the one before ends, and end with the object.
fn parts_fill(out: &str) {
    for block in out.split("\naddress ").skip(1) {
        let mut lines = block.lines();
        let head = lines.next().unwrap_or_default();
        let number = |text: &str| text.parse::<usize>().expect("a number");
        let (start, rest) =
            head.split_once("object at ").and_then(|(_, rest)| rest.split_once(", ")).expect(head);
        let size = number(rest.split_once(" bytes").expect(head).0);
        let mut at = number(start);
        let end = at + size;
        for line in lines.take_while(|line| !line.is_empty()) {
            let (place, part) = line.trim_start().split_once("  ").expect(line);
            assert_eq!(number(place), at, "{block}");
            let written = part.split_once(" = ").expect(line).0;
            let written = written.rsplit_once(": ").map_or(written, |(_, written)| written);
            let (element, count) = match written.strip_prefix('[') {
                Some(array) => {
                    array.strip_suffix(']').and_then(|one| one.rsplit_once("; ")).expect(line)
                }
                None => (written, "1"),
            };
            let width = element.strip_prefix('i').map_or(4, |bits| number(bits) / 8);
            at += width * number(count);
        }
        assert_eq!(at, end, "{block}");
    }
}
