//! What is installed for hosts: `make install` and what it puts where, hosts in C, C++ and Python
//! built on it as docs/HOSTS.md says, the header's numbers and texts, the manual pages, completion
//! and highlighting.

mod common;

use common::{new_folder, rcm, repository};
use reference::host;
use reference::module::decode;
use reference::state::{State, OUTPUT_BYTES, STATE_BYTES};
use reference::{calls, text};
use std::collections::{BTreeMap, BTreeSet};
use std::fs;
use std::path::{Path, PathBuf};
use std::process::{Command, Output};

const FORM: &[u8] = b"\x06\x1ea\x5ab\x1ec\x46d\x5ae\x0af";

const STRICT: &str = "-O1 -Wall -Wextra -Wpedantic -Wconversion -Werror";

/// The number of a refusal or a stop with its texts, from c/numbers.def.
type Numbers = BTreeMap<(String, u64), (String, String)>;

fn numbers() -> Numbers {
    let lines = fs::read_to_string(repository().join("c/numbers.def")).expect("the numbers");
    let entry = |line: &str| -> Option<((String, u64), (String, String))> {
        let (name, rest) = line.split_once('(')?;
        let (number, rest) = rest.split_once(", \"")?;
        let (meaning, advice) = rest.strip_suffix("\")")?.split_once("\", \"")?;
        let key = (name.to_string(), number.parse().ok()?);
        Some((key, (meaning.to_string(), advice.to_string())))
    };
    let lines = lines.lines().filter(|line| !line.starts_with("/*"));
    lines.map(|line| entry(line).unwrap_or_else(|| panic!("{line}"))).collect()
}

fn library() -> PathBuf {
    let folder = std::env::var("RCM_LIB_DIR").expect("RCM_LIB_DIR names the folder of librcm.a");
    Path::new(&folder).join("librcm.a")
}

fn example(name: &str) -> Vec<u8> {
    let path = repository().join("examples").join(name);
    text::assemble(&fs::read_to_string(path).expect("an example")).expect("a module")
}

fn lossy(bytes: &[u8]) -> String {
    String::from_utf8_lossy(bytes).into_owned()
}

fn finished(what: &str, output: &Output) -> String {
    let said = lossy(&output.stdout) + &lossy(&output.stderr);
    assert!(output.status.success(), "{what}\n{said}");
    said
}

/// A line for bash in a folder; everything that it prints.
fn bash(folder: &Path, line: &str) -> String {
    let mut shell = Command::new("bash");
    shell.args(["-euc", line]).current_dir(folder).env_remove("MAKEFLAGS");
    finished(line, &shell.output().expect("bash"))
}

fn has(program: &str) -> bool {
    let line = format!("command -v {program}");
    Command::new("bash").args(["-c", &line]).output().expect("bash").status.success()
}

/// A test that passed without its program would say nothing.
fn need(program: &str) {
    assert!(has(program), "expected the program {program}, which this test needs: found none");
}

/// `make` of the repository into a folder of the test, with these words.
fn make(folder: &Path, words: &[&str]) -> Output {
    Command::new("make")
        .arg(format!("LIB={}", library().display()))
        .arg(format!("TOOL={}", env!("CARGO_BIN_EXE_rcm")))
        .arg(format!("BUILD={}", folder.join("build").display()))
        .args(words)
        .current_dir(repository())
        .env_remove("MAKEFLAGS")
        .output()
        .expect("make")
}

/// All files and links below a folder, by their paths in it.
fn files(folder: &Path) -> BTreeSet<String> {
    let mut found = BTreeSet::new();
    let mut folders = vec![folder.to_path_buf()];
    while let Some(next) = folders.pop() {
        for entry in fs::read_dir(&next).expect("a folder") {
            let path = entry.expect("an entry").path();
            if path.is_dir() && !path.is_symlink() {
                folders.push(path);
            } else {
                found.insert(path.strip_prefix(folder).expect("below").display().to_string());
            }
        }
    }
    found
}

#[test]
fn install_puts_everything_in_its_place_and_uninstall_takes_it_away() {
    let folder = new_folder("install");
    let stage = folder.join("stage");
    let destination = format!("DESTDIR={}", stage.display());
    let words = ["PREFIX=/usr/local", "PYTHONDIR=/usr/local/python", &destination];
    finished("install", &make(&folder, &[&["install"], &words[..]].concat()));
    let expected = [
        "bin/rcm",
        "include/rcm.h",
        "include/rcm_text.h",
        "lib/cmake/rcm/rcm-config-version.cmake",
        "lib/cmake/rcm/rcm-config.cmake",
        "lib/librcm.a",
        "lib/librcm.so",
        "lib/librcm.so.0",
        "lib/librcm.so.0.2.0",
        "lib/librcm_text.a",
        "lib/pkgconfig/rcm-text.pc",
        "lib/pkgconfig/rcm.pc",
        "python/rcm/__init__.py",
        "python/rcm/numbers.def",
        "share/bash-completion/completions/rcm",
        "share/doc/rcm/CHANGELOG.md",
        "share/doc/rcm/LICENSE",
        "share/fish/vendor_completions.d/rcm.fish",
        "share/man/man1/rcm.1",
        "share/man/man3/rcm.3",
        "share/man/man3/rcm_check.3",
        "share/man/man3/rcm_go.3",
        "share/man/man3/rcm_object.3",
        "share/man/man3/rcm_open.3",
        "share/man/man3/rcm_test.3",
        "share/zsh/site-functions/_rcm",
    ];
    let expected: BTreeSet<String> =
        expected.iter().map(|name| format!("usr/local/{name}")).collect();
    assert_eq!(files(&stage), expected);
    let there = stage.join("usr/local");
    // The proved archive is the very same file; no file speaks of the stage.
    assert!(
        fs::read(there.join("lib/librcm.a")).expect("a file") == fs::read(library()).expect("it")
    );
    let stage_name = stage.display().to_string();
    for name in ["lib/pkgconfig/rcm.pc", "lib/cmake/rcm/rcm-config.cmake"] {
        let filled = fs::read_to_string(there.join(name)).expect("a file");
        assert!(!filled.contains(&stage_name) && !filled.contains('@'), "{name}\n{filled}");
        assert!(filled.contains("/usr/local/lib"), "{name}\n{filled}");
    }
    finished("uninstall", &make(&folder, &[&["uninstall"], &words[..]].concat()));
    assert_eq!(files(&stage), BTreeSet::new());
    assert!(!there.join("lib/cmake/rcm").exists() && !there.join("python/rcm").exists());
}

/// The words of an install that is staged in this folder.
fn staged(folder: &Path) -> [String; 3] {
    [
        "PREFIX=/usr".to_string(),
        "PYTHONDIR=/usr/python".to_string(),
        format!("DESTDIR={}", folder.join("stage").display()),
    ]
}

/// `make` of one target with these words and more.
fn make_with(folder: &Path, target: &str, words: &[String], more: &[&str]) -> Output {
    let words = words.iter().map(String::as_str);
    make(folder, &[target].into_iter().chain(words).chain(more.iter().copied()).collect::<Vec<_>>())
}

#[test]
fn uninstall_leaves_the_files_of_others() {
    let folder = new_folder("install-others");
    let stage = folder.join("stage/usr");
    let foreign = [
        "bin/rcmx",
        "include/rcm.hpp",
        "lib/librcm.so.1",
        "lib/librcmx.a",
        "lib/cmake/rcm/other.cmake",
        "python/rcm/__pycache__/other.pyc",
        "share/doc/rcm/NOTES",
        "share/man/man3/rcm.3x",
    ];
    for name in foreign {
        fs::create_dir_all(stage.join(name).parent().expect("a folder")).expect("a folder");
        fs::write(stage.join(name), name).expect("a file");
    }
    let words = staged(&folder);
    finished("install", &make_with(&folder, "install", &words, &[]));
    // What Python and an earlier version of the same soname leave there is this project's too.
    for name in ["python/rcm/__pycache__/__init__.cpython-311.pyc", "lib/librcm.so.0.1.0"] {
        fs::write(stage.join(name), "").expect("a file");
    }
    finished("uninstall", &make_with(&folder, "uninstall", &words, &[]));
    assert_eq!(files(&stage), foreign.map(str::to_string).into());
    for name in foreign {
        assert_eq!(fs::read_to_string(stage.join(name)).expect("a file"), name);
    }
}

/// No target takes a path that the shell would read as two, or as more than a name.
#[test]
fn a_path_with_blanks_or_signs_is_refused_and_nothing_changes() {
    let folder = new_folder("install-blanks");
    let words = staged(&folder);
    finished("install", &make_with(&folder, "install", &words, &[]));
    let stage = folder.join("stage");
    // What a path with a blank would be cut to.
    fs::write(stage.join("usr/kept"), "").expect("a file");
    let before = files(&folder);
    let signs = "expected a path without blanks and without any of";
    let root = "expected a path from the root";
    for (word, message) in [
        ("PREFIX=/usr/kept b", signs),
        ("PREFIX=/usr\tlocal", signs),
        ("PREFIX=/usr\nlocal", signs),
        ("PREFIX=/usr'", signs),
        ("PREFIX=/usr\"", signs),
        ("PREFIX=/us&r", signs),
        ("PREFIX=/us|r", signs),
        ("PREFIX=/us\\r", signs),
        ("PREFIX=/us$$r", signs),
        ("DESTDIR=/stage b", signs),
        ("LIBDIR=/usr/lib b", signs),
        ("BINDIR=/usr/bin b", signs),
        ("INCLUDEDIR=/usr/include b", signs),
        ("SHAREDIR=/usr/share b", signs),
        ("PYTHONDIR=/usr/python b", signs),
        ("BUILD=build b", signs),
        ("BUILD=", "BUILD=: expected a path"),
        ("LIB=lib b/librcm.a", signs),
        ("TOOL=the tool", signs),
        ("PREFIX=", root),
        ("PREFIX=usr", root),
        ("DESTDIR=stage", root),
        ("LIBDIR=lib", root),
        ("PYTHONDIR=python", root),
    ] {
        let targets = ["all", "install", "uninstall"];
        for target in targets.iter().filter(|target| message != root || **target != "all") {
            let output = make_with(&folder, target, &words, &[word]);
            let error = lossy(&output.stderr);
            assert!(!output.status.success(), "{target} {word:?}");
            assert!(error.contains(message), "{target} {word:?}\n{error}");
            assert_eq!(files(&folder), before, "{target} {word:?}");
        }
    }
}

/// The modes do not depend on who installs; nothing is written to the folder of the build, which
/// may be somebody else's.
#[test]
fn install_only_reads_the_build_and_sets_the_modes() {
    let folder = new_folder("install-modes");
    finished("make", &make(&folder, &[]));
    let build = folder.join("build");
    let listing = "find . -printf '%p %m %T@\n' | sort";
    let before = bash(&build, listing);
    let line = format!(
        "umask 077; make -s -C {} install LIB={} TOOL={} BUILD={} {}",
        repository().display(),
        library().display(),
        env!("CARGO_BIN_EXE_rcm"),
        build.display(),
        staged(&folder).join(" ")
    );
    // A second install replaces files whatever their modes.
    for change in ["true", "find stage -type f -exec chmod 400 {} +"] {
        bash(&folder, change);
        bash(&folder, &line);
        assert_eq!(bash(&build, listing), before);
        let stage = folder.join("stage/usr");
        let programs = "find . -type f -perm 755 | sort";
        assert_eq!(bash(&stage, programs), "./bin/rcm\n./lib/librcm.so.0.2.0\n");
        assert_eq!(
            bash(&stage, "find . -type f ! -perm 755 ! -perm 644; find . -type d ! -perm 755"),
            ""
        );
    }
}

/// A folder that cannot be made is found before the first file is put.
#[test]
fn a_place_that_cannot_be_written_is_refused_before_the_first_file() {
    let folder = new_folder("install-place");
    let stage = folder.join("stage");
    fs::create_dir_all(stage.join("usr")).expect("a folder");
    fs::write(stage.join("usr/share"), "a file").expect("a file");
    let output = make_with(&folder, "install", &staged(&folder), &[]);
    let error = lossy(&output.stderr);
    let message = "expected a folder that can be written to";
    assert!(!output.status.success() && error.contains(message), "{error}");
    assert_eq!(files(&stage), BTreeSet::from(["usr/share".to_string()]));
}

/// An archive that is not the library's is refused before anything is installed.
#[test]
fn an_archive_without_the_functions_is_refused() {
    let folder = new_folder("install-archive");
    let source = "void rcm_check(void) {}\nvoid rcm_opened(void) {}\nvoid other(void) {}\n";
    fs::write(folder.join("other.c"), source).expect("a file");
    bash(&folder, "gcc -c other.c && ar rcs other.a other.o");
    fs::write(folder.join("text.a"), "no archive").expect("a file");
    let words = staged(&folder);
    for (name, missing) in [("other.a", "rcm_open"), ("text.a", "rcm_check")] {
        let library = format!("LIB={}", folder.join(name).display());
        let output = make_with(&folder, "install", &words, &[&library]);
        let error = lossy(&output.stderr);
        let message = format!(
            "{library}: expected an archive with the functions rcm_check rcm_open rcm_go rcm_test rcm_object; found no {missing}\n"
        );
        assert!(!output.status.success() && error.contains(&message), "{error}");
        assert!(!folder.join("stage").exists() && !folder.join("build/librcm.a").exists());
    }
}

/// An install without a tool says so, also where an earlier one stays.
#[test]
fn a_tool_of_an_earlier_install_is_told() {
    let folder = new_folder("install-tool");
    let words = staged(&folder);
    // The tool's usual place, where it is missing: a copy of the sources has none.
    let root = repository().display().to_string();
    let copied = "Makefile LICENSE CHANGELOG.md c completions include man packaging python";
    bash(&folder, &format!("mkdir copy && cd {root} && cp -r {copied} {}/copy", folder.display()));
    let line = format!(
        "make -s -C copy install LIB={} BUILD={}/build {}",
        library().display(),
        folder.display(),
        words.join(" ")
    );
    let missing = "the tool rcm is not installed: rust/target/release/rcm is missing";
    let stays = "the tool of an earlier install stays: ";
    let said = bash(&folder, &line);
    assert!(said.contains(missing) && !said.contains(stays), "{said}");
    fs::write(folder.join("stage/usr/bin/rcm"), "").expect("a file");
    let said = bash(&folder, &line);
    assert!(said.contains(missing) && said.contains(stays), "{said}");
}

/// The folder of the Python module is below PREFIX: not that of /usr/local for /usr, which Debian's
/// Python names first.
#[test]
fn the_python_module_goes_below_the_prefix() {
    let folder = new_folder("install-python");
    let debian = r#"#!/bin/sh
exec python3 "$1" "import site
site.getsitepackages = lambda: ['/usr/local/lib/python3.11/dist-packages', '/usr/lib/python3/dist-packages']
$2" "$3"
"#;
    fs::write(folder.join("debian"), debian).expect("a program");
    bash(&folder, "chmod +x debian");
    let python = format!("PYTHON={}", folder.join("debian").display());
    for (prefix, expected) in [
        ("/usr", "usr/lib/python3/dist-packages/rcm/__init__.py"),
        ("/usr/", "usr/lib/python3/dist-packages/rcm/__init__.py"),
        ("/usr/local", "usr/local/lib/python3.11/dist-packages/rcm/__init__.py"),
    ] {
        let stage = folder.join(format!("stage{}", prefix.replace('/', "-")));
        let destination = format!("DESTDIR={}", stage.display());
        let prefix = format!("PREFIX={prefix}");
        finished("install", &make(&folder, &["install", &python, &destination, &prefix]));
        let found = files(&stage);
        let modules: Vec<_> = found.iter().filter(|name| name.ends_with("__init__.py")).collect();
        assert_eq!(modules, [expected], "{prefix}");
    }
}

/// The Python module takes the library of its install, also where LIBDIR is elsewhere, and has the
/// version of the header.
#[test]
fn the_python_module_finds_the_library_of_its_install() {
    let folder = new_folder("install-libdir");
    for libraries in ["rcm/lib", "rcm/lib64", "elsewhere"] {
        let libraries = folder.join(libraries);
        let words = [
            format!("PREFIX={}", folder.join("rcm").display()),
            format!("PYTHONDIR={}", folder.join("modules").display()),
            format!("LIBDIR={}", libraries.display()),
        ];
        finished("install", &make_with(&folder, "install", &words, &[]));
        let script = "import rcm; print(rcm._LIBRARY._name, rcm.__version__)";
        let python = Command::new("python3")
            .args(["-Bc", script])
            .env("PYTHONPATH", folder.join("modules"))
            .env_remove("RCM_LIBRARY")
            .env_remove("LD_LIBRARY_PATH")
            .output();
        let expected = format!("{} 0.2.0\n", libraries.join("librcm.so.0").display());
        assert_eq!(finished("python", &python.expect("python3")), expected);
    }
}

#[test]
fn the_shared_library_has_its_name_and_exports_the_five_functions() {
    let folder = new_folder("shared");
    finished("make", &make(&folder, &[]));
    let shared = folder.join("build/librcm.so.0.2.0");
    let exported = bash(&folder, &format!("nm -D --defined-only {}", shared.display()));
    let exported: BTreeSet<&str> =
        exported.lines().filter_map(|line| line.split_whitespace().nth(2)).collect();
    let functions = ["rcm_check", "rcm_go", "rcm_object", "rcm_open", "rcm_test"];
    assert_eq!(exported, BTreeSet::from(functions));
    let dynamic = bash(&folder, &format!("readelf -d {}", shared.display()));
    assert!(dynamic.contains("Library soname: [librcm.so.0]"), "{dynamic}");
    assert!(!dynamic.contains("TEXTREL"), "{dynamic}");
}

#[test]
fn what_is_missing_is_refused_and_nothing_is_installed() {
    let folder = new_folder("install-refused");
    let stage = folder.join("stage");
    let destination = format!("DESTDIR={}", stage.display());
    for (word, message) in [
        ("LIB=absent/librcm.a", "LIB=absent/librcm.a: there is no such file"),
        ("TOOL=absent/rcm", "TOOL=absent/rcm: there is no such file"),
        ("PREFIX=usr", "PREFIX=usr: expected a path from the root"),
    ] {
        let output = make(&folder, &["install", &destination, word]);
        let error = lossy(&output.stderr);
        assert!(!output.status.success() && error.contains(message), "{word}\n{error}");
        assert!(!stage.exists(), "{word}");
    }
}

/// Where the proved archive is missing, `make` says what it does and how long that takes, and calls
/// rt; where rt is missing too, it says what was expected.
#[test]
fn a_missing_archive_is_proved_with_a_word_before() {
    let folder = new_folder("install-proving");
    let tools = folder.join("tools");
    fs::create_dir(&tools).expect("a folder");
    for tool in ["sed", "mkdir", "cmp", "cp", "nm", "grep"] {
        let path = bash(&folder, &format!("command -v {tool}"));
        std::os::unix::fs::symlink(path.trim_end(), tools.join(tool)).expect("a link");
    }
    let proved = folder.join("librcm.a");
    let run = || {
        let words = [
            format!("PROVED={}", proved.display()),
            format!("BUILD={}", folder.join("build").display()),
            folder.join("build/librcm.a").display().to_string(),
        ];
        let make = bash(&folder, "command -v make");
        let mut make = Command::new(make.trim_end());
        make.args(words).current_dir(repository()).env("PATH", &tools).env_remove("MAKEFLAGS");
        make.output().expect("make")
    };
    let without = run();
    let error = lossy(&without.stderr);
    assert!(!without.status.success() && error.contains("found none, and no rt"), "{error}");
    let copied = format!("#!/bin/sh\nmkdir -p out\ncp {} out/librcm_c.a\n", library().display());
    fs::write(tools.join("rt"), copied).expect("a program");
    bash(&tools, "chmod +x rt");
    let said = finished("make", &run());
    let order = ["about ten minutes", "packaging/archive", "the proved library, from"];
    let places: Vec<_> = order.iter().map(|words| said.find(words)).collect();
    assert!(places.iter().all(Option::is_some) && places.is_sorted(), "{said}");
}

/// The blocks of a page that are files, which begin with a comment that names them, and its
/// commands, each with what stands below it.
#[derive(Default)]
struct Page {
    sources: Vec<(String, String)>,
    commands: Vec<(String, String)>,
}

fn page_parts(page: &str) -> Page {
    let mut parts = Page::default();
    let blocks = page.split("\n\n").fold(Vec::<String>::new(), |mut blocks, part| {
        // An empty line inside a block does not end it.
        match blocks.last_mut() {
            Some(last) if last.starts_with("    ") && part.starts_with("    ") => {
                *last += &format!("\n\n{part}");
            }
            _ => blocks.push(part.to_string()),
        }
        blocks
    });
    for block in blocks.iter().filter(|block| block.starts_with("    ")) {
        let text: Vec<&str> = block.lines().map(|line| line.get(4..).unwrap_or("")).collect();
        let text = text.join("\n") + "\n";
        if text.starts_with("$ ") {
            for part in format!("\n{text}").split("\n$ ").skip(1) {
                let (line, said) = part.split_once('\n').unwrap_or((part, ""));
                parts.commands.push((line.to_string(), said.trim_end().to_string()));
            }
        } else if let Some(name) = text.split_whitespace().nth(1).and_then(|w| w.strip_suffix(':'))
        {
            parts.sources.push((name.to_string(), text));
        }
    }
    parts
}

/// Every file and command of docs/HOSTS.md, in one shell, as somebody would type them from a clone;
/// each prints what stands below it.
#[test]
fn the_page_for_hosts_does_what_it_says() {
    const MARK: &str = "next command";
    for program in ["cmake", "pkg-config", "g++", "python3"] {
        need(program);
    }
    let home = new_folder("hosts");
    let page = fs::read_to_string(repository().join("docs/HOSTS.md")).expect("the page");
    let Page { sources, commands } = page_parts(&page);
    let names: Vec<&str> = sources.iter().map(|(name, _)| name.as_str()).collect();
    assert_eq!(names, ["smallest.c", "CMakeLists.txt", "rank.py"]);
    for (name, source) in &sources {
        fs::write(home.join(name), source).expect("a file");
    }
    let build = home.join("build-of-rcm");
    let given = format!(
        " -- LIB={} TOOL={} BUILD={}",
        library().display(),
        env!("CARGO_BIN_EXE_rcm"),
        build.display()
    );
    let script: Vec<String> =
        commands.iter().map(|(line, _)| format!("echo '{MARK}'\n{line}\n")).collect();
    let shell = Command::new("bash")
        .args(["-c", &format!("exec 2>&1\n{}", script.concat())])
        .current_dir(repository())
        .env("HOME", &home)
        .env("MAKEFLAGS", &given)
        .env("PYTHONDONTWRITEBYTECODE", "1")
        .env_remove("PYTHONPATH")
        .env_remove("RCM_LIBRARY")
        .output()
        .expect("bash");
    let printed = lossy(&shell.stdout)
        .replace(&build.display().to_string(), "target/install")
        .replace(&library().display().to_string(), "target/staticlib/librcm.a")
        .replace(&home.display().to_string(), "/srv/ada");
    let printed: Vec<&str> =
        printed.split(&format!("{MARK}\n")).skip(1).map(str::trim_end).collect();
    assert_eq!(printed.len(), commands.len(), "{printed:?}");
    for ((line, said), found) in commands.iter().zip(printed) {
        assert_eq!(said, found, "$ {line}");
    }
    // The programs rest on the library that they were asked to.
    for (program, shared) in [
        ("smallest", true),
        ("smallest-static", false),
        ("smallest-cpp", true),
        ("build/smallest", true),
        ("build/smallest-static", false),
    ] {
        let dynamic = bash(&home, &format!("readelf -d {program}"));
        assert_eq!(dynamic.contains("[librcm.so.0]"), shared, "{program}\n{dynamic}");
    }
    // CMake sees the package and takes it for no other minor version, and for none that is newer.
    for version in ["0.1", "0.2.1", "0.3", "1"] {
        let script = format!(
            "find_package(rcm {version} QUIET CONFIG PATHS {}/rcm NO_DEFAULT_PATH)\n\
             message(STATUS \"${{rcm_FOUND}} ${{rcm_CONSIDERED_VERSIONS}}\")\n",
            home.display()
        );
        fs::write(home.join("version.cmake"), script).expect("a file");
        assert_eq!(bash(&home, "cmake -P version.cmake"), "-- 0 0.2.0\n", "{version}");
    }
}

#[test]
fn the_python_module_passes_its_tests() {
    let folder = new_folder("python");
    let prefix = format!("PREFIX={}", folder.join("rcm").display());
    let modules = format!("PYTHONDIR={}", folder.join("rcm/lib/python3/site-packages").display());
    finished("install", &make(&folder, &["install", &prefix, &modules]));
    let sum = "fn sum(a: i32, b: i32) -> i32 {\n a = a + b\n return a\n}\n";
    let count = "fn count() -> i32 {\n reg n: i32\nagain:\n n = n + 1\n if n < 5000000 goto again\n return n\n}\n";
    for (name, bytes) in [
        ("ranking", example("ranking.asm")),
        ("stops", example("stops/33-index.asm")),
        ("sum", text::assemble(sum).expect("a module")),
        ("count", text::assemble(count).expect("a module")),
        ("form", FORM.to_vec()),
    ] {
        fs::write(folder.join(name), bytes).expect("a file");
    }
    // Beside the sources it would try the module that is not installed.
    fs::copy(repository().join("python/test_rcm.py"), folder.join("test_rcm.py")).expect("a copy");
    let tests = Command::new("python3")
        .args(["-B", "test_rcm.py"])
        .env("PYTHONPATH", folder.join("rcm/lib/python3/site-packages"))
        .env("RCM_TEST_FILES", &folder)
        .env_remove("RCM_LIBRARY")
        .current_dir(&folder)
        .output()
        .expect("python3");
    let said = finished("the tests in Python", &tests);
    assert!(said.contains("OK") && !said.contains("skipped"), "{said}");
    // A library that is not there is named.
    let import = Command::new("python3")
        .args(["-Bc", "import rcm"])
        .env("PYTHONPATH", folder.join("rcm/lib/python3/site-packages"))
        .env("RCM_LIBRARY", "absent.so")
        .output()
        .expect("python3");
    let error = lossy(&import.stderr);
    let message = "expected the shared library of rcm at absent.so";
    assert!(!import.status.success() && error.contains(message), "{error}");
}

/// Compiles a program over the header and the library, strictly and with the address sanitizer.
fn compile(folder: &Path, source: &str) -> PathBuf {
    fs::write(folder.join("program.c"), source).expect("a file");
    let root = repository().display().to_string();
    let library = library().display().to_string();
    bash(
        folder,
        &format!(
            "gcc -std=c11 {STRICT} -fsanitize=address -I{root}/include program.c {root}/c/rcm_text.c {library} -o program"
        ),
    );
    folder.join("program")
}

fn run_program(program: &Path, words: &[&str]) -> String {
    let folder = program.parent().expect("a folder");
    let run = Command::new(program).args(words).current_dir(folder).output();
    finished(&words.join(" "), &run.expect("a run"))
}

#[test]
fn the_headers_are_clean_in_c_and_in_cpp() {
    let folder = new_folder("headers");
    let include = repository().join("include").display().to_string();
    let source = "#include <rcm.h>\n#include <rcm_text.h>\nint main(void)\n{\n\
         uint8_t state[RCM_STATE_BYTES] = {0};\n\
         return rcm_state_status(state) == RCM_RUNNING && rcm_refusal_text(RCM_REFUSAL_LENGTH) ? 0 : 1;\n}\n";
    fs::write(folder.join("c.c"), source).expect("a file");
    fs::write(folder.join("cpp.cpp"), source).expect("a file");
    bash(&folder, &format!("gcc -std=c11 {STRICT} -I{include} -c c.c -o c.o"));
    bash(
        &folder,
        &format!("g++ -std=c++17 {STRICT} -Wold-style-cast -isystem {include} -c cpp.cpp -o cpp.o"),
    );
    bash(&folder, &format!("g++ -std=c++17 {STRICT} -I{include} -c cpp.cpp -o cpp.o"));
    bash(
        &folder,
        &format!("g++ -std=c++17 {STRICT} -I{include} -x c++-header {include}/rcm.h -o rcm.h.gch"),
    );
}

/// What the reference interpreter answers to a module of `examples/` that is opened without
/// arguments and gone on with; the number of the refusal or stop.
fn number_of(name: &str) -> u64 {
    let file = example(name);
    let mut state = vec![0; STATE_BYTES];
    let opened = host::open(&file, &[], &mut state);
    match opened[0] {
        host::GOOD => host::go(&file, FORM, &mut state, &mut vec![0; OUTPUT_BYTES], 1_000_000)[1],
        _ => opened[1],
    }
}

/// The edition of the rules that the tool says it has.
fn edition() -> u64 {
    let (_, version, _) = rcm(&["--version"], false);
    let number = version.split("edition ").nth(1).and_then(|rest| rest.split(' ').next());
    number.and_then(|number| number.parse().ok()).unwrap_or_else(|| panic!("{version}"))
}

#[test]
fn the_names_in_the_header_have_the_numbers_of_the_reference() {
    let folder = new_folder("names");
    let ranking = example("ranking.asm");
    let mut state = vec![0; STATE_BYTES];
    assert_eq!(host::open(&ranking, &[], &mut state)[0], host::GOOD);
    let mut output = vec![0; OUTPUT_BYTES];
    let refused = |answer: host::Answer| {
        assert_eq!(answer[0], host::REFUSED);
        answer[1]
    };
    let mut damaged = state.clone();
    damaged[63] = 1;
    let mut expected = vec![
        ("RCM_REFUSED", host::REFUSED),
        ("RCM_GOOD", host::GOOD),
        ("RCM_ENDED", host::ENDED),
        ("RCM_STOPPED", host::STOPPED),
        ("RCM_RUNNING", host::STILL_RUNNING),
        ("RCM_STATE_BYTES", STATE_BYTES as u64),
        ("RCM_OUTPUT_BYTES", OUTPUT_BYTES as u64),
        ("RCM_FORM_MAX", reference::state::FORM_BYTES as u64),
        ("RCM_BLOCK_BYTES", reference::file::BLOCK_BYTES as u64),
        ("RCM_MODULE_MAX", (reference::file::MAX_BLOCKS * reference::file::BLOCK_BYTES) as u64),
        ("RCM_ARGUMENTS_MAX", reference::module::MAX_LIST as u64),
        ("RCM_ARGUMENT_BYTES", size_of::<u32>() as u64),
        ("RCM_EDITION", edition()),
        ("RCM_REFUSAL_INPUT", refused(host::open(&ranking, &[0; 4], &mut state))),
        ("RCM_REFUSAL_BUFFER", refused(host::test(&ranking, &[]))),
        ("RCM_REFUSAL_STATE", refused(host::test(&ranking, &damaged))),
    ];
    host::go(&ranking, FORM, &mut state, &mut output, 1_000_000);
    let again = host::go(&ranking, FORM, &mut state, &mut output, 1);
    expected.push(("RCM_REFUSAL_FINISHED", refused(again)));
    for (name, example) in [
        ("RCM_REFUSAL_LENGTH", "refusals/1-length.asm"),
        ("RCM_REFUSAL_BLOCK_PLACE", "refusals/2-block-place.asm"),
        ("RCM_REFUSAL_BLOCK_CHECK", "refusals/3-block-check.asm"),
        ("RCM_REFUSAL_RECORD", "refusals/4-unknown-target.asm"),
        ("RCM_REFUSAL_TYPE", "refusals/5-no-size.asm"),
        ("RCM_REFUSAL_FUNCTION", "refusals/6-local-region-leaves.asm"),
        ("RCM_REFUSAL_INSTRUCTION", "refusals/7-wrong-load.asm"),
        ("RCM_REFUSAL_CODE_END", "refusals/8-runs-off-the-end.asm"),
        ("RCM_STOP_ZERO_ADDRESS", "stops/31-zero-address.asm"),
        ("RCM_STOP_CHECK", "stops/32-check-fails.asm"),
        ("RCM_STOP_INDEX", "stops/33-index.asm"),
        ("RCM_STOP_NO_PAGE", "stops/34-no-page.asm"),
        ("RCM_STOP_FRAMES", "stops/35-frames.asm"),
        ("RCM_STOP_DIVISION", "stops/36-division.asm"),
        ("RCM_STOP_SHIFT", "stops/37-shift.asm"),
        ("RCM_STOP_FORM_END", "stops/38-form-ended.asm"),
        ("RCM_STOP_OUTPUT_FULL", "stops/39-output-full.asm"),
    ] {
        expected.push((name, number_of(example)));
    }
    let prints: String = expected
        .iter()
        .map(|(name, _)| format!("    printf(\"{name} %llu\\n\", (unsigned long long){name});\n"))
        .collect();
    let source = format!(
        "#include <rcm.h>\n#include <stdio.h>\nint main(void)\n{{\n{prints}    printf(\"%d.%d.%d \" RCM_VERSION \"\\n\", \
         RCM_VERSION_MAJOR, RCM_VERSION_MINOR, RCM_VERSION_PATCH);\n}}\n"
    );
    let mut said: Vec<String> =
        expected.iter().map(|(name, number)| format!("{name} {number}")).collect();
    said.push("0.2.0 0.2.0".to_string());
    let printed = run_program(&compile(&folder, &source), &[]);
    assert_eq!(printed.lines().collect::<Vec<_>>(), said);
    // Every name of the header's three enums is here.
    let header = fs::read_to_string(repository().join("include/rcm.h")).expect("the header");
    for line in header.lines().filter(|line| line.starts_with("    RCM_") && line.contains(" = ")) {
        let name = line.split_whitespace().next().expect("a name");
        assert!(expected.iter().any(|(known, _)| *known == name), "{name}");
    }
}

#[test]
fn the_texts_in_c_are_those_of_the_numbers() {
    let folder = new_folder("texts");
    let source = "#include <rcm_text.h>\n#include <stdio.h>\nint main(void)\n{\n    for (uint64_t n = 0; n < 300; n++)\n\
         printf(\"%s\\n%s\\n%s\\n%s\\n\", rcm_refusal_text(n), rcm_refusal_advice(n), rcm_stop_text(n), rcm_stop_advice(n));\n}\n";
    let printed = run_program(&compile(&folder, source), &[]);
    let lines: Vec<&str> = printed.lines().collect();
    assert_eq!(lines.len(), 1200);
    let numbers = numbers();
    for (number, four) in lines.chunks_exact(4).enumerate() {
        for (name, two) in [("REFUSAL", &four[..2]), ("STOP", &four[2..])] {
            match numbers.get(&(name.to_string(), number as u64)) {
                Some((meaning, advice)) => assert_eq!(two, [meaning, advice]),
                None => assert!(two[0].starts_with("no number of a ") && two[1].ends_with('.')),
            }
        }
    }
    let refusals = (1..=9).chain(20..=22).map(|number| ("REFUSAL".to_string(), number));
    let all: BTreeSet<_> =
        refusals.chain((31..=39).map(|number| ("STOP".to_string(), number))).collect();
    assert_eq!(numbers.keys().cloned().collect::<BTreeSet<_>>(), all);
}

/// Prints what the accessors say of the file's and state's bytes, each in a buffer of its exact
/// length.
const ACCESSORS: &str = r#"
#include <rcm.h>
#include <stdio.h>
#include <stdlib.h>

static uint8_t *read_file(const char *name, size_t *length)
{
    FILE *file = fopen(name, "rb");
    if (file == NULL || fseek(file, 0, SEEK_END) != 0)
        exit(1);
    *length = (size_t)ftell(file);
    rewind(file);
    uint8_t *bytes = malloc(*length > 0 ? *length : 1);
    if (bytes == NULL || fread(bytes, 1, *length, file) != *length)
        exit(1);
    fclose(file);
    return bytes;
}

int main(int count, char **words)
{
    size_t length;
    for (int word = 1; word < count; word++) {
        uint8_t *bytes = read_file(words[word], &length);
        if (length == RCM_STATE_BYTES)
            printf("%d %d %d %u\n", rcm_state_status(bytes), (int)rcm_state_stop(bytes), (int)rcm_state_output_count(bytes),
                   (unsigned)rcm_state_result(bytes));
        else
            printf("%d\n", rcm_module_parameters(bytes, length));
        free(bytes);
    }
    return 0;
}
"#;

/// What the accessors must say of a state, by the reference interpreter's reading of it.
fn said_of(state: &[u8]) -> String {
    let view = State::from_bytes(state).expect("a state");
    let (status, stop) = match view.status {
        reference::state::RUNNING => (host::STILL_RUNNING, 0),
        reference::state::ENDED => (host::ENDED, 0),
        stop => (host::STOPPED, stop),
    };
    format!("{status} {stop} {} {}", view.output_count, view.result)
}

#[test]
fn the_accessors_say_what_the_reference_reads() {
    let folder = new_folder("accessors");
    let program = compile(&folder, ACCESSORS);
    let mut expected = Vec::new();
    let mut names = Vec::new();
    let mut add = |bytes: &[u8], said: String| {
        let name = format!("file{}", expected.len());
        fs::write(folder.join(&name), bytes).expect("a file");
        names.push(name);
        expected.push(said);
    };
    for name in ["ranking.asm", "pool.asm", "stops/33-index.asm", "stops/39-output-full.asm"] {
        let file = example(name);
        add(&file, decode(&file).expect("a module").functions[0].parameters.to_string());
        let mut state = vec![0; STATE_BYTES];
        let mut output = vec![0; OUTPUT_BYTES];
        assert_eq!(calls::open(&file, &[], &mut state)[0], host::GOOD);
        for budget in [0, 7, 200, 1_000_000] {
            calls::go(&file, FORM, &mut state, &mut output, budget);
            add(&state, said_of(&state));
        }
    }
    for count in 0..=7 {
        let parameters: Vec<String> = (0..count).map(|at| format!("p{at}: i32")).collect();
        let fields = "struct pair {\n x: i32\n y: i16\n}\n";
        let text = format!(
            "{fields}fn main({}) -> i32 {{\n reg r: i32\n return r\n}}\n",
            parameters.join(", ")
        );
        add(&text::assemble(&text).expect("a module"), count.to_string());
    }
    // What is no module, or is refused; what is no state.
    let ranking = example("ranking.asm");
    let mut damaged = ranking.clone();
    damaged[600] ^= 1;
    for bad in [&[][..], &[7; 100], &[7; 512], &damaged, &ranking[..ranking.len() - 1]] {
        add(bad, "-1".to_string());
    }
    add(&example("refusals/7-wrong-load.asm"), "-1".to_string());
    let full = u32::MAX;
    add(&[0xff; STATE_BYTES], format!("{} 0 {OUTPUT_BYTES} {full}", host::REFUSED));
    let names: Vec<&str> = names.iter().map(String::as_str).collect();
    let printed = run_program(&program, &names);
    assert_eq!(printed.lines().collect::<Vec<_>>(), expected);
}

/// Opens a module that subtracts its seven arguments with what `rcm_put_argument` made of them, and
/// prints these bytes and the value.
const ARGUMENTS: &str = r#"
#include <rcm.h>
#include <stdio.h>
#include <stdlib.h>

static uint8_t module[RCM_MODULE_MAX], state[RCM_STATE_BYTES], output[RCM_OUTPUT_BYTES];

int main(int count, char **words)
{
    uint64_t answer[4];
    size_t number = (size_t)count - 2;
    uint8_t *arguments = malloc(RCM_ARGUMENT_BYTES * number);
    FILE *file = fopen(words[1], "rb");
    if (file == NULL || arguments == NULL)
        return 1;
    size_t length = fread(module, 1, sizeof module, file);
    fclose(file);
    for (size_t place = number; place-- > 0;)
        rcm_put_argument(arguments, place, (uint32_t)strtoul(words[place + 2], NULL, 10));
    for (size_t byte = 0; byte < RCM_ARGUMENT_BYTES * number; byte++)
        printf("%d ", arguments[byte]);
    rcm_open(module, length, arguments, RCM_ARGUMENT_BYTES * number, state, sizeof state, answer);
    if (answer[0] == RCM_GOOD)
        rcm_go(module, length, arguments, 0, state, sizeof state, output, sizeof output, 100, answer);
    printf("%u %u\n", (unsigned)answer[0], (unsigned)answer[1]);
    free(arguments);
    return 0;
}
"#;

#[test]
fn arguments_are_put_as_the_module_reads_them() {
    let folder = new_folder("arguments");
    let program = compile(&folder, ARGUMENTS);
    let values: [u32; 7] = [0x0102_0304, u32::MAX, 0, 1, 0x8000_0000, 256, 0xfedc_ba98];
    let parameters: Vec<String> = (0..values.len()).map(|at| format!("p{at}: i32")).collect();
    let code: String = (1..values.len()).map(|at| format!(" p0 = p0 - p{at}\n")).collect();
    let text = format!("fn main({}) -> i32 {{\n{code} return p0\n}}\n", parameters.join(", "));
    fs::write(folder.join("module"), text::assemble(&text).expect("a module")).expect("a file");
    let words = values.map(|value| value.to_string());
    let words: Vec<&str> = ["module"].into_iter().chain(words.iter().map(String::as_str)).collect();
    let bytes = values.iter().flat_map(|value| value.to_le_bytes());
    let bytes: String = bytes.map(|byte| format!("{byte} ")).collect();
    let value = values.into_iter().reduce(u32::wrapping_sub).expect("a value");
    assert_eq!(run_program(&program, &words), format!("{bytes}{} {value}\n", host::ENDED));
}

/// What stands between two marks of a file of the repository.
fn between(name: &str, before: &str, behind: &str) -> String {
    let text = fs::read_to_string(repository().join(name)).expect("a file");
    let rest = text.split_once(before).unwrap_or_else(|| panic!("{name} has no {before:?}")).1;
    rest.split_once(behind).unwrap_or_else(|| panic!("{name} has no {behind:?}")).0.to_string()
}

#[test]
fn the_version_is_the_same_everywhere() {
    let version = between("include/rcm.h", "#define RCM_VERSION \"", "\"");
    for (name, before, behind) in [
        ("rust/Cargo.toml", "\nversion = \"", "\""),
        ("man/rcm.1", " \"rcm ", "\""),
        ("man/rcm.3", " \"rcm ", "\""),
        ("editors/vscode/package.json", "\"version\": \"", "\""),
        ("CHANGELOG.md", "\n## ", " - "),
    ] {
        assert_eq!(between(name, before, behind), version, "{name}");
    }
    let (_, said, _) = rcm(&["--version"], false);
    assert!(said.starts_with(&format!("rcm {version}, ")), "{said}");
}

/// The declarations of a header in one line each, without what a manual page leaves out.
fn declarations(header: &str) -> BTreeSet<String> {
    let text = fs::read_to_string(repository().join("include").join(header)).expect("a header");
    let mut found = BTreeSet::new();
    let mut lines = text.lines();
    while let Some(line) = lines.next() {
        let declares = ["void rcm_", "const char *rcm_", "static inline "];
        if declares.iter().any(|start| line.starts_with(start)) {
            let mut whole = line.to_string();
            while !whole.ends_with([')', ';']) {
                whole = whole + " " + lines.next().expect("the end of a declaration").trim();
            }
            found.insert(whole.replace("static inline ", "").trim_end_matches(';').to_string());
        }
    }
    found
}

#[test]
fn the_manual_has_the_declarations_of_the_headers() {
    need("groff");
    let page = bash(&repository(), "groff -man -Tascii -P-cbou man/rcm.3");
    let synopsis = page.split_once("SYNOPSIS").and_then(|(_, rest)| rest.split_once("DESCRIPTION"));
    let lines = synopsis.expect("a synopsis").0.lines().filter(|line| !line.contains("#include"));
    let words: Vec<&str> = lines.flat_map(str::split_whitespace).collect();
    let words = words.join(" ");
    let shown = words.split(';').map(|one| one.trim().to_string()).filter(|one| !one.is_empty());
    let declared: BTreeSet<String> =
        ["rcm.h", "rcm_text.h"].iter().flat_map(|header| declarations(header)).collect();
    assert_eq!(shown.collect::<BTreeSet<_>>(), declared);
    assert_eq!(declared.len(), 15);
}

/// The words of a text that are options.
fn options_of(text: &str) -> BTreeSet<String> {
    let words = text.split(|next: char| !(next.is_ascii_alphanumeric() || next == '-'));
    words.filter(|word| word.starts_with("--") && word.len() > 2).map(str::to_string).collect()
}

/// The commands of the tool's usage, the word behind `rcm` on its lines, with the options there.
fn commands_of(usage: &str) -> BTreeMap<String, BTreeSet<String>> {
    let lines = usage.lines().map(|line| line.trim_start_matches("usage:").trim_start());
    let entry = |line: &str| -> Option<(String, BTreeSet<String>)> {
        let command = line.strip_prefix("rcm ")?.split_whitespace().next()?;
        let is_command = command.chars().all(|next| next.is_ascii_lowercase());
        is_command.then(|| (command.to_string(), options_of(line)))
    };
    lines.filter_map(entry).collect()
}

/// What completion in bash offers for the last of these words.
fn offered(words: &str) -> String {
    let line = format!(
        "source completions/rcm.bash\ncompopt() {{ :; }}\nCOMP_WORDS=({words})\nCOMP_CWORD={}\n\
         _rcm\necho \"${{COMPREPLY[*]}}\"",
        words.split(' ').count() - 1
    );
    bash(&repository(), &line).trim_end().to_string()
}

#[test]
fn the_manual_and_the_completions_have_every_command_and_option() {
    let (_, usage, _) = rcm(&["help"], false);
    let (options, commands) = (options_of(&usage), commands_of(&usage));
    assert!(options.len() >= 7 && commands.len() >= 5, "{options:?} {commands:?}");
    for name in ["man/rcm.1", "completions/rcm.bash", "completions/rcm.zsh", "completions/rcm.fish"]
    {
        let text = fs::read_to_string(repository().join(name)).expect("a file");
        let text = text.replace("\\-", "-").replace(" -l ", " --");
        for word in options.iter().chain(commands.keys()) {
            assert!(text.contains(word.as_str()), "{name} lacks {word}");
        }
    }
    for (command, options) in &commands {
        let offered = options_of(&offered(&format!("rcm {command} --")));
        assert!(options.is_subset(&offered), "{command}: {options:?}, offered: {offered:?}");
        // The command's section has its options, and speaks of no other.
        let section = between("man/rcm.1", &format!(".SS {command} \\- "), "\n.S");
        assert_eq!(options_of(&section.replace("\\-", "-")), *options, "man/rcm.1, {command}");
    }
    let mut expected: BTreeSet<&str> = commands.keys().map(String::as_str).collect();
    expected.insert("help");
    let listed = between("completions/rcm.zsh", "commands=(\n", "    )\n");
    let listed = listed.lines().map(|line| line.trim().trim_matches('\'').split(':').next());
    assert_eq!(listed.map(Option::unwrap_or_default).collect::<BTreeSet<_>>(), expected);
    let fish = fs::read_to_string(repository().join("completions/rcm.fish")).expect("a file");
    let listed = fish.lines().filter(|line| line.contains("__fish_use_subcommand"));
    let listed = listed.filter_map(|line| line.split(" -a ").nth(1)?.split(' ').next());
    assert_eq!(listed.collect::<BTreeSet<_>>(), expected);
    let listed = offered("rcm ''");
    let listed = listed.split(' ').filter(|word| !word.starts_with('-'));
    assert_eq!(listed.collect::<BTreeSet<_>>(), expected);
}

/// The numbers of a text.
fn numbers_in(text: &str) -> BTreeSet<u64> {
    text.split(|next: char| !next.is_ascii_digit()).filter_map(|word| word.parse().ok()).collect()
}

#[test]
fn the_manual_has_every_exit_status() {
    let table = between("docs/TOOL.md", "| exit status | means |\n|---|---|\n", "\n\n");
    let rows = table.lines().filter_map(|row| row.split('|').nth(1));
    let section = between("man/rcm.1", "\n.SH EXIT STATUS\n", "\n.SH ");
    let heads = section.split(".TP\n").filter_map(|entry| entry.lines().next());
    let statuses: BTreeSet<u64> = rows.flat_map(numbers_in).collect();
    assert!(statuses.len() >= 7, "{statuses:?}");
    assert_eq!(heads.flat_map(numbers_in).collect::<BTreeSet<_>>(), statuses);
}

#[test]
fn the_manual_pages_have_no_warnings() {
    need("groff");
    for page in ["rcm.1", "rcm.3"] {
        let said = bash(&repository(), &format!("groff -man -ww -Tutf8 -z man/{page}"));
        assert_eq!(said, "", "{page}");
    }
}

#[test]
fn the_manual_pages_have_every_number_and_function() {
    let tool = fs::read_to_string(repository().join("man/rcm.1")).expect("a page");
    for ((_, number), (meaning, _)) in numbers() {
        assert!(tool.contains(&format!("\n.B {number}\n{meaning}\n")), "man/rcm.1 lacks {number}");
    }
    let library = fs::read_to_string(repository().join("man/rcm.3")).expect("a page");
    let headers = ["rcm.h", "rcm_text.h"]
        .map(|name| fs::read_to_string(repository().join("include").join(name)).expect("a header"));
    let declared = headers.concat();
    let functions = declared.split(|next: char| !(next.is_ascii_lowercase() || next == '_'));
    for name in
        functions.filter(|word| word.starts_with("rcm_") && declared.contains(&format!("{word}(")))
    {
        assert!(library.contains(name), "man/rcm.3 lacks {name}");
    }
}

#[test]
fn completion_in_bash_offers_what_fits() {
    bash(&repository(), "bash -n completions/rcm.bash");
    for (words, expected) in [
        ("rcm r", "run"),
        ("rcm --v", "--version"),
        ("rcm asm --", "--unchecked --no-map --help"),
        ("rcm run module form --s", "--state"),
        ("rcm run module form --budget 1", ""),
        ("rcm run module form --output = fi", ""),
        ("rcm explain 3", "3 31 32 33 34 35 36 37 38 39"),
        ("rcm explain r", "refused running"),
        ("rcm test exam", "examples"),
        ("rcm test examples/st", "examples/stops"),
        ("rcm test examples/ranking", "examples/ranking.asm"),
        ("rcm test --", "--help"),
        ("rcm -", "--help --version -h -V"),
        ("rcm list module form --c", "--csv"),
    ] {
        assert_eq!(offered(words), expected, "{words}");
    }
    for shell in ["zsh", "fish"] {
        // These shells are on few machines.
        if has(shell) {
            bash(&repository(), &format!("{shell} -n completions/rcm.{shell}"));
        } else {
            eprintln!("install: {shell} is missing, and the form of its completion is not tested");
        }
    }
}

/// The grammar is read, its patterns are patterns, and of the examples only names and brackets are
/// left without a colour.
#[test]
fn the_highlighting_knows_the_words_of_the_examples() {
    let script = r#"
import json, pathlib, re
folder = pathlib.Path("editors/vscode")
for name in ("package.json", "language-configuration.json"):
    json.loads((folder / name).read_text())
patterns = [entry["match"] for entry in json.loads((folder / "rcm-asm.tmLanguage.json").read_text())["patterns"]]
words = "fn struct type region reg raw file if goto return new free check address field signed unsigned nearest form output in i8 i16 i32"
vim = pathlib.Path("editors/vim/syntax/rcmasm.vim").read_text()
for word in words.split():
    assert re.search(rf"\b{word}\b", " ".join(patterns)), word
    assert re.search(rf"^syntax keyword.* {word}\b", vim, re.M), word
for path in pathlib.Path("examples").rglob("*.asm"):
    for line in path.read_text().splitlines():
        at, plain = 0, ""
        while at < len(line):
            found = [match for match in (re.compile(pattern).match(line, at) for pattern in patterns) if match and match.end() > at]
            if found and not (at > 0 and line[at].isalnum() and line[at - 1].isalnum()):
                at = found[0].end()
            else:
                plain += line[at]
                at += 1
        assert re.fullmatch(r"[A-Za-z0-9_ \[\](){}:;,.]*", plain), (path, line, plain)
print("done")
"#;
    let python = Command::new("python3").args(["-Bc", script]).current_dir(repository()).output();
    assert_eq!(finished("the grammar", &python.expect("python3")), "done\n");
}
