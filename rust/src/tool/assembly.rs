//! `rcm asm` and `rcm dis`.

use super::files::{
    beside, distinct, output_name, read, read_if_there, read_text, standing, write, Output,
    MODULE_MAX, STANDARD,
};
use super::maps;
use super::saved::no_save;
use super::words::Choice;
use super::{counted, print, put, Command, Outcome, Session, Words, DONE};
use crate::file::Refusal;
use crate::module::decode;
use crate::text::{
    assemble_all, assemble_unchecked, disassemble, report, Assembled, Error, MAP_HEAD,
};

pub const ASM: Command = Command {
    name: "asm",
    takes: "FILE -o MODULE",
    options: &[
        Choice::valued("-o", "MODULE", "where the module goes; its map goes to MODULE.map"),
        Choice::flag("--unchecked", "writes also what the checker will refuse"),
        Choice::flag("--no-map", "writes no map"),
    ],
    does: "the module file of a text",
    run: asm,
};

pub const DIS: Command = Command {
    name: "dis",
    takes: "MODULE",
    options: &[Choice::flag("--raw", "lists also what is no module, record by record")],
    does: "the text of a module file; --raw also lists what is no module",
    run: dis,
};

/// Writes the module file of a text and its map, or says all that is wrong with the text.
fn asm(words: &Words, session: &mut Session) -> Outcome {
    let [source] = words.exactly(["FILE"])?;
    let target = words.option("-o").ok_or("asm: -o MODULE is wanted: where the module goes")?;
    let target = output_name(target);
    let map = map_name(target).filter(|_| !words.flag("--no-map"));
    let mut outputs = vec![("module", target)];
    outputs.extend(map.as_deref().map(|map| ("map", map)));
    distinct(&[("text", source)], &outputs)?;
    no_save("module", target)?;
    let text = read_text(source)?;
    let made = match words.flag("--unchecked") {
        true => assemble_unchecked(&text, source),
        false => assemble_all(&text, source),
    };
    let Assembled { file, map: names, warnings } = match made {
        Ok(assembled) => assembled,
        Err(errors) => return refuse(source, &text, &errors, session),
    };
    let names = names.text();
    let mut files = vec![Output::new(target, &file)];
    if let Some(map) = &map {
        replaceable(map)?;
        files.push(Output::new(map, names.as_bytes()));
    }
    write(&files, session)?;
    say(&report(source, &text, "warning", &warnings), session);
    Ok(DONE)
}

/// The map's file: none beside standard output or what is no regular file.
fn map_name(module: &str) -> Option<String> {
    (module != STANDARD && standing(module)).then(|| beside(module, maps::ENDING))
}

/// A file under the map's name is written over only if it is a map.
fn replaceable(map: &str) -> Result<(), String> {
    match read_if_there(map, MAP_HEAD.len())? {
        Some(there) if there != [MAP_HEAD.as_bytes(), b"\n"].concat() => {
            let reason = "is there and is no map, so it is not written over";
            Err(format!("{map} {reason}; --no-map assembles without one"))
        }
        _ => Ok(()),
    }
}

/// Messages behind which nobody waits for an answer.
fn say(messages: &str, session: &mut Session) {
    let _ = put(session.error, messages.as_bytes());
}

/// Says all errors; nothing is written.
fn refuse(source: &str, text: &str, errors: &[Error], session: &mut Session) -> Outcome {
    say(&report(source, text, "error", errors), session);
    let count = counted(errors.len() as u64, "error");
    let refused = errors.iter().all(|error| error.refused);
    let all_the_same = if refused { "; --unchecked writes it all the same" } else { "" };
    Err(format!("{source}: {count}, no module is written{all_the_same}"))
}

/// Prints the text of a module file. What is no module is listed record by record, if asked for.
fn dis(words: &Words, session: &mut Session) -> Outcome {
    let [source] = words.exactly(["MODULE"])?;
    let file = read(source, MODULE_MAX)?;
    if file.len() > MODULE_MAX {
        return Err(format!("{source} is no module: it has more than {MODULE_MAX} bytes"));
    }
    if let (Err(Refusal { number, place, asked }), false) = (decode(&file), words.flag("--raw")) {
        let reason = format!("refusal {number} at {place}, asked: {asked}");
        return Err(format!("{source} is no module ({reason}); --raw lists its records"));
    }
    print(session.out, &disassemble(&file))
}
