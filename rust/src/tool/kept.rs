//! The files of a run: those that it is given, the state and output that it goes on from, and what
//! it saves. Each save leaves a state that can be gone on with, wherever it is broken off, as long as
//! its files are renamed to their places and not written there (`files.rs`).

use super::files::{
    beside, distinct, followed, hold, output_name, read, read_if_there, remove_if_there, same_file,
    standing, write, Output, Role, OUTPUT_MAX, STANDARD, STATE_MAX,
};
use super::going::{Going, Went};
use super::saved::{digest, no_save, Info, Known, Mark, INFO_ENDING, MARK_ENDING};
use super::{explain, maps, Session, Words};
use crate::host;
use crate::state::STATE_BYTES;
use crate::text::printable;
use std::path::Path;

/// The names that a run is given, and those beside them.
pub struct Kept<'w> {
    pub module: &'w str,
    pub form: &'w str,
    pub state: Option<&'w str>,
    pub output: Option<&'w str>,
    info: Option<String>,
    mark: Option<String>,
}

/// What a run goes on from: the arguments that the module was opened with, as far as they are known,
/// and the digests of the state and the output that are there, if they are.
pub struct Start {
    arguments: Option<String>,
    state: Option<String>,
    output: Option<String>,
}

impl<'w> Kept<'w> {
    /// The names on a command line. Nothing has run yet where they are refused.
    pub fn new(words: &Words<'w>) -> Result<Kept<'w>, String> {
        let [module, form] = words.exactly(["MODULE", "FORM"])?;
        let state = words.option("--state");
        let output = words.option("--output").map(output_name);
        if state.is_some_and(|name| name == STANDARD || !standing(name)) {
            return Err("--state wants a file: a state is read and written".to_string());
        }
        if state.is_some_and(|name| name != printable(name)) {
            return Err("--state wants a name without control characters".to_string());
        }
        let mut kept = Kept { module, form, state, output, info: None, mark: None };
        kept.info = state.map(|name| beside(name, INFO_ENDING));
        kept.mark = kept.output_file().map(|name| beside(name, MARK_ENDING));
        kept.distinct()?;
        kept.own()?;
        Ok(kept)
    }

    fn distinct(&self) -> Result<(), String> {
        let map = beside(self.module, maps::ENDING);
        let outputs = [
            ("output's mark", self.mark.as_deref()),
            ("output", self.output),
            ("state's info", self.info.as_deref()),
            ("state", self.state),
        ];
        let outputs = outputs.iter().filter_map(|(what, name)| name.map(|name| (*what, name)));
        let outputs: Vec<Role> = outputs.collect();
        let inputs = [("module", self.module), ("form", self.form), ("module's map", &map)];
        distinct(&inputs, &outputs)
    }

    /// What will be written over is this run's, and not another's.
    fn own(&self) -> Result<(), String> {
        if let Some(state) = self.state {
            Info::beside(state)?;
        }
        let Some(output) = self.output_file() else { return Ok(()) };
        let mark = Mark::beside(output)?;
        let own = |saved: &str| self.state.is_some_and(|state| same_file(state, saved));
        match mark.as_ref().and_then(Mark::goes_on_in) {
            Some(saved) if own(saved) => Ok(()),
            Some(saved) => Err(format!(
                "{output} is the output of a run that is saved in {saved}: go on with it \
                 (--state {saved}), or name another output"
            )),
            None => no_save("output", output),
        }
    }

    /// Of a run that is over the mark goes, if it was left there.
    pub fn over(&self) {
        if let (Some(output), Some(mark)) = (self.output_file(), &self.mark) {
            let state = Mark::beside(output).ok().flatten().and_then(|mark| mark.state);
            let own = |state: String| self.state.is_some_and(|own| same_file(own, &state));
            if state.is_some_and(own) {
                let _ = remove_if_there(mark);
            }
        }
    }

    /// The state, where there is one to go on from.
    pub fn saved(&self) -> Option<&'w str> {
        self.state.filter(|name| Path::new(name).exists())
    }

    /// The output where it is a file, and no stream or device.
    pub fn output_file(&self) -> Option<&'w str> {
        self.output.filter(|name| *name != STANDARD && standing(name))
    }

    /// The start of a run that is opened with these arguments.
    pub fn opened(&self, arguments: String) -> Result<Start, String> {
        Ok(Start { arguments: Some(arguments), state: None, output: self.output_now()? })
    }

    /// The digest of the output as it is.
    fn output_now(&self) -> Result<Option<String>, String> {
        let Some(name) = self.output_file() else { return Ok(None) };
        Ok(read_if_there(name, OUTPUT_MAX)?.map(|bytes| digest(&bytes)))
    }

    /// Takes a saved state and the output so far, which is not in the state.
    pub fn restore(
        &self,
        name: &str,
        arguments: Option<String>,
        going: &mut Going,
        session: &mut Session,
    ) -> Result<Start, String> {
        going.state = read(name, STATE_MAX)?;
        let (state, output) = (Some(digest(&going.state)), self.output_now()?);
        if going.state.len() != STATE_BYTES {
            return Ok(Start { arguments: None, state, output }); // which the call refuses
        }
        let Some(info) = Info::beside(name)? else {
            if arguments.is_some() {
                session.say(&format!("{name} is a saved state: --arguments is not looked at"));
            }
            self.take_output(name, None, going)?;
            return Ok(Start { arguments: None, state, output });
        };
        self.belongs(name, &info, going)?;
        match (&arguments, &info.arguments) {
            (Some(given), Some(opened)) if given != opened => {
                let opened = if opened.is_empty() { "no arguments" } else { opened };
                return Err(format!("{name} was opened with {opened}, not with {given}"));
            }
            _ => (),
        }
        self.take_output(name, Some(&info), going)?;
        Ok(Start { arguments: info.arguments, state, output })
    }

    /// The state is the one that was saved with this info, for this module and this form.
    fn belongs(&self, name: &str, info: &Info, going: &Going) -> Result<(), String> {
        let own = digest(&going.state);
        if own != info.state && own != info.before {
            return Err(format!(
                "{name} is not the state that {name}.{INFO_ENDING} was written for: take both \
                 from one save, or start anew with another file for the state"
            ));
        }
        for (what, given, bytes, known) in [
            ("module", self.module, &going.file, &info.module),
            ("form", self.form, &going.form, &info.form),
        ] {
            if digest(bytes) != known.digest {
                let was = &known.name;
                return Err(format!(
                    "{name} is a state of another {what}: of {was} as it was then, not of {given}"
                ));
            }
        }
        Ok(())
    }

    /// The bytes that were written so far. An output that is ahead of its state is written again.
    fn take_output(
        &self,
        name: &str,
        info: Option<&Info>,
        going: &mut Going,
    ) -> Result<(), String> {
        let known = info.and_then(|info| info.output.as_ref());
        let Some(output) = self.output_file() else {
            return match known {
                Some((_, file)) => Err(format!("{name} was saved with --output {}", file.name)),
                None => Ok(()),
            };
        };
        let written = going.written().len();
        let bytes = read_if_there(output, OUTPUT_MAX)?.unwrap_or_default();
        // Nobody knows what a longer file has behind these bytes where nothing says whose it is.
        if bytes.len() < written || info.is_none() && bytes.len() > written {
            let length = bytes.len();
            return Err(format!(
                "{output} has {length} bytes, but {name} has written {written}: take both from one \
                 save, or start anew with another file for the state"
            ));
        }
        if let Some((count, file)) = known {
            if bytes.get(..*count).is_none_or(|start| digest(start) != file.digest) {
                let was = &file.name;
                return Err(format!("{output} is not what {name} has written: that was {was}"));
            }
        }
        going.output[..written].copy_from_slice(&bytes[..written]);
        Ok(())
    }

    /// Writes the mark, the output, the info and the state, in this order: an output without its mark
    /// is whole, and a state that is behind its output and its info can be gone on with.
    pub fn save(
        &self,
        going: &Going,
        output: &[u8],
        went: &Went,
        start: Start,
        session: &mut Session,
    ) -> Result<(), String> {
        let names: Vec<&str> = self.state.into_iter().chain(self.output_file()).collect();
        let _held = hold(&names);
        self.unchanged(&start)?;
        let state = digest(&going.state);
        let info = Info {
            before: start.state.unwrap_or_else(|| state.clone()),
            state,
            module: Known::new(self.module, &going.file),
            form: Known::new(self.form, &going.form),
            arguments: start.arguments,
            output: self.output_file().map(|name| (output.len(), Known::new(name, output))),
        };
        let place = |name: &str| followed(name).map(|path| path.display().to_string());
        let mark = Mark { says: mark_text(went), state: self.state.map(place).transpose()? };
        let (info, mark) = (info.text(), mark.text());
        let mut files = Vec::new();
        if went.partial() {
            files.extend(self.mark.iter().map(|name| Output::private(name, mark.as_bytes())));
        }
        files.extend(self.output.map(|name| Output::private(name, output)));
        files.extend(self.info.iter().map(|name| Output::private(name, info.as_bytes())));
        files.extend(self.state.map(|name| Output::private(name, &going.state)));
        write(&files, session)?;
        if let (Some(mark), false) = (&self.mark, went.partial()) {
            if let Err(error) = remove_if_there(mark) {
                session.say(&format!("{error}; the output is whole all the same"));
            }
        }
        Ok(())
    }

    /// Nobody has saved to the state, or to the output, since they were read.
    fn unchanged(&self, start: &Start) -> Result<(), String> {
        let changed =
            |name: &str| Err(format!("{name} has changed since: another run has saved to it"));
        if let Some(name) = self.state {
            let now = read_if_there(name, STATE_MAX)?.map(|bytes| digest(&bytes));
            if now != start.state {
                return changed(name);
            }
        }
        match self.output_file() {
            Some(name) if self.output_now()? != start.output => changed(name),
            _ => Ok(()),
        }
    }
}

/// What an output that is not whole is part of.
fn mark_text(went: &Went) -> String {
    match went.answer {
        [host::STOPPED, number, ..] => format!("stopped {number}: {}", explain::stop_title(number)),
        _ => "running: the module has not ended".to_string(),
    }
}
