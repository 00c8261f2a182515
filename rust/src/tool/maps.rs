//! The map beside a module (`MODULE.map`), where it is there and fits.

use super::files::{beside, read_text, MODULE_MAX, STANDARD};
use super::Session;
use crate::module::decode;
use crate::text::Map;
use std::path::Path;

/// The ending of its name, behind the module's.
pub const ENDING: &str = "map";

/// The map of a module file, if there is one that can be used; if there is one that cannot, a note
/// that says why. What is read from standard input has none.
pub fn map_of(name: &str, file: &[u8]) -> (Option<Map>, Option<String>) {
    let map_name = beside(name, ENDING);
    // Of a file that was not read to its end nothing can be known.
    if name == STANDARD || file.len() > MODULE_MAX || !Path::new(&map_name).exists() {
        return (None, None);
    }
    match fitting(&map_name, file) {
        Ok(map) => (Some(map), None),
        Err(reason) => {
            let reason = reason.strip_prefix(&map_name).unwrap_or(&reason);
            let reason = reason.trim_start_matches([':', ' ']);
            (None, Some(format!("{map_name}: not used: {reason}")))
        }
    }
}

/// The map in a file. Where the module file is no module, only its places can be asked.
fn fitting(map_name: &str, file: &[u8]) -> Result<Map, String> {
    if !Path::new(map_name).is_file() {
        return Err("expected a file".to_string());
    }
    let map = Map::parse(&read_text(map_name)?)?;
    if !map.is_of(file) {
        return Err("it is of another module".to_string());
    }
    match decode(file) {
        Ok(module) if !map.fits(file, &module) => {
            Err("it does not name every part of the module".to_string())
        }
        _ => Ok(map),
    }
}

/// The map of a module file; a note about one that cannot be used goes to standard error.
pub fn usable_map(name: &str, file: &[u8], session: &mut Session) -> Option<Map> {
    let (map, note) = map_of(name, file);
    if let Some(note) = note {
        session.say(&note);
    }
    map
}
