//! The files that a command reads and writes. Reads are bounded. A file is written whole or not at
//! all, through links, with the mode and owner that it had; what is no regular file is written
//! straight; and no output is an input or another output.

use super::Session;
use crate::file::{BLOCK_BYTES, MAX_BLOCKS};
use crate::state::{FORM_BYTES, OUTPUT_BYTES, STATE_BYTES};
use std::ffi::{c_char, c_void, CString};
use std::fs::{File, Metadata, OpenOptions};
use std::io::{ErrorKind, Read, Write};
use std::os::unix::ffi::OsStrExt;
use std::os::unix::fs::{fchown, MetadataExt, OpenOptionsExt, PermissionsExt};
use std::path::{Path, PathBuf};

/// The most bytes that a module, a form, a state and an output can have.
pub const MODULE_MAX: usize = MAX_BLOCKS * BLOCK_BYTES;
pub const FORM_MAX: usize = FORM_BYTES;
pub const STATE_MAX: usize = STATE_BYTES;
pub const OUTPUT_MAX: usize = OUTPUT_BYTES;
/// The most bytes of a text that is read: far more than the text of the largest module.
pub const TEXT_MAX: usize = 1 << 24;

/// Standard input or output.
pub const STANDARD: &str = "-";

/// Links that are followed, one after the other.
const LINKS: usize = 40;

const PRIVATE: u32 = 0o600;
const PUBLIC: u32 = 0o666;
/// The bits of a file's mode that say who may do what.
const PERMISSIONS: u32 = 0o7777;

fn failed(name: &str) -> impl Fn(std::io::Error) -> String + '_ {
    move |error| format!("{name}: {error}")
}

/// The bytes of a file, or of standard input. At most one more than `most` is read: whoever is
/// asked about them refuses what is too long.
pub fn read(name: &str, most: usize) -> Result<Vec<u8>, String> {
    let mut bytes = Vec::new();
    let limit = most as u64 + 1;
    let read = match name {
        STANDARD => std::io::stdin().lock().take(limit).read_to_end(&mut bytes),
        _ => File::open(name).and_then(|file| file.take(limit).read_to_end(&mut bytes)),
    };
    read.map_err(failed(name))?;
    Ok(bytes)
}

/// The bytes of a regular file that may be missing. Anything else in its place is an error: a pipe
/// would be waited for.
pub fn read_if_there(name: &str, most: usize) -> Result<Option<Vec<u8>>, String> {
    match std::fs::metadata(name) {
        Ok(there) if there.is_file() => read(name, most).map(Some),
        Ok(_) => Err(format!("{name}: expected a regular file")),
        Err(error) if error.kind() == ErrorKind::NotFound => Ok(None),
        Err(error) => Err(failed(name)(error)),
    }
}

/// A text in UTF-8, without its byte order mark.
pub fn read_text(name: &str) -> Result<String, String> {
    let bytes = read(name, TEXT_MAX)?;
    if bytes.len() > TEXT_MAX {
        return Err(format!("{name}: expected a text of at most {TEXT_MAX} bytes"));
    }
    let text = String::from_utf8(bytes).map_err(|error| {
        let good = &error.as_bytes()[..error.utf8_error().valid_up_to()];
        let line = good.iter().filter(|&&byte| byte == b'\n').count() + 1;
        format!("{name}:{line}: expected a text in UTF-8")
    })?;
    Ok(text.strip_prefix('\u{feff}').unwrap_or(&text).to_string())
}

/// A regular file is there under this name, or none yet.
pub fn standing(name: &str) -> bool {
    std::fs::metadata(name).map_or(true, |there| there.is_file())
}

/// The file that stands beside another one: its name with an ending behind it. Where the name is a
/// link it stands beside the file itself, so that it is found under each of its names.
pub fn beside(name: &str, ending: &str) -> String {
    let link = std::fs::symlink_metadata(name).is_ok_and(|there| there.is_symlink());
    match followed(name) {
        Ok(path) if link => format!("{}.{ending}", path.display()),
        _ => format!("{name}.{ending}"),
    }
}

/// An output's name; standard output has several.
pub fn output_name(name: &str) -> &str {
    let path: PathBuf = Path::new(name).components().collect();
    let standard = ["/dev/stdout", "/dev/fd/1", "/proc/self/fd/1"];
    if standard.iter().any(|other| path == Path::new(other)) {
        return STANDARD;
    }
    name
}

/// A file of a command: what it is to the command, and its name.
pub type Role<'f> = (&'f str, &'f str);

/// What makes two names the same file: the file itself where it is there, else the place where it
/// would be made.
#[derive(PartialEq, Eq)]
enum Identity {
    Standard,
    There(u64, u64),
    New(PathBuf),
}

/// The identity of a regular file or of one that is not there. A device belongs to nobody: it may be
/// named twice.
fn identity(name: &str) -> Result<Option<Identity>, String> {
    if name == STANDARD {
        return Ok(Some(Identity::Standard));
    }
    Ok(match std::fs::metadata(name) {
        Ok(there) if there.is_file() => Some(Identity::There(there.dev(), there.ino())),
        Ok(_) => None,
        Err(_) => Some(Identity::New(followed(name)?)),
    })
}

/// Both names are of one file.
pub fn same_file(left: &str, right: &str) -> bool {
    matches!((identity(left), identity(right)), (Ok(Some(left)), Ok(Some(right))) if left == right)
}

/// Refuses an output that is one of the inputs or another output, whatever they are called, and one
/// that cannot be written: a folder, or in a folder that is not there.
pub fn distinct(inputs: &[Role], outputs: &[Role]) -> Result<(), String> {
    for (at, (what, name)) in outputs.iter().enumerate() {
        writable(name)?;
        let Some(own) = identity(name)? else { continue };
        for (other, other_name) in &outputs[..at] {
            if identity(other_name)?.as_ref() == Some(&own) {
                return Err(format!("the {what} {name} and the {other} {other_name} are one file"));
            }
        }
        for (other, other_name) in inputs.iter().filter(|(_, input)| *input != STANDARD) {
            if identity(other_name)?.as_ref() == Some(&own) {
                return Err(format!("the {what} {name} is the {other}: it would be overwritten"));
            }
        }
    }
    let standard = inputs.iter().filter(|(_, name)| *name == STANDARD);
    match standard.count() {
        0 | 1 => Ok(()),
        _ => Err("standard input can be read once: `-` stands for two files here".to_string()),
    }
}

/// The folder that a path lies in.
fn folder(path: &Path) -> &Path {
    match path.parent() {
        Some(parent) if !parent.as_os_str().is_empty() => parent,
        _ => Path::new("."),
    }
}

fn writable(name: &str) -> Result<(), String> {
    if name == STANDARD {
        return Ok(());
    }
    if name.is_empty() {
        return Err("expected a file's name, found an empty word".to_string());
    }
    if name.ends_with('/') {
        return Err(format!("{name}: expected a file's name, found a folder's"));
    }
    let path = followed(name)?;
    let folder = std::fs::metadata(folder(&path)).map_err(failed(name))?;
    if !folder.is_dir() {
        return Err(format!("{name}: expected a folder before the file's name"));
    }
    match std::fs::metadata(&path) {
        Ok(there) if there.is_dir() => Err(format!("{name}: expected a file, found a folder")),
        // A file that its owner has closed to writing stays as it is, though its folder is open.
        Ok(there) if there.is_file() => {
            OpenOptions::new().write(true).open(&path).map(|_| ()).map_err(failed(name))
        }
        Ok(_) => Ok(()),
        // Tried here, so that nothing runs for a file that cannot be made.
        Err(error) if error.kind() == ErrorKind::NotFound => {
            let (_, made) = new_beside(&path, PRIVATE).map_err(failed(name))?;
            std::fs::remove_file(made).map_err(failed(name))
        }
        Err(error) => Err(failed(name)(error)),
    }
}

/// Where a name leads: through links, also where the last one leads to no file yet. The folder is
/// resolved too, so that one place has one path.
pub fn followed(name: &str) -> Result<PathBuf, String> {
    let mut path = PathBuf::from(name);
    // What is no file needs no path of its own: a link of /proc to a pipe leads to none.
    if std::fs::metadata(name).is_ok_and(|there| !there.is_file()) {
        return Ok(path);
    }
    for _ in 0..LINKS {
        match std::fs::read_link(&path) {
            // The links of open files do not say where the file is now, nor where it is written.
            Ok(_) if path.starts_with("/proc") || path.starts_with("/dev/fd") => {
                return Err(format!("{name}: a file that is open already: say its own name, or -"));
            }
            Ok(target) => path = folder(&path).join(target),
            Err(_) => {
                let Some(last) = path.file_name() else { return Ok(path) };
                let folder = std::fs::canonicalize(folder(&path)).map_err(failed(name))?;
                return Ok(folder.join(last));
            }
        }
    }
    Err(format!("{name}: too many links, one behind the other"))
}

/// A file to write. A private one is for its owner alone where it is made anew.
pub struct Output<'f> {
    pub name: &'f str,
    pub bytes: &'f [u8],
    pub private: bool,
}

impl<'f> Output<'f> {
    pub fn new(name: &'f str, bytes: &'f [u8]) -> Output<'f> {
        Output { name, bytes, private: false }
    }

    pub fn private(name: &'f str, bytes: &'f [u8]) -> Output<'f> {
        Output { name, bytes, private: true }
    }
}

/// How an output comes to its place.
enum Way {
    /// Written whole under another name, which is then given to it.
    Renamed {
        from: PathBuf,
        to: PathBuf,
    },
    /// Written where it is: a device or pipe, or a file that a renamed one would not be the same as.
    Straight(PathBuf),
    Standard,
}

/// Writes all of the files: those that can be renamed are written beside their places first, so that
/// a failure leaves what was there.
pub fn write(outputs: &[Output], session: &mut Session) -> Result<(), String> {
    let mut ways = Vec::new();
    let written = write_beside(outputs, &mut ways).and_then(|()| put(outputs, &ways, session));
    if written.is_err() {
        for way in &ways {
            if let Way::Renamed { from, .. } = way {
                let _ = std::fs::remove_file(from);
            }
        }
    }
    written
}

fn write_beside(outputs: &[Output], ways: &mut Vec<Way>) -> Result<(), String> {
    for output in outputs {
        ways.push(way(output).map_err(failed(output.name))?);
    }
    Ok(())
}

fn put(outputs: &[Output], ways: &[Way], session: &mut Session) -> Result<(), String> {
    for (output, way) in outputs.iter().zip(ways) {
        match way {
            // An output that nobody reads is not delivered.
            Way::Standard => session.out.write_all(output.bytes).and_then(|()| session.out.flush()),
            Way::Straight(path) => write_straight(path, output.bytes),
            Way::Renamed { from, to } => renamed(from, to, output.bytes),
        }
        .map_err(failed(output.name))?;
    }
    Ok(())
}

/// A file that something is mounted on keeps its place and is written there.
fn renamed(from: &Path, to: &Path, bytes: &[u8]) -> std::io::Result<()> {
    match std::fs::rename(from, to) {
        Err(error) if error.kind() == ErrorKind::ResourceBusy => {
            write_straight(to, bytes)?;
            std::fs::remove_file(from)
        }
        result => result,
    }
}

/// Of a file that is written where it is the old bytes are cut off last: an output that is ahead of
/// them is never without them.
fn write_straight(path: &Path, bytes: &[u8]) -> std::io::Result<()> {
    let mut file = OpenOptions::new().write(true).open(path)?;
    file.write_all(bytes)?;
    match file.metadata()?.is_file() {
        true => file.set_len(bytes.len() as u64).and_then(|()| file.sync_all()),
        false => Ok(()),
    }
}

/// The folders of these files, held against every other run that saves there. Where a folder cannot
/// be held the run saves all the same.
pub fn hold(names: &[&str]) -> Vec<File> {
    let mut folders: Vec<PathBuf> =
        names.iter().filter_map(|name| Some(folder(&followed(name).ok()?).to_path_buf())).collect();
    // In one order, so that two runs do not wait for each other.
    folders.sort();
    folders.dedup();
    let open = folders.iter().filter_map(|folder| File::open(folder).ok());
    open.inspect(|folder| drop(folder.lock())).collect()
}

fn way(output: &Output) -> std::io::Result<Way> {
    if output.name == STANDARD {
        return Ok(Way::Standard);
    }
    let to = followed(output.name).map_err(std::io::Error::other)?;
    let there = match std::fs::metadata(&to) {
        Ok(there) => Some(there),
        Err(error) if error.kind() == ErrorKind::NotFound => None,
        Err(error) => return Err(error),
    };
    // A file with a second name would lose it, and one with a list of who may read it that list.
    let kept = |there: &Metadata| !there.is_file() || there.nlink() > 1 || has_access_list(&to);
    if there.as_ref().is_some_and(kept) {
        return Ok(Way::Straight(to));
    }
    match renamable(output, &to, there.as_ref()) {
        Ok(from) => Ok(Way::Renamed { from, to }),
        // Nobody may make files in this folder, or give them to the owner; the file itself may be
        // written all the same.
        Err(error) if error.kind() == ErrorKind::PermissionDenied && there.is_some() => {
            Ok(Way::Straight(to))
        }
        Err(error) => Err(error),
    }
}

extern "C" {
    fn getxattr(path: *const c_char, name: *const c_char, value: *mut c_void, size: usize)
        -> isize;
}

/// The file has an access control list, which its mode does not say.
fn has_access_list(path: &Path) -> bool {
    let Ok(path) = CString::new(path.as_os_str().as_bytes()) else { return false };
    let name = c"system.posix_acl_access";
    // SAFETY: both names end with a zero byte, and of a value of size 0 nothing is written.
    unsafe { getxattr(path.as_ptr(), name.as_ptr(), std::ptr::null_mut(), 0) > 0 }
}

/// A file beside `to` with the output's bytes, and with the mode and owner of the file that is there.
fn renamable(output: &Output, to: &Path, there: Option<&Metadata>) -> std::io::Result<PathBuf> {
    let mode = if output.private || there.is_some() { PRIVATE } else { PUBLIC };
    let (mut file, from) = new_beside(to, mode)?;
    match fill(&mut file, output.bytes, there) {
        Ok(()) => Ok(from),
        Err(error) => {
            let _ = std::fs::remove_file(&from);
            Err(error)
        }
    }
}

/// A new file in the same folder, under a name that nobody has.
fn new_beside(to: &Path, mode: u32) -> std::io::Result<(File, PathBuf)> {
    let mut number = std::process::id();
    loop {
        let from = folder(to).join(format!(".rcm-{number}.part"));
        match OpenOptions::new().write(true).create_new(true).mode(mode).open(&from) {
            Ok(file) => return Ok((file, from)),
            // Left there by a program that was killed.
            Err(error) if error.kind() == ErrorKind::AlreadyExists => number += 1,
            Err(error) => return Err(error),
        }
    }
}

fn fill(file: &mut File, bytes: &[u8], there: Option<&Metadata>) -> std::io::Result<()> {
    file.write_all(bytes)?;
    if let Some(there) = there {
        let made = file.metadata()?;
        if (made.uid(), made.gid()) != (there.uid(), there.gid()) {
            fchown(&*file, Some(there.uid()), Some(there.gid()))?;
        }
        let mode = std::fs::Permissions::from_mode(there.mode() & PERMISSIONS);
        file.set_permissions(mode)?;
    }
    file.sync_all()
}

/// Removes a file that stands beside another one, if it is there.
pub fn remove_if_there(name: &str) -> Result<(), String> {
    match std::fs::remove_file(name) {
        Err(error) if error.kind() != ErrorKind::NotFound => Err(failed(name)(error)),
        _ => Ok(()),
    }
}
