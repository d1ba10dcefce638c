//! Which files the gate looks at, and reading a sheet: from a regular file or from standard input, never more of it than reading can look at; and files that are
//! written beside others.
use std::collections::BTreeSet;
use std::ffi::{OsStr, OsString};
use std::fs::{File, FileType, Metadata, OpenOptions};
use std::io::{self, Read, Write};
use std::os::unix::ffi::OsStrExt;
use std::os::unix::fs::{FileTypeExt, MetadataExt, OpenOptionsExt};
use std::path::{Path, PathBuf};
use std::sync::Mutex;

use sheets::READ_CAP;

use crate::geopackage;

/// Linux's number for opening without waiting: a pipe that nobody writes to is open at once.
const O_NONBLOCK: i32 = 0o4000;

/// A file to look at: its name, and why it can't be read if that is known already.
pub struct Candidate {
    pub name: OsString,
    pub unread: Option<String>,
}

/// What a folder has in it that is passed over, and why.
pub struct Passed {
    pub name: OsString,
    pub why: &'static str,
}

/// The system's words for an error, as the checker says them.
pub fn reason(error: &io::Error) -> String {
    let text = error.to_string();
    let number = error.raw_os_error().map_or(String::new(), |number| format!(" (os error {number})"));
    text.strip_suffix(&number).unwrap_or(&text).to_string()
}

/// Why a file of this type is no sheet file; none for a regular one.
fn irregular(kind: FileType) -> Option<&'static str> {
    match kind {
        kind if kind.is_file() => None,
        kind if kind.is_dir() => Some("it is a folder"),
        kind if kind.is_fifo() => Some("it is a pipe"),
        kind if kind.is_socket() => Some("it is a socket"),
        _ => Some("it is a device"),
    }
}

fn expect_regular(found: io::Result<Metadata>) -> Result<(), String> {
    match irregular(found.map_err(|error| reason(&error))?.file_type()) {
        None => Ok(()),
        Some(why) => Err(why.to_string()),
    }
}

/// The bytes of an open file, all that reading can look at.
fn first_bytes(file: impl Read) -> Result<Vec<u8>, String> {
    let mut bytes = Vec::new();
    file.take(READ_CAP as u64).read_to_end(&mut bytes).map_err(|error| reason(&error))?;
    Ok(bytes)
}

/// The sheet in a file, or on standard input for '-'. The kind of the file is looked at before it is opened, so that no device is touched, and once it is
/// open, so that no pipe put in its place is read.
pub fn read(path: &OsStr) -> Result<Vec<u8>, String> {
    if path == "-" {
        return first_bytes(io::stdin().lock());
    }
    expect_regular(std::fs::metadata(path))?;
    let file: File = OpenOptions::new().read(true).custom_flags(O_NONBLOCK).open(path).map_err(|error| reason(&error))?;
    expect_regular(file.metadata())?;
    first_bytes(file)
}

/// Why a file was not repaired: it could not be read, or what was made of it not be written.
pub enum Failed {
    Unread(String),
    Unwritten(String),
}

/// The system's reason as that of what could not be written.
fn unwritten(error: io::Error) -> Failed {
    Failed::Unwritten(reason(&error))
}

/// Which file it is, for the system, whatever its name.
fn which(found: &Metadata) -> (u64, u64) {
    (found.dev(), found.ino())
}

/// The files of these names, and what stands on standard input for '-'.
pub fn inputs<'a>(names: impl Iterator<Item = &'a OsString>) -> BTreeSet<(u64, u64)> {
    let found = names.filter_map(|name| std::fs::metadata(if name == "-" { OsStr::new("/dev/stdin") } else { name }).ok());
    found.map(|found| which(&found)).collect()
}

/// Can a file of this name be made of these inputs? Where there is one, it must be regular, and no input itself; and SQLite must have no changes for a GeoPackage of
/// that name, which it would make to any file there.
pub fn expect_writable(path: &Path, inputs: &BTreeSet<(u64, u64)>) -> Result<(), Failed> {
    let found = std::fs::metadata(path).ok();
    let beside = |end: &str| Path::new(&[path.as_os_str(), OsStr::new(end)].join(OsStr::new(""))).exists();
    let why = match found {
        Some(found) if inputs.contains(&which(&found)) => Some("it is the input itself"),
        Some(found) if !found.is_file() => irregular(found.file_type()),
        _ if geopackage::is_name(path.as_os_str()) && (beside("-wal") || beside("-journal")) => {
            Some("SQLite's changes to a file of that name stand beside it")
        }
        _ => None,
    };
    why.map_or(Ok(()), |why| Err(Failed::Unwritten(why.to_string())))
}

/// The draft that there is, for where the program ends by itself.
static DRAFT: Mutex<Option<PathBuf>> = Mutex::new(None);

/// Removes the draft that there is.
pub fn remove_draft() {
    let name = DRAFT.lock().unwrap_or_else(|broken| broken.into_inner()).take();
    name.map(std::fs::remove_file);
}

/// A file in the folder of another, under a name of its own, until it is kept under the other's. Else it is gone again. There is one at a time.
pub struct Draft<'a> {
    path: &'a Path,
    pub name: PathBuf,
    file: File,
}

impl Draft<'_> {
    pub fn of(path: &Path) -> Result<Draft<'_>, Failed> {
        let bytes = path.as_os_str().as_bytes();
        let folder = OsStr::from_bytes(&bytes[..bytes.iter().rposition(|byte| *byte == b'/').map_or(0, |slash| slash + 1)]);
        let mut count = 0;
        loop {
            let name = Path::new(folder).join(format!(".repair-{}-{count}", std::process::id()));
            count += 1;
            match OpenOptions::new().write(true).create_new(true).open(&name) {
                Ok(file) => {
                    *DRAFT.lock().unwrap_or_else(|broken| broken.into_inner()) = Some(name.clone());
                    return Ok(Draft { path, name, file });
                }
                Err(error) if error.kind() == io::ErrorKind::AlreadyExists => (),
                Err(error) => return Err(unwritten(error)),
            }
        }
    }

    /// Writes all of the bytes, to the disk itself.
    pub fn write(&mut self, bytes: &[u8]) -> Result<(), Failed> {
        self.file.write_all(bytes).and_then(|()| self.file.sync_all()).map_err(unwritten)
    }

    pub fn keep(self) -> Result<(), Failed> {
        std::fs::rename(&self.name, self.path).map_err(unwritten)
    }
}

impl Drop for Draft<'_> {
    fn drop(&mut self) {
        remove_draft();
    }
}

/// Makes the folders that a file stands in.
pub fn make_folders(path: &Path) -> Result<(), Failed> {
    path.parent().map_or(Ok(()), std::fs::create_dir_all).map_err(unwritten)
}

/// Where a path leads, also one with folders that aren't there yet.
pub fn led_to(path: &Path) -> PathBuf {
    std::fs::canonicalize(path).unwrap_or_else(|_| match (path.parent(), path.file_name()) {
        (Some(parent), Some(name)) => led_to(if parent == Path::new("") { Path::new(".") } else { parent }).join(name),
        _ => path.to_path_buf(),
    })
}

/// What is looked for in a folder.
#[derive(Clone, Copy)]
pub struct Look {
    /// Only in the folder itself.
    pub flat: bool,
    /// Blobs, and not sheets.
    pub blobs: bool,
}

impl Look {
    /// Does the name end as a sheet file's or a blob file's does, or as a GeoPackage's?
    fn is_name(self, path: &Path) -> bool {
        let end = if self.blobs { b".gpb" } else { b".wkb" };
        let name = path.as_os_str().as_bytes();
        geopackage::is_name(path.as_os_str()) || name.len() >= 4 && name[name.len() - 4..].eq_ignore_ascii_case(end)
    }

    /// Why a file is passed over whose name ends otherwise.
    fn other_name(self) -> &'static str {
        if self.blobs {
            "its name doesn't end in .gpb or .gpkg"
        } else {
            "its name doesn't end in .wkb or .gpkg"
        }
    }

    /// Why a folder without such files could not be read.
    fn nothing(self) -> &'static str {
        if self.blobs {
            "there is no blob in it, no file whose name ends in .gpb or .gpkg"
        } else {
            "there is no sheet in it, no file whose name ends in .wkb or .gpkg"
        }
    }
}

/// What the words of the command come to, in their order, and the folders still to be looked into.
#[derive(Default)]
pub struct Found {
    pub candidates: Vec<Candidate>,
    pub passed: Vec<Passed>,
    folders: Vec<PathBuf>,
}

impl Found {
    fn take(&mut self, name: impl Into<OsString>) {
        self.candidates.push(Candidate { name: name.into(), unread: None });
    }

    fn unread(&mut self, name: impl Into<OsString>, why: impl Into<String>) {
        self.candidates.push(Candidate { name: name.into(), unread: Some(why.into()) });
    }

    fn pass(&mut self, name: impl Into<OsString>, why: &'static str) {
        self.passed.push(Passed { name: name.into(), why });
    }

    /// Puts a thing in a folder where it belongs. A link stands for what it leads to; one that leads nowhere stands for a file.
    fn place(&mut self, path: PathBuf, kind: FileType, look: Look) {
        let there = if kind.is_symlink() { std::fs::metadata(&path).ok().map(|there| there.file_type()) } else { Some(kind) };
        let folder = there.is_some_and(|there| there.is_dir());
        match there.and_then(irregular) {
            Some(_) if folder && kind.is_symlink() => self.pass(path, "it is a link to a folder"),
            Some(_) if folder && !look.flat => self.folders.push(path),
            Some(_) if folder && !look.is_name(&path) => self.pass(path, "it is a folder, and --flat leaves those out"),
            Some(why) => self.unread(path, why),
            None if look.is_name(&path) => self.take(path),
            None => self.pass(path, look.other_name()),
        }
    }

    /// Goes over what one folder has in it.
    fn look_into(&mut self, folder: &Path, look: Look) {
        let entries = match std::fs::read_dir(folder) {
            Ok(entries) => entries,
            Err(error) => return self.unread(folder, reason(&error)),
        };
        for entry in entries {
            match entry.and_then(|entry| Ok((entry.path(), entry.file_type()?))) {
                Ok((path, kind)) => self.place(path, kind, look),
                Err(error) => self.unread(folder, reason(&error)),
            }
        }
    }
}

/// The sheet files of a folder and of those below it, by the bytes of their paths.
fn of_folder(folder: &Path, look: Look) -> Found {
    let mut found = Found { folders: vec![folder.to_path_buf()], ..Found::default() };
    while let Some(next) = found.folders.pop() {
        found.look_into(&next, look);
    }
    if found.candidates.is_empty() {
        found.unread(folder, look.nothing());
    }
    found.candidates.sort_by(|a, b| a.name.as_bytes().cmp(b.name.as_bytes()));
    found.passed.sort_by(|a, b| a.name.as_bytes().cmp(b.name.as_bytes()));
    found
}

/// What the paths of the command come to: a folder stands for the sheet files in it, anything else for itself.
pub fn find(paths: &[OsString], look: Look) -> Found {
    let mut found = Found::default();
    for path in paths {
        if path != "-" && Path::new(path).is_dir() {
            let below = of_folder(Path::new(path), look);
            found.candidates.extend(below.candidates);
            found.passed.extend(below.passed);
        } else {
            found.take(path);
        }
    }
    found
}
