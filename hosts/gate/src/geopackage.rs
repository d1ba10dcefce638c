//! The sheets of a GeoPackage file, row by row: the blobs of its geometry columns, by SQLite, which never writes to the file; a copy of it may have other blobs.
//! docs/DECISIONS.md, "GeoPackage files", says how one is opened, which rows it has, and what their ids are.
use std::ffi::{OsStr, OsString};
use std::os::unix::ffi::OsStrExt;
use std::os::unix::fs::MetadataExt;
use std::path::{Path, PathBuf};
use std::time::Duration;

use rusqlite::backup::{Backup, StepResult};
use rusqlite::config::DbConfig;
use rusqlite::ffi::SQLITE_BUSY;
use rusqlite::types::ValueRef;
use rusqlite::{params, Connection, DatabaseName, Error, ErrorCode, OpenFlags, Row};
use sheets::READ_CAP;

use crate::files::{self, Failed};
use crate::memory;
use crate::names::shown;

/// How long another program that is writing to the file is waited for.
const PATIENCE: Duration = Duration::from_secs(1);

/// What the application id of a GeoPackage says.
const KNOWN: [&[u8; 4]; 3] = [b"GPKG", b"GP10", b"GP11"];

/// Which rows are asked for: those of every table, column and id where none is named.
#[derive(Default)]
pub struct Chosen {
    pub table: Option<String>,
    pub column: Option<String>,
    pub id: Option<i64>,
}

/// A row, or a table where there is no id; and whether it can have another blob in a copy: it can't in a view, and in a table without row numbers.
pub struct Named {
    pub table: Vec<u8>,
    pub id: Option<Vec<u8>>,
    pub can_change: bool,
}

/// What a row has, or why a row or a table could not be read.
pub type Found = Result<Vec<u8>, String>;

/// Does a file's name end as a GeoPackage's does?
pub fn is_name(path: &OsStr) -> bool {
    let name = path.as_bytes();
    name.len() >= 5 && name[name.len() - 5..].eq_ignore_ascii_case(b".gpkg")
}

/// SQLite's own words for an error. Where its memory runs out, the gate ends as where its own does.
fn reason(error: &Error) -> String {
    match error {
        Error::SqliteFailure(code, _) if code.code == ErrorCode::OutOfMemory => memory::end(),
        Error::SqliteFailure(code, _) if code.code == ErrorCode::CannotOpen => "unable to open database file".to_string(),
        Error::SqliteFailure(_, Some(words)) => shown(words.as_bytes()),
        other => shown(other.to_string().as_bytes()),
    }
}

/// What the system tells of a file that is another once its content is.
#[derive(PartialEq)]
struct Seen {
    size: u64,
    which: (u64, u64, i64, i64),
}

fn seen(path: &Path) -> Option<Seen> {
    let found = std::fs::metadata(path).ok()?;
    Some(Seen { size: found.size(), which: (found.dev(), found.ino(), found.mtime(), found.mtime_nsec()) })
}

/// The way to open a file that writes nothing, neither to it nor beside it.
#[derive(Clone, Copy, PartialEq)]
enum Way {
    Locked,
    Immutable,
    WithChanges,
}

/// A GeoPackage's file, where it really is, and that of changes which SQLite keeps beside it; both as they were seen.
struct Place {
    file: PathBuf,
    changes: PathBuf,
    seen: (Option<Seen>, Option<Seen>),
}

impl Place {
    fn of(path: &OsStr) -> Result<Place, String> {
        let file = std::fs::canonicalize(path).map_err(|error| files::reason(&error))?;
        let mut changes = OsString::from(&file);
        changes.push("-wal");
        let seen = (seen(&file), seen(Path::new(&changes)));
        Ok(Place { file, changes: changes.into(), seen })
    }

    fn is_changed(&self) -> bool {
        (seen(&self.file), seen(&self.changes)) != self.seen
    }

    fn way(&self) -> Result<Way, String> {
        let header = files::read(self.file.as_os_str())?;
        let keeps_changes = header.get(18) == Some(&2) || header.get(19) == Some(&2);
        Ok(match &self.seen.1 {
            Some(changes) if changes.size > 0 && !header.is_empty() => Way::WithChanges,
            None if !keeps_changes => Way::Locked,
            _ => Way::Immutable,
        })
    }

    fn uri(&self, way: Way) -> String {
        let settings = match way {
            Way::Locked => "mode=ro",
            Way::Immutable => "immutable=1",
            Way::WithChanges => "mode=ro&vfs=unix-none",
        };
        uri(&self.file, settings)
    }
}

/// The path as SQLite takes it with settings behind it.
fn uri(file: &Path, settings: &str) -> String {
    let escaped = |byte: &u8| if *byte == b'/' { "/".to_string() } else { format!("%{byte:02x}") };
    let path: String = file.as_os_str().as_bytes().iter().map(escaped).collect();
    format!("file://{path}?{settings}")
}

/// Opens a database and sets it up.
fn open(place: &Place) -> Result<Connection, String> {
    let way = place.way()?;
    let flags = OpenFlags::SQLITE_OPEN_READ_ONLY | OpenFlags::SQLITE_OPEN_URI | OpenFlags::SQLITE_OPEN_NO_MUTEX;
    let set_up = || {
        let base = Connection::open_with_flags(place.uri(way), flags)?;
        base.busy_timeout(PATIENCE)?;
        base.set_db_config(DbConfig::SQLITE_DBCONFIG_NO_CKPT_ON_CLOSE, true)?;
        if way == Way::WithChanges {
            base.execute_batch("PRAGMA locking_mode = EXCLUSIVE")?;
        }
        base.execute_batch("PRAGMA trusted_schema = OFF; BEGIN")?;
        Ok(base)
    };
    set_up().map_err(|error| reason(&error))
}

/// Is it a GeoPackage?
fn expect_geopackage(base: &Connection) -> Result<(), String> {
    let id: i32 = base.query_row("PRAGMA application_id", [], |row| row.get(0)).map_err(|error| reason(&error))?;
    match KNOWN.iter().any(|known| known[..] == id.to_be_bytes()) {
        true => Ok(()),
        false => Err(format!("its application id is 0x{id:08x}, which is no GeoPackage's")),
    }
}

/// A geometry column, and its table's name as it is printed: with the column where the table has several.
struct Column {
    table: Vec<u8>,
    column: Vec<u8>,
    shown: Vec<u8>,
}

/// The bytes of a text.
fn text(row: &Row, column: usize) -> rusqlite::Result<Vec<u8>> {
    Ok(match row.get_ref(column)? {
        ValueRef::Text(text) => text.to_vec(),
        _ => b"NULL".to_vec(),
    })
}

fn columns(base: &Connection, chosen: &Chosen) -> rusqlite::Result<Vec<Column>> {
    let mut found = base.prepare(
        "WITH named AS (SELECT DISTINCT coalesce(CAST(table_name AS TEXT), '') AS t, coalesce(CAST(column_name AS TEXT), '') AS c FROM gpkg_geometry_columns)
        SELECT t, c, t || CASE WHEN (SELECT count(*) FROM named AS n WHERE n.t = named.t) > 1 THEN '.' || c ELSE '' END FROM named
        WHERE (?1 IS NULL OR t = ?1 COLLATE NOCASE) AND (?2 IS NULL OR c = ?2 COLLATE NOCASE) ORDER BY t COLLATE BINARY, c COLLATE BINARY",
    )?;
    let rows = found
        .query_map(params![chosen.table, chosen.column], |row| Ok(Column { table: text(row, 0)?, column: text(row, 1)?, shown: text(row, 2)? }))?;
    rows.collect()
}

/// A name as SQL has it.
fn quoted(name: &str) -> String {
    format!("\"{}\"", name.replace('"', "\"\""))
}

/// The answers of a statement about a table, one text each.
fn told(base: &Connection, sql: &str, table: &str) -> rusqlite::Result<Vec<String>> {
    let mut found = base.prepare(sql)?;
    let texts = found.query_map([table], |row| row.get(0))?.collect();
    texts
}

/// How SQL names a table's rows: the number that SQLite has for each, NULL where it has none, and the id.
struct Rows {
    number: String,
    id: String,
}

fn rows_of(base: &Connection, table: &str) -> rusqlite::Result<Rows> {
    let free =
        "SELECT column1 FROM (VALUES ('rowid'), ('_rowid_'), ('oid')) WHERE lower(column1) NOT IN (SELECT lower(name) FROM pragma_table_info(?1))
        AND NOT EXISTS (SELECT 1 FROM sqlite_master WHERE type = 'view' AND name = ?1 COLLATE NOCASE) LIMIT 1";
    let numbered = |name: &String| base.prepare(&format!("SELECT t.{name} FROM {} AS t", quoted(table))).is_ok();
    let number = told(base, free, table)?.into_iter().find(numbered).map_or("NULL".to_string(), |name| format!("t.{name}"));
    let key = told(base, "SELECT name FROM pragma_table_info(?1) WHERE pk > 0", table)?;
    let first = told(base, "SELECT name FROM pragma_table_info(?1) WHERE cid = 0", table)?;
    let id = match (&key[..], &first[..]) {
        ([key], _) => format!("t.{}", quoted(key)),
        (_, [first]) if number == "NULL" => format!("t.{}", quoted(first)),
        _ => number.clone(),
    };
    Ok(Rows { number, id })
}

/// The first bytes of a row whose blob is longer than reading looks at.
fn first_bytes(base: &Connection, table: &str, column: &str, row: i64) -> rusqlite::Result<Vec<u8>> {
    let mut bytes = vec![0; READ_CAP];
    base.blob_open(DatabaseName::Main, table, column, row, true)?.read_at_exact(&mut bytes, 0)?;
    Ok(bytes)
}

/// A copy of a GeoPackage whose blobs are changed, all of them at once or none. Its pages are those of the file, with the changes that stand beside it. No trigger
/// is run: what keeps an index of frames asks for functions that SQLite has not, and the frames stay.
struct Copy(Connection);

impl Copy {
    fn of(base: &Connection, name: &Path) -> rusqlite::Result<Copy> {
        let flags = OpenFlags::SQLITE_OPEN_READ_WRITE | OpenFlags::SQLITE_OPEN_URI | OpenFlags::SQLITE_OPEN_NO_MUTEX;
        let opened = || Connection::open_with_flags(uri(&files::led_to(name), "mode=rw"), flags);
        if !matches!(Backup::new(base, &mut opened()?)?.step(-1)?, StepResult::Done) {
            return Err(Error::SqliteFailure(rusqlite::ffi::Error::new(SQLITE_BUSY), Some("database is locked".to_string())));
        }
        let copy = opened()?;
        copy.set_db_config(DbConfig::SQLITE_DBCONFIG_ENABLE_TRIGGER, false)?;
        copy.execute_batch("PRAGMA journal_mode = MEMORY; PRAGMA trusted_schema = OFF; BEGIN")?;
        Ok(Copy(copy))
    }

    fn put(&self, table: &str, column: &str, (name, number): (&str, i64), blob: &[u8]) -> rusqlite::Result<()> {
        let change = format!("UPDATE {} AS t SET {} = ?1 WHERE {name} = ?2", quoted(table), quoted(column));
        self.0.execute(&change, params![blob, number]).map(|_| ())
    }
}

/// A name that a statement can have in it.
fn name_of(bytes: &[u8]) -> Result<&str, String> {
    let name = std::str::from_utf8(bytes).ok().filter(|name| !name.contains('\0'));
    name.ok_or("its name isn't text that a statement can have".to_string())
}

/// What is done with a row, or with a row or a table that could not be read: it may answer the blob that a copy is to have in its place.
type Take<'a> = dyn FnMut(Named, Found) -> Option<Vec<u8>> + 'a;

/// Puts a blob into a copy, in the row whose number, by its name, is this one; whether it was done.
type Change<'a> = dyn FnMut((&str, i64), &[u8]) -> bool + 'a;

/// Goes over the rows of one column, and puts what is answered into the copy.
fn each_of(base: &Connection, names: &Column, chosen: &Chosen, copy: Option<&Copy>, take: &mut Take) -> Result<(), Failed> {
    let table = name_of(&names.table).map_err(Failed::Unread)?;
    let column = name_of(&names.column).map_err(Failed::Unread)?;
    let mut failed = None;
    let mut change = |row: (&str, i64), blob: &[u8]| match copy.map_or(Ok(()), |copy| copy.put(table, column, row, blob)) {
        Ok(()) => true,
        Err(error) => {
            failed = Some(Failed::Unwritten(reason(&error)));
            false
        }
    };
    let read = each_row_of(base, names, (table, column), chosen, take, &mut change);
    failed.map_or(read.map_err(|error| Failed::Unread(reason(&error))), Err)
}

/// The rows as SQLite gives them: of each the id, and a blob, or the number of a row with one longer than is looked at, or NULL where such a row has no number.
fn each_row_of(
    base: &Connection,
    names: &Column,
    (table, column): (&str, &str),
    chosen: &Chosen,
    take: &mut Take,
    change: &mut Change,
) -> rusqlite::Result<()> {
    let Rows { number, id } = rows_of(base, table)?;
    let geometry = format!("t.{}", quoted(column));
    let asked = if chosen.id.is_some() { format!("WHERE {id} = ?1") } else { String::new() };
    let mut found = base.prepare(&format!(
        "SELECT CAST({id} AS TEXT), CASE WHEN typeof({geometry}) = 'blob' AND length({geometry}) > {READ_CAP} THEN {number}
        ELSE coalesce(CAST({geometry} AS BLOB), x'') END, {number} FROM {} AS t {asked} ORDER BY {id}",
        quoted(table)
    ))?;
    let mut rows = match chosen.id {
        Some(id) => found.query([id])?,
        None => found.query([])?,
    };
    while let Some(row) = rows.next()? {
        let place: Option<i64> = row.get(2)?;
        let named = Named { table: names.shown.clone(), id: Some(text(row, 0)?), can_change: place.is_some() };
        let bytes = match row.get_ref(1)? {
            ValueRef::Blob(bytes) => Ok(bytes.to_vec()),
            ValueRef::Integer(number) => first_bytes(base, table, column, number).map_err(|error| reason(&error)),
            _ => Err("string or blob too big".to_string()),
        };
        if let (Some(other), Some(place)) = (take(named, bytes), place) {
            if !change((&number, place), &other) {
                break;
            }
        }
    }
    Ok(())
}

/// Goes over the rows by table and id. An error is the whole file's: it is no GeoPackage, has no such row, or was changed meanwhile. Where a copy is named, an empty
/// file, it is the file with the blobs that were answered; else it is the error that it can't be made.
pub fn each_row(path: &OsStr, chosen: &Chosen, copy: Option<&Path>, mut take: impl FnMut(Named, Found) -> Option<Vec<u8>>) -> Result<(), Failed> {
    let unwritten = |error: Error| Failed::Unwritten(reason(&error));
    let place = Place::of(path).map_err(Failed::Unread)?;
    let mut count = 0;
    let mut counted = |named, found| {
        count += 1;
        take(named, found)
    };
    {
        let base = open(&place).map_err(Failed::Unread)?;
        expect_geopackage(&base).map_err(Failed::Unread)?;
        let copy = copy.map(|name| Copy::of(&base, name)).transpose().map_err(unwritten)?;
        for column in columns(&base, chosen).map_err(|error| Failed::Unread(reason(&error)))? {
            match each_of(&base, &column, chosen, copy.as_ref(), &mut counted) {
                Err(Failed::Unread(why)) => drop(counted(Named { table: column.shown, id: None, can_change: false }, Err(why))),
                other => other?,
            }
        }
        copy.map_or(Ok(()), |Copy(copy)| copy.execute_batch("COMMIT")).map_err(unwritten)?;
    }
    match () {
        () if place.is_changed() => Err(Failed::Unread("it was changed while it was read".to_string())),
        () if count == 0 => Err(Failed::Unread("there is no row to check in it".to_string())),
        () => Ok(()),
    }
}
