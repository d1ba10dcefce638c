//! The loading gate: one verdict line for each sheet file, a summary, and an exit status. Sheets are checked on all cores, and the lines come in a fixed order. Or
//! sheets are written after repair, one by one.
mod files;
mod geopackage;
mod lines;
mod memory;
mod names;
mod repair;

use std::collections::{BTreeMap, BTreeSet};
use std::ffi::{OsStr, OsString};
use std::io::{self, IsTerminal, Write};
use std::os::unix::ffi::OsStrExt;
use std::path::{Path, PathBuf};
use std::process::exit;
use std::sync::mpsc;
use std::time::Duration;

use clap::builder::{NonEmptyStringValueParser, TypedValueParser};
use clap::error::{ContextKind, ContextValue, ErrorKind};
use clap::{Arg, ArgAction};
use indicatif::{ProgressBar, ProgressDrawTarget, ProgressStyle};
use rayon::iter::{ParallelBridge, ParallelIterator};
use rayon::{ThreadPool, ThreadPoolBuilder};

use files::{Candidate, Draft, Failed, Look};
use geopackage::Chosen;
use lines::{Name, Outcome};
use names::shown;
use sheets::{Mode, Way};

const HELP: &str = "usage: gate [--json] [--flat] [--older] [--blob] [--longest] [--repair OUT] [--table NAME] [--column NAME] [--where-id N] PATH..
Checks sheet files on all cores, and prints a verdict line for each, in the order of the command, and a summary.
  FILE: clean, FILE: repair, FILE: refused CODE ITEM: WHY, or FILE: could not be read: WHY
With the codes 1 to 8 it is refused CODE ITEM at byte N: WHY, where N is the place of the fault in the file, 0 for its first byte.
PATH is a regular file, - for standard input, or a folder: its files whose names end in .wkb or .gpkg, and those of the folders below it, by the bytes of
their paths. A file whose name ends in .gpkg is a GeoPackage: the blob in each row of its geometry columns is a sheet, FILE/TABLE/ID. What is passed over in a folder is said on standard error and counted in the summary; a folder without a sheet could not be read.
  --json       one JSON object on a line for each file, and one for the summary
  --flat       only the files of a folder itself
  --older      the sheets are of the older edition: rings that run the wrong way are turned
  --blob       each file is a geometry blob of a GeoPackage table, with a sheet in it; in a folder their names end in .gpb or .gpkg
  --longest    gaps go to the polygon that they share the longest boundary with, and not by priority; verdicts are the same
  --repair OUT writes the one sheet named with its polygons after repair to OUT, a blob as a blob, a GeoPackage as a copy of it; those of a folder to the folder OUT, under
               the names that they have: FILE: clean, FILE: repaired, FILE: repaired without polygon NUMBER.., FILE: over the limits: WHY,
               FILE: could not be written to OUT: WHY, or its line as without it
  --table NAME, --column NAME, --where-id N
               of GeoPackages only the rows of this table, of this geometry column, with this id
  -h, --help   this text
  --version    the version
  --           every word behind it is a path
A file whose name begins with a dash is written ./-name, or behind --.
Exit status: 0 all sheets are clean, 1 one needs repair, 2 one is refused, 3 one could not be read; the highest counts.
With --repair it is 0 where every sheet is written, 1 where one is without a polygon that has no ground left, 2 where one is refused or over the limits, 3 where
one could not be read or written.
";

/// The status of a sheet that could not be read, and of a command that can't be followed.
const UNREADABLE: i32 = 3;

/// How many sheets are read before the line of the first of them is printed.
const AHEAD: usize = 4096;

/// When the progress line begins; a delivery that takes no longer has none.
const PROGRESS_AFTER: Duration = Duration::from_secs(1);

/// A message; where standard error can't be written, nobody is there to be told.
fn say(text: &str) {
    let _ = io::stderr().write_all(text.as_bytes());
}

/// Writes a text at once, so that it is kept whatever ends the program.
fn put(text: &str) {
    let mut out = io::stdout().lock();
    if let Err(error) = out.write_all(text.as_bytes()).and_then(|()| out.flush()) {
        refuse(&format!("standard output could not be written: {}", files::reason(&error)));
    }
}

/// What the command asks for.
struct Command {
    json: bool,
    flat: bool,
    mode: Mode,
    way: Way,
    chosen: Chosen,
    repair: Option<OsString>,
    paths: Vec<OsString>,
}

/// Takes a value of any bytes, but for none.
#[derive(Clone)]
struct AnyBytes;

impl TypedValueParser for AnyBytes {
    type Value = OsString;

    fn parse_ref(&self, command: &clap::Command, option: Option<&Arg>, value: &OsStr) -> Result<OsString, clap::Error> {
        if value.is_empty() {
            NonEmptyStringValueParser::new().parse_ref(command, option, value)?;
        }
        Ok(value.to_os_string())
    }
}

impl Command {
    /// The words that the command takes.
    fn words() -> clap::Command {
        let flag = |name| Arg::new(name).long(name).action(ArgAction::SetTrue);
        let name = |name| Arg::new(name).long(name).action(ArgAction::Set).allow_hyphen_values(true).value_parser(NonEmptyStringValueParser::new());
        let paths = Arg::new("PATH").num_args(1..).required(true).value_parser(clap::value_parser!(OsString));
        clap::Command::new("gate")
            .disable_version_flag(true)
            .args_override_self(true)
            .args(["json", "flat", "older", "blob", "longest"].map(flag))
            .args(["table", "column", "where-id"].map(name))
            .arg(name("repair").value_parser(AnyBytes))
            .arg(Arg::new("version").long("version").action(ArgAction::Version))
            .version(env!("CARGO_PKG_VERSION"))
            .arg(paths)
    }

    /// What the words of the command say; a text that is asked for, or a word that can't be followed, ends the program.
    fn of(words: &[OsString]) -> Command {
        let given = match Command::words().no_binary_name(true).try_get_matches_from(words) {
            Ok(given) => given,
            Err(error) => match error.kind() {
                ErrorKind::DisplayHelp => finish(HELP),
                ErrorKind::DisplayVersion => finish(concat!("gate ", env!("CARGO_PKG_VERSION"), "\n")),
                _ => refuse(&misled(words, &error)),
            },
        };
        // A verdict is told before gaps are filled: it is the same with --longest and without.
        let way = if given.get_flag("longest") { Way::Longest } else { Way::Priority };
        let mut mode = Mode::Present;
        if given.get_flag("older") {
            mode = mode.older();
        }
        if given.get_flag("blob") {
            mode = mode.of_blobs();
        }
        let named = |name| given.get_one::<String>(name).cloned();
        let number = |id: String| id.parse().ok().filter(|_| !id.starts_with('+'));
        let id = named("where-id").map(|id| number(id).unwrap_or_else(|| refuse("the option --where-id takes a whole number: see gate --help")));
        let chosen = Chosen { table: named("table"), column: named("column"), id };
        let paths: Vec<OsString> = given.get_many("PATH").into_iter().flatten().cloned().collect();
        let repair = given.get_one::<OsString>("repair").cloned();
        if repair.is_some() && paths.len() > 1 {
            refuse("with --repair one file or one folder can be named, and not several: see gate --help");
        }
        if repair.as_ref().is_some_and(|out| out == "-") {
            refuse("the option --repair takes the name of a file or a folder, which - is not: see gate --help");
        }
        Command { json: given.get_flag("json"), flat: given.get_flag("flat"), mode, way, chosen, repair, paths }
    }

    /// The one folder that is named, if it is one.
    fn folder(&self) -> Option<&Path> {
        self.paths.first().map(Path::new).filter(|path| *path != Path::new("-") && path.is_dir())
    }
}

/// Why the words of the command can't be followed.
fn misled(words: &[OsString], error: &clap::Error) -> String {
    let option = match error.get(ContextKind::InvalidArg) {
        Some(ContextValue::String(option)) => option.as_str(),
        _ => "",
    };
    match error.kind() {
        ErrorKind::MissingRequiredArgument => "no file and no folder is named: see gate --help".to_string(),
        ErrorKind::TooManyValues => format!("the option {option} takes no value: see gate --help"),
        ErrorKind::InvalidValue => format!("the option {} takes a value: see gate --help", option.split(' ').next().unwrap_or_default()),
        _ => {
            let word = words.iter().filter(|word| word.to_string_lossy().starts_with(option)).min_by_key(|word| word.len());
            let name = shown(word.map_or(option.as_bytes(), |word| word.as_bytes()));
            format!("there is no option {name}: see gate --help; a file of that name is written ./{name} or behind --")
        }
    }
}

/// Prints a text that was asked for.
fn finish(text: &str) -> ! {
    put(text);
    exit(0)
}

/// Ends with the reason why the command can't be followed, or not any farther.
fn refuse(why: &str) -> ! {
    say(&format!("gate: {why}\n"));
    files::remove_draft();
    exit(UNREADABLE)
}

/// A sheet to be checked: in a file, at hand as a blob, or one that can't be read.
enum Source {
    File,
    Blob(Vec<u8>),
    Unread(String),
}

fn check(name: &Name, source: Source, mode: Mode) -> Outcome {
    match source {
        Source::File => files::read(name.file).map_or_else(Outcome::Unread, |sheet| Outcome::of(&sheet, mode)),
        Source::Blob(blob) => Outcome::of(&blob, mode.of_blobs()),
        Source::Unread(why) => Outcome::Unread(why),
    }
}

/// Hands the sheets of all candidates on, in order: a file by itself, a GeoPackage row by row, as far as somebody takes them.
fn hand_out<'a>(candidates: &'a [Candidate], chosen: &Chosen, mut take: impl FnMut(Name<'a>, Source)) {
    for Candidate { name: file, unread } in candidates {
        let name = |row| Name { file, row };
        match unread {
            Some(why) => take(name(None), Source::Unread(why.clone())),
            None if !geopackage::is_name(file) => take(name(None), Source::File),
            None => {
                let each = |row, found: geopackage::Found| {
                    take(name(Some(row)), found.map_or_else(Source::Unread, Source::Blob));
                    None
                };
                if let Err(Failed::Unread(why) | Failed::Unwritten(why)) = geopackage::each_row(file, chosen, None, each) {
                    take(name(None), Source::Unread(why));
                }
            }
        }
    }
}

/// Hands outcomes on by their places, each as soon as all before it are there.
fn in_order<'a>(outcomes: mpsc::Receiver<(usize, Name<'a>, Outcome)>, mut ready: impl FnMut(Name<'a>, Outcome)) {
    let mut early = BTreeMap::new();
    let mut next = 0;
    for (place, name, outcome) in outcomes {
        early.insert(place, (name, outcome));
        while let Some((name, outcome)) = early.remove(&next) {
            ready(name, outcome);
            next += 1;
        }
    }
}

/// So many threads with the stack that the library needs, or one where the system doesn't give as many.
fn threads(count: usize) -> ThreadPool {
    let started = |count| ThreadPoolBuilder::new().num_threads(count).stack_size(2 * sheets::STACK).build();
    started(count).or_else(|_| started(1)).unwrap_or_else(|error| refuse(&format!("no thread could be started: {error}")))
}

/// Checks all candidates, each core taking the next sheet, and hands the outcomes on in order. One thread reads GeoPackages, no farther ahead than is said.
fn check_all<'a>(candidates: &'a [Candidate], command: &Command, mut ready: impl FnMut(Name<'a>, Outcome)) {
    let cores = std::thread::available_parallelism().map_or(1, |n| n.get()).min(counted(candidates).unwrap_or(usize::MAX));
    let (sheets, taken) = mpsc::sync_channel(2 * cores);
    let (sender, receiver) = mpsc::channel();
    let (begun, ended) = mpsc::sync_channel(AHEAD);
    let hand_on = move || hand_out(candidates, &command.chosen, |name, source| drop((begun.send(()), sheets.send((name, source)))));
    std::thread::scope(|scope| {
        let reader = std::thread::Builder::new().spawn_scoped(scope, hand_on);
        reader.unwrap_or_else(|error| refuse(&format!("no thread could be started: {error}")));
        threads(cores).in_place_scope(|scope| {
            scope.spawn(move |_| {
                let each = taken.into_iter().enumerate().par_bridge();
                each.for_each_with(sender, |outcomes, (place, (name, source))| {
                    let outcome = check(&name, source, command.mode);
                    drop(outcomes.send((place, name, outcome)));
                });
            });
            in_order(receiver, |name, outcome| {
                ready(name, outcome);
                let _ = ended.recv();
            });
        });
    });
}

/// Files to be repaired: which these are, the folder whose files they are, if it is one's, and how they are read and their gaps filled.
struct Repair<'a> {
    command: &'a Command,
    folder: Option<&'a Path>,
    inputs: BTreeSet<(u64, u64)>,
}

impl Repair<'_> {
    /// The file that another is repaired into.
    fn target(&self, file: &OsStr, out: &Path) -> PathBuf {
        let below = self.folder.and_then(|folder| Path::new(file).strip_prefix(folder).ok());
        below.map_or(PathBuf::from(out), |below| out.join(below))
    }

    /// A file to be written, in a folder that is made where a folder is repaired.
    fn draft<'a>(&self, out: &'a Path) -> Result<Draft<'a>, Failed> {
        if self.folder.is_some() {
            files::make_folders(out)?;
        }
        Draft::of(out)
    }

    /// Repairs a file into another of its kind, and hands on what became of its sheets.
    fn file<'a>(&self, file: &'a OsStr, out: &Path, ready: &mut dyn FnMut(Name<'a>, Outcome)) {
        let package = geopackage::is_name(file);
        let expected = match (package, geopackage::is_name(out.as_os_str())) {
            (true, false) => Err(Failed::Unwritten("a GeoPackage's name ends in .gpkg".to_string())),
            (false, true) => Err(Failed::Unwritten("a name that ends in .gpkg is a GeoPackage's".to_string())),
            _ => files::expect_writable(out, &self.inputs),
        };
        let repaired = expected.and_then(|()| if package { self.rows(file, out, ready) } else { self.sheet(file, out, ready) });
        let name = Name { file, row: None };
        match repaired {
            Ok(()) => (),
            Err(Failed::Unread(why)) => ready(name, Outcome::Unread(why)),
            Err(Failed::Unwritten(why)) => ready(name, Outcome::Unwritten(out.into(), why)),
        }
    }

    /// Repairs the sheet in a file; nothing is written where it isn't repaired.
    fn sheet<'a>(&self, file: &'a OsStr, out: &Path, ready: &mut dyn FnMut(Name<'a>, Outcome)) -> Result<(), Failed> {
        let mode = self.command.mode;
        let sheet = files::read(file).map_err(Failed::Unread)?;
        let repaired = repair::of(&sheet, mode, self.command.way);
        if let Ok(repaired) = &repaired {
            let mut draft = self.draft(out)?;
            draft.write(&repaired.bytes)?;
            let again = files::read(draft.name.as_os_str()).map_err(Failed::Unwritten)?;
            expect_wanted(&again, mode, &repaired.areas)?;
            draft.keep()?;
        }
        ready(Name { file, row: None }, Outcome::after(&sheet, mode, &repaired));
        Ok(())
    }

    /// Repairs the rows of a GeoPackage in a copy of it; the others stay as they are.
    fn rows<'a>(&self, file: &'a OsStr, out: &Path, ready: &mut dyn FnMut(Name<'a>, Outcome)) -> Result<(), Failed> {
        let (mode, chosen) = (self.command.mode.of_blobs(), &self.command.chosen);
        let draft = self.draft(out)?;
        let mut wanted: Vec<Option<Vec<i64>>> = Vec::new();
        geopackage::each_row(file, chosen, Some(&draft.name), |row, found| {
            let can_change = row.can_change;
            let name = Name { file, row: Some(row) };
            let repaired = match found {
                Err(why) => {
                    ready(name, Outcome::Unread(why));
                    None
                }
                Ok(sheet) => {
                    let repaired = repair::of(&sheet, mode, self.command.way);
                    let fixed = repaired.is_ok() && !can_change;
                    let why = || Outcome::Unwritten(out.into(), "its table is a view, or has no row numbers".to_string());
                    ready(name, if fixed { why() } else { Outcome::after(&sheet, mode, &repaired) });
                    repaired.ok().filter(|_| can_change)
                }
            };
            let (areas, blob) = repaired.map(|repaired| (repaired.areas, repaired.bytes)).unzip();
            wanted.push(areas);
            blob
        })?;
        let (mut again, mut wrong) = (wanted.into_iter(), None);
        geopackage::each_row(draft.name.as_os_str(), chosen, None, |_, found| {
            if let Some(Some(areas)) = again.next() {
                wrong = wrong.take().or(expect_wanted(&found.unwrap_or_default(), mode, &areas).err());
            }
            None
        })?;
        let lost = again.next().map(|_| not_wanted());
        wrong.or(lost).map_or(Ok(()), Err)?;
        draft.keep()
    }
}

/// What was written, read again, must be the sheet that was to be.
fn expect_wanted(bytes: &[u8], mode: Mode, areas: &[i64]) -> Result<(), Failed> {
    match repair::is_clean(bytes, mode, areas) {
        true => Ok(()),
        false => Err(not_wanted()),
    }
}

fn not_wanted() -> Failed {
    Failed::Unwritten("what was written is not the sheet after repair".to_string())
}

/// The folder that the files of a folder are repaired into.
fn expect_folder(out: &Path, folder: &Path) {
    if out.exists() && !out.is_dir() {
        refuse(&format!("the files of a folder are repaired into a folder, and {} is none", shown(out.as_os_str().as_bytes())));
    }
    if files::led_to(out).starts_with(files::led_to(folder)) {
        refuse("the files of a folder are repaired into a folder outside of it: see gate --help");
    }
}

/// Repairs all candidates into a file, or those of a folder into another one, one after the other, and hands the outcomes on.
fn repair_all<'a>(candidates: &'a [Candidate], command: &Command, out: &Path, mut ready: impl FnMut(Name<'a>, Outcome) + Send) {
    let repair = Repair { command, folder: command.folder(), inputs: files::inputs(candidates.iter().map(|candidate| &candidate.name)) };
    threads(1).install(|| {
        for Candidate { name: file, unread } in candidates {
            match unread {
                Some(why) => ready(Name { file, row: None }, Outcome::Unread(why.clone())),
                None => repair.file(file, &repair.target(file, out), &mut ready),
            }
        }
    });
}

/// How many sheets there are; of a GeoPackage it isn't known before its rows are read.
fn counted(candidates: &[Candidate]) -> Option<usize> {
    let packages = candidates.iter().any(|candidate| geopackage::is_name(&candidate.name));
    (!packages).then_some(candidates.len())
}

/// A line that says how far a delivery has come; it is hidden until the delivery is a long one.
fn progress(all: Option<usize>) -> ProgressBar {
    let line = if all.is_some() { "{pos} of {len} sheets checked" } else { "{pos} sheets checked" };
    let bar = ProgressBar::with_draw_target(all.map(|all| all as u64), ProgressDrawTarget::hidden());
    bar.with_style(ProgressStyle::with_template(line).expect("a template"))
}

/// One sheet more is checked. The line is for a terminal, where the verdicts go elsewhere.
fn advance(progress: &ProgressBar) {
    if progress.is_hidden() && progress.elapsed() > PROGRESS_AFTER && !io::stdout().is_terminal() {
        progress.set_draw_target(ProgressDrawTarget::stderr_with_hz(1));
    }
    progress.inc(1);
}

fn main() {
    std::panic::set_hook(Box::new(|panic| refuse(&panic.to_string().replace('\n', " "))));
    memory::end_where_the_system_gives_up();
    let words: Vec<OsString> = std::env::args_os().skip(1).collect();
    let command = Command::of(&words);
    if command.paths.iter().filter(|path| *path == "-").count() > 1 {
        refuse("standard input can be named only once");
    }
    if let (Some(out), Some(folder)) = (&command.repair, command.folder()) {
        expect_folder(Path::new(out), folder);
    }
    let found = files::find(&command.paths, Look { flat: command.flat, blobs: command.mode.is_blob() });
    for passed in &found.passed {
        say(&format!("gate: {}: passed over: {}\n", shown(passed.name.as_bytes()), passed.why));
    }
    let progress = progress(counted(&found.candidates));
    let mut counts = [0; 4];
    let ready = |name: Name, outcome: Outcome| {
        counts[outcome.status()] += 1;
        put(&outcome.line(&name, command.json));
        advance(&progress);
    };
    match &command.repair {
        Some(out) => repair_all(&found.candidates, &command, Path::new(out), ready),
        None => check_all(&found.candidates, &command, ready),
    }
    progress.finish();
    put(&lines::summary(counts, found.passed.len(), command.repair.is_some(), command.json));
    exit(counts.iter().rposition(|count| *count > 0).unwrap_or(0) as i32);
}
