//! Object stores, over `packtool`, which runs beside this process and is asked through pipes.

use crate::{Code, Error, Id, Kind, Prefix};
use std::collections::{HashMap, VecDeque};
use std::ffi::OsString;
use std::fs::{self, File};
use std::io::{self, BufRead, BufReader, Write};
use std::os::raw::{c_char, c_int, c_uint};
use std::os::unix::ffi::OsStringExt;
use std::os::unix::fs::{FileExt, PermissionsExt};
use std::os::unix::io::FromRawFd;
use std::os::unix::process::{CommandExt, ExitStatusExt};
use std::path::{Path, PathBuf};
use std::process::{Child, ChildStdin, ChildStdout, Command, Output, Stdio};
use std::sync::mpsc::{sync_channel, SyncSender};
use std::sync::{Mutex, MutexGuard, PoisonError};
use std::{env, fmt, thread};

/// Why a look-up failed.
#[derive(Debug)]
#[non_exhaustive]
pub enum StoreError {
    /// No id of the store begins with the prefix. `skipped` is the number of parts of the store that were left out.
    Missing { prefix: Prefix, skipped: usize },
    /// Several ids of the store begin with the prefix: these, in order.
    Ambiguous { prefix: Prefix, ids: Vec<Id> },
    /// The prefix has one digit (`BadLength`), or more than ids of the store (`PrefixTooLong`).
    Prefix { prefix: Prefix, error: Error },
    /// The store cannot be read: the last line that `packtool` printed.
    Failed(String),
    /// The directory is not there, or `packtool` cannot be run or asked.
    Program(io::Error),
}

impl fmt::Display for StoreError {
    fn fmt(&self, f: &mut fmt::Formatter<'_>) -> fmt::Result {
        match self {
            StoreError::Missing { prefix, skipped: 0 } => write!(f, "no id begins with {prefix}"),
            StoreError::Missing { prefix, skipped } => {
                let parts = if *skipped == 1 { "part" } else { "parts" };
                write!(f, "no id begins with {prefix} ({skipped} {parts} of the store left out: see skipped)")
            }
            StoreError::Ambiguous { prefix, ids } => write!(f, "{} ids begin with {prefix}", ids.len()),
            StoreError::Prefix { prefix, error: Error { code: Code::BadLength, .. } } => {
                write!(f, "{prefix}: a store's prefix has 2 digits or more")
            }
            StoreError::Prefix { prefix, error } => write!(f, "{prefix}: {error}"),
            StoreError::Failed(why) => f.write_str(why),
            StoreError::Program(error) => error.fmt(f),
        }
    }
}

impl std::error::Error for StoreError {}

impl From<io::Error> for StoreError {
    fn from(error: io::Error) -> StoreError {
        StoreError::Program(error)
    }
}

type Result<T> = std::result::Result<T, StoreError>;

/// Where an object is.
#[derive(Debug, Clone, PartialEq, Eq)]
pub struct Location {
    /// The id of the object.
    pub id: Id,
    /// The path of its pack, or of its own file.
    pub path: PathBuf,
    /// Where it begins in the pack, or `None` if it is a loose object.
    pub offset: Option<u64>,
}

/// The object store of a repository: which ids begin with a prefix, where their objects are, and how far ids are
/// abbreviated.
///
/// It asks the program `packtool`, whose version must have the same first two numbers as this crate. It runs the one that the
/// variable `PACKTOOL` names, or otherwise the one in the directory of the running program, or on the `PATH`. A relative path in
/// either variable is not followed, so nothing of the current directory is run. Threads may share a store, which does one
/// look-up of each kind at a time. It finds objects that are added after it was opened. A prefix has 2 digits or more.
///
/// ```no_run
/// # use nunbirdstand::Store;
/// let store = Store::open(".", None)?;
/// let id = store.resolve(&"4b825d".parse().unwrap())?;
/// println!("{} {:?}", store.abbreviate(&id, 7)?, store.locate(&id.into())?);
/// # Ok::<(), nunbirdstand::StoreError>(())
/// ```
pub struct Store {
    program: PathBuf,
    options: Vec<String>,
    directory: PathBuf,
    // Git's variables, as they were when the store was opened, and are for its processes.
    variables: [Option<OsString>; 4],
    kind: Kind,
    skipped: Mutex<Vec<String>>,
    // The processes that are asked in turn, by the place of their command in COMMANDS.
    asked: [Mutex<Option<Process>>; 3],
}

const COMMANDS: [&str; 3] = ["find", "locate", "abbreviate"];
const FIND: usize = 0;
const LOCATE: usize = 1;
const ABBREVIATE: usize = 2;
// An empty line is no prefix, and only what is printed for it begins with a space. So that ends the results of the lines
// before it.
const MARK: &[u8] = b" bad";
// How many lines are looked up at once beside an empty one, and as how many one counts by its number of digits.
const AT_ONCE: usize = 8191;
const COSTS: [usize; 5] = [1024, 1024, 1024, 64, 4];
const VARIABLES: [&str; 4] =
    ["GIT_DIR", "GIT_COMMON_DIR", "GIT_OBJECT_DIRECTORY", "GIT_ALTERNATE_OBJECT_DIRECTORIES"];

impl Store {
    /// The store of the repository at a path, or in the first directory above it that has one. If no kind is given, it is that
    /// of the repository. Git's variables are not read.
    pub fn open(path: impl AsRef<Path>, kind: Option<Kind>) -> Result<Store> {
        Store::new(path.as_ref(), kind, Default::default())
    }

    /// The store that Git would use in this directory, also by its variables.
    pub fn from_env(kind: Option<Kind>) -> Result<Store> {
        Store::new(Path::new("."), kind, VARIABLES.map(env::var_os))
    }

    fn new(path: &Path, kind: Option<Kind>, variables: [Option<OsString>; 4]) -> Result<Store> {
        let options = kind.map_or(Vec::new(), |kind| vec!["--kind".to_owned(), kind.to_string()]);
        let directory = fs::canonicalize(path).map_err(|error| named(path, &error))?;
        let (program, skipped, asked) = (program()?, Mutex::default(), Default::default());
        let mut store = Store { program, options, directory, variables, kind: Kind::Sha256, skipped, asked };
        // (64 digits are a prefix only in a store of SHA-256)
        match store.ask(FIND, &"0".repeat(64).parse().expect("a prefix has 64 digits at most")) {
            Err(StoreError::Prefix { .. }) => store.kind = Kind::Sha1,
            asked => drop(asked?),
        }
        Ok(store)
    }

    /// The kind of the ids.
    #[must_use]
    pub fn kind(&self) -> Kind {
        self.kind
    }

    /// The parts of the store that were left out until now: the path of each, and why.
    #[must_use]
    pub fn skipped(&self) -> Vec<String> {
        locked(&self.skipped).clone()
    }

    /// The ids that begin with a prefix, in order.
    pub fn find(&self, prefix: &Prefix) -> Result<Vec<Id>> {
        self.found(FIND, prefix)?.iter().map(|found| id_of(found)).collect()
    }

    /// The one id that begins with a prefix. The error is `Missing` or `Ambiguous`.
    pub fn resolve(&self, prefix: &Prefix) -> Result<Id> {
        match self.find(prefix)? {
            ids if ids.len() > 1 => Err(StoreError::Ambiguous { prefix: *prefix, ids }),
            ids => ids.first().copied().ok_or_else(|| self.missing(*prefix)),
        }
    }

    fn missing(&self, prefix: Prefix) -> StoreError {
        StoreError::Missing { prefix, skipped: locked(&self.skipped).len() }
    }

    /// Whether the store has an id.
    pub fn contains(&self, id: &Id) -> Result<bool> {
        Ok(id.kind() == self.kind && !self.find(&Prefix::from(*id))?.is_empty())
    }

    /// The locations of the objects whose ids begin with a prefix, in the order of the ids. An object may have several.
    pub fn locate(&self, prefix: &Prefix) -> Result<Vec<Location>> {
        self.found(LOCATE, prefix)?.iter().map(|found| self.location(found)).collect()
    }

    fn location(&self, found: &[u8]) -> Result<Location> {
        let (id, place) = split(found);
        let space = place.iter().rposition(|&byte| byte == b' ').unwrap_or(0);
        // (after the last space of a loose object's path there is a slash)
        let offset =
            std::str::from_utf8(&place[space..]).ok().and_then(|text| text.trim_start().parse().ok());
        let path = if offset.is_some() { &place[..space] } else { place };
        // (it is relative if that of the directory is not UTF-8)
        let path = path.strip_prefix(b"./").unwrap_or(path);
        let path = self.directory.join(OsString::from_vec(path.to_vec()));
        Ok(Location { id: id_of(id)?, path, offset })
    }

    /// The shortest prefix of an id of the store, of `least` digits or more, with which no other id begins. If `least` is
    /// below 4, 4 is used, and if it is more than an id has, as many as that. The error is `Missing` if the store does not have
    /// the id.
    pub fn abbreviate(&self, id: &Id, least: usize) -> Result<String> {
        let prefix = Prefix::from(*id);
        if id.kind() != self.kind {
            return Err(self.missing(prefix));
        }
        let mut digits = id.to_string();
        let name = self.ask(ABBREVIATE, &prefix)?.pop().ok_or_else(|| self.missing(prefix))?;
        digits.truncate(name.len().max(least));
        Ok(digits)
    }

    /// All ids of the store in order, each after its abbreviation, which has `least` digits or more as in `abbreviate`. After
    /// an error there are no more.
    pub fn abbreviations(&self, least: usize) -> Result<Abbreviations<'_>> {
        let least = least.clamp(4, 2 * self.kind.len_in_bytes()).to_string();
        let process = Some(Process::new(self, &["abbreviate", "--least", &least])?);
        Ok(Abbreviations { store: self, process })
    }

    /// Each of many prefixes with the ids that begin with it, in the order of the prefixes. Some 16,000 prefixes are taken
    /// ahead, in the thread that asks for the pairs. The error of a prefix comes after the pairs of those before it. After an
    /// error there are no more.
    pub fn find_many<I>(&self, prefixes: I) -> Result<FindMany<'_, I::IntoIter>>
    where
        I: IntoIterator<Item = Prefix>,
    {
        let mut process = Process::new(self, &["find", "--stdin"])?;
        // (it writes, while this thread reads, and ends when nothing can be written or the sender is gone)
        let (sender, chunks) = sync_channel::<String>(2);
        let mut input = process.input.take();
        thread::Builder::new().name("packtool".to_owned()).spawn(move || {
            let write = |chunk: String| input.as_mut()?.write_all(chunk.as_bytes()).ok();
            chunks.into_iter().map_while(write).for_each(drop);
        })?;
        let prefixes = prefixes.into_iter();
        let (asked, ready) = (VecDeque::new(), VecDeque::new().into_iter());
        Ok(FindMany { store: self, process: Some(process), sender, prefixes, wrong: None, asked, ready })
    }

    // Keeps what a process has skipped. What else it has said is an error.
    fn heed(&self, process: &mut Process) -> Result<()> {
        let mut wrong = None;
        for text in process.messages()? {
            if text.ends_with(", skipped") {
                let mut skipped = locked(&self.skipped);
                if !skipped.contains(&text) {
                    skipped.push(text);
                }
            } else if text.starts_with('/') {
                wrong = Some(text);
            } else {
                // (where it says no path, the whole store is meant)
                wrong = Some(format!("{}: {text}", self.directory.display()));
            }
        }
        wrong.map_or(Ok(()), |text| Err(StoreError::Failed(text)))
    }

    // Why a process has ended that should not have: an error.
    fn ended<T>(&self, process: &mut Process) -> Result<T> {
        let signal = process.child.wait()?.signal();
        self.heed(process)?;
        let by_signal = |number| format!("packtool was ended by the signal {number}");
        Err(StoreError::Failed(signal.map_or("packtool ended".to_owned(), by_signal)))
    }

    // Why a prefix is none of ids of the store, if so.
    fn refusal(&self, prefix: &Prefix) -> Option<StoreError> {
        let code = match prefix.hex_len() {
            0 | 1 => Code::BadLength,
            len if len > 2 * self.kind.len_in_bytes() => Code::PrefixTooLong,
            _ => return None,
        };
        Some(StoreError::Prefix { prefix: *prefix, error: Error { code, detail: 0 } })
    }

    // What is found for a prefix, without the prefix before it.
    fn found(&self, command: usize, prefix: &Prefix) -> Result<Vec<Vec<u8>>> {
        self.refusal(prefix).map_or_else(|| self.ask(command, prefix), Err)
    }

    // The same for a prefix of 2 digits or more. A process in whose results something fails is dropped, which ends it.
    fn ask(&self, command: usize, prefix: &Prefix) -> Result<Vec<Vec<u8>>> {
        let asked = prefix.to_string();
        let mut resting = locked(&self.asked[command]);
        let mut process = match resting.take() {
            Some(process) => process,
            None => Process::new(self, &[COMMANDS[command], "--stdin"])?,
        };
        if let Some(input) = &mut process.input {
            // (if this fails, the process has ended, and has said why)
            let _ = input.write_all(format!("{asked}\n\n").as_bytes());
        }
        let (mut found, mut is_bad, mut has_result) = (Vec::new(), false, false);
        while let Some(line) = process.line()? {
            if line == MARK {
                self.heed(&mut process)?;
                if !has_result {
                    return Err(too_few_lines());
                }
                *resting = Some(process);
                let error = Error { code: Code::PrefixTooLong, detail: 0 };
                return if is_bad { Err(StoreError::Prefix { prefix: *prefix, error }) } else { Ok(found) };
            }
            has_result = true;
            match line.strip_prefix(asked.as_bytes()).and_then(|rest| rest.strip_prefix(b" ")) {
                Some(b"missing") => {}
                Some(b"bad") => is_bad = true,
                Some(rest) => found.push(rest.to_vec()),
                None => found.push(line), // a name
            }
        }
        self.ended(&mut process)
    }
}

impl fmt::Debug for Store {
    fn fmt(&self, f: &mut fmt::Formatter<'_>) -> fmt::Result {
        f.debug_struct("Store")
            .field("directory", &self.directory)
            .field("kind", &self.kind)
            .finish_non_exhaustive()
    }
}

/// All ids of a store, each after its abbreviation.
pub struct Abbreviations<'a> {
    store: &'a Store,
    process: Option<Process>,
}

impl Iterator for Abbreviations<'_> {
    type Item = Result<(String, Id)>;

    fn next(&mut self) -> Option<Self::Item> {
        let line = self.process.as_mut()?.line();
        if let Ok(Some(line)) = line {
            let (name, id) = split(&line);
            return Some(id_of(id).map(|id| (String::from_utf8_lossy(name).into_owned(), id)));
        }
        let mut process = self.process.take()?;
        let ended = match line {
            Err(error) => Err(error),
            // (after all ids it ends with a status, and has said what it skipped)
            Ok(_) => match process.child.wait().map(|status| status.signal()) {
                Ok(None) => self.store.heed(&mut process),
                Ok(_) => self.store.ended(&mut process),
                Err(error) => Err(error.into()),
            },
        };
        ended.err().map(Err)
    }
}

/// What is found for many prefixes.
pub struct FindMany<'a, I> {
    store: &'a Store,
    process: Option<Process>,
    sender: SyncSender<String>,
    prefixes: I,
    // The error of the first prefix that is wrong, which comes after what is asked.
    wrong: Option<StoreError>,
    asked: VecDeque<Chunk>,
    ready: std::collections::vec_deque::IntoIter<(Prefix, Vec<Id>)>,
}

impl<I: Iterator<Item = Prefix>> FindMany<'_, I> {
    // What is found for the next chunk, after the one after it is sent.
    fn refill(&mut self) -> Result<bool> {
        while self.asked.len() < 2 && self.wrong.is_none() {
            let (chunk, lines, wrong) = Chunk::next(self.store, &mut self.prefixes);
            self.wrong = wrong;
            if chunk.prefixes.is_empty() {
                break;
            }
            // (if this fails, the process has ended, and has said why)
            let _ = self.sender.send(lines);
            self.asked.push_back(chunk);
        }
        let (Some(chunk), Some(process)) = (self.asked.pop_front(), &mut self.process) else {
            return self.wrong.take().map_or(Ok(false), Err);
        };
        let mut found: Vec<Vec<Id>> = Vec::new();
        let mut last = Vec::new();
        while let Some(line) = process.line()? {
            if line == MARK {
                self.store.heed(process)?;
                let pair = |(prefix, at): (Prefix, usize)| Some((prefix, found.get(at)?.clone()));
                let pairs: Option<VecDeque<_>> = chunk.prefixes.into_iter().map(pair).collect();
                self.ready = pairs.ok_or_else(too_few_lines)?.into_iter();
                return Ok(true);
            }
            // What is printed has the order of the lines, of which no two are equal.
            let (asked, id) = split(&line);
            if asked != last {
                found.push(Vec::new());
                last.clear();
                last.extend_from_slice(asked);
            }
            match id {
                b"missing" => {}
                id => found.last_mut().expect("a line was begun").push(id_of(id)?),
            }
        }
        self.store.ended(process)
    }
}

impl<I: Iterator<Item = Prefix>> Iterator for FindMany<'_, I> {
    type Item = Result<(Prefix, Vec<Id>)>;

    fn next(&mut self) -> Option<Self::Item> {
        loop {
            if let Some(pair) = self.ready.next() {
                return Some(Ok(pair));
            }
            self.process.as_ref()?;
            match self.refill() {
                Ok(true) => {}
                Ok(false) => self.process = None,
                Err(error) => {
                    self.process = None;
                    return Some(Err(error));
                }
            }
        }
    }
}

// Prefixes that are looked up at once, each with the position of its line.
struct Chunk {
    prefixes: Vec<(Prefix, usize)>,
}

impl Chunk {
    // The next one, up to the first prefix that is wrong, its lines, of which no two are equal, and the error of that prefix.
    fn next(
        store: &Store,
        prefixes: &mut impl Iterator<Item = Prefix>,
    ) -> (Chunk, String, Option<StoreError>) {
        let mut wrong = None;
        let (mut chunk, mut known, mut lines, mut cost) = (Vec::new(), HashMap::new(), String::new(), 0);
        while let Some(prefix) = if cost < AT_ONCE { prefixes.next() } else { None } {
            wrong = store.refusal(&prefix);
            if wrong.is_some() {
                break;
            }
            cost += COSTS.get(prefix.hex_len()).unwrap_or(&1);
            let next = known.len();
            let at = *known.entry(prefix).or_insert(next);
            if at == next {
                lines += &prefix.to_string();
                lines.push('\n');
            }
            chunk.push((prefix, at));
        }
        lines.push('\n');
        (Chunk { prefixes: chunk }, lines, wrong)
    }
}

// A `packtool` that runs, and ends with this. Its messages go to a file in memory, so it never waits for someone to read
// them.
struct Process {
    child: Child,
    input: Option<ChildStdin>,
    output: BufReader<ChildStdout>,
    notes: File,
    seen: u64,
}

impl Process {
    fn new(store: &Store, words: &[&str]) -> Result<Process> {
        let notes = file_in_memory()?;
        let mut command = Command::new(&store.program);
        // (in a group of its own, since Ctrl-C is sent to all processes of a terminal's group)
        command.args(words).args(&store.options).current_dir(&store.directory).process_group(0);
        command.stdin(Stdio::piped()).stdout(Stdio::piped()).stderr(notes.try_clone()?);
        for (name, value) in VARIABLES.iter().zip(&store.variables) {
            match value {
                Some(value) => command.env(name, value),
                None => command.env_remove(name),
            };
        }
        let mut child = command.spawn().map_err(|error| named(&store.directory, &error))?;
        let (input, output) = (child.stdin.take(), child.stdout.take().expect("it is piped"));
        Ok(Process { child, input, output: BufReader::with_capacity(1 << 16, output), notes, seen: 0 })
    }

    // The next line, without its escapes, or nothing if it has ended.
    fn line(&mut self) -> Result<Option<Vec<u8>>> {
        let mut line = Vec::new();
        self.output.read_until(b'\n', &mut line)?;
        Ok((line.pop() == Some(b'\n')).then(|| unescaped(line)))
    }

    // The lines that it has said since the last call, without its name.
    fn messages(&mut self) -> Result<Vec<String>> {
        let mut bytes = vec![0; (self.notes.metadata()?.len() - self.seen) as usize];
        self.notes.read_exact_at(&mut bytes, self.seen)?;
        bytes.truncate(bytes.iter().rposition(|&byte| byte == b'\n').map_or(0, |at| at + 1));
        self.seen += bytes.len() as u64;
        let lines = bytes
            .split_inclusive(|&byte| byte == b'\n')
            .map(|line| unescaped(line[..line.len() - 1].to_vec()));
        let texts = lines.map(|line| String::from_utf8_lossy(&line).into_owned());
        Ok(texts.map(|text| text.strip_prefix("packtool: ").unwrap_or(&text).to_owned()).collect())
    }
}

impl Drop for Process {
    fn drop(&mut self) {
        let _ = self.child.kill();
        let _ = self.child.wait();
    }
}

// A file in memory: no directory has to be writable for it, and it has no name that others can take.
fn file_in_memory() -> io::Result<File> {
    const CLOSE_ON_EXEC: c_uint = 1;
    extern "C" {
        fn memfd_create(name: *const c_char, flags: c_uint) -> c_int;
    }
    // SAFETY: the name ends in a zero.
    match unsafe { memfd_create(b"packtool\0".as_ptr().cast(), CLOSE_ON_EXEC) } {
        -1 => Err(io::Error::last_os_error()),
        // SAFETY: the descriptor is new, so nothing else has it.
        descriptor => Ok(unsafe { File::from_raw_fd(descriptor) }),
    }
}

// The absolute path of `packtool`, of this crate's version. No relative path is followed, since it would lead into the current
// directory, whose files others may have written.
fn program() -> Result<PathBuf> {
    let beside = || env::current_exe().map(|path| path.with_file_name("packtool")).ok();
    let named = env::var_os("PACKTOOL").filter(|path| !path.is_empty()).map(PathBuf::from);
    let given = named.or_else(|| beside().filter(|path| path.is_file())).unwrap_or("packtool".into());
    let path =
        if given.file_name() == Some(given.as_os_str()) { on_path(&given) } else { Some(given.clone()) };
    let wanted = concat!("packtool ", env!("CARGO_PKG_VERSION_MAJOR"), ".", env!("CARGO_PKG_VERSION_MINOR"));
    let why = match &path {
        None => "not on the PATH".to_owned(),
        Some(path) if !path.is_absolute() => "not an absolute path".to_owned(),
        Some(path) => match version(path) {
            said if said.starts_with(&format!("{wanted}.")) => return Ok(path.clone()),
            said if said.starts_with("packtool ") => format!("this is {said}"),
            _ => "no working packtool".to_owned(),
        },
    };
    let path = path.unwrap_or(given);
    let text = format!("{}: {why}: set PACKTOOL to the absolute path of {wanted}", path.display());
    Err(io::Error::new(io::ErrorKind::NotFound, text).into())
}

// The line that a program prints of its version, or nothing if it cannot be run.
fn version(path: &Path) -> String {
    let printed = Command::new(path).arg("--version").stdin(Stdio::null()).stderr(Stdio::null()).output();
    let line = |it: Output| String::from_utf8_lossy(&it.stdout).lines().next().map(str::to_owned);
    printed.ok().and_then(line).unwrap_or_default()
}

// The path of a program in the directories of the `PATH` that are absolute. (`Command` would also look in others.)
fn on_path(name: &Path) -> Option<PathBuf> {
    let is_program = |path: &PathBuf| {
        fs::metadata(path).map_or(false, |it| it.is_file() && it.permissions().mode() & 0o111 != 0)
    };
    let entries = env::var_os("PATH").unwrap_or("/bin:/usr/bin".into());
    env::split_paths(&entries)
        .map(|entry| entry.join(name))
        .find(|path| path.is_absolute() && is_program(path))
}

fn too_few_lines() -> StoreError {
    StoreError::Failed("packtool printed too few lines".to_owned())
}

fn named(path: &Path, error: &io::Error) -> io::Error {
    io::Error::new(error.kind(), format!("{}: {error}", path.display()))
}

fn locked<T>(mutex: &Mutex<T>) -> MutexGuard<'_, T> {
    mutex.lock().unwrap_or_else(PoisonError::into_inner)
}

// What is before the first space of a line, and after it.
fn split(line: &[u8]) -> (&[u8], &[u8]) {
    let at = line.iter().position(|&byte| byte == b' ').unwrap_or(line.len());
    (&line[..at], line.get(at + 1..).unwrap_or(b""))
}

fn id_of(digits: &[u8]) -> Result<Id> {
    let text = String::from_utf8_lossy(digits);
    text.parse().map_err(|_| StoreError::Failed(format!("packtool printed {text} for an id")))
}

// A line without its escapes, which it has if it begins with a backslash.
fn unescaped(line: Vec<u8>) -> Vec<u8> {
    let Some(escaped) = line.strip_prefix(b"\\") else { return line };
    let mut bytes = escaped.iter().copied();
    let mut plain = Vec::with_capacity(escaped.len());
    while let Some(byte) = bytes.next() {
        plain.push(match byte {
            b'\\' => match bytes.next() {
                Some(b'n') => b'\n',
                Some(b'r') => b'\r',
                other => other.unwrap_or(b'\\'),
            },
            byte => byte,
        });
    }
    plain
}
