//! A state folder: a record, kept over restarts and crashes.
//!
//! The library decides what the bytes of a file are, which call of the system comes next, and what is read of a file that a crash left
//! (svid.h, "A state folder"). This module makes the calls, and tells the library how they went.

mod error;
mod faults;
mod file;
mod folder;
#[cfg(test)]
mod tests;

use std::io::ErrorKind;
use std::path::{Path, PathBuf};
use std::sync::atomic::{AtomicBool, Ordering};
use std::sync::{Arc, Condvar, Mutex, MutexGuard, PoisonError};
use std::thread::{self, JoinHandle};
use std::time::{Duration, Instant};

pub use self::error::JournalError;
use self::faults::Faults;
use self::file::{Contents, End};
use self::folder::{journal_name, Folder, Growing, Numbers, FRAMES, ID_FILE, SNAPSHOT, UNFINISHED};
use crate::error::Error;
use crate::ffi::{self, Part};
use crate::record::ValidatorId;
use crate::requests::Report;

/// What a journal grows by: to force a new length to the disk takes longer than the bytes.
static GROWTH: [u8; 262_144] = [0; 262_144];
/// How long nobody appends until a mark is worth its write.
const QUIET: Duration = Duration::from_secs(1);
/// So many journals of starts are worth a snapshot.
const MANY_JOURNALS: usize = 8;
/// Journals of so many bytes are worth none.
const SMALL: u64 = 8 << 20;
/// How long after a snapshot that failed the next one is due.
const PAUSE: Duration = Duration::from_secs(60);
/// How many bytes of a record are written at once: for so long the validator is asked for them.
const PIECE: usize = 256 * 1024;
/// The most bytes of messages that one write takes.
const MOST: usize = ffi::PAYLOAD_MOST - ffi::LOG_POSITION;

/// The state folder of one validator: what it accepted is found again after a restart, a crash or a loss of power.
///
/// [`Guard::with_journal`](crate::Guard::with_journal) takes it, and writes what is to be kept.
///
/// `svidd` and the package for Python write the same files (docs/FORMATS.md, "State folder"), so any of them can go on with the folder of another
/// one. One process holds a folder at a time, and any number of its threads may use the journal. To drop it waits for what is under way, for some
/// seconds at most.
pub struct Journal {
    keeper: Arc<Keeper>,
    writer: Option<JoinHandle<()>>,
    validator_id: ValidatorId,
    torn: Vec<PathBuf>,
    found: Vec<Contents>,
}

/// What the threads of a journal share.
struct Keeper {
    folder: Folder,
    /// Held over a snapshot.
    switch: Mutex<()>,
    /// Held over a write. A thread that has the switch may take it; never the other way round.
    writing: Mutex<Writing>,
    /// Guards what the next write takes. No other locks but those of its messages are taken with it held.
    gate: Mutex<Gate>,
    /// The next write has something to take, or the journal is being closed.
    comes: Condvar,
    /// A snapshot was due after the last write, and nobody has heard of it. Whoever looks at that has `writing`.
    is_due: AtomicBool,
}

struct Writing {
    /// A snapshot is due, however long the journals are.
    wants: bool,
    /// From when on one may be due: at no time while one is being taken.
    from: Option<Instant>,
    /// How many bytes the snapshot has.
    kept: u64,
    numbers: Numbers,
    /// The journal that grows.
    file: Option<Growing>,
    /// The one that is to grow.
    next: Option<Growing>,
    /// The length of the one that grows.
    room: u64,
    /// How many bytes of frames older journals have.
    older: u64,
    /// Its last frame is a mark, or it has none.
    is_marked: bool,
    frame: Vec<u8>,
}

struct Gate {
    commit: Option<Arc<Commit>>,
    is_closing: bool,
}

/// The messages that one write takes to the disk, and what came of it.
#[derive(Default)]
struct Commit {
    messages: Mutex<Vec<u8>>,
    /// Who hears of that.
    reports: Mutex<Vec<Report>>,
    result: Mutex<Option<Result<(), JournalError>>>,
    ended: Condvar,
}

impl Journal {
    /// Opens the folder, and begins a new journal in it. Makes the folder where its parent is there.
    ///
    /// # Errors
    ///
    /// [`JournalError::Held`], [`JournalError::Damaged`], [`JournalError::OtherFormat`], [`JournalError::Old`], [`JournalError::NoValidatorId`],
    /// [`JournalError::BadValidatorId`], [`JournalError::NameMayNotLast`], [`JournalError::Io`], [`JournalError::NoMemory`].
    pub fn open(folder: impl AsRef<Path>) -> Result<Journal, JournalError> {
        Journal::open_by(Folder::hold(folder.as_ref(), Faults::default())?)
    }

    /// One whose calls of the system can be let fail, and how.
    #[cfg(test)]
    pub(crate) fn failing(path: &Path) -> (Journal, Faults) {
        let faults = Faults::default();
        let folder = Folder::hold(path, faults.clone()).expect("nobody has it");
        (Journal::open_by(folder).expect("it is well"), faults)
    }

    /// Lets the next write find that a snapshot is due.
    #[cfg(test)]
    pub(crate) fn let_a_snapshot_be_due(&self) {
        lock(&self.keeper.writing).wants = true;
    }

    fn open_by(folder: Folder) -> Result<Journal, JournalError> {
        for name in [SNAPSHOT, ID_FILE, FRAMES] {
            let name = format!("{name}{UNFINISHED}");
            folder.remove(&name).map_err(|why| JournalError::io(folder.path(&name), why))?;
        }
        let frames = folder.path(FRAMES);
        if frames.symlink_metadata().is_ok() {
            return Err(JournalError::Old { file: frames });
        }
        let (known, journals) = (folder.validator_id()?, folder.journals().map_err(|why| JournalError::io(folder.path(""), why))?);
        let names = std::iter::once((0, SNAPSHOT.to_owned())).chain(journals.iter().map(|it| (*it, journal_name(*it))));
        let (mut wants, mut kept, mut older) = (journals.len() >= MANY_JOURNALS, 0, 0);
        let (mut found, mut torn) = (Vec::new(), Vec::new());
        for (number, name) in names {
            let file = folder.path(&name);
            let content = match folder.read(&name) {
                Ok(content) => content,
                Err(why) if number == 0 && why.kind() == ErrorKind::NotFound => {
                    wants = true;
                    continue;
                }
                Err(why) => return Err(JournalError::io(file, why)),
            };
            let read = Contents::read(content, number, known.unwrap_or(ValidatorId([0; 16])))?;
            if let Some(why) = read.fault(file.clone(), known.is_some()) {
                return Err(why);
            }
            if read.end == End::Tear {
                torn.push(file);
            }
            match number {
                0 => kept = read.at,
                _ => older += read.at,
            }
            found.push(read);
        }
        let made = || ValidatorId::random().map_err(|why| JournalError::io(folder.path(ID_FILE), why));
        let validator_id = known.map_or_else(made, Ok)?;
        let has_snapshot = found.len() > journals.len();
        // (an older svidd may have left an empty journal)
        if known.is_none() || !has_snapshot {
            folder.keep_validator_id(validator_id, journals.is_empty())?;
        }
        let (oldest, newest) = (journals.first().copied().unwrap_or(1), journals.last().copied().unwrap_or(0));
        let writing = Writing {
            wants,
            from: Some(Instant::now()),
            kept,
            numbers: Numbers::open(validator_id, oldest, newest)?,
            file: None,
            next: None,
            room: 0,
            older,
            is_marked: true,
            frame: Vec::new(),
        };
        let keeper = Arc::new(Keeper {
            folder,
            switch: Mutex::new(()),
            writing: Mutex::new(writing),
            gate: Mutex::new(Gate { commit: None, is_closing: false }),
            comes: Condvar::new(),
            is_due: AtomicBool::new(false),
        });
        keeper.make_calls(None)?;
        keeper.look(&lock(&keeper.writing));
        let works = Arc::clone(&keeper);
        let writer = thread::Builder::new().name("svid-journal".to_owned()).spawn(move || works.work());
        let writer = Some(writer.map_err(|why| JournalError::io(keeper.folder.path(""), why))?);
        Ok(Journal { keeper, writer, validator_id, torn, found })
    }

    /// The validator ID that was made with the folder, and stands in its file `place`.
    pub fn validator_id(&self) -> ValidatorId {
        self.validator_id
    }

    /// The journals at whose end a crash cut off a write. Nobody had an answer that it was kept. They are worth a line in a log.
    pub fn torn(&self) -> &[PathBuf] {
        &self.torn
    }

    /// Gives all messages that were found to `take` of a validator, some at a time. Only the first call that succeeds does.
    pub(crate) fn load<E>(&mut self, mut take: impl FnMut(&[u8]) -> Result<(), E>) -> Result<(), E> {
        self.found.iter().flat_map(Contents::messages).try_for_each(&mut take)?;
        self.found = Vec::new();
        Ok(())
    }

    /// A file or a folder of this name in the folder.
    pub(crate) fn path(&self, name: &str) -> PathBuf {
        self.keeper.folder.path(name)
    }

    /// Returns once the messages are on the disk, or after `wait`. Threads that come meanwhile share a write.
    pub(crate) fn append(&self, messages: &[u8], wait: Duration) -> Result<(), JournalError> {
        let commit = self.keeper.join(messages, None)?;
        let waits = commit.ended.wait_timeout_while(lock(&commit.result), wait, |it| it.is_none());
        let (result, _) = waits.unwrap_or_else(PoisonError::into_inner);
        result.clone().unwrap_or(Err(JournalError::Late))
    }

    /// Lets the messages go to the disk with the next write, and tells how that went. The writer does so, or this thread if there is no room.
    pub(crate) fn keep(&self, messages: &[u8], report: Report) {
        if let Err(why) = self.keeper.join(messages, Some(report.clone())) {
            report.tell(&Err(why));
        }
    }

    /// Whether a snapshot was due after the last write: there was none, or the journals were many or long. None is while one is being taken, nor
    /// for a minute after one that failed. Whoever hears of it takes it, since nobody else does before the next write. It waits for nothing.
    pub(crate) fn wants_snapshot(&self) -> bool {
        self.keeper.is_due.swap(false, Ordering::Relaxed)
    }

    /// Replaces the snapshot by the record of the validator, and drops the journals before it. `piece` writes a piece of the record, and is called
    /// until all is written. Threads may append all the while. A use must be in the record before it is appended, as a check does it.
    ///
    /// After an error nothing is lost, and nothing is written to what is there instead of a folder that was moved.
    pub(crate) fn snapshot(&self, mut piece: impl FnMut(&mut Part, &mut [u8]) -> Result<usize, Error>) -> Result<(), JournalError> {
        let _switch = lock(&self.keeper.switch);
        self.keeper.folder.stood()?;
        {
            let mut writing = lock(&self.keeper.writing);
            writing.numbers.begin()?;
            writing.from = None;
            self.keeper.look(&writing);
        }
        let taken = self.keeper.make_calls(Some(&mut piece));
        let mut writing = lock(&self.keeper.writing);
        match taken {
            Ok(()) => (writing.wants, writing.older, writing.from) = (false, 0, Some(Instant::now())),
            Err(_) => writing.from = Instant::now().checked_add(PAUSE),
        }
        self.keeper.look(&writing);
        taken
    }
}

// What a thread leaves that panics is whole (see `lock`), and the handle of the writer is only taken at the end.
impl std::panic::UnwindSafe for Journal {}
impl std::panic::RefUnwindSafe for Journal {}

impl Drop for Journal {
    fn drop(&mut self) {
        lock(&self.keeper.gate).is_closing = true;
        self.keeper.comes.notify_all();
        crate::waits_for_all("a write to the state folder", self.writer.take());
    }
}

impl std::fmt::Debug for Journal {
    fn fmt(&self, f: &mut std::fmt::Formatter<'_>) -> std::fmt::Result {
        f.debug_struct("Journal")
            .field("folder", &self.keeper.folder.path(""))
            .field("validator_id", &self.validator_id)
            .finish_non_exhaustive()
    }
}

type Piece<'a> = &'a mut dyn FnMut(&mut Part, &mut [u8]) -> Result<usize, Error>;

impl Keeper {
    /// Looks whether a snapshot is due.
    fn look(&self, writing: &Writing) {
        let is_long = writing.older.saturating_add(writing.numbers.end()) > writing.kept.max(SMALL);
        let may_be = writing.from.map_or(false, |it| it <= Instant::now());
        self.is_due.store(may_be && (writing.wants || is_long), Ordering::Relaxed);
    }

    /// Adds messages to what the next write takes.
    fn join(&self, messages: &[u8], report: Option<Report>) -> Result<Arc<Commit>, JournalError> {
        if messages.len() > MOST {
            return Err(JournalError::TooLong);
        }
        let mut gate = lock(&self.gate);
        let commit = gate.commit.get_or_insert_with(Arc::default);
        let commit = Arc::clone(commit);
        let mut all = lock(&commit.messages);
        if all.len() + messages.len() > MOST {
            return Err(JournalError::Full);
        }
        all.try_reserve(messages.len()).map_err(|_| JournalError::NoMemory)?;
        if let Some(report) = report {
            let mut reports = lock(&commit.reports);
            reports.try_reserve(1).map_err(|_| JournalError::NoMemory)?;
            reports.push(report);
        }
        all.extend_from_slice(messages);
        drop(all);
        self.comes.notify_all();
        Ok(commit)
    }

    /// Takes to the disk what threads append, one write after the other, until the journal is closed.
    fn work(&self) {
        let mut is_quiet = true;
        loop {
            let mut gate = lock(&self.gate);
            while gate.commit.is_none() && !gate.is_closing {
                if is_quiet {
                    gate = self.comes.wait(gate).unwrap_or_else(PoisonError::into_inner);
                    continue;
                }
                let (got, waited) = self.comes.wait_timeout(gate, QUIET).unwrap_or_else(PoisonError::into_inner);
                gate = got;
                if waited.timed_out() {
                    break;
                }
            }
            let (commit, is_closing) = (gate.commit.take(), gate.is_closing);
            drop(gate);
            match commit {
                Some(commit) => {
                    is_quiet = false;
                    let result = self.put_commit(&commit);
                    *lock(&commit.result) = Some(result.clone());
                    commit.ended.notify_all();
                    let reports = std::mem::take(&mut *lock(&commit.reports));
                    reports.into_iter().for_each(|it| it.tell(&result));
                }
                None if is_closing => break,
                None => {
                    is_quiet = true;
                    lock(&self.writing).mark(&self.folder);
                }
            }
        }
        lock(&self.writing).mark(&self.folder);
    }

    fn put_commit(&self, commit: &Commit) -> Result<(), JournalError> {
        let mut writing = lock(&self.writing);
        let messages = lock(&commit.messages);
        let put = if messages.is_empty() { Ok(()) } else { writing.put(&messages, &self.folder) };
        self.look(&writing);
        put
    }

    /// Makes the calls of the system that are due, until one fails.
    fn make_calls(&self, mut piece: Option<Piece<'_>>) -> Result<(), JournalError> {
        let unfinished = format!("{SNAPSHOT}{UNFINISHED}");
        let mut beside = None;
        loop {
            let (call, journal) = lock(&self.writing).numbers.due()?;
            if let Err(why) = self.folder.stands() {
                // (what is there now may be another one's)
                let mut writing = lock(&self.writing);
                writing.numbers.failed();
                writing.next = None;
                return Err(why);
            }
            let name = journal_name(journal);
            let io = |name: &str, result: std::io::Result<()>| result.map_err(|why| JournalError::io(self.folder.path(name), why));
            let made = match (call, &mut piece) {
                (ffi::CALL_NOTHING, _) => break,
                (ffi::CALL_CREATE_JOURNAL, _) => io(&name, self.folder.create(&name).map(|file| lock(&self.writing).next = Some(file))),
                (ffi::CALL_SYNC_FOLDER, _) => io("", self.folder.sync()),
                (ffi::CALL_WRITE_SNAPSHOT, Some(piece)) => self.write_snapshot(&unfinished, &mut beside, piece),
                (ffi::CALL_SYNC_SNAPSHOT, _) => io(&unfinished, beside.as_ref().map_or(Ok(()), Growing::sync)),
                (ffi::CALL_RENAME_SNAPSHOT, _) => io(SNAPSHOT, self.folder.rename(&unfinished, SNAPSHOT)),
                (ffi::CALL_REMOVE_JOURNAL, _) => io(&name, self.folder.remove(&name)),
                _ => Err(JournalError::of(ffi::OK)),
            };
            let answered = self.answer(call, made.is_ok());
            if let Err(why) = made.and(answered) {
                lock(&self.writing).next = None;
                if beside.is_some() {
                    // (its room may be needed)
                    let _ = self.folder.remove(&unfinished);
                }
                return Err(why);
            }
        }
        Ok(())
    }

    /// Writes a snapshot: each piece of the record, and a mark.
    fn write_snapshot(&self, name: &str, beside: &mut Option<Growing>, piece: Piece<'_>) -> Result<(), JournalError> {
        let made = self.folder.create(name).map_err(|why| JournalError::io(self.folder.path(name), why))?;
        let file = beside.insert(made);
        let (mut part, mut at, mut frame, mut room) = (Part::default(), 0u64, Vec::new(), Vec::new());
        let mut write = |payload: &[u8]| {
            let len = lock(&self.writing).numbers.piece(payload, &mut frame)?;
            let text = frame.get(..len).unwrap_or_default();
            file.write(text, at).map_err(|why| JournalError::io(self.folder.path(name), why))?;
            at += len as u64;
            Ok::<(), JournalError>(())
        };
        ffi::grow(&mut room, PIECE).map_err(|_| JournalError::NoMemory)?;
        while part.done == 0 {
            let len = piece(&mut part, &mut room)?;
            let text = room.get(..len).unwrap_or_default();
            if text.is_empty() {
                // (a piece of a record has a batch: so this is none)
                return Err(JournalError::of(ffi::OK));
            }
            write(text)?;
        }
        write(b"")?;
        lock(&self.writing).kept = at;
        Ok(())
    }

    /// Tells how a call went, and lets the next journal grow if that comes then.
    fn answer(&self, call: u64, went_well: bool) -> Result<(), JournalError> {
        let mut writing = lock(&self.writing);
        if went_well && call == ffi::CALL_SYNC_FOLDER && writing.next.is_some() {
            writing.mark(&self.folder); // the journal is closed
        }
        let (before, end) = (writing.numbers.newest(), writing.numbers.end());
        writing.numbers.answer(went_well)?;
        if writing.numbers.newest() != before {
            writing.older = writing.older.saturating_add(end);
            writing.file = writing.next.take();
            (writing.room, writing.is_marked) = (0, true);
        }
        Ok(())
    }
}

impl Writing {
    /// Ends the journal by a mark, by which damage before it is seen. (Nobody waits for it: where that fails, there is none.)
    fn mark(&mut self, folder: &Folder) {
        if !self.is_marked && !self.numbers.has_ended() {
            let _ = self.put_frame(b"", folder);
        }
    }

    /// Takes a payload to the disk.
    fn put(&mut self, payload: &[u8], folder: &Folder) -> Result<(), JournalError> {
        self.put_frame(payload, folder).map_err(|why| match why {
            Fault::Of(why) => why,
            Fault::Io(why) => JournalError::io(folder.path(&journal_name(self.numbers.newest())), why),
        })
    }

    fn put_frame(&mut self, payload: &[u8], folder: &Folder) -> Result<(), Fault> {
        folder.stood().map_err(Fault::Of)?;
        let (at, mut frame) = (self.numbers.end(), std::mem::take(&mut self.frame));
        let put =
            self.numbers.put(payload, &mut frame).map_err(Fault::Of).and_then(|len| self.write(&frame[..len.min(frame.len())], at, folder));
        if frame.len() <= GROWTH.len() {
            self.frame = frame;
        }
        put?;
        self.is_marked = payload.is_empty();
        Ok(())
    }

    /// Writes a frame, and forces it to the disk.
    fn write(&mut self, frame: &[u8], at: u64, folder: &Folder) -> Result<(), Fault> {
        let file = match &self.file {
            Some(file) => file,
            None => return Err(Fault::Of(JournalError::Ended)),
        };
        let end = at.saturating_add(frame.len() as u64);
        if let Err(why) = file.write(frame, at) {
            self.numbers.unwritten();
            return Err(Fault::Io(why));
        }
        if end > self.room {
            // (the file grows by zeros, if the disk has room for that)
            let grown = file.write(&GROWTH, end);
            self.room = if grown.is_ok() { end.saturating_add(GROWTH.len() as u64) } else { end };
        }
        if file.sync().is_err() {
            self.numbers.failed();
            return Err(Fault::Of(JournalError::Ended));
        }
        if let Err(why) = folder.stands() {
            self.numbers.failed();
            return Err(Fault::Of(why));
        }
        self.numbers.synced().map_err(Fault::Of)
    }
}

enum Fault {
    Of(JournalError),
    Io(std::io::Error),
}

/// A lock, even if a thread panicked that had it: what it guards is whole after each line.
fn lock<T>(of: &Mutex<T>) -> MutexGuard<'_, T> {
    of.lock().unwrap_or_else(PoisonError::into_inner)
}
