//! The calls of the system on a state folder, and what its files are called.

use std::ffi::OsString;
use std::fs::{self, DirBuilder, File, OpenOptions};
use std::io::{self, ErrorKind, Read, Write};
use std::os::raw::c_int;
use std::os::unix::fs::{DirBuilderExt, FileExt, MetadataExt, OpenOptionsExt};
use std::os::unix::io::AsRawFd;
use std::path::{Path, PathBuf};
use std::sync::atomic::{AtomicBool, Ordering};
use std::sync::Arc;

use super::faults::Faults;
use super::JournalError;
use crate::ffi;
use crate::record::ValidatorId;

pub const LOCK: &str = "lock";
pub const ID_FILE: &str = "place";
pub const SNAPSHOT: &str = "snapshot";
/// It is there while a folder of an older svidd has no snapshot of frames yet.
pub const FRAMES: &str = "frames";
pub const UNFINISHED: &str = ".new";
const JOURNAL: &str = "journal.";

// Of Linux, on x86-64 and aarch64 alike.
const O_NONBLOCK: c_int = 0o4000;
const LOCK_EX: c_int = 2;
const LOCK_NB: c_int = 4;

extern "C" {
    fn flock(file: c_int, operation: c_int) -> c_int;
}

/// The name of the journal of this number.
pub fn journal_name(number: u64) -> String {
    format!("{JOURNAL}{number}")
}

/// A folder that this process holds.
pub struct Folder {
    path: PathBuf,
    own: File,
    _lock: File,         // (the system frees it with the last descriptor of the file, however the process ends)
    is: [(u64, u64); 2], // what the folder and the lock are, whatever their names lead to
    is_moved: AtomicBool,
    faults: Faults,
}

/// A file that is open for writing.
pub struct Growing {
    file: File,
    name: String,
    faults: Faults,
}

impl Folder {
    /// Makes the folder where it is not there, and locks it.
    pub fn hold(path: &Path, faults: Faults) -> Result<Folder, JournalError> {
        let whole = whole(path).map_err(|why| JournalError::io(path, why))?;
        let path = whole.as_path();
        make(path, &faults)?;
        let own = File::open(path).map_err(|why| JournalError::io(path, why))?;
        let lock = locked(path)?;
        let of = |file: &File| file.metadata().map(|it| identity(&it)).map_err(|why| JournalError::io(path, why));
        Ok(Folder { is: [of(&own)?, of(&lock)?], is_moved: AtomicBool::new(false), path: path.to_owned(), own, _lock: lock, faults })
    }

    /// Fails from now on unless the path leads to this folder, with the lock that is held: somebody may have removed or moved it, or mounted
    /// another one over it, and the lock keeps no other process from what is there now. It makes two calls, and reads no disk.
    pub fn stands(&self) -> Result<(), JournalError> {
        let leads = |path: &Path, own: &(u64, u64)| fs::metadata(path).map_or(false, |it| identity(&it) == *own);
        let [folder, lock] = &self.is;
        if !leads(&self.path, folder) || !leads(&self.path(LOCK), lock) {
            self.is_moved.store(true, Ordering::SeqCst);
        }
        self.stood()
    }

    /// Fails if [`stands`](Folder::stands) has failed.
    pub fn stood(&self) -> Result<(), JournalError> {
        match self.is_moved.load(Ordering::SeqCst) {
            true => Err(JournalError::Moved { folder: self.path.clone() }),
            false => Ok(()),
        }
    }

    pub fn path(&self, name: &str) -> PathBuf {
        self.path.join(name)
    }

    /// The numbers of the journals, in rising order.
    pub fn journals(&self) -> io::Result<Vec<u64>> {
        let mut numbers = Vec::new();
        for entry in fs::read_dir(&self.path)? {
            let name: OsString = entry?.file_name();
            let number = name.to_str().and_then(|name| name.strip_prefix(JOURNAL)).and_then(|it| it.parse().ok());
            if let Some(number) = number.filter(|it| *it > 0 && name.to_str() == Some(&journal_name(*it))) {
                numbers.push(number);
            }
        }
        numbers.sort_unstable();
        Ok(numbers)
    }

    /// All bytes of a file.
    pub fn read(&self, name: &str) -> io::Result<Vec<u8>> {
        let file = regular(&self.path(name), OpenOptions::new().read(true))?;
        let len = usize::try_from(file.metadata()?.len()).map_err(|_| ErrorKind::OutOfMemory)?;
        let mut content = Vec::new();
        content.try_reserve_exact(len).map_err(|_| ErrorKind::OutOfMemory)?;
        // (nobody else writes while this process holds the folder)
        file.take(len as u64).read_to_end(&mut content)?;
        Ok(content)
    }

    /// Opens a new file, instead of one that has the name.
    pub fn create(&self, name: &str) -> io::Result<Growing> {
        self.faults.of("create", name)?;
        self.unlink(name)?;
        let file = OpenOptions::new().write(true).create_new(true).mode(0o600).open(self.path(name))?;
        Ok(Growing { file, name: name.to_owned(), faults: self.faults.clone() })
    }

    pub fn rename(&self, from: &str, to: &str) -> io::Result<()> {
        self.faults.of("rename", to)?;
        fs::rename(self.path(from), self.path(to))
    }

    /// Removes a file. One that is not there is removed.
    pub fn remove(&self, name: &str) -> io::Result<()> {
        self.faults.of("remove", name)?;
        self.unlink(name)
    }

    fn unlink(&self, name: &str) -> io::Result<()> {
        match fs::remove_file(self.path(name)) {
            Err(why) if why.kind() != ErrorKind::NotFound => Err(why),
            _ => Ok(()),
        }
    }

    /// Forces the names of the folder to the disk.
    pub fn sync(&self) -> io::Result<()> {
        self.faults.of("sync folder", "")?;
        self.own.sync_all()
    }

    /// The validator ID of the folder, if it has one.
    pub fn validator_id(&self) -> Result<Option<ValidatorId>, JournalError> {
        let text = match self.read(ID_FILE) {
            Ok(text) => text,
            Err(why) if why.kind() == ErrorKind::NotFound => return Ok(None),
            Err(why) => return Err(JournalError::io(self.path(ID_FILE), why)),
        };
        let digits = text.strip_suffix(b"\n").unwrap_or(&text);
        let mut id = [0; 16];
        let good = digits.len() == 32
            && id.iter_mut().zip(digits.chunks(2)).all(|(byte, two)| {
                let value = |digit: u8| char::from(digit).to_digit(16);
                let both = two.first().and_then(|it| value(*it)).zip(two.get(1).and_then(|it| value(*it)));
                both.map(|(high, low)| *byte = (high * 16 + low) as u8).is_some()
            });
        match good {
            true => Ok(Some(ValidatorId(id))),
            false => Err(JournalError::BadValidatorId { file: self.path(ID_FILE) }),
        }
    }

    /// Keeps the validator ID, before anything is kept that can't be read without it. A start that failed or was killed may have left a file
    /// that has it, and an empty folder itself: no later sync vouches for a name whose sync failed. So the file is made again.
    pub fn keep_validator_id(&self, id: ValidatorId, is_empty: bool) -> Result<(), JournalError> {
        if is_empty {
            match sync_above(&self.path, &self.faults) {
                // (Who may not read the folder above has not made this one. Where that folder is only read, it may have no sync.)
                Err(why) if !matches!(why.kind(), ErrorKind::PermissionDenied | ErrorKind::InvalidInput) => {
                    return Err(unsure(&self.path, why))
                }
                _ => {}
            }
        }
        let unfinished = format!("{ID_FILE}{UNFINISHED}");
        let kept = self.create(&unfinished).and_then(|file| {
            file.write(format!("{id}\n").as_bytes(), 0)?;
            file.sync()?;
            self.rename(&unfinished, ID_FILE)?;
            self.sync()
        });
        kept.map_err(|why| JournalError::io(self.path(ID_FILE), why))
    }
}

impl Growing {
    /// Writes all of it at an offset of the file.
    pub fn write(&self, data: &[u8], at: u64) -> io::Result<()> {
        self.faults.of("write", &self.name)?;
        self.file.write_all_at(data, at)
    }

    /// Forces what was written to the disk.
    pub fn sync(&self) -> io::Result<()> {
        self.faults.of("sync", &self.name)?;
        self.file.sync_data()
    }
}

/// The lock file, locked, with the name of this process.
fn locked(folder: &Path) -> Result<File, JournalError> {
    let path = folder.join(LOCK);
    let mut how = OpenOptions::new();
    let file = regular(&path, how.read(true).write(true).create(true).mode(0o600)).map_err(|why| JournalError::io(&path, why))?;
    // SAFETY: the call takes two numbers, and the descriptor is open.
    if unsafe { flock(file.as_raw_fd(), LOCK_EX | LOCK_NB) } != 0 {
        let why = io::Error::last_os_error();
        if why.kind() != ErrorKind::WouldBlock {
            return Err(JournalError::io(&path, why));
        }
        let mut holder = Vec::new();
        let _ = file.take(200).read_to_end(&mut holder);
        let holder = String::from_utf8_lossy(&holder).trim().to_owned();
        return Err(JournalError::Held { folder: folder.to_owned(), holder });
    }
    let host = fs::read_to_string("/proc/sys/kernel/hostname").unwrap_or_else(|_| "this machine".to_owned());
    let (mut name, process) = (&file, std::process::id());
    let named = file.set_len(0).and_then(|()| writeln!(name, "process {process} on {}", host.trim()));
    named.map(|()| file).map_err(|why| JournalError::io(&path, why))
}

/// What a file is, whatever its name is.
fn identity(of: &fs::Metadata) -> (u64, u64) {
    (of.dev(), of.ino())
}

/// Opens a regular file. (To open a pipe, or to read one, may take for ever.)
fn regular(path: &Path, how: &mut OpenOptions) -> io::Result<File> {
    let file = how.custom_flags(O_NONBLOCK).open(path)?;
    match file.metadata()?.is_file() {
        true => Ok(file),
        false => Err(io::Error::new(ErrorKind::InvalidInput, "not a regular file")),
    }
}

/// The path from the root, since a process may go to another folder, as a daemon does.
fn whole(path: &Path) -> io::Result<PathBuf> {
    match path.is_absolute() || path.as_os_str().is_empty() {
        true => Ok(path.to_owned()),
        false => std::env::current_dir().map(|here| here.join(path)),
    }
}

/// Makes the folder where it is not there, so that its name lasts. Where the sync of the folder above fails, no later sync vouches for the name.
/// So the folder is removed, and the next start makes it again.
fn make(path: &Path, faults: &Faults) -> Result<(), JournalError> {
    match faults.of("mkdir", &path.to_string_lossy()).and_then(|()| DirBuilder::new().mode(0o700).create(path)) {
        Ok(()) => {}
        Err(why) if why.kind() == ErrorKind::AlreadyExists => return Ok(()),
        Err(why) => return Err(JournalError::io(path, why)),
    }
    sync_above(path, faults).map_err(|why| match faults.of("rmdir", "").and_then(|()| fs::remove_dir(path)) {
        Ok(()) => JournalError::io(path, why),
        Err(_) => unsure(path, why),
    })
}

fn unsure(path: &Path, why: io::Error) -> JournalError {
    JournalError::NameMayNotLast { folder: path.to_owned(), why: Arc::new(why) }
}

fn sync_above(path: &Path, faults: &Faults) -> io::Result<()> {
    faults.of("sync above", "")?;
    let above = path.parent().filter(|it| !it.as_os_str().is_empty()).unwrap_or_else(|| Path::new("."));
    File::open(above)?.sync_all()
}

/// What the library says of a state folder: what is due, and frames.
#[derive(Debug)]
pub struct Numbers {
    folder_id: ffi::FolderId,
    folder: ffi::Folder,
}

impl Numbers {
    pub fn open(id: ValidatorId, oldest: u64, newest: u64) -> Result<Numbers, JournalError> {
        let mut folder = ffi::Folder::default();
        // SAFETY: the folder is written alone.
        let status = unsafe { ffi::svid_journal_open(&mut folder, oldest, newest) };
        done(status).map(|()| Numbers { folder_id: ffi::FolderId { bytes: id.0 }, folder })
    }

    /// The number of the journal that grows.
    pub fn newest(&self) -> u64 {
        self.folder.newest
    }

    /// Where the next frame goes in it.
    pub fn end(&self) -> u64 {
        self.folder.end
    }

    /// Whether a sync failed.
    pub fn has_ended(&self) -> bool {
        self.folder.ended != 0
    }

    pub fn begin(&mut self) -> Result<(), JournalError> {
        // SAFETY: the folder is given to this call alone.
        done(unsafe { ffi::svid_journal_begin(&mut self.folder) })
    }

    /// The call of the system that is due, and the number of its journal.
    pub fn due(&self) -> Result<(u64, u64), JournalError> {
        let mut due = ffi::Due::default();
        // SAFETY: nothing overlaps.
        done(unsafe { ffi::svid_journal_due(&self.folder, &mut due) })?;
        Ok((due.call, due.journal))
    }

    pub fn answer(&mut self, went_well: bool) -> Result<(), JournalError> {
        // SAFETY: the folder is given to this call alone.
        done(unsafe { ffi::svid_journal_answer(&mut self.folder, went_well.into()) })
    }

    /// Writes the frame of a payload for the journal that grows into the room, and gives its length.
    pub fn put(&mut self, payload: &[u8], room: &mut Vec<u8>) -> Result<usize, JournalError> {
        self.frame(ffi::svid_journal_put, payload, room)
    }

    /// Writes the frame of the next piece of the snapshot into the room, and gives its length.
    pub fn piece(&mut self, payload: &[u8], room: &mut Vec<u8>) -> Result<usize, JournalError> {
        self.frame(ffi::svid_journal_piece, payload, room)
    }

    pub fn synced(&mut self) -> Result<(), JournalError> {
        // SAFETY: the folder is given to this call alone.
        done(unsafe { ffi::svid_journal_synced(&mut self.folder) })
    }

    pub fn unwritten(&mut self) {
        // SAFETY: the folder is given to this call alone. (Its answer says no more than that nothing was handed out.)
        unsafe { ffi::svid_journal_unwritten(&mut self.folder) };
    }

    pub fn failed(&mut self) {
        // SAFETY: the folder is given to this call alone. (Its answer says no more than that it has ended before.)
        unsafe { ffi::svid_journal_failed(&mut self.folder) };
    }

    fn frame(&mut self, call: Frames, payload: &[u8], room: &mut Vec<u8>) -> Result<usize, JournalError> {
        let mut told = ffi::Told::default();
        ffi::grow(room, payload.len().saturating_add(ffi::FRAME_MORE)).map_err(|_| JournalError::NoMemory)?;
        let (text, len, out, out_len) = (payload.as_ptr(), payload.len(), room.as_mut_ptr(), room.len());
        // SAFETY: the payload is a slice with its length, the room is another one with its own, and nothing overlaps.
        let status = unsafe { call(&mut self.folder, &self.folder_id, text, len, out, out_len, &mut told) };
        done(status).map(|()| told.len.min(room.len()))
    }
}

type Frames = unsafe extern "C" fn(*mut ffi::Folder, *const ffi::FolderId, *const u8, usize, *mut u8, usize, *mut ffi::Told) -> u32;

fn done(status: u32) -> Result<(), JournalError> {
    match status {
        ffi::OK => Ok(()),
        status => Err(JournalError::of(status)),
    }
}
