//! State folders: the vectors of tests/vectors/, and a disk that fails.

use std::fs;
use std::os::unix::fs::PermissionsExt;
use std::sync::atomic::{AtomicBool, AtomicUsize, Ordering};
use std::sync::Barrier;

use super::file::frames;
use super::*;
use crate::common::*;
use crate::handle::Core;
use crate::record::{TokenKey, Use};

const NOW: u64 = 1_767_225_600;

/// A use of the token of this number.
fn entry(number: u64) -> Use {
    let mut key = [0; 32];
    key[..8].copy_from_slice(&number.to_be_bytes());
    Use { expires: NOW + 3600, key: TokenKey(key), validator_id: ValidatorId([7; 16]), at: NOW, withdrawn: false }
}

/// A validator that takes messages of any time, and whose record is empty.
fn empty() -> Core {
    Core::open(&ledger().ahead(u64::MAX)).expect("it opens")
}

/// A validator with the record of a folder.
fn loaded(journal: &mut Journal) -> Core {
    let mut validator = empty();
    journal.load(|messages| validator.take(NOW, messages)).expect("the messages are good");
    validator
}

fn uses(validator: &mut Core) -> usize {
    validator.size().expect("it is open").uses
}

/// A journal whose calls of the system can be let fail, and how.
fn failing(room: &Room) -> (Journal, Faults) {
    let faults = Faults::default();
    (opened(&room.0, &faults).expect("it is new"), faults)
}

/// (A program that another test starts has the lock of an ended journal too, until it runs: that is waited for.)
fn opened(path: &Path, faults: &Faults) -> Result<Journal, JournalError> {
    let (call, end) = (faults.call(), Instant::now() + patience());
    loop {
        match Folder::hold(path, faults.clone()) {
            Err(JournalError::Held { .. }) if Instant::now() < end => faults.ends(call),
            held => return Journal::open_by(held?),
        }
    }
}

/// A process that goes to another folder, as a daemon does, goes on to keep what it accepts.
#[test]
fn a_path_that_is_relative() {
    const CLONE_FS: std::os::raw::c_int = 0x200; // of Linux
    extern "C" {
        fn unshare(what: std::os::raw::c_int) -> std::os::raw::c_int;
    }
    let (room, append) = (Room::new("relative"), |journal: &Journal| journal.append(&entry(1).message().expect("it is live"), patience()));
    let here = room.0.clone();
    let goes = thread::spawn(move || {
        // (this thread alone goes, with those that it begins)
        // SAFETY: the call takes a number.
        assert_eq!(unsafe { unshare(CLONE_FS) }, 0);
        std::env::set_current_dir(here).expect("it is there");
        let journal = Journal::open("state").expect("it is new");
        std::env::set_current_dir("/").expect("it is there");
        append(&journal).expect("the folder is where it was");
        assert!(Journal::open("").is_err());
    });
    goes.join().expect("it goes well");
    let mut journal = opened(&room.0.join("state"), &Faults::default()).expect("it is free");
    assert_eq!(uses(&mut loaded(&mut journal)), 1);
}

#[test]
fn files_of_vectors() {
    each("files", |_, it| {
        let (content, mut payloads) = (bytes_of(it, "content"), Vec::new());
        let (end, at) = frames(&content, number_of(it, "journal"), validator_id_of(it, "folder_id"), |range| {
            payloads.push(hex(&content[range]));
            Ok(())
        })
        .map_err(|why| why.to_string())?;
        let due: Vec<&str> = list_of(it, "payloads").iter().map(|it| it.as_str().expect("a text")).collect();
        // (a file that is read in part would let in again what the rest has)
        let lacks = frames(&content, number_of(it, "journal"), validator_id_of(it, "folder_id"), |_| Err(JournalError::NoMemory));
        same(matches!(lacks, Err(JournalError::NoMemory)), !due.is_empty())?;
        same(payloads.iter().map(String::as_str).collect::<Vec<_>>(), due)?;
        let (name, format) = match end {
            End::Nothing => ("end", None),
            End::Tear => ("tear", None),
            End::Damage => ("damage", None),
            End::Other(format) => ("format", Some(format)),
        };
        same((name, format, at), (text_of(it, "end"), it["format"].as_u64(), number_of(it, "at")))
    });
}

#[test]
fn folders_of_vectors() {
    each("folders", |_, it| {
        let room = Room::new("folder");
        for (name, content) in it["files"].as_object().expect("files by their names") {
            fs::write(room.0.join(name), from_hex(content.as_str().expect("a text"))).map_err(|why| why.to_string())?;
        }
        let file = |name: &str| room.0.join(text_of(it, name));
        match Journal::open(&room.0) {
            Ok(mut journal) => {
                let mut due = empty();
                due.take(0, &bytes_of(it, "record")).map_err(fault)?;
                let mut validator = empty();
                journal.load(|messages| validator.take(0, messages)).map_err(fault)?;
                // (the moment of a record may be later than that of its uses)
                let moment = due.size().and_then(|due| Ok(due.moment.max(validator.size()?.moment))).map_err(fault)?;
                due.tick(moment).and_then(|()| validator.tick(moment)).map_err(fault)?;
                same(validator.tell(), due.tell())
            }
            Err(JournalError::Damaged { file: damaged, at }) => same((damaged, at), (file("damaged"), number_of(it, "at"))),
            Err(JournalError::OtherFormat { file: other, format }) => same((other, format), (file("of_format"), number_of(it, "format"))),
            Err(why) => Err(why.to_string()),
        }
    });
}

#[test]
fn what_was_appended_is_found_again() {
    let room = Room::new("found");
    let folder = room.0.join("state");
    let mut journal = Journal::open(&folder).expect("its parent is there");
    let id = journal.validator_id();
    assert_eq!(uses(&mut loaded(&mut journal)), 0);
    assert!(journal.wants_snapshot());
    for number in 0..3 {
        journal.append(&entry(number).message().unwrap(), patience()).expect("it is kept");
    }
    drop(journal.keeper.join(&entry(3).message().unwrap(), None).expect("there is room"));
    drop(journal);

    let mut journal = Journal::open(&folder).expect("nobody has it");
    assert_eq!((journal.validator_id(), journal.torn().len()), (id, 0));
    assert_eq!(uses(&mut loaded(&mut journal)), 4);
}

#[test]
fn a_snapshot_replaces_journals() {
    let room = Room::new("snapshot");
    let mut journal = Journal::open(&room.0).expect("it is empty");
    let mut validator = loaded(&mut journal);
    for number in 0..20_000 {
        validator.take(NOW, &entry(number).message().expect("it is a message")).expect("it is taken");
    }
    journal.append(&entry(0).message().unwrap(), patience()).expect("it is kept");
    journal.snapshot(|parts, out| validator.piece(parts, out)).expect("the disk is well");
    assert!(!journal.wants_snapshot());
    assert!(!room.0.join("journal.1").exists());
    validator.take(NOW, &entry(20_000).message().expect("it is a message")).expect("it is taken");
    journal.append(&entry(20_000).message().unwrap(), patience()).expect("it is kept");
    drop(journal);

    let mut journal = Journal::open(&room.0).expect("nobody has it");
    assert!(!journal.wants_snapshot());
    assert_eq!(uses(&mut loaded(&mut journal)), 20_001);
}

/// Once the journals are longer than the last one, and than eight mebibytes. Those before a snapshot that failed count too.
#[test]
fn a_snapshot_is_due() {
    let room = Room::new("due");
    let snapshot = |journal: &Journal| {
        let mut pieces = 0;
        journal.snapshot(|part, room| {
            pieces += 1;
            part.done = u64::from(pieces * PIECE >= 10 << 20);
            Ok(room.len())
        })
    };
    let append = |journal: &Journal, mebibytes: usize| journal.append(&vec![7; mebibytes << 20], patience()).expect("it is kept");
    let journal = Journal::open(&room.0).expect("it is empty");
    snapshot(&journal).expect("the disk is well");
    append(&journal, 9);
    assert!(!journal.wants_snapshot());
    drop(journal);
    let journal = Journal::open(&room.0).expect("nobody has it");
    assert!(!journal.wants_snapshot());
    append(&journal, 2);
    assert!(journal.wants_snapshot());
    assert!(!journal.wants_snapshot(), "one thread takes it");
    snapshot(&journal).expect("the disk is well");
    append(&journal, 2);
    assert!(!journal.wants_snapshot());
    append(&journal, 9);
    assert!(journal.wants_snapshot(), "it may follow the last one at once");
    journal.snapshot(|_, _| Err(Error::NoMemory)).expect_err("there is no record");
    append(&journal, 2);
    assert!(!journal.wants_snapshot(), "not for a minute");
    lock(&journal.keeper.writing).from = Some(Instant::now());
    append(&journal, 2);
    assert!(journal.wants_snapshot());
}

/// A journal grows by zeros now and then, and not with each write.
#[test]
fn an_append_is_one_write() {
    let (room, count) = (Room::new("writes"), Arc::new(AtomicUsize::new(0)));
    let (journal, faults) = failing(&room);
    let counts = Arc::clone(&count);
    faults.before_writes(move || {
        counts.fetch_add(1, Ordering::Relaxed);
    });
    for number in 0..10 {
        journal.append(&entry(number).message().unwrap(), patience()).expect("the disk is well");
    }
    assert_eq!(count.load(Ordering::Relaxed), 11);
}

/// Once nobody appends any more, damage of the last entry is none of a write that was cut off.
#[test]
fn a_mark_stands_after_a_burst() {
    let room = Room::new("mark");
    let journal = Journal::open(&room.0).expect("it is empty");
    journal.append(&entry(1).message().unwrap(), patience()).expect("it is kept");
    until("a mark", || {
        let mut content = fs::read(room.0.join("journal.1")).expect("it is there");
        content[60] ^= 1;
        let read = frames(&content, 1, journal.validator_id(), |_| Ok(()));
        matches!(read, Ok((End::Damage, 0)))
    });
}

/// So damage of its last entry is none of a write that was cut off.
#[test]
fn a_mark_stands_after_a_journal_that_another_one_follows() {
    let room = Room::new("followed");
    for again in 0.. {
        let (folder, begun) = (room.0.join(again.to_string()), Instant::now());
        let journal = Journal::open(&folder).expect("its parent is there");
        journal.append(&entry(1).message().unwrap(), patience()).expect("it is kept");
        journal.snapshot(|_, _| Err(Error::NoMemory)).expect_err("so the journal stays");
        let took = begun.elapsed();
        drop(journal);
        let mut content = fs::read(folder.join("journal.1")).expect("it is there");
        content[60] ^= 1;
        fs::write(folder.join("journal.1"), content).unwrap();
        assert!(matches!(Journal::open(&folder), Err(JournalError::Damaged { .. })));
        // (a mark that comes by itself says nothing of this one)
        if took < QUIET * 9 / 10 {
            break;
        }
    }
}

/// It may not have been removed, where the disk failed.
#[test]
fn what_an_earlier_snapshot_left_neither_hinders_the_next_one_nor_gets_into_it() {
    let room = Room::new("left");
    let (journal, mut validator) = (Journal::open(&room.0).expect("it is empty"), empty());
    validator.take(NOW, &entry(1).message().unwrap()).expect("it is taken");
    fs::write(room.0.join("snapshot.new"), "left".repeat(1000)).unwrap();
    journal.snapshot(|part, out| validator.piece(part, out)).expect("the disk is well");
    drop(journal);
    assert!(!room.0.join("snapshot.new").exists());
    assert_eq!(uses(&mut loaded(&mut Journal::open(&room.0).expect("nobody has it"))), 1);
}

/// Nobody else reads or writes them, and files with like names are none of them.
#[test]
fn the_files_of_a_folder() {
    let (room, mode) = (Room::new("files"), |path: &Path| fs::metadata(path).unwrap().permissions().mode() & 0o777);
    let folder = room.0.join("state");
    drop(Journal::open(&folder).expect("its parent is there"));
    for name in ["journal.007", "journal.0", "journal.", "journal.1.old", "snapshots"] {
        fs::write(folder.join(name), "anything").unwrap();
        fs::set_permissions(folder.join(name), fs::Permissions::from_mode(0o600)).unwrap();
    }
    let journal = Journal::open(&folder).expect("nobody has it");
    let snapshot = |part: &mut Part, _: &mut [u8]| {
        part.done = 1;
        Ok(PIECE)
    };
    journal.snapshot(snapshot).expect("the disk is well");
    assert_eq!(mode(&folder), 0o700);
    assert!(files(&folder).iter().all(|(path, _)| mode(path) == 0o600), "{:?}", files(&folder));
}

#[test]
fn threads_append_while_a_snapshot_is_taken() {
    let room = Room::new("threads");
    let journal = Journal::open(&room.0).expect("it is empty");
    let validator = Mutex::new(empty());
    let (begun, is_done, count) = (Barrier::new(5), AtomicBool::new(false), AtomicUsize::new(0));
    thread::scope(|scope| {
        for thread in 0..4u64 {
            let (journal, validator, begun, is_done, count) = (&journal, &validator, &begun, &is_done, &count);
            scope.spawn(move || {
                begun.wait();
                for number in 0.. {
                    let used = entry(thread * 1_000_000 + number);
                    validator.lock().unwrap().take(NOW, &used.message().expect("it is a message")).expect("it is taken");
                    journal.append(&used.message().unwrap(), patience()).expect("it is kept");
                    count.fetch_add(1, Ordering::Relaxed);
                    if is_done.load(Ordering::Acquire) {
                        break;
                    }
                }
            });
        }
        begun.wait();
        let taken = (0..3).try_for_each(|_| journal.snapshot(|parts, out| validator.lock().unwrap().piece(parts, out)));
        is_done.store(true, Ordering::Release);
        taken.expect("the disk is well");
    });
    assert_eq!(uses(&mut validator.lock().unwrap()), count.into_inner());
    drop(journal);
    let mut journal = Journal::open(&room.0).expect("nobody has it");
    assert_eq!(uses(&mut loaded(&mut journal)), uses(&mut validator.lock().unwrap()));
}

/// Nobody waits for a snapshot.
#[test]
fn appends_within_a_snapshot() {
    let room = Room::new("within");
    let journal = Journal::open(&room.0).expect("it is empty");
    let piece = |part: &mut Part, _: &mut [u8]| {
        for _ in 0..2 {
            journal.append(&entry(1).message().unwrap(), patience()).expect("it is kept meanwhile");
        }
        assert!(!journal.wants_snapshot(), "one is being taken");
        part.done = 1;
        Ok(PIECE)
    };
    journal.snapshot(piece).expect("the disk is well");
}

#[test]
fn one_process_holds_a_folder() {
    let room = Room::new("held");
    let journal = Journal::open(&room.0).expect("it is empty");
    match Journal::open(&room.0) {
        Err(JournalError::Held { folder, holder }) => {
            assert_eq!(folder, room.0);
            assert!(holder.starts_with(&format!("process {} on ", std::process::id())), "{holder}");
        }
        other => panic!("{other:?}"),
    }
    drop(journal);
    Journal::open(&room.0).expect("it is free again");
}

#[test]
fn a_write_that_fails_is_told_and_ends_nothing() {
    let room = Room::new("write");
    let (journal, faults) = failing(&room);
    faults.let_fail(&["write"]);
    assert!(
        matches!(journal.append(&entry(1).message().unwrap(), patience()), Err(JournalError::Io { file, .. }) if file == room.0.join("journal.1"))
    );
    journal.append(&entry(2).message().unwrap(), patience()).expect("the disk is well again");
    drop(journal);
    let mut journal = Journal::open(&room.0).expect("nobody has it");
    assert_eq!(uses(&mut loaded(&mut journal)), 1);
}

#[test]
fn a_sync_that_fails_ends_all() {
    let room = Room::new("sync");
    let (journal, faults) = failing(&room);
    journal.append(&entry(1).message().unwrap(), patience()).expect("the disk is well");
    faults.let_fail(&["sync"]);
    assert!(matches!(journal.append(&entry(2).message().unwrap(), patience()), Err(JournalError::Ended)));
    assert!(matches!(journal.append(&entry(3).message().unwrap(), patience()), Err(JournalError::Ended)));
    let mut validator = empty();
    assert!(matches!(journal.snapshot(|parts, out| validator.piece(parts, out)), Err(JournalError::Ended)));
    drop(journal);
    let mut journal = Journal::open(&room.0).expect("nobody has it");
    let found = uses(&mut loaded(&mut journal));
    assert!((1..=2).contains(&found), "{found}");
}

#[test]
fn a_snapshot_that_fails_loses_nothing() {
    // The calls of a snapshot in their order (docs/FORMATS.md, "Order of the calls"), and whether the folder ends with each.
    for (call, ends) in [("create", false), ("sync folder", true), ("write", false), ("sync", false), ("rename", false), ("remove", false)]
    {
        let room = Room::new("failing");
        let (journal, faults) = failing(&room);
        let mut validator = empty();
        validator.take(NOW, &entry(1).message().expect("it is a message")).expect("it is taken");
        journal.append(&entry(1).message().unwrap(), patience()).expect("the disk is well");
        // (the mark of the journal that is closed is written and synced before those of the snapshot)
        drop(journal.keeper.join(b"", None).expect("there is room"));
        let mut calls = 0;
        let is_first = |it: &str| it == "write" || it == "sync";
        if !is_first(call) {
            faults.let_fail(&[call]);
        }
        let taken = journal.snapshot(|parts, out| {
            calls += 1;
            if is_first(call) {
                faults.let_fail(&[call]);
            }
            validator.piece(parts, out)
        });
        assert!(taken.is_err(), "{call}");
        assert_eq!(journal.append(&entry(2).message().unwrap(), patience()).is_err(), ends, "{call}");
        assert!(!journal.wants_snapshot(), "{call}: not for a minute");
        drop(journal);
        let mut journal = Journal::open(&room.0).expect("nobody has it");
        assert_eq!(uses(&mut loaded(&mut journal)), if ends { 1 } else { 2 }, "{call}");
    }
}

#[test]
fn a_record_that_is_not_given_is_told() {
    let room = Room::new("record");
    let journal = Journal::open(&room.0).expect("it is empty");
    let why = journal.snapshot(|_, _| Err(Error::NoMemory)).unwrap_err();
    assert!(matches!(why, JournalError::Record(Error::NoMemory)));
    assert!(journal.snapshot(|_, _| Ok(0)).is_err());
    assert!(!room.0.join("snapshot").exists());
    assert!(!room.0.join("snapshot.new").exists());
}

#[test]
fn what_can_not_be_read_is_told() {
    let with_an_id = || {
        let room = Room::new("unfit");
        drop(Journal::open(&room.0).expect("it is empty"));
        room
    };
    let room = with_an_id();
    fs::write(room.0.join("place"), "0123").unwrap();
    assert!(matches!(Journal::open(&room.0), Err(JournalError::BadValidatorId { .. })));

    let room = with_an_id();
    fs::write(room.0.join("journal.9"), b"JSR\x02\x01").unwrap();
    assert!(matches!(Journal::open(&room.0), Err(JournalError::Old { file }) if file == room.0.join("journal.9")));

    let room = with_an_id();
    fs::write(room.0.join("frames"), "3\n").unwrap();
    assert!(matches!(Journal::open(&room.0), Err(JournalError::Old { file }) if file == room.0.join("frames")));

    let room = Room::new("unfit");
    fs::write(room.0.join("journal.1"), b"anything").unwrap();
    assert!(matches!(Journal::open(&room.0), Err(JournalError::NoValidatorId { file }) if file == room.0.join("journal.1")));

    let room = with_an_id();
    fs::create_dir(room.0.join("snapshot")).unwrap();
    assert!(matches!(Journal::open(&room.0), Err(JournalError::Io { file, .. }) if file == room.0.join("snapshot")));

    let room = Room::new("unfit");
    assert!(matches!(Journal::open(room.0.join("none/state")), Err(JournalError::Io { .. })));
}

#[test]
fn messages_of_any_length() {
    let room = Room::new("long");
    let journal = Journal::open(&room.0).expect("it is empty");
    assert!(matches!(journal.append(&vec![0; MOST + 1], patience()), Err(JournalError::TooLong)));
    journal.append(&[], patience()).expect("nothing is kept at once");
    journal.append(&vec![7; MOST], patience()).expect("it is kept");
    drop(journal);
    let mut journal = Journal::open(&room.0).expect("nobody has it");
    let mut found = 0;
    let counted = journal.load(|it| {
        found += it.len();
        Ok::<(), ()>(())
    });
    assert_eq!(counted, Ok(()));
    assert_eq!(found, MOST);
}

/// Ways to make the path of a folder lead elsewhere.
type Move = fn(&Path);
const MOVES: [(&str, Move); 4] = [
    ("removed", |path| fs::remove_dir_all(path).unwrap()),
    ("moved", |path| fs::rename(path, path.with_extension("old")).unwrap()),
    ("emptied", |path| fs::read_dir(path).unwrap().for_each(|it| fs::remove_file(it.unwrap().path()).unwrap())),
    ("without its lock", |path| fs::remove_file(path.join("lock")).unwrap()),
];

/// The files of a folder with what is in them, but for the zeros by which a journal grows.
fn files(path: &Path) -> Vec<(PathBuf, Vec<u8>)> {
    let mut all: Vec<_> = fs::read_dir(path).unwrap().map(|it| it.unwrap().path()).map(|it| (it.clone(), fs::read(it).unwrap())).collect();
    all.sort();
    all
}

fn is_moved<T>(result: Result<T, JournalError>) -> bool {
    matches!(result, Err(JournalError::Moved { .. }))
}

// Another process may have begun at the path, so nothing is acknowledged as kept, and its files stay as they are.
#[test]
fn a_folder_that_is_moved_keeps_nothing() {
    for (how, moves) in MOVES {
        for is_snapshot in [false, true] {
            let room = Room::new("moved");
            let path = room.0.join("state");
            let mut journal = Journal::open(&path).unwrap();
            let mut validator = loaded(&mut journal);
            journal.append(&entry(1).message().unwrap(), patience()).unwrap();
            moves(&path);
            let other = Journal::open(&path).unwrap_or_else(|why| panic!("{how}: {why}"));
            other.append(&entry(2).message().unwrap(), patience()).unwrap();
            let before = files(&path);
            let snapshot = |validator: &mut Core| journal.snapshot(|parts, room| validator.piece(parts, room));
            if is_snapshot {
                assert!(is_moved(snapshot(&mut validator)), "{how}");
            }
            for number in 3..5 {
                assert!(is_moved(journal.append(&entry(number).message().unwrap(), patience())), "{how}");
            }
            assert!(is_moved(snapshot(&mut validator)), "{how}");
            let (now, first) = (files(&path), path.join("journal.1"));
            // (without its lock it is the same folder, and the first journal is still that of the first process)
            let is_own = |file: &Path| how == "without its lock" && file == first;
            assert!(now.len() == before.len() && now.iter().zip(&before).all(|(a, b)| a == b || is_own(&a.0)), "{how}");
            other.append(&entry(5).message().unwrap(), patience()).unwrap();
        }
    }
}

// It stays so though the folder comes back: another process may have had its path meanwhile.
#[test]
fn a_folder_that_comes_back_keeps_nothing() {
    let room = Room::new("back");
    let (path, old) = (room.0.join("state"), room.0.join("old"));
    let journal = Journal::open(&path).unwrap();
    fs::rename(&path, &old).unwrap();
    assert!(is_moved(journal.append(&entry(1).message().unwrap(), patience())));
    fs::rename(&old, &path).unwrap();
    let why = journal.append(&entry(1).message().unwrap(), patience()).unwrap_err().to_string();
    assert!(why.contains("put it back there, and start the service again"), "{why}");
}

/// A start in which a call fails, or kills the process. It says whether that call came.
fn fails(path: &Path, faults: &Faults, call: usize, is_killed: bool) -> bool {
    faults.ends(Some((call, is_killed)));
    let why = opened(path, faults).map(drop);
    assert_eq!(why.is_err(), faults.has_ended(), "call {call}: {why:?}");
    if !is_killed && matches!(&why, Err(why) if why.to_string().contains("remove this folder")) {
        fs::remove_dir_all(path).unwrap(); // as someone does who reads that
    }
    let came = faults.has_ended();
    faults.ends(None);
    came
}

// A new folder, also of an older version, keeps what is appended to it, whichever call of the starts before failed: its own name lasts, and that of the
// validator ID.
#[test]
fn a_new_folder_whose_first_starts_fail() {
    for (is_killed, is_old) in [(false, false), (true, false), (false, true)] {
        let (mut first, mut comes) = (0, true);
        while comes {
            first += 1;
            let (mut second, mut next_comes) = (0, true);
            while next_comes {
                second += 1;
                let (room, faults) = (Room::new("first"), Faults::default());
                let (path, lost) = (room.0.join("state"), room.0.join("lost"));
                if is_old {
                    fs::create_dir(&path).unwrap();
                    fs::write(path.join("journal.1"), "").unwrap();
                    faults.has("journal.1");
                }
                comes = fails(&path, &faults, first, is_killed);
                next_comes = fails(&path, &faults, second, false);
                let journal = opened(&path, &faults).expect("the disk is well");
                journal.append(&entry(1).message().unwrap(), patience()).unwrap();
                drop(journal);
                faults.lost(&path, &lost);
                let found = Journal::open(&lost).map(|mut journal| uses(&mut loaded(&mut journal)));
                assert!(matches!(found, Ok(1)), "calls {first} ({is_killed}, {is_old}) and {second}: {found:?}");
            }
        }
        assert!(first > 10, "{first}");
    }
}

#[test]
fn the_folder_above_is_synced_while_nothing_is_kept() {
    let (room, faults) = (Room::new("above"), Faults::default());
    let (made, found) = (room.0.join("made"), room.0.join("found"));
    faults.let_fail(&["sync above"]);
    assert!(matches!(opened(&made, &faults), Err(JournalError::Io { file, .. }) if file == made));
    assert!(!made.exists());
    fs::create_dir(&found).unwrap();
    faults.let_fail(&["sync above"]);
    assert!(matches!(opened(&found, &faults), Err(JournalError::NameMayNotLast { folder, .. }) if folder == found));
    assert!(!found.join("place").exists());
    // (another user may have made it, or it is mounted where nothing can be made)
    for code in [13, 1, 22] {
        faults.let_fail(&["sync above"]);
        faults.fails_by(code);
        drop(opened(&found, &faults).unwrap());
        fs::remove_file(found.join("journal.1")).unwrap();
    }
    faults.fails_by(5);
    drop(opened(&found, &faults).unwrap());
    faults.let_fail(&["sync above"]);
    drop(opened(&found, &faults).expect("it has a journal now"));
}

/// Want of memory is no fault of a file.
#[test]
fn a_system_without_memory() {
    let (room, faults) = (Room::new("enomem"), Faults::default());
    faults.let_fail(&["create"]);
    faults.fails_by(12);
    assert!(matches!(opened(&room.0, &faults), Err(JournalError::NoMemory)));
    opened(&room.0, &faults).expect("there is memory");
}
