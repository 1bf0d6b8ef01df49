//! Trust bundles that follow files and folders.
#![cfg(feature = "testing")]

use std::fs;
use std::path::Path;
use std::sync::Mutex;
use std::time::Duration;

use crate::common::*;
use svid::testing::Issuer;
use svid::{Error, Guard, OpenSsl, Options, OptionsFault, Refusal, SourceFault, Sources};

fn opened(options: &Options, sources: Sources) -> Guard<OpenSsl> {
    Guard::open(options, sources, OpenSsl::new()).expect("it opens")
}

fn write(path: &Path, text: impl AsRef<[u8]>) {
    fs::write(path.with_extension("new"), text).expect("it is written");
    fs::rename(path.with_extension("new"), path).expect("it is renamed");
}

fn check(guard: &Guard<OpenSsl>, issuer: &Issuer) -> Result<(), Error> {
    guard.check(issuer.token("/web", "ledger")).map(drop)
}

fn refused(why: Refusal) -> Result<(), Error> {
    Err(Error::Refused(why))
}

#[test]
fn a_file_is_followed() {
    let (room, heard, mut issuer) = (Room::new("file"), Heard::default(), Issuer::new("example.org"));
    let path = room.0.join("bundle.json");
    write(&path, issuer.bundle());
    let guard = opened(&heard.options(), Sources::new().file("example.org", &path));
    assert_eq!((check(&guard, &issuer), guard.unready()), (Ok(()), None));
    // (it is looked at each second)
    until_within(Duration::from_secs(3), "a new key within two seconds", || {
        issuer.rotate();
        assert_eq!(check(&guard, &issuer), refused(Refusal::NoKey));
        write(&path, issuer.bundle());
        until("the new key", || check(&guard, &issuer).is_ok());
    });
    assert!(heard.all().is_empty(), "{:?}", heard.all());
}

/// The last good bundle stays, and each fault is reported once.
#[test]
fn a_file_that_is_bad() {
    let (room, heard, mut issuer) = (Room::new("bad"), Heard::default(), Issuer::new("example.org"));
    let path = room.0.join("bundle.json");
    write(&path, issuer.bundle());
    let (mut other, beside) = (Issuer::new("other.example"), room.0.join("other"));
    write(&beside, other.bundle());
    let guard = opened(&heard.options(), Sources::new().file("example.org", &path).file("other.example", &beside));
    let long = format!("{{\"keys\":[]{}}}", " ".repeat(1 << 20));
    for (text, why) in [("{}", "no list"), ("half", "no JSON"), (r#"{"keys":7}"#, "no list"), (long.as_str(), "more than 1048576 bytes")] {
        let before = heard.all().len();
        write(&path, text);
        until(why, || heard.all().len() > before);
        assert_eq!(check(&guard, &issuer), Ok(()));
    }
    assert_eq!(heard.count("more than 1048576 bytes"), 1, "{:?}", heard.all());
    let before = heard.all().len();
    fs::remove_file(&path).expect("it is there");
    until("a warning of the file that is gone", || heard.all().len() > before);
    fs::create_dir(&path).expect("nothing is there");
    until("a warning of a folder", || heard.count("no regular file") == 1);
    // (two looks later nothing more is reported)
    let told = heard.all();
    for _ in 0..2 {
        other.rotate();
        write(&beside, other.bundle());
        until("a look at both files", || check(&guard, &other).is_ok());
    }
    assert_eq!(heard.all(), told);
    let start = format!("a trust bundle is not read; the last good one stays: {}: ", path.display());
    assert!(told.iter().all(|it| it.starts_with(&start)), "{told:?}");
    assert_eq!(check(&guard, &issuer), Ok(()));
    fs::remove_dir(&path).expect("it is there");
    issuer.rotate();
    write(&path, issuer.bundle());
    until("the new key", || check(&guard, &issuer).is_ok());
}

#[test]
fn a_file_that_comes_later() {
    let (room, heard, issuer) = (Room::new("later"), Heard::default(), Issuer::new("example.org"));
    let path = room.0.join("bundle.json");
    let guard = opened(&heard.options(), Sources::new().file("example.org", &path));
    assert!(matches!(check(&guard, &issuer), Err(Error::Unavailable(_))));
    let why = guard.unready().expect("it is not ready").to_string();
    assert!(why.contains("no trust bundle"), "{why}");
    assert_eq!(heard.count(&format!("a trust bundle is not read: {}: ", path.display())), 1);
    write(&path, issuer.bundle());
    until("the bundle", || guard.unready().is_none());
    assert_eq!(check(&guard, &issuer), Ok(()));
}

#[test]
fn a_folder_is_followed() {
    let (room, heard) = (Room::new("folder"), Heard::default());
    let [one, other, named] = ["one.example", "other.example", "named.example"].map(Issuer::new);
    let file = |issuer: &str| room.0.join(format!("{issuer}.json"));
    let beside = Room::new("beside");
    write(&beside.0.join("named"), named.bundle());
    write(&file("one.example"), one.bundle());
    write(&file("named.example"), Issuer::new("named.example").bundle());
    for name in ["Bad Name", ".hidden.example"] {
        write(&file(name), other.bundle());
    }
    fs::write(room.0.join("other.example.txt"), other.bundle()).expect("it is written");
    let sources = Sources::new().folder(&room.0).file("named.example", beside.0.join("named"));
    let guard = opened(&heard.options(), sources);
    assert_eq!((check(&guard, &one), check(&guard, &named)), (Ok(()), Ok(())));
    assert_eq!(check(&guard, &other), refused(Refusal::UnknownDomain));
    assert_eq!((heard.count("Bad Name.json: its name"), heard.count("named.example.json: another source")), (1, 1));
    assert_eq!(heard.all().len(), 2, "{:?}", heard.all());

    write(&file("other.example"), other.bundle());
    until("a bundle that comes", || check(&guard, &other).is_ok());
    write(&file("other.example"), "half");
    until("a warning", || heard.count("other.example.json: ") == 1);
    fs::remove_file(file("one.example")).expect("it is there");
    until("the end of a bundle whose file is gone", || check(&guard, &one) == refused(Refusal::UnknownDomain));
    assert_eq!((check(&guard, &other), check(&guard, &named)), (Ok(()), Ok(())));
    // What was wrong with a file that is gone is forgotten.
    fs::remove_file(file("other.example")).expect("it is there");
    until("the end of the other bundle", || check(&guard, &other) == refused(Refusal::UnknownDomain));
    write(&file("other.example"), "half");
    until("the warning again", || heard.count("other.example.json: ") == 2);
    write(&file("other.example"), other.bundle());
    until("the other bundle", || check(&guard, &other).is_ok());
    // A folder that can't be read takes nothing with it.
    let away = room.0.with_extension("away");
    fs::rename(&room.0, &away).expect("it is there");
    until("a warning of the folder", || heard.count(&format!("{}: ", room.0.display())) == 1);
    assert_eq!(check(&guard, &other), Ok(()));
    fs::rename(&away, &room.0).expect("it is there");
}

/// A bundle whose file is gone is trusted no more, whatever bytes the name of its folder has.
#[test]
fn a_folder_whose_name_is_no_text() {
    let (room, [stays, goes]) = (Room::new("bytes"), ["stays.example", "goes.example"].map(Issuer::new));
    let folder = room.0.join(<std::ffi::OsStr as std::os::unix::ffi::OsStrExt>::from_bytes(b"f\xff"));
    fs::create_dir(&folder).expect("nothing is there");
    write(&folder.join("stays.example.json"), stays.bundle());
    write(&folder.join("goes.example.json"), goes.bundle());
    let guard = opened(&ledger(), Sources::new().folder(&folder));
    assert_eq!((check(&guard, &stays), check(&guard, &goes)), (Ok(()), Ok(())));
    fs::remove_file(folder.join("goes.example.json")).expect("it is there");
    until("the end of the bundle", || check(&guard, &goes) == refused(Refusal::UnknownDomain));
    assert_eq!(check(&guard, &stays), Ok(()));
}

/// Other sources take the place of all before. Faulty ones change nothing, and those before go on to be followed.
#[test]
fn a_guard_follows_other_sources() {
    let (room, heard) = (Room::new("others"), Heard::default());
    let [mut stays, goes] = ["stays.example", "goes.example"].map(Issuer::new);
    let path = |name: &str| room.0.join(name);
    write(&path("stays"), stays.bundle());
    write(&path("goes"), goes.bundle());
    let guard = opened(&heard.options(), Sources::new().file("stays.example", path("stays")).file("goes.example", path("goes")));
    assert!(guard.follow(Sources::new().file("A", path("stays"))).is_err());
    assert!(guard.follow(Sources::new().bundle("stays.example", "half")).is_err());
    // (a bundle of the same trust domain stands there and in the file)
    assert!(guard.follow(Sources::from(stays.bundles()).file("stays.example", path("stays"))).is_err());
    assert_eq!((check(&guard, &stays), check(&guard, &goes)), (Ok(()), Ok(())));
    stays.rotate();
    write(&path("stays"), stays.bundle());
    until("a new key of the sources before", || check(&guard, &stays).is_ok());
    // (until a file is there, the last good bundle stays)
    guard.follow(Sources::new().file("stays.example", path("new"))).expect("it can be followed");
    assert_eq!((check(&guard, &stays), check(&guard, &goes)), (Ok(()), refused(Refusal::UnknownDomain)));
    stays.rotate();
    write(&path("stays"), "{}");
    write(&path("new"), stays.bundle());
    until("the new key", || check(&guard, &stays).is_ok());
    assert_eq!(heard.count(&format!("{}: ", path("stays").display())), 0, "nobody reads it any more");
    // Where the others have nothing yet, nothing of those before is trusted.
    guard.follow(Sources::new().file("later.example", path("later"))).expect("it can be followed");
    assert!(matches!(check(&guard, &stays), Err(Error::Unavailable(_))), "it may come, so a good token is not refused");
}

/// Without any bundle no token is refused, as that is not its fault, and no more are to come.
#[test]
fn a_folder_that_gets_empty() {
    let (room, issuer) = (Room::new("empty"), Issuer::new("example.org"));
    let file = room.0.join("example.org.json");
    write(&file, issuer.bundle());
    let guard = opened(&ledger(), Sources::new().folder(&room.0));
    assert_eq!((check(&guard, &issuer), guard.unready()), (Ok(()), None));
    fs::remove_file(&file).expect("it is there");
    let why = std::cell::RefCell::new(None);
    until("the end of the bundle", || {
        *why.borrow_mut() = check(&guard, &issuer).err();
        why.borrow().is_some()
    });
    assert!(matches!(*why.borrow(), Some(Error::Unavailable(_))), "{why:?}");
    assert_eq!(guard.unready().expect("no bundle is there").to_string(), "there is no trust bundle");
    write(&file, issuer.bundle());
    until("the bundle", || check(&guard, &issuer).is_ok());
    assert_eq!(guard.unready(), None);
}

/// A token whose bundle was not read yet is not refused, though another one was; its client hears why.
#[test]
fn a_bundle_that_comes_later_than_another() {
    let (room, [one, later, stranger]) = (Room::new("later-than"), ["one.example", "later.example", "stranger.example"].map(Issuer::new));
    let path = room.0.join("later");
    let sources = Sources::new().bundle("one.example", one.bundle()).file("later.example", &path);
    let guard = opened(&ledger(), sources);
    assert_eq!((check(&guard, &one), check(&guard, &stranger), guard.unready()), (Ok(()), refused(Refusal::UnknownDomain), None));
    let token = later.token("/web", "ledger");
    assert_eq!(guard.judge(&token).unwrap_err().to_string(), "the bundle of the token's trust domain was not read yet");
    let denied = guard.admit([&format!("Bearer {token}")]).unwrap_err();
    assert_eq!((denied.status(), denied.reason(), denied.retry_after()), (503, "NoBundle", Some(1)));
    write(&path, later.bundle());
    until("the bundle", || guard.check(&token).is_ok());
}

/// The lines of a log.
struct Lines(Mutex<Vec<String>>);

static LINES: Lines = Lines(Mutex::new(Vec::new()));

impl log::Log for Lines {
    fn enabled(&self, _: &log::Metadata<'_>) -> bool {
        true
    }

    fn log(&self, record: &log::Record<'_>) {
        self.0.lock().unwrap().push(format!("{} {}", record.level(), record.args()));
        std::panic::panic_any("a logger may panic");
    }

    fn flush(&self) {}
}

/// What a service finds in it that has no hooks of its own. Its logger panics at each line, and ends nothing.
#[test]
fn the_log_of_a_service() {
    if !is_alone() {
        return alone("sources::the_log_of_a_service", |_| ());
    }
    log::set_logger(&LINES).expect("no other test has one");
    log::set_max_level(log::LevelFilter::Info);
    let has = |line: &str| until(line, || LINES.0.lock().unwrap().iter().any(|it| it.starts_with(line)));
    let (room, issuer) = (Room::new("log"), Issuer::new("logged.example"));
    let path = room.0.join("bundle.json");
    let [one, other] = [(); 2].map(|()| opened(&ledger(), Sources::new().file("logged.example", &path)));
    has(&format!("WARN a trust bundle is not read: {}: No such file", path.display()));
    write(&path, issuer.bundle());
    has(&format!("INFO the trust bundle is well again: {}", path.display()));
    until("the bundle", || one.unready().or_else(|| other.unready()).is_none());
    let token = issuer.token("/web", "ledger");
    let [used, theirs] = [&one, &other].map(|it| *it.check(&token).expect("it is good").used());
    assert!(one.check(&token).is_err());
    has("INFO a token is not accepted: Replayed: ");
    one.take(theirs.message().expect("it is live")).expect("it takes it");
    has(&format!("WARN several guards accepted the token {}: ", used.key));
}

#[test]
fn sources_that_are_none() {
    let rows = [
        (Sources::new(), SourceFault::None),
        (Sources::new().file("example.org", "a").file("A", "a"), SourceFault::Domain { number: 1 }),
        (Sources::new().file("spiffe://example.org", "a"), SourceFault::Domain { number: 0 }),
        (Sources::new().file("example.org", "a").file("example.org", "b"), SourceFault::Twice { number: 1 }),
        (Sources::new().bundle("example.org", r#"{"keys":[]}"#).file("example.org", "b"), SourceFault::Twice { number: 1 }),
        (Sources::new().folder("a").folder("b"), SourceFault::Twice { number: 1 }),
    ];
    for (sources, why) in rows {
        let got = Guard::open(&ledger(), sources, ()).map(drop);
        assert_eq!(got, Err(Error::Options(OptionsFault::Source(why))));
        assert!(why.to_string().contains(": "), "it says what to do");
    }
}
