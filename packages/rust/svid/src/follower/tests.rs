//! Bundles on their way to the guard.

use super::*;
use crate::common::*;

#[test]
fn a_bundle_that_comes_while_others_are_handed_on_is_due() {
    let (requests, mut follower) = (Requests::open(&ledger(), false).expect("it opens"), None);
    let none = r#"{"keys":[]}"#;
    Follower::begin(&requests, Sources::new().bundle("a.example", none), &mut follower).expect("it begins");
    let shared = &follower.as_ref().expect("it has begun").shared;
    let take = |domain| assert!(shared.take(domain, "a test", Ok(none.into()), Form::Bundle));
    thread::scope(|scope| {
        let held = requests.core();
        take("b.example");
        scope.spawn(|| shared.tell_all());
        until("bundles to be on their way", || !shared.state().is_due);
        take("c.example");
        drop(held);
    });
    assert!(shared.state().is_due);
}

/// Until they have ended, their threads may still read something.
#[test]
fn sources_that_are_followed_no_more_hand_nothing_on() {
    let (requests, mut follower) = (Requests::open(&ledger(), false).expect("it opens"), None);
    let none = r#"{"keys":[]}"#;
    Follower::begin(&requests, Sources::new().bundle("a.example", none), &mut follower).expect("it begins");
    let before = Arc::clone(&follower.as_ref().expect("it has begun").shared);
    Follower::begin(&requests, Sources::new().bundle("b.example", none), &mut follower).expect("it begins");
    let bundles = std::fs::read(top().join("examples/bundles.json")).expect("the bundles of the examples");
    let bundles: serde_json::Value = serde_json::from_slice(&bundles).expect("an object");
    assert!(before.take("example.org", "a test", Ok(bundles["example.org"].to_string().into()), Form::Bundle));
    before.tell_all();
    let token = std::fs::read_to_string(top().join("examples/token.txt")).expect("the token of the examples");
    let why = requests.judge(token.trim().as_bytes(), &Table::default()).unwrap_err();
    assert_eq!(why, Error::Refused(crate::Refusal::UnknownDomain));
}

/// What a guard follows without threads, so that nobody looks but this test.
fn quiet(requests: &Arc<Requests>, sources: Sources, state: State) -> Shared {
    Shared {
        requests: Arc::downgrade(requests),
        sources,
        state: Mutex::new(state),
        telling: Mutex::new(()),
        comes: Condvar::new(),
        #[cfg(any(feature = "https", feature = "workload"))]
        closing: tokio::sync::watch::channel(false).0,
    }
}

/// It is that of the source that gives it now, though its text is the same.
#[test]
fn a_bundle_stays_when_the_source_goes_that_gave_it_first() {
    let (requests, room) = (Requests::open(&ledger(), false).expect("it opens"), Room::new("first"));
    let (folder, file) = (room.0.join("folder"), room.0.join("file"));
    std::fs::create_dir(&folder).expect("nothing is there");
    let first = folder.join("example.org.json");
    for path in [&first, &file] {
        std::fs::write(path, r#"{"keys":[]}"#).expect("it is written");
    }
    let shared = quiet(&requests, Sources::new().folder(&folder), State::default());
    shared.look();
    let state = std::mem::take(&mut *shared.state());
    let shared = quiet(&requests, Sources::new().file("example.org", &file).folder(&folder), state);
    shared.look();
    std::fs::remove_file(&first).expect("it is there");
    shared.look();
    assert_eq!(shared.state().held.keys().collect::<Vec<_>>(), ["example.org"]);
}

/// A fault is reported once, and again where the source was well meanwhile: its file may have had the same bundle as before.
#[test]
fn a_fault_that_comes_again_is_told_again() {
    let (heard, room, good) = (Heard::default(), Room::new("again"), r#"{"keys":[]}"#);
    let requests = Requests::open(&heard.options(), false).expect("it opens");
    let folder = room.0.join("folder");
    let shared = quiet(&requests, Sources::new().folder(&folder), State::default());
    let hold = |text: &str| {
        let held = Held { text: text.into(), form: Form::Bundle, source: "another test".to_owned() };
        shared.state().held.insert("b.example".to_owned(), held);
        shared.state().is_due = true;
        shared.tell_all();
    };
    for count in 1..=2 {
        assert!(shared.take("a.example", "a test", Ok(good.into()), Form::Bundle));
        hold(good);
        std::fs::create_dir(&folder).expect("nothing is there");
        shared.look();
        std::fs::remove_dir(&folder).expect("it is there");
        for _ in 0..2 {
            assert!(!shared.take("a.example", "a test", Err("it is away".to_owned()), Form::Bundle));
            hold("half");
            shared.look();
        }
        for source in ["a test", "all bundles together", &folder.display().to_string()] {
            assert_eq!(heard.count(&format!(": {source}: ")), count, "{:?}", heard.all());
        }
    }
}

#[test]
fn of_a_long_file_no_more_is_read_than_a_bundle_has() {
    let room = Room::new("long");
    let path = room.0.join("bundle.json");
    for (len, is_good) in [(MOST, true), (MOST + 1, false), (3 * MOST, false)] {
        let bundle = r#"{"keys":[]}"#;
        std::fs::write(&path, bundle.to_owned() + &" ".repeat(len - bundle.len())).expect("it is written");
        let text = super::read(&path).expect("it is a file");
        assert_eq!(text.len(), len.min(MOST + 1));
        assert_eq!(judge("example.org", &text, Form::Bundle).is_ok(), is_good, "{len}");
    }
}

/// An error, and what it comes from.
#[cfg(feature = "https")]
#[derive(Debug)]
struct Of(String, Option<Box<Of>>);

#[cfg(feature = "https")]
impl std::fmt::Display for Of {
    fn fmt(&self, f: &mut std::fmt::Formatter<'_>) -> std::fmt::Result {
        f.write_str(&self.0)
    }
}

#[cfg(feature = "https")]
impl std::error::Error for Of {
    fn source(&self) -> Option<&(dyn std::error::Error + 'static)> {
        self.1.as_ref().map(|it| &**it as _)
    }
}

#[test]
#[cfg(feature = "https")]
fn why_a_source_gave_nothing_has_its_causes_and_an_end() {
    let of = |text: &str, source| Of(text.to_owned(), source);
    let deep = of("no connection", Some(of("connection refused", Some(of("refused", None).into())).into()));
    let long = of(&"x".repeat(5000), None);
    let (tell, says) = std::sync::mpsc::channel();
    thread::spawn(move || [deep, long].iter().try_for_each(|it| tell.send(told(it))));
    let next = || says.recv_timeout(patience()).expect("it has an end");
    assert_eq!(next(), "no connection: connection refused");
    assert_eq!(next(), "x".repeat(1024));
}
