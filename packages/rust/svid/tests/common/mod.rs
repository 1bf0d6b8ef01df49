//! What the tests share: the files of tests/vectors/, which the tests of every language read (tests/vectors/README.md).
#![allow(dead_code)]

use std::io::{BufRead, BufReader, Read};
use std::path::{Path, PathBuf};
use std::process::{Child, Command, Output, Stdio};
use std::sync::atomic::{AtomicU64, Ordering};
use std::sync::{mpsc, Arc, Mutex};
use std::thread;
use std::time::{Duration, Instant};

use serde_json::Value;
use svid::{Candidate, Error, Guard, Options, Said, TokenKey, Unverified, ValidatorId, Verify};

/// The root of the checkout.
pub fn top() -> PathBuf {
    Path::new(env!("CARGO_MANIFEST_DIR")).join("../../..")
}

pub struct Vectors {
    pub file: Value,
    pub vectors: Vec<Value>,
}

/// The vectors of a file that are for this crate. There are as many as it says.
pub fn read(name: &str) -> Vectors {
    let path = top().join("tests/vectors").join(format!("{name}.json"));
    let text = std::fs::read(&path).unwrap_or_else(|why| panic!("{}: {why}", path.display()));
    let file: Value = serde_json::from_slice(&text).expect("the file is JSON");
    let all = file["vectors"].as_array().expect("it has vectors");
    let is_ours = |it: &&Value| text_of(it, "readers").split(' ').any(|reader| reader == "rust");
    let vectors: Vec<Value> = all.iter().filter(is_ours).cloned().collect();
    assert!(!vectors.is_empty());
    assert_eq!(Some(vectors.len() as u64), file["counts"]["rust"].as_u64(), "{name}: so many vectors are for this crate");
    Vectors { file, vectors }
}

/// Runs a test of each vector of a file, and panics with those that fail.
pub fn each(name: &str, test: impl Fn(&Value, &Value) -> Result<(), String>) {
    let Vectors { file, vectors } = read(name);
    let failures: Vec<String> =
        vectors.iter().filter_map(|it| test(&file, it).err().map(|why| format!("{name}: {}: {why}", text_of(it, "name")))).collect();
    assert!(failures.is_empty(), "{} of {} failed:\n{}", failures.len(), vectors.len(), failures.join("\n"));
}

/// Whether two are the same, or else what they are.
pub fn same<T: PartialEq + std::fmt::Debug>(got: T, want: T) -> Result<(), String> {
    if got == want {
        return Ok(());
    }
    Err(format!("{got:?}, and not {want:?}"))
}

pub fn text_of<'a>(it: &'a Value, name: &str) -> &'a str {
    it[name].as_str().unwrap_or_else(|| panic!("{name} is a text: {it}"))
}

pub fn number_of(it: &Value, name: &str) -> u64 {
    it[name].as_u64().unwrap_or_else(|| panic!("{name} is a number: {it}"))
}

pub fn list_of<'a>(it: &'a Value, name: &str) -> &'a [Value] {
    it[name].as_array().unwrap_or_else(|| panic!("{name} is a list: {it}"))
}

pub fn bytes_of(it: &Value, name: &str) -> Vec<u8> {
    from_hex(text_of(it, name))
}

pub fn from_hex(text: &str) -> Vec<u8> {
    assert_eq!(text.len() % 2, 0);
    (0..text.len()).step_by(2).map(|at| u8::from_str_radix(&text[at..at + 2], 16).expect("a digit")).collect()
}

pub fn hex(bytes: &[u8]) -> String {
    bytes.iter().map(|byte| format!("{byte:02x}")).collect()
}

pub fn validator_id_of(it: &Value, name: &str) -> ValidatorId {
    ValidatorId(bytes_of(it, name).try_into().expect("a validator ID has 16 bytes"))
}

pub fn key_of(it: &Value, name: &str) -> TokenKey {
    TokenKey(bytes_of(it, name).try_into().expect("a key has 32 bytes"))
}

/// A limit of a setting: a text of digits, or null for none.
pub fn limit_of(it: &Value) -> u64 {
    it.as_str().map_or(u64::MAX, |text| text.parse().expect("a number"))
}

/// The usual options of the vectors: the audience `ledger`, and tokens of any life. A check may take as long as a busy machine wants.
pub fn ledger() -> Options {
    Options::new(["ledger"]).any_life().wait(std::time::Duration::from_secs(500))
}

/// How long a test waits for what must come.
pub fn patience() -> std::time::Duration {
    let seconds = std::env::var("SVID_TEST_PATIENCE").ok().and_then(|it| it.parse().ok());
    std::time::Duration::from_secs(seconds.unwrap_or(180))
}

/// A clock of a test.
#[derive(Clone, Default)]
pub struct Time(Arc<AtomicU64>);

impl Time {
    pub fn at(seconds: u64) -> Time {
        let time = Time::default();
        time.set(seconds);
        time
    }

    pub fn set(&self, seconds: u64) {
        self.0.store(seconds, Ordering::Relaxed);
    }

    /// The same options by this clock.
    pub fn of(&self, options: Options) -> Options {
        let time = self.clone();
        options.clock(move || time.0.load(Ordering::Relaxed))
    }
}

/// Advances the record to the time of its clock.
pub fn tick<V>(guard: &Guard<V>) -> Result<(), Error> {
    match guard.unready() {
        None => Ok(()),
        Some(Error::Unavailable(why)) if why.to_string().starts_with("the clock went ahead too far") => Err(Error::Jump),
        Some(why) => Err(why),
    }
}

/// Answers yes to the questions of a list, as the vectors have them (docs/FORMATS.md, "Question").
#[cfg(any(feature = "openssl", feature = "ring"))]
#[derive(Default)]
pub struct Table(Mutex<(String, Option<Vec<String>>)>);

#[cfg(any(feature = "openssl", feature = "ring"))]
impl Table {
    /// The next token, and the questions whose answer is yes: all, if there is no list of them.
    pub fn set(&self, token: &str, yes: Option<&[Value]>) {
        let domain = Said::of(token).map_or(String::new(), |it| it.trust_domain().to_owned());
        let texts = |yes: &[Value]| yes.iter().map(|it| it.as_str().expect("a text").to_owned()).collect();
        *self.0.lock().unwrap() = (domain, yes.map(texts));
    }
}

#[cfg(any(feature = "openssl", feature = "ring"))]
impl Verify for Table {
    fn verify(&self, candidate: &Candidate<'_>, signed: &[u8], signature: &[u8]) -> Result<bool, Unverified> {
        let (domain, yes) = &*self.0.lock().unwrap();
        let yes = match yes {
            Some(yes) => yes,
            None => return Ok(true),
        };
        let fields = [domain.as_bytes(), candidate.jwk(), candidate.algorithm().name().as_bytes(), signed, signature];
        let text: Vec<u8> = fields.iter().flat_map(|it| [&(it.len() as u32).to_be_bytes()[..], it].concat()).collect();
        Ok(yes.contains(&hex(&svid::Caller::of(text).0)))
    }
}

/// The verdict of a check, in the words of the vectors.
pub fn verdict(checked: Result<svid::Accepted, Error>) -> String {
    match checked {
        Ok(accepted) => format!("accepted {} {}", accepted.spiffe_id(), accepted.expires()),
        Err(why) => fault(why),
    }
}

/// What a call answers that did nothing, in the words of the vectors.
pub fn fault(why: Error) -> String {
    match why {
        Error::Refused(why) => format!("refused {}", why.name()),
        Error::Messages(why) => format!("{} {} {}", why.fault.name(), why.message, why.offset),
        why => format!("{why:?}"),
    }
}

/// A guard that takes messages of any time, and whose record is empty. Its clock stands at 0.
pub fn empty(time: &Time) -> Guard<()> {
    Guard::open(&time.of(ledger()).ahead(u64::MAX), b"{}", ()).expect("it opens")
}

/// A verifier, and whether it can verify by the algorithm.
pub trait Verifies: Verify + Default + Send + Sync {
    const CANT: &'static [&'static str];
    fn of_bits(most: usize) -> Self;
    const MOST_BITS: usize;
}

#[cfg(feature = "openssl")]
impl Verifies for svid::OpenSsl {
    const CANT: &'static [&'static str] = &[];
    const MOST_BITS: usize = usize::MAX;
    fn of_bits(most: usize) -> svid::OpenSsl {
        svid::OpenSsl::new().rsa_bits(most)
    }
}

#[cfg(feature = "ring")]
impl Verifies for svid::Ring {
    const CANT: &'static [&'static str] = &["ES512"];
    const MOST_BITS: usize = 8192;
    fn of_bits(most: usize) -> svid::Ring {
        svid::Ring::new().rsa_bits(most)
    }
}

/// Waits for something that must come.
pub fn until(what: &str, mut holds: impl FnMut() -> bool) {
    let begun = Instant::now();
    while !holds() {
        assert!(begun.elapsed() < patience(), "waited in vain for {what}");
        thread::sleep(Duration::from_millis(5));
    }
}

/// Does again and again what takes less time than this, until it does: a busy machine may take longer for it.
pub fn until_within(limit: Duration, what: &str, mut does: impl FnMut()) {
    until(what, || {
        let begun = Instant::now();
        does();
        begun.elapsed() < limit
    });
}

/// What a call returns. A thread makes it, for which nobody waits without an end. (It has much to do, and so more time than one thing that must come.)
pub fn returned<T: Send + 'static>(what: &str, call: impl FnOnce() -> T + Send + 'static) -> T {
    let (call, begun) = (thread::spawn(call), Instant::now());
    while !call.is_finished() {
        assert!(begun.elapsed() < 3 * patience(), "waited in vain for {what}");
        thread::sleep(Duration::from_millis(5));
    }
    call.join().unwrap_or_else(|why| std::panic::resume_unwind(why))
}

/// The first connection to a socket that listens and does not block.
pub fn accepted<T>(mut accept: impl FnMut() -> std::io::Result<T>) -> T {
    let mut came = None;
    until("a connection", || {
        came = accept().ok();
        came.is_some()
    });
    came.expect("it came")
}

/// A process that ends with its name.
pub struct Process(pub Child);

impl Process {
    pub fn begin(command: &mut Command) -> Process {
        Process(command.spawn().unwrap_or_else(|why| panic!("{command:?}: {why}")))
    }

    /// What it says from now on.
    pub fn lines(&mut self) -> Lines {
        Lines::of(self.0.stdout.take().expect("its output"))
    }
}

impl Drop for Process {
    fn drop(&mut self) {
        let _ = self.0.kill();
        let _ = self.0.wait();
    }
}

/// The lines that somebody writes.
pub struct Lines(mpsc::Receiver<String>);

impl Lines {
    pub fn of(from: impl Read + Send + 'static) -> Lines {
        let (gives, gets) = mpsc::channel();
        thread::spawn(move || BufReader::new(from).lines().map_while(Result::ok).all(|line| gives.send(line).is_ok()));
        Lines(gets)
    }

    /// The next one, which must come.
    pub fn next(&self, what: &str) -> String {
        self.0.recv_timeout(patience()).unwrap_or_else(|why| panic!("waited in vain for {what}: {why}"))
    }
}

/// What a command says, once it has ended, as it must.
pub fn output(command: &mut Command) -> Output {
    let what = format!("the end of {command:?}");
    let mut process = Process::begin(command.stdin(Stdio::null()).stdout(Stdio::piped()).stderr(Stdio::piped()));
    let all = |mut from: Box<dyn Read + Send>| {
        thread::spawn(move || {
            let mut all = Vec::new();
            from.read_to_end(&mut all).map(|_| all)
        })
    };
    let stdout = all(Box::new(process.0.stdout.take().expect("a pipe")));
    let stderr = all(Box::new(process.0.stderr.take().expect("a pipe")));
    until(&what, || process.0.try_wait().expect("it is a child").is_some() && stdout.is_finished() && stderr.is_finished());
    let status = process.0.wait().expect("it has ended");
    let [stdout, stderr] = [stdout, stderr].map(|it| it.join().expect("it panics nowhere").expect("it can be read"));
    Output { status, stdout, stderr }
}

/// Whether this process has one test alone: `alone` has begun it.
pub fn is_alone() -> bool {
    std::env::var_os("SVID_ASKED").is_some()
}

/// Runs a test of this program in a process of its own, by a command that is changed so. It must pass.
pub fn alone(test: &str, change: impl FnOnce(&mut Command)) {
    let mut own = Command::new(std::env::current_exe().expect("a test has a program"));
    own.args(["--exact", test, "--nocapture"]).env("SVID_ASKED", "1");
    change(&mut own);
    // (its own waits end)
    let ran = own.output().expect("it runs");
    let said = format!("{}{}", String::from_utf8_lossy(&ran.stdout), String::from_utf8_lossy(&ran.stderr));
    assert!(ran.status.success() && said.contains("1 passed"), "{said}");
}

/// A guard that a test which fails does not drop: that waits for its threads, and they may never end.
pub struct Kept<T>(Option<T>);

impl<T> Kept<T> {
    pub fn new(it: T) -> Kept<T> {
        Kept(Some(it))
    }
}

impl<T> std::ops::Deref for Kept<T> {
    type Target = T;

    fn deref(&self) -> &T {
        self.0.as_ref().expect("it is there until it is dropped")
    }
}

impl<T> Drop for Kept<T> {
    fn drop(&mut self) {
        if std::thread::panicking() {
            std::mem::forget(self.0.take());
        }
    }
}

/// What a guard warned of.
#[derive(Clone, Default)]
pub struct Heard(Arc<Mutex<Vec<String>>>);

impl Heard {
    pub fn options(&self) -> Options {
        let heard = Arc::clone(&self.0);
        ledger().warns(move |what: &dyn std::fmt::Display| heard.lock().unwrap().push(what.to_string()))
    }

    pub fn all(&self) -> Vec<String> {
        self.0.lock().unwrap().clone()
    }

    pub fn count(&self, text: &str) -> usize {
        self.all().iter().filter(|it| it.contains(text)).count()
    }
}

/// A folder that goes with its name.
pub struct Room(pub PathBuf);

impl Room {
    pub fn new(name: &str) -> Room {
        static NUMBER: std::sync::atomic::AtomicUsize = std::sync::atomic::AtomicUsize::new(0);
        let number = NUMBER.fetch_add(1, std::sync::atomic::Ordering::Relaxed);
        let path = std::env::temp_dir().join(format!("svid-{name}-{}-{number}", std::process::id()));
        let _ = std::fs::remove_dir_all(&path);
        std::fs::create_dir(&path).expect("a folder for the test");
        Room(path)
    }
}

impl Drop for Room {
    fn drop(&mut self) {
        let _ = std::fs::remove_dir_all(&self.0);
    }
}
