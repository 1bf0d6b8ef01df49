//! Stores, over real servers. The tests of go/claims/postgres run over them too.

use std::io::{Read, Write};
use std::path::PathBuf;
use std::process::{Command, Stdio};
use std::sync::atomic::{AtomicBool, AtomicU32, Ordering};

use super::member::{mark, mark_late};
use super::session::Role;
use super::*;
use crate::common::*;
use crate::testing::Issuer;
use crate::{Error, Guard, Mode, OpenSsl, Refusal};

const OWNER: [u8; 32] = [111; 32];
/// The variable that lets a test of this process be the client whose calls the tests of Go make.
const CLIENT: &str = "SVID_STORE_CLIENT";
/// The variable that lets the clock of this client that only goes ahead stand still, as if the machine were suspended all the time.
const SUSPENDED: &str = "SVID_STORE_SUSPENDED";

/// Why nothing counts before each server was looked at, and once a look is old.
const UNLOOKED: &str = "not all servers were looked at";

/// Tests of go/claims/postgres that a wrong body fails.
const CALLS: &str = "TestAClaimThatWaitsWhileTheEpochEnds|TestOneOrder|TestAClaimThatIsNotCommitted|TestAnEntryThatIsGoneMeanwhile|TestATokenThatIsWithdrawnAgain";
const LOSSES: &str = "TestRowsThatGoByHandEndTheEpoch|TestALookMissesRows|TestAnOlderCopyThatWentOn|TestALateAnswerOfAServerThatIsGone|TestAnotherClaimOfACall";
const LATE: &str = "TestALateAnswerOfAServerThatIsGone";
const STANDBYS: &str = "TestACancelledWait|TestWhatIsGivenUpEndsAtTheServer|TestStandbysAreNotWaitedForAnyMore";
const PRIMARIES: &str = "TestTwoPrimaries|TestTwoStandbysArePromoted|TestServersOfTwoClusters";
const TLS: &str = "TestTLS|TestRights";

/// One test has the machine at a time: its servers want most of it.
static TURN: Mutex<Turn> = Mutex::new(Turn { is_built: false, server: None });

struct Turn {
    /// Whether the program is built.
    is_built: bool,
    /// It ends with this process.
    server: Option<Server>,
}

/// The tests of go/claims/postgres as a program, beside this one.
struct Program {
    turn: MutexGuard<'static, Turn>,
}

impl Program {
    fn new() -> Program {
        let mut turn = TURN.lock().unwrap_or_else(|why| {
            let mut turn = why.into_inner();
            turn.server = None; // (who knows what a test that failed has left)
            turn
        });
        if !turn.is_built {
            let mut build = Command::new("go");
            build.args(["test", "-c", "-o"]).arg(Program::path()).arg("./claims/postgres").current_dir(top().join("go"));
            assert!(build.status().expect("go is there").success());
            turn.is_built = true;
        }
        Program { turn }
    }

    fn path() -> PathBuf {
        std::env::current_exe().expect("a test has a program").with_extension("postgres")
    }

    /// A call of it. (The user of PostgreSQL may not go through a folder of this one.)
    fn command(&self, words: &[&str]) -> Command {
        let mut command = Command::new(Program::path());
        command.args(words).current_dir(top().join("go/claims/postgres")).env("TMPDIR", "/tmp");
        command
    }

    /// The names of all tests.
    fn names(&self) -> Vec<String> {
        let listed = self.command(&["-test.list", "^Test"]).output().expect("it runs").stdout;
        String::from_utf8_lossy(&listed).split_whitespace().map(str::to_owned).collect()
    }

    /// Runs some of the tests over this client.
    fn runs(&self, tests: &str) {
        self.runs_with(tests, &[]);
    }

    /// The same with these variables.
    fn runs_with(&self, tests: &str, variables: &[(&str, &str)]) {
        let client = std::env::current_exe().expect("a test has a program");
        let mut run = self.command(&["-test.v", "-test.timeout", "20m", "-test.run", &format!("^({tests})$")]);
        run.env(CLIENT, format!("{} --exact postgres::tests::serves_calls --nocapture", client.display()));
        let ran = run.envs(variables.iter().copied()).output().expect("it runs");
        let said = String::from_utf8_lossy(&ran.stdout).into_owned();
        let passed = said.lines().filter(|it| it.starts_with("--- PASS: ")).count();
        let faults = String::from_utf8_lossy(&ran.stderr).into_owned();
        let failed: Vec<_> = said.lines().filter(|it| it.trim_start().starts_with("--- FAIL: ")).collect();
        assert!(ran.status.success() && passed == tests.split('|').count(), "{said} {faults} {passed} passed, {failed:#?}");
    }
}

#[test]
fn calls() {
    Program::new().runs(CALLS);
}

#[test]
fn losses() {
    Program::new().runs(LOSSES);
}

/// The call seems short by the clock that stands still meanwhile.
#[test]
fn a_late_answer_after_a_suspension() {
    Program::new().runs_with(LATE, &[(SUSPENDED, "1")]);
}

#[test]
fn standbys() {
    Program::new().runs(STANDBYS);
}

#[test]
fn primaries() {
    Program::new().runs(PRIMARIES);
}

#[test]
fn tls_and_rights() {
    Program::new().runs(TLS);
}

#[test]
fn all_other_tests_of_go() {
    let program = Program::new();
    let some: Vec<&str> = [CALLS, LOSSES, STANDBYS, PRIMARIES, TLS].iter().flat_map(|it| it.split('|')).collect();
    let all = program.names();
    assert!(some.iter().all(|it| all.iter().any(|name| name == it)), "{some:?} of {all:?}");
    program.runs(&all.into_iter().filter(|it| !some.contains(&it.as_str())).collect::<Vec<_>>().join("|"));
}

/// Makes calls for the tests of go/claims/postgres. A line of standard input is a call: its number, the name, the store, and what it takes. A line of
/// standard output is the answer: the number, and what it returns, or `fault NAME TEXT`.
#[test]
fn serves_calls() {
    if std::env::var_os(CLIENT).is_none() {
        return; // (nobody asks)
    }
    println!();
    let stores = Arc::new(Mutex::new(HashMap::new()));
    for line in std::io::stdin().lines() {
        let (line, stores) = (line.expect("a line"), Arc::clone(&stores));
        thread::spawn(move || {
            let words: Vec<&str> = line.split(' ').collect();
            let said = answer(&stores, words[1], words[2], &words[3..]);
            println!("{} {}", words[0], said.unwrap_or_else(|why| format!("fault {}", told(&why, " "))));
        });
    }
}

fn told(why: &Fault, between: &str) -> String {
    format!("{}{between}{}", why.name, hex(why.text.as_bytes()))
}

fn claim_of(word: &str) -> Claim {
    let parts: Vec<&str> = word.split(':').collect();
    let bytes = |it: &str| from_hex(it).try_into().expect("32 bytes");
    Claim { key: TokenKey(bytes(parts[0])), owner: bytes(parts[1]), expires: parts[2].parse().expect("a time") }
}

/// The clock of a client.
fn clock() -> Arc<Now> {
    let begun = Instant::now();
    match std::env::var_os(SUSPENDED) {
        Some(_) => Arc::new(move || Moment { up: begun, ..Moment::now() }),
        None => Arc::new(Moment::now),
    }
}

type Stores = Mutex<HashMap<String, Arc<PostgresStore>>>;

fn answer(stores: &Stores, name: &str, id: &str, words: &[&str]) -> Result<String, Fault> {
    if name == "new" {
        let number = |at: usize| words[at].parse::<i64>().expect("a number");
        let terms = Terms { lasts: number(1), margin: number(2), back: number(3) };
        let member = Shared::member(&words[5..], words[0], number(4) as u32, terms, clock()).map_err(Fault::server)?;
        let shared = Shared { member, wait: LONG, margin: 0, warns: Arc::new(|_| ()), heard: Mutex::default() };
        let store = PostgresStore::begin(shared, false).map_err(Fault::server)?;
        stores.lock().unwrap().insert(id.to_owned(), Arc::new(store));
        return Ok(String::new());
    }
    let store = Arc::clone(&stores.lock().unwrap()[id]);
    let wait = words.first().map_or(LONG, |it| Duration::from_secs_f64(it.parse::<f64>().expect("a time").max(0.0)));
    let words: Vec<String> = words.iter().skip(1).map(|&it| it.to_owned()).collect();
    let sight = |is: Sight| format!("{} {} {}", is.epoch, is.deaf, is.time);
    match name {
        "open" => store.ask(wait, |shared, end| async move {
            loop {
                let is = shared.member.look(end).await?;
                if is.pause.is_zero() {
                    return Ok(sight(is));
                }
                if Instant::now() + is.pause > end {
                    return Err(said::RUN.into());
                }
                tokio::time::sleep(is.pause).await;
            }
        }),
        "state" => store.ask(wait, |shared, end| async move { shared.member.look(end).await.map(sight) }),
        "put" => store.ask(wait, |shared, end| async move {
            let claims: Vec<Claim> = words.iter().map(|it| claim_of(it)).collect();
            let one = |it: &Result<Found, Fault>| match it {
                Ok(it) => format!("{}:{}:{}", hex(&it.owner), it.time, it.deaf),
                Err(why) => told(why, ":"),
            };
            Ok(shared.member.put(&claims, end).await.iter().map(one).collect::<Vec<_>>().join(" "))
        }),
        "withdraw" => store.ask(wait, |shared, end| async move {
            let it = claim_of(&format!("{}:{}:{}", words[0], words[0], words[1]));
            Ok(hex(&shared.member.withdraw(it.key, it.expires, end).await?))
        }),
        "withdrawals" => store.ask(wait, |shared, end| async move {
            let after = String::from_utf8(from_hex(&words[0][1..])).expect("a text");
            let (these, last) = shared.member.withdrawals(&after, end).await?;
            Ok(these.iter().fold(last, |all, (key, expires)| format!("{all} {key}:{expires}")))
        }),
        _ => {
            store.close();
            Ok(String::new())
        }
    }
}

const LONG: Duration = Duration::from_secs(500);

/// A server of PostgreSQL, which takes `kill`, `start`, `pause`, `resume` and SQL.
struct Server {
    run: Process,
    said: Lines,
    url: String,
}

impl Server {
    fn tell(&mut self, what: &str) -> String {
        writeln!(self.run.0.stdin.as_mut().expect("a pipe"), "{what}").expect("it hears");
        self.said.next(&format!("the server to answer to {what}"))
    }
}

impl Drop for Server {
    fn drop(&mut self) {
        // (it ends with its input, and PostgreSQL with it)
        drop(self.run.0.stdin.take());
        let begun = Instant::now();
        while matches!(self.run.0.try_wait(), Ok(None)) && begun.elapsed() < patience() {
            thread::sleep(Duration::from_millis(5));
        }
    }
}

/// The server that all tests share, in the hands of one of them.
struct Machine {
    program: Program,
    url: String,
}

impl Machine {
    fn new() -> Machine {
        let mut program = Program::new();
        if program.turn.server.is_none() {
            let mut words = program.command(&["-test.run", "^TestAServerOfAnotherLanguage$"]);
            let mut run = Process::begin(words.env("SVID_STORE_SERVER", "1").stdin(Stdio::piped()).stdout(Stdio::piped()));
            let said = run.lines();
            let url = said.next("the address of the server");
            program.turn.server = Some(Server { run, said, url });
        }
        let url = program.turn.server.as_ref().map_or_else(String::new, |it| it.url.clone());
        Machine { program, url }
    }

    fn tell(&mut self, what: &str) -> String {
        self.program.turn.server.as_mut().expect("it was begun").tell(what)
    }

    /// Makes the store of a group.
    fn group(&mut self, name: &str) {
        assert_eq!(self.tell(&format!("schema {name}")), "done");
    }

    fn store(&self, options: &Options, group: &str) -> PostgresStore {
        PostgresStore::open(options, &[&self.url], group, 1).expect("it begins")
    }
}

fn options() -> Options {
    Options::new(["ledger"]).mode(Mode::Strict).wait(patience())
}

fn claim(n: u8) -> Claim {
    Claim { key: TokenKey([n; 32]), owner: OWNER, expires: crate::now().expect("a clock") + 300 }
}

/// What a claim finds, once it is answered.
fn put(store: &PostgresStore, n: u8) -> Found {
    let mut found = None;
    until("an answer", || {
        found = store.put(&[claim(n)]).ok().map(|it| it[0]);
        found.is_some()
    });
    found.expect("it was found")
}

#[test]
fn one_guard_accepts_a_token() {
    let mut machine = Machine::new();
    machine.group("one");
    let (issuer, [store, other]) = (Issuer::new("example.org"), [(); 2].map(|()| Arc::new(machine.store(&options(), "one"))));
    let token = issuer.token("/web", "ledger");
    let open =
        |it: &Arc<PostgresStore>| Guard::open(&options().store(Arc::clone(it) as _), issuer.bundles(), OpenSsl::new()).expect("it opens");
    let (first, second) = (open(&store), open(&other));
    assert!(first.check(&token).is_ok());
    assert_eq!(second.check(&token), Err(Error::Refused(Refusal::Replayed)));
}

#[test]
fn a_withdrawal_wins_over_a_claim() {
    let mut machine = Machine::new();
    machine.group("withdrawn");
    let (one, other) = (machine.store(&options(), "withdrawn"), machine.store(&options(), "withdrawn"));
    assert_eq!((put(&one, 1).owner, put(&other, 1).owner), (OWNER, OWNER));
    one.withdraw(claim(1).key, claim(1).expires).expect("it is there");
    assert_eq!(put(&one, 1).owner, WITHDRAWN);
    until("the withdrawal", || put(&other, 1).owner == WITHDRAWN);
    one.withdraw(claim(2).key, claim(2).expires).expect("it is there");
    assert_eq!(put(&other, 2).owner, WITHDRAWN);
    let late = machine.store(&options(), "withdrawn"); // (it has read all before it answers)
    assert_eq!((put(&late, 1).owner, put(&late, 3).owner), (WITHDRAWN, OWNER));
    let (these, last) = other.withdrawals("").expect("it answers");
    assert_eq!(these.iter().map(|it| it.0).collect::<Vec<_>>(), [claim(1).key, claim(2).key]);
    assert_eq!(other.withdrawals(&last).expect("it answers"), (Vec::new(), last));
    let over = put(&one, 4).time - 119;
    for n in [1, 5] {
        one.withdraw(claim(n).key, over).expect("it is there");
    }
    until("the withdrawal to be forgotten", || !one.shared.heard().withdrawn.contains_key(&claim(5).key));
    assert_eq!(put(&one, 1).owner, WITHDRAWN); // (an earlier expiry takes nothing back)
}

/// Before it has looked at the store.
#[test]
fn the_first_call_of_a_member_may_be_a_withdrawal() {
    let mut machine = Machine::new();
    machine.group("first");
    let store = machine.store(&options(), "first");
    put(&store, 2); // (members have compared by then)
    let terms = Terms { lasts: 3660, margin: 120, back: 60 };
    let member = Shared::member(&[&machine.url], "first", 1, terms, Arc::new(Moment::now)).expect("it is one");
    let shared = Shared { member, wait: patience(), margin: 120, warns: options().warns, heard: Mutex::default() };
    let one = PostgresStore::begin(shared, false).expect("it begins");
    one.withdraw(claim(1).key, claim(1).expires).expect("it is there");
    until("the withdrawal", || put(&store, 1).owner == WITHDRAWN);
}

/// One call finds that a server has ended its connections. The next one makes another.
#[test]
fn connections_of_a_server_end_together() {
    let mut machine = Machine::new();
    machine.group("together");
    let terms = Terms { lasts: 3660, margin: 120, back: 60 };
    let member = Shared::member(&[&machine.url], "together", 1, terms, Arc::new(Moment::now)).expect("it is one");
    let shared = Shared { member, wait: patience(), margin: 120, warns: options().warns, heard: Mutex::default() };
    let store = PostgresStore::begin(shared, false).expect("it begins");
    let three = store.ask(patience(), |shared, end| async move {
        let call = || shared.member.withdrawals("", end);
        let (one, two, three) = tokio::join!(call(), call(), call());
        one.and(two).and(three)
    });
    three.expect("it answers");
    machine
        .tell("SELECT pg_terminate_backend(pid) FROM pg_stat_activity WHERE pid <> pg_backend_pid() AND backend_type = 'client backend'");
    until("the end of a connection", || store.withdrawals("").is_err());
    store.withdrawals("").expect("it answers");
}

/// Who is warned, on that thread, hangs.
#[test]
fn a_call_ends_though_its_thread_hangs() {
    let (is_warned, go) = (Arc::new(AtomicBool::new(false)), Arc::new(AtomicBool::new(false)));
    let (warned, goes) = (Arc::clone(&is_warned), Arc::clone(&go));
    let hangs = move |_: &dyn fmt::Display| {
        warned.store(true, Ordering::Release);
        until("the end of the test", || goes.load(Ordering::Acquire));
    };
    let options = options().wait(Duration::from_millis(50)).warns(hangs);
    let store = PostgresStore::open(&options, &["postgres://127.0.0.1:1/d"], "svid", 1).expect("it begins");
    until("a warning", || is_warned.load(Ordering::Acquire));
    let (tell, told) = sync_channel(1);
    thread::spawn(move || tell.send(store.put(&[claim(1)]).unwrap_err().to_string()));
    assert_eq!(told.recv_timeout(patience() / 2).as_deref(), Ok(said::SILENT.1));
    go.store(true, Ordering::Release);
}

#[test]
fn calls_end() {
    let mut machine = Machine::new();
    machine.group("ends");
    let (soon, late) = (machine.store(&options().wait(Duration::from_millis(500)), "ends"), machine.store(&options(), "ends"));
    put(&soon, 1);
    put(&late, 1);
    machine.tell("pause");
    let calls: [&dyn Fn() -> bool; 4] = [
        &|| soon.put(&[claim(2)]).is_err(),
        &|| soon.put(&[]).is_err(),
        &|| soon.withdraw(claim(3).key, claim(3).expires).is_err(),
        &|| soon.withdrawals("").is_err(),
    ];
    for call in calls {
        until_within(Duration::from_secs(5), "an end in time", || assert!(call()));
    }
    let why = thread::scope(|scope| {
        let call = scope.spawn(|| late.put(&[claim(2)]).unwrap_err().to_string());
        until("the call to be under way", || late.shared.member.is_calling());
        late.close();
        call.join().expect("it panics nowhere")
    });
    assert_eq!(why, said::CLOSED.1);
    machine.tell("resume");
    assert_eq!(late.put(&[claim(1)]).unwrap_err().to_string(), said::CLOSED.1);
    assert_eq!(put(&soon, 2).owner, OWNER);
}

#[test]
fn what_is_warned_of() {
    let mut machine = Machine::new();
    let told = Arc::new(Mutex::new(Vec::new()));
    let hears = Arc::clone(&told);
    let options = options().warns(move |what| hears.lock().unwrap().push(what.to_string()));
    let count = |what: &str| told.lock().unwrap().iter().filter(|it: &&String| it.contains(what)).count();
    let store = machine.store(&options, "later");
    until("a warning", || count("svidd schema") > 0);
    assert_eq!(store.put(&[]).unwrap_err().to_string(), said::MISSING.1);
    machine.group("later");
    put(&store, 1);
    machine.tell("TRUNCATE later.claim");
    until("the end of the epoch", || count("has ended") == 1);
    let before = count("can't be looked at");
    machine.tell("kill");
    until("a warning", || count("can't be looked at") > before);
    machine.tell("start");
    assert!(put(&store, 1).deaf >= claim(1).expires);
    assert_eq!(count("has ended"), 1);
}

/// As that of a commit whose wait for a standby was cancelled, which is no error for the server.
#[test]
fn a_warning_is_no_answer() {
    let mut machine = Machine::new();
    machine.group("warned");
    let store = machine.store(&options(), "warned");
    put(&store, 1);
    let function = "CREATE FUNCTION warned.warns() RETURNS trigger LANGUAGE plpgsql AS $$ BEGIN RAISE WARNING 'one'; RETURN NULL; END $$";
    let trigger = "CREATE TRIGGER warns AFTER INSERT ON warned.claim EXECUTE FUNCTION warned.warns()";
    assert_eq!((machine.tell(function), machine.tell(trigger)), ("done".to_owned(), "done".to_owned()));
    until("the warning", || store.put(&[claim(2)]).expect_err("it has no answer").to_string() == "the server warns: one");
    assert_eq!(machine.tell("DROP TRIGGER warns ON warned.claim"), "done");
    assert_eq!(put(&store, 2).owner, OWNER);
}

#[test]
fn terms_are_those_of_svidd() {
    let mut machine = Machine::new();
    machine.group("terms");
    put(&machine.store(&options().longest(8000), "terms"), 1);
    assert_eq!(machine.tell("DO $$ BEGIN ASSERT (SELECT lasts FROM terms.epoch) = 8060; END $$"), "done");
    let why = machine.store(&options().ahead(61), "terms").put(&[]).unwrap_err().to_string();
    assert!(why.contains("give all members the same clock tolerance"), "{why}");
}

#[test]
fn nothing_of_a_store_stays() {
    let mut machine = Machine::new();
    machine.group("stays");
    let urls = [machine.url.as_str(), &format!("{}&application_name=x", machine.url)];
    for closes in [false, true] {
        let store = PostgresStore::open(&options(), &urls, "stays", 1).expect("it begins");
        put(&store, 1);
        let shared = Arc::downgrade(&store.shared);
        if closes {
            store.close();
            until("the thread to end", || Arc::strong_count(&store.shared) == 1);
        }
        drop(store);
        until("the thread to end", || shared.upgrade().is_none());
    }
    let gone = "DO $$ BEGIN ASSERT (SELECT count(*) FROM pg_stat_activity WHERE backend_type = 'client backend') = 1; END $$";
    until("the connections to end", || machine.tell(gone) == "done");
}

#[test]
fn what_is_no_store() {
    let long = "x".repeat(64);
    let rows: [(&[&str], &str, u32); 9] = [
        (&[], "svid", 1),
        (&["redis://u:secret@h"], "svid", 1),
        (&["postgres://u:secret@h1,h2/d"], "svid", 1),
        (&["postgres://u:secret@h/d?no=secret"], "svid", 1),
        (&["postgres://h/d?sslmode=secret"], "svid", 1),
        (&["postgres://h/d"], "a\"b", 1),
        (&["postgres://h/d"], "pg_x", 1),
        (&["postgres://h/d"], &long, 1),
        (&["postgres://h/d"], "svid", 0),
    ];
    for (servers, group, replicas) in rows {
        let why = PostgresStore::open(&options(), servers, group, replicas).map(drop).unwrap_err().to_string();
        assert!(!why.contains("secret"), "{why}");
    }
    assert!(PostgresStore::open(&options().any_life(), &["postgres://h/d"], "svid", 1).is_err());
}

/// Servers of so many addresses, at which nobody looks.
fn servers_of(count: usize, now: impl Fn() -> Moment + Send + Sync + 'static) -> Arc<Servers> {
    let address = |_| Address::of("postgres://127.0.0.1:1/d").expect("it is one");
    Servers::new((0..count).map(address).collect(), String::new(), Arc::new(now))
}

/// A server that began its run then. The timeline of a primary; "" of a standby.
fn role(started: &str, line: &str) -> Result<Role, Fault> {
    Ok(Role { is_primary: !line.is_empty(), system: "7".to_owned(), started: started.to_owned(), line: line.to_owned() })
}

/// What a member has of a server counts while no other one has taken its place.
#[test]
fn a_primary_by_the_last_looks() {
    // (by clocks that stand still, since a busy machine may take longer than a look counts)
    let now = Moment::now();
    let text = |why: Result<(), Fault>| why.map_err(|why| why.text);
    let stale = || Err(said::STALE.1.to_owned());
    let (old, new) = (role("one", "00000001"), role("two", "00000002"));
    for (first, counts) in [(0, [Ok(()), stale()]), (1, [stale(), Ok(())])] {
        let servers = servers_of(2, move || now);
        let unlooked = || Err(UNLOOKED.to_owned());
        servers.saw(first, new.clone(), now);
        assert_eq!([0, 1].map(|it| text(servers.counts(it))), [unlooked(), unlooked()]);
        // Of two primaries the one that was promoted later counts, whatever its number is.
        servers.saw(1 - first, old.clone(), now);
        assert_eq!([0, 1].map(|it| text(servers.counts(it))), counts);
        servers.saw(1 - first, role("one", ""), now);
        assert_eq!([0, 1].map(|it| text(servers.counts(it))), counts);
        // (a server may have two addresses)
        servers.saw(1 - first, new.clone(), now);
        assert_eq!([0, 1].map(|it| text(servers.counts(it))), [Ok(()), Ok(())]);
        // An old look does not count: the server may have become the primary since. It is old by either clock.
        for (up, wall) in [(0, 1), (1, 0)] {
            let ago = |more: u64| {
                let passed = |by: u32| by * Duration::from_millis(said::MOST_AGE + more);
                let up = now.up.checked_sub(passed(up)).expect("the machine runs for some seconds");
                Moment { up, wall: now.wall - passed(wall), ..now }
            };
            servers.saw(1 - first, role("one", ""), ago(0));
            assert_eq!([0, 1].map(|it| text(servers.counts(it))), counts);
            servers.saw(1 - first, role("one", ""), ago(1));
            assert_eq!([0, 1].map(|it| text(servers.counts(it))), [unlooked(), unlooked()]);
        }
    }
    let other = Role { system: "8".to_owned(), ..new.clone().expect("it is there") };
    let rows = [
        (Ok(other), "addresses 1 and 2 are primaries of two database clusters: name the servers of one"),
        (role("two", "00000001"), "addresses 1 and 2 are both primaries: stop the wrong one"),
    ];
    for (two, why) in rows {
        let servers = servers_of(2, move || now);
        servers.saw(0, old.clone(), now);
        servers.saw(1, two, now);
        assert_eq!([0, 1].map(|it| text(servers.counts(it))), [Err(why.to_owned()), Err(why.to_owned())]);
    }
    let none = servers_of(3, move || now);
    none.saw(0, role("one", ""), now);
    none.saw(1, Err(Fault::server("it is off")), now);
    none.saw(2, role("two", ""), now);
    let standby = said::STANDBY.1;
    assert_eq!(text(none.counts(0)), Err(format!("address 1: {standby}; address 2: it is off; address 3: {standby}")));
}

/// Nobody knows what the server was meanwhile, and whom it answered, also where the look fails.
#[test]
fn a_look_that_began_before_a_suspension_is_old() {
    let machine = Machine::new();
    for (url, is_there) in [(machine.url.as_str(), true), ("postgres://127.0.0.1:1/d", false)] {
        let (begun, hours, sleeps) = (Moment::now(), AtomicU32::new(0), Arc::new(AtomicBool::new(false)));
        let is_asleep = Arc::clone(&sleeps);
        let now = move || {
            // (the machine is suspended once the time was read)
            let hours = hours.fetch_add(is_asleep.swap(false, Ordering::AcqRel).into(), Ordering::AcqRel);
            Moment { wall: begun.wall + hours * Duration::from_secs(3600), ..begun }
        };
        let addresses = [url; 2].map(|it| Address::of(it).expect("it is one"));
        let servers = Servers::new(addresses.into(), String::new(), Arc::new(now));
        let look = |at, session| {
            // (the connection ends with it)
            let runtime = Builder::new_current_thread().enable_all().build().expect("it can wait");
            runtime.block_on(servers.look(at, session, Instant::now() + patience()))
        };
        let is_unlooked = || servers.counts(1).map_or_else(|why| why.text == UNLOOKED, |()| false);
        look(0, None);
        look(1, None);
        assert!(!is_unlooked(), "{url}");
        sleeps.store(true, Ordering::Release);
        look(1, None);
        look(0, None);
        assert!(is_unlooked(), "{url}");
        let session = look(1, None);
        assert!(!is_unlooked() && session.is_some() == is_there, "{url}");
        // That a connection of before has ended says nothing of the server.
        sleeps.store(true, Ordering::Release);
        servers.now();
        look(0, None);
        look(1, session);
        assert_eq!(servers.counts(1).is_ok(), is_there, "{url}");
    }
}

#[test]
fn servers_that_nobody_looks_at_are_waited_for_in_time() {
    let (tell, told) = sync_channel(1);
    thread::spawn(move || {
        let runtime = Builder::new_current_thread().enable_all().build().expect("it can wait");
        tell.send(runtime.block_on(servers_of(2, Moment::now).primary(Instant::now() + Duration::from_millis(50))))
    });
    let why = told.recv_timeout(patience()).expect("it ends").expect_err("nobody has looked");
    assert!(why.is(said::SILENT), "{why}");
}

/// Each server is looked at now and then, and not all the time.
#[test]
fn looks_have_pauses() {
    let listener = std::net::TcpListener::bind("127.0.0.1:0").expect("a port");
    listener.set_nonblocking(true).expect("it can be");
    let url = format!("postgres://{}/d?sslmode=disable", listener.local_addr().expect("it listens"));
    let begun = Instant::now();
    let store = PostgresStore::open(&options(), &[&url, &url], "svid", 1).expect("it begins");
    // (each connection is ended at once: two looks at both, and the third one at one of them)
    for _ in 0..5 {
        until("a look", || listener.accept().is_ok());
    }
    assert!(begun.elapsed() >= Duration::from_millis(said::LOOK_EVERY), "{:?}", begun.elapsed());
    let why = store.put(&[claim(1)]).unwrap_err().to_string();
    assert!(why.starts_with("address 1: ") && why.contains("; address 2: "), "{why}");
}

/// What a server hears once it has agreed to TLS: a client that asks for it says nothing before. One that has an authority says nothing to a server that
/// this one does not vouch for, also in the mode that checks nothing else.
#[test]
fn an_address_speaks_tls() {
    let group = openssl::ec::EcGroup::from_curve_name(openssl::nid::Nid::X9_62_PRIME256V1).unwrap();
    let certified = || {
        let key = openssl::pkey::PKey::from_ec_key(openssl::ec::EcKey::generate(&group).unwrap()).unwrap();
        let mut certificate = openssl::x509::X509::builder().unwrap();
        certificate.set_pubkey(&key).unwrap();
        certificate.set_not_before(&openssl::asn1::Asn1Time::days_from_now(0).unwrap()).unwrap();
        certificate.set_not_after(&openssl::asn1::Asn1Time::days_from_now(1).unwrap()).unwrap();
        certificate.sign(&key, openssl::hash::MessageDigest::sha256()).unwrap();
        (key, certificate.build())
    };
    let ((key, certificate), (_, other)) = (certified(), certified());
    let mut acceptor = openssl::ssl::SslAcceptor::mozilla_intermediate_v5(openssl::ssl::SslMethod::tls_server()).unwrap();
    acceptor.set_private_key(&key).unwrap();
    acceptor.set_certificate(&certificate).unwrap();
    acceptor.set_verify_callback(openssl::ssl::SslVerifyMode::PEER, |_, _| true);
    let acceptor = acceptor.build();
    // Whether a client says who it is whose address has these parameters, and whether it shows a certificate then.
    let says = |parameters: &str| {
        let listener = std::net::TcpListener::bind("127.0.0.1:0").expect("a port");
        listener.set_nonblocking(true).expect("it can be");
        let url = format!("postgres://somebody@{}/d{parameters}", listener.local_addr().expect("it listens"));
        let _store = PostgresStore::open(&options(), &[&url], "svid", 1).expect("it begins");
        let (mut stream, _) = accepted(|| listener.accept());
        stream.set_nonblocking(false).and_then(|()| stream.set_read_timeout(Some(patience()))).expect("it can be");
        let mut asked = [0; 8];
        if stream.read_exact(&mut asked).is_err() {
            return None; // (on a busy machine its time may be over)
        }
        assert_eq!(asked, [0, 0, 0, 8, 0x04, 0xd2, 0x16, 0x2f], "it asks for TLS");
        stream.write_all(b"S").expect("it hears");
        let mut begins = [0; 64];
        let mut stream = acceptor.accept(stream).ok()?;
        let len = stream.read(&mut begins).ok()?;
        begins[..len].windows(8).any(|it| it == b"somebody").then(|| stream.ssl().peer_certificate().is_some())
    };
    let room = Room::new("tls");
    let by = |name: &str, mode: &str, certificate: &openssl::x509::X509| {
        let file = room.0.join(name);
        std::fs::write(&file, certificate.to_pem().unwrap()).expect("it is written");
        format!("?{mode}sslrootcert={}", file.display())
    };
    let checked = by("own", "sslmode=verify-ca&", &certificate);
    let file = room.0.join("key");
    std::fs::write(&file, key.private_key_to_pem_pkcs8().unwrap()).expect("it is written");
    let shows = format!("{checked}&sslcert={}&sslkey={}", room.0.join("own").display(), file.display());
    for (parameters, has_certificate) in [("", false), (&by("own", "", &certificate), false), (&checked, false), (&shows, true)] {
        until("a connection over TLS", || says(parameters) == Some(has_certificate));
    }
    for mode in ["", "sslmode=require&", "sslmode=verify-ca&"] {
        assert_eq!(says(&by("other", mode, &other)), None, "{mode}");
    }
}

/// A deployment may name all of them, and set some. (This test asks itself.)
#[test]
fn variables_that_are_empty_are_not_set() {
    if is_alone() {
        return assert_eq!(Address::of("postgres://h/d").map(drop), Ok(()));
    }
    let names = ["PGSSLMODE", "PGSSLROOTCERT", "PGSSLCERT", "PGSSLKEY", "PGPASSWORD"];
    alone("postgres::tests::variables_that_are_empty_are_not_set", |own| {
        own.envs(names.map(|it| (it, "")));
    });
}

/// `?` turns why no store begins into what a `main` returns.
#[test]
fn errors_of_a_main() {
    fn service() -> Result<(), Box<dyn std::error::Error>> {
        PostgresStore::open(&options(), &["redis://h"], "svid", 1)?;
        Ok(())
    }
    fn thread() -> Result<(), crate::StoreError> {
        PostgresStore::open(&options(), &["postgres://h/d"], "svid", 0)?;
        Ok(())
    }
    assert!(service().unwrap_err().to_string().starts_with("address 1 "));
    assert!(thread().unwrap_err().to_string().starts_with("give the address"));
    let why = PostgresError::from(std::io::Error::from(std::io::ErrorKind::WouldBlock));
    assert!(std::error::Error::source(&why).is_some() && why.to_string().starts_with("the store's thread can't begin: "));
}

#[test]
fn what_a_server_says_is_one_short_line() {
    assert_eq!(Fault::server("one\nother\x1b[2J").text, "one other [2J");
    assert_eq!(Fault::server("x".repeat(5000)).text, "x".repeat(1024));
}

#[test]
fn marks_are_the_last_ones_and_those_that_outlive_them() {
    let mut marks = Vec::new();
    let expiries = |marks: &[Claim]| marks.iter().map(|it| it.expires).collect::<Vec<_>>();
    for expires in [500, 100, 400, 300, 300, 200, 250, 1, 2, 3, 4, 5, 6, 7] {
        mark(&mut marks, Claim { expires, ..claim(1) });
    }
    assert_eq!(expiries(&marks), [500, 400, 300, 200, 250, 1, 2, 3, 4, 5, 6, 7]);
    for n in 0..100 {
        mark(&mut marks, Claim { expires: 400 - n, ..claim(1) });
    }
    assert_eq!((marks.len(), marks[0].expires, &expiries(&marks)[56..]), (64, 500, &[308, 307, 306, 305, 304, 303, 302, 301][..]));
}

#[test]
fn each_claim_that_was_there_is_kept_until_one_that_was_stored_later_outlives_it() {
    let one = |expires: u64| Claim { key: TokenKey(std::array::from_fn(|n| expires.to_be_bytes()[n % 8])), expires, ..claim(1) };
    let expiries = |marks: &[Claim]| marks.iter().map(|it| it.expires).collect::<Vec<_>>();
    let mut marks = Vec::new();
    (11..19).for_each(|n| mark(&mut marks, one(n)));
    [5, 300, 500, 400, 500, 18, 200].into_iter().for_each(|n| mark_late(&mut marks, one(n)));
    assert_eq!(expiries(&marks), [500, 400, 300, 200, 5, 11, 12, 13, 14, 15, 16, 17, 18]);
    mark(&mut marks, one(350));
    (20..28).for_each(|n| mark(&mut marks, one(n)));
    assert_eq!(expiries(&marks), [500, 400, 350, 20, 21, 22, 23, 24, 25, 26, 27]);
    (1000..1100).for_each(|n| mark_late(&mut marks, one(n)));
    assert_eq!((marks.len(), marks[0].expires, &expiries(&marks)[56..]), (64, 1099, &[20, 21, 22, 23, 24, 25, 26, 27][..]));
}
