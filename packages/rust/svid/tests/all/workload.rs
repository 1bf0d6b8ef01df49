//! Trust bundles from a Workload API: that of `svidd dev`, one by gRPC's own library, and one of this test, which answers what no such server does.
#![cfg(all(feature = "workload", feature = "testing"))]

use std::collections::BTreeSet;
use std::convert::Infallible;
use std::io::Write;
use std::os::unix::fs::DirBuilderExt;
use std::os::unix::net::UnixListener;
use std::process::{Command, Stdio};
use std::time::Duration;

use crate::common::*;
use hyper::server::conn::Http;
use hyper::service::service_fn;
use hyper::{Body, Request, Response};
use serde_json::{json, Value};
use svid::testing::Issuer;
use svid::{Error, Guard, OpenSsl, OptionsFault, Refusal, SourceFault, Sources};

const UNKNOWN: Result<(), Error> = Err(Error::Refused(Refusal::UnknownDomain));

fn opened(sources: Sources) -> (Kept<Guard<OpenSsl>>, Heard) {
    let heard = Heard::default();
    (Kept::new(Guard::open(&heard.options(), sources, OpenSsl::new()).expect("it opens")), heard)
}

fn check(guard: &Guard<OpenSsl>, issuer: &Issuer) -> Result<(), Error> {
    guard.check(issuer.token("/web", "ledger")).map(drop)
}

/// The bundle of an issuer as an agent has it: its keys have no use.
fn keys(issuer: &Issuer) -> String {
    let mut bundle: Value = serde_json::from_str(&issuer.bundle()).expect("it is JSON");
    for key in bundle["keys"].as_array_mut().expect("it has keys") {
        key.as_object_mut().expect("a key is an object").remove("use").expect("it has a use");
    }
    bundle.to_string()
}

/// An agent by gRPC's own library (go/internal/agenttest/agent.py has the lines that it reads).
struct Agent {
    process: Process,
    says: Lines,
    address: String,
    _room: Room,
}

impl Agent {
    fn start(listen: Option<&str>) -> Agent {
        let room = Room::new("agent");
        let socket = format!("unix:{}/agent.sock", room.0.display());
        let mut command = Command::new("/usr/bin/python3");
        command.arg(top().join("go/internal/agenttest/agent.py")).arg(listen.unwrap_or(&socket));
        let mut process = Process::begin(command.stdin(Stdio::piped()).stdout(Stdio::piped()));
        let says = process.lines();
        let mut agent = Agent { process, says, address: socket, _room: room };
        let port = agent.line();
        if listen.is_some() {
            agent.address = format!("tcp://127.0.0.1:{port}");
        }
        agent
    }

    fn line(&mut self) -> usize {
        let line = self.says.next("a line of the agent");
        line.parse().unwrap_or_else(|_| panic!("python3-grpcio is there, and no other line comes: {line:?}"))
    }

    /// What it does from now on. How many streams there are.
    fn does(&mut self, what: Value) -> usize {
        writeln!(self.process.0.stdin.as_ref().expect("its input"), "{what}").expect("it reads");
        self.line()
    }

    fn gives(&mut self, bundles: &[(&str, &str)]) -> usize {
        let bundles: serde_json::Map<String, Value> = bundles.iter().map(|(name, text)| ((*name).to_owned(), json!(text))).collect();
        self.does(json!({ "bundles": bundles }))
    }

    fn ends(&mut self, code: &str) {
        self.does(json!({"code": code, "why": "no"}));
    }
}

/// The address of a port that nobody listens on. It stays held by a socket that does not listen, so the system gives it to nobody who asks for any
/// port, and a server that names it can listen there.
fn held_port() -> String {
    let socket = tokio::net::TcpSocket::new_v4().expect("a socket");
    socket.set_reuseaddr(true).and_then(|()| socket.bind(([127, 0, 0, 1], 0).into())).expect("a port");
    let address = socket.local_addr().expect("it has one").to_string();
    std::mem::forget(socket);
    address
}

/// `svidd dev`, whose key changes each two seconds.
struct Dev {
    _process: Process,
    page: String,
}

impl Dev {
    fn start(room: &Room) -> Dev {
        // (it takes no port that the system chooses)
        let [listen, page, endpoint] = [(); 3].map(|()| held_port());
        let mut command = Command::new(room.0.join("svidd"));
        let keys = room.0.join("keys");
        std::fs::DirBuilder::new().mode(0o700).recursive(true).create(&keys).expect("a folder for keys");
        command.args(["dev", "--rotate", "2s", "--keys"]).arg(keys);
        command.args(["--listen", &listen, "--page", &page, "--endpoint", &endpoint]);
        Dev { _process: Process::begin(command.stdout(Stdio::null()).stderr(Stdio::null())), page }
    }

    /// A token, once it gives one.
    fn mint(&self, room: &Room) -> String {
        let mut token = String::new();
        until("a token", || {
            let ran = output(Command::new(room.0.join("svidd")).args(["mint", "--dev", &self.page]));
            token = String::from_utf8_lossy(&ran.stdout).trim().to_owned();
            ran.status.success()
        });
        token
    }
}

/// Keys change, and the agent is gone for a while. It was not there at first.
#[test]
fn svidd_dev() {
    let room = Room::new("dev");
    let mut build = Command::new("go");
    build.args(["build", "-o"]).arg(room.0.join("svidd")).arg("./cmd/svidd").current_dir(top().join("go"));
    assert!(build.status().expect("go is there").success());
    let socket = format!("unix://{}/keys/agent.sock", room.0.display());
    let (guard, heard) = opened(Sources::new().workload_api(Some(&socket)));
    until("a warning", || heard.count(&format!("a trust bundle is not read: {socket}: No such file")) == 1);
    assert!(guard.unready().expect("there is no bundle").to_string().contains("no trust bundle"));
    let mut last = String::new();
    for _ in 0..2 {
        let dev = Dev::start(&room);
        let mut signed = BTreeSet::new();
        // (the next key is in the bundle before it signs, once the agent was asked: a busy machine may be late for one)
        until("tokens by three keys that are accepted at once", || {
            signed.extend(guard.check(dev.mint(&room)).map(|it| it.key_id().to_owned()));
            signed.len() == 3
        });
        until("a last token", || {
            last = dev.mint(&room);
            guard.judge(&last).is_ok()
        });
    }
    assert_eq!(guard.check(&last).map(drop), Ok(()), "the agent is away, and the last bundles stay");
    until("a warning that it is away", || heard.all().len() >= 2);
}

#[test]
fn bundles_come_change_and_go() {
    let (mut agent, mut issuer) = (Agent::start(None), Issuer::new("example.org"));
    let [other, named] = ["other.example", "named.example"].map(Issuer::new);
    let (one, two) = ("spiffe://example.org", "spiffe://other.example");
    let fixed = Sources::new().bundle("named.example", named.bundle());
    let (guard, heard) = opened(fixed.workload_api(Some(&agent.address)));
    agent.gives(&[(one, &keys(&issuer)), (two, &keys(&other)), ("spiffe://named.example", &keys(&other)), ("A", "{}")]);
    until("the bundles", || check(&guard, &issuer).is_ok());
    assert_eq!((check(&guard, &other), check(&guard, &named)), (Ok(()), Ok(())));
    assert_eq!(heard.all().len(), 1, "{:?}", heard.all());
    assert!(heard.all()[0].starts_with(&format!("a trust bundle is not read: A of {}: ", agent.address)), "{:?}", heard.all());
    // What is bad leaves the last good bundle.
    issuer.rotate();
    agent.gives(&[(one, &keys(&issuer)), (two, "[]")]);
    until("the new key", || check(&guard, &issuer).is_ok());
    agent.gives(&[]);
    until("a warning of no bundle", || heard.count("it gives no bundle") == 1);
    assert_eq!(
        (check(&guard, &other), heard.count(&format!("; the last good one stays: other.example of {}: ", agent.address))),
        (Ok(()), 1)
    );
    // One that is named no more is gone.
    assert_eq!(agent.gives(&[(one, &keys(&issuer))]), 1);
    until("the end of the other bundle", || check(&guard, &other) == UNKNOWN);
    assert_eq!((check(&guard, &issuer), check(&guard, &named)), (Ok(()), Ok(())));
    // The same agent beside other sources: its bundles stay meanwhile.
    agent.does(json!({"code": "UNAVAILABLE", "why": "no"}));
    guard.follow(Sources::new().workload_api(Some(&agent.address))).expect("it can be followed");
    assert_eq!((check(&guard, &issuer), check(&guard, &named)), (Ok(()), UNKNOWN));
    drop(guard);
    until("the end of all streams", || agent.gives(&[]) == 0);
}

/// Bundles that together are none are handed on as soon as they can be.
#[test]
fn a_bundle_that_is_there_already() {
    let (mut agent, issuer, mut other) = (Agent::start(Some("127.0.0.1:0")), Issuer::new("example.org"), Issuer::new("other.example"));
    let (guard, heard) = opened(Sources::from(issuer.bundles()).workload_api(Some(&agent.address)));
    agent.gives(&[("spiffe://example.org", &keys(&issuer)), ("spiffe://other.example", &keys(&other))]);
    until("a warning", || heard.count("the guard did not take the bundles") == 1);
    assert_eq!((heard.count("all bundles together"), check(&guard, &issuer), check(&guard, &other)), (1, Ok(()), UNKNOWN));
    other.rotate();
    agent.gives(&[("spiffe://other.example", &keys(&other))]);
    until("the bundle", || check(&guard, &other).is_ok());
}

#[test]
fn an_agent_that_gives_nothing_is_asked_again() {
    let (mut agent, mut issuer) = (Agent::start(None), Issuer::new("example.org"));
    let (guard, heard) = opened(Sources::new().workload_api(Some(&agent.address)));
    agent.gives(&[("spiffe://example.org", &keys(&issuer))]);
    until("the bundle", || check(&guard, &issuer).is_ok());
    let rows = [
        ("PERMISSION_DENIED", "it has no identity for this process (PermissionDenied): no: register it as a workload"),
        ("UNAVAILABLE", "it answers with code 14 of gRPC: no"),
    ];
    for (code, why) in rows {
        agent.ends(code);
        until(why, || heard.count(&format!("a trust bundle is not read: {}: {why}", agent.address)) == 1);
        assert_eq!(check(&guard, &issuer), Ok(()));
    }
    let long = format!("{{\"keys\":[]{}}}", " ".repeat(5 << 20));
    agent.gives(&[("spiffe://example.org", &long)]);
    until("a warning of a long message", || heard.count("it sends a message of 52") == 1);
    issuer.rotate();
    agent.gives(&[("spiffe://example.org", &keys(&issuer)), ("spiffe://other.example", &long[..2 << 20])]);
    until("the new key", || check(&guard, &issuer).is_ok());
    assert_eq!((heard.count("other.example of"), heard.count("it has more than 1048576 bytes")), (1, 1), "{:?}", heard.all());
    // (after a second again, and not after four or more)
    let mut ends = 1;
    until_within(Duration::from_secs(3), "an agent that is asked again soon", || {
        agent.ends("UNAVAILABLE");
        ends += 1;
        until("a warning of the end", || heard.count("code 14") == ends);
        issuer.rotate();
        agent.gives(&[("spiffe://example.org", &keys(&issuer))]);
        until("another key", || check(&guard, &issuer).is_ok());
    });
}

/// Another guard is asked by three calls meanwhile, in three seconds.
#[test]
fn an_agent_that_refuses_the_call_itself_is_not_asked_again() {
    let (mut agent, issuer) = (Agent::start(None), Issuer::new("example.org"));
    agent.ends("INVALID_ARGUMENT");
    let (refused, heard) = opened(Sources::new().workload_api(Some(&agent.address)));
    until("a warning", || heard.count("it refuses the call itself (InvalidArgument): no") == 1);
    agent.ends("UNAVAILABLE");
    let (guard, heard_too) = opened(Sources::new().workload_api(Some(&agent.address)));
    until("a warning", || heard_too.count("code 14") == 1);
    agent.ends("INTERNAL");
    until("another warning", || heard_too.count("code 13") == 1);
    agent.gives(&[("spiffe://example.org", &keys(&issuer))]);
    until("the bundle", || check(&guard, &issuer).is_ok());
    assert!(refused.unready().is_some());
    assert_eq!((agent.gives(&[("spiffe://example.org", &keys(&issuer))]), heard.all().len()), (1, 1));
}

/// It is asked again where it begins nothing, and left alone once it has given bundles.
#[test]
fn an_agent_that_is_silent() {
    let (mut agent, issuer, room) = (Agent::start(None), Issuer::new("example.org"), Room::new("silent"));
    agent.gives(&[("spiffe://example.org", &keys(&issuer))]);
    let (guard, heard) = opened(Sources::new().workload_api(Some(&agent.address)));
    until("the bundle", || check(&guard, &issuer).is_ok());
    let silent = UnixListener::bind(room.0.join("agent.sock")).expect("it listens");
    silent.set_nonblocking(true).expect("it can be");
    let (_guard, heard_too) = opened(Sources::new().workload_api(Some(&format!("unix:{}/agent.sock", room.0.display()))));
    let (_held, _) = accepted(|| silent.accept());
    until("a warning", || heard_too.count("it sends no bundles within 15 seconds") == 1);
    accepted(|| silent.accept()); // (it is asked again)
    assert!(heard.all().is_empty(), "{:?}", heard.all());
    assert_eq!(agent.gives(&[("spiffe://example.org", &keys(&issuer))]), 1);
}

/// It is given up as one that is silent.
#[test]
fn an_agent_that_never_ends_its_message() {
    let room = Room::new("drips");
    let body = || {
        let (mut sender, body) = Body::channel();
        tokio::spawn(async move {
            while sender.send_data("\0".into()).await.is_ok() {
                tokio::time::sleep(Duration::from_secs(4)).await;
            }
        });
        body
    };
    let (_guard, heard) = opened(Sources::new().workload_api(Some(&answers(&room, 200, "application/grpc", body))));
    // (five bytes are the beginning of a message, and they take sixteen)
    until("a warning", || heard.count("it sends no bundles within 15 seconds") == 1);
}

/// A server of HTTP/2 that answers each request so. Its address.
fn answers(room: &Room, status: u16, kind: &'static str, body: impl Fn() -> Body + Clone + Send + 'static) -> String {
    let path = room.0.join("agent.sock");
    let listener = UnixListener::bind(&path).expect("it listens");
    std::thread::spawn(move || {
        let runtime = tokio::runtime::Builder::new_current_thread().enable_all().build().expect("a runtime");
        for stream in listener.incoming() {
            let (stream, body) = (stream.expect("it comes"), body.clone());
            stream.set_nonblocking(true).expect("it can be");
            let answer = service_fn(move |_: Request<Body>| {
                let body = body();
                async move {
                    Ok::<_, Infallible>(Response::builder().status(status).header("content-type", kind).body(body).expect("an answer"))
                }
            });
            let _ = runtime.block_on(async {
                let stream = tokio::net::UnixStream::from_std(stream).expect("a stream");
                Http::new().http2_only(true).serve_connection(stream, answer).await
            });
        }
    });
    format!("unix:{}", path.display())
}

#[test]
fn an_answer_that_is_no_stream_of_bundles() {
    let rows: [(u16, &'static str, &[u8], &str); 10] = [
        (404, "application/grpc", b"", "it answers 404 Not Found"),
        (200, "text/html", b"", "no gRPC is served there"),
        (200, "application/grpc", b"", "it ends the stream without a status"),
        (200, "application/grpc+proto", b"\0\0\0\0\0", "it gives no bundle"),
        (200, "application/grpc", b"\0\0\0\0", "it ends the stream within a message"),
        (200, "application/grpc", b"\0\0\0\0\x02\x0a", "it ends the stream within a message"),
        (200, "application/grpc", b"\x01\0\0\0\0", "it sends a compressed message"),
        // (the second of two messages that come at once)
        (200, "application/grpc", b"\0\0\0\0\0\x01\0\0\0\0", "it sends a compressed message"),
        (200, "application/grpc", b"\0\0\x40\0\x01", "it sends a message of 4194305 bytes; at most 4194304 are read"),
        (200, "application/grpc", b"\0\0\0\0\x02\x0a\x01", "it sends what is no JWTBundlesResponse"),
    ];
    let all: Vec<_> = rows
        .iter()
        .map(|(status, kind, body, why)| {
            let room = Room::new("answers");
            let body = body.to_vec();
            let address = answers(&room, *status, kind, move || body.clone().into());
            (opened(Sources::new().workload_api(Some(&address))), room, why)
        })
        .collect();
    for ((guard, heard), _room, why) in &all {
        until(why, || heard.count(why) == 1);
        assert!(guard.unready().is_some());
    }
}

#[test]
fn addresses() {
    let fault = |sources: Sources| Guard::open(&ledger(), sources, ()).map(drop);
    let api = |address| Sources::new().workload_api(Some(address));
    let none = [
        "",
        "unix:run",
        "unix:",
        "unix:///run?a",
        "unix:/run#a",
        "tcp://localhost:1",
        "tcp://127.0.0.1",
        "http://127.0.0.1:1",
        "/run/agent.sock",
    ];
    for address in none.into_iter().chain(["tcp://127.0.0.1:1/", "tcp://a@127.0.0.1:1", "tcp://127.0.0.1:0", "tcp://127.0.0.1:99999"]) {
        let why = SourceFault::Workload { number: 0 };
        assert_eq!(fault(api(address)), Err(Error::Options(OptionsFault::Source(why))), "{address}");
        assert!(why.to_string().contains("write unix:///run/spire/agent.sock"));
    }
    for address in ["unix:///run/a", "unix:/run/a", "tcp://127.0.0.1:1", "tcp://[::1]:1"] {
        assert_eq!(fault(api(address)), Ok(()), "{address}");
    }
    for twice in [api("unix:/a").workload_api(Some("unix:/b")), api("unix:/a").folder("b")] {
        assert_eq!(fault(twice), Err(Error::Options(OptionsFault::Source(SourceFault::Twice { number: 1 }))));
    }
}

/// This test asks itself, with the variable and without it.
#[test]
fn the_address_of_the_environment() {
    const NAME: &str = "SPIFFE_ENDPOINT_SOCKET";
    if is_alone() {
        let is_there = std::env::var_os(NAME).is_some();
        assert_eq!(Guard::open(&ledger(), Sources::new().workload_api(None), ()).is_ok(), is_there);
        return;
    }
    for address in [None, Some("unix:///run/none.sock")] {
        alone("workload::the_address_of_the_environment", |own| {
            own.env_remove(NAME).envs(address.map(|it| (NAME, it)));
        });
    }
}
