//! The service that README.md shows, as its own process.
#![cfg(all(feature = "http", feature = "testing"))]

use std::io::{Read, Write};
use std::net::TcpStream;
use std::path::PathBuf;
use std::process::{Command, Stdio};

use crate::common::*;
use svid::testing::{Issuer, Wrong};

/// Where an example is.
fn example(name: &str) -> PathBuf {
    let own = std::env::current_exe().expect("the path of this test");
    own.ancestors().nth(2).expect("the folder of the build").join("examples").join(name)
}

struct Service {
    _process: Process,
    address: String,
    bundle: PathBuf,
    _room: Room,
}

impl Service {
    /// Starts the example, at a port that the system chooses.
    fn start(issuer: &Issuer) -> Service {
        let room = Room::new("service");
        let bundle = room.0.join("example.org.json");
        std::fs::write(&bundle, issuer.bundle()).expect("it is written");
        let mut command = Command::new(example("hyper"));
        command.arg(&bundle).arg("127.0.0.1:0").stdout(Stdio::piped());
        // (`cargo test` builds the examples)
        let mut process = Process::begin(&mut command);
        let line = process.lines().next("the address of the service");
        let address = line.strip_prefix("listening on ").expect("its address").to_owned();
        Service { _process: process, address, bundle, _room: room }
    }

    /// The status, the header WWW-Authenticate and the body of the answer to a request with these headers.
    fn ask(&self, headers: &str) -> (u16, Option<String>, String) {
        let mut stream = TcpStream::connect(&self.address).expect("it listens");
        stream.set_read_timeout(Some(patience())).expect("it can be");
        write!(stream, "GET / HTTP/1.1\r\nHost: ledger\r\nConnection: close\r\n{headers}\r\n").expect("it reads");
        let mut text = String::new();
        stream.read_to_string(&mut text).expect("it answers");
        let (head, body) = text.split_once("\r\n\r\n").expect("a head");
        let status = head.split(' ').nth(1).and_then(|it| it.parse().ok()).expect("a status");
        let field = |name: &str| head.lines().find_map(|line| line.strip_prefix(name));
        let challenge = field("www-authenticate: ");
        assert_eq!(field("cache-control: "), (status != 200).then_some("no-store"));
        (status, challenge.map(str::to_owned), body.to_owned())
    }
}

fn invalid(name: &str) -> Option<String> {
    Some(format!("Bearer error=\"invalid_token\", error_description=\"{name}\""))
}

fn refused(reason: &str) -> String {
    format!("{{\"reason\":\"{reason}\",\"result\":\"refused\"}}\n")
}

#[test]
fn a_token_is_accepted_once() {
    let issuer = Issuer::new("example.org");
    let service = Service::start(&issuer);
    let header = |token: String| format!("Authorization: Bearer {token}\r\n");
    for _ in 0..3 {
        let header = header(issuer.token("/billing/api", "ledger"));
        assert_eq!(service.ask(&header), (200, None, "hello spiffe://example.org/billing/api\n".to_owned()));
        assert_eq!(service.ask(&header), (401, invalid("Replayed"), refused("Replayed")));
    }
    let kinds = [
        (Wrong::Expired, "Expired"),
        (Wrong::NotYet, "NotYet"),
        (Wrong::Audience, "NotAudience"),
        (Wrong::Signature, "BadSignature"),
        (Wrong::Key, "NoKey"),
        (Wrong::Malformed, "NotThreeParts"),
    ];
    for (wrong, name) in kinds {
        let header = header(issuer.wrong(wrong, "/billing/api", "ledger"));
        assert_eq!(service.ask(&header), (401, invalid(name), refused(name)));
    }
}

/// A service goes on over a rotation of the keys.
#[test]
fn keys_are_rotated() {
    let mut issuer = Issuer::new("example.org");
    let service = Service::start(&issuer);
    let ask = |issuer: &Issuer| service.ask(&format!("Authorization: Bearer {}\r\n", issuer.token("/billing/api", "ledger")));
    let old = issuer.token("/billing/api", "ledger");
    issuer.rotate();
    assert_eq!(ask(&issuer).1, invalid("NoKey"));
    issuer.forget();
    std::fs::write(&service.bundle, issuer.bundle()).expect("it is written");
    until("the new key", || ask(&issuer).0 == 200);
    assert_eq!(service.ask(&format!("Authorization: Bearer {old}\r\n")).1, invalid("NoKey"));
}

#[test]
fn a_request_without_one_token() {
    let service = Service::start(&Issuer::new("example.org"));
    let (bearer, malformed) =
        (Some("Bearer realm=\"svid\"".to_owned()), "Bearer error=\"invalid_request\", error_description=\"NotBearer\"");
    for (headers, challenge, reason) in [
        ("", bearer.clone(), "NoToken"),
        ("Authorization: Basic YTpi\r\n", bearer, "NotBearer"),
        ("Authorization: Bearer a\r\nAuthorization: Bearer a\r\n", Some(malformed.to_owned()), "NotBearer"),
        ("Authorization: Bearer a b\r\n", Some(malformed.to_owned()), "NotBearer"),
        ("Authorization: Bearer a.b.c\r\n", invalid("HeaderSpelling"), "HeaderSpelling"),
    ] {
        assert_eq!(service.ask(headers), (401, challenge, refused(reason)), "{headers}");
    }
    let long = format!("Authorization: Bearer {}\r\n", "a".repeat(65_537));
    assert_eq!(service.ask(&long), (401, invalid("TooLong"), refused("TooLong")));
}

fn readme() -> String {
    std::fs::read_to_string(top().join("packages/rust/README.md")).expect("the page")
}

/// README.md shows the examples as they are, each in at most fifteen lines of its own.
#[test]
fn the_readme_shows_the_examples() {
    for name in ["hyper", "strict"] {
        let example = std::fs::read_to_string(top().join(format!("packages/rust/svid/examples/{name}.rs"))).expect("the example");
        let code = example.split_once("\n\n").expect("a line of what it is, and the code").1;
        assert!(readme().contains(&format!("```rust\n{code}```\n")), "README.md shows another example {name}");
        let lines = code.lines().filter(|it| !it.is_empty() && !it.starts_with("use ")).count();
        assert!(lines <= 15, "{name} has {lines} lines");
    }
}

/// README.md shows what two guards of one store say.
#[test]
fn guards_of_one_store() {
    let said = String::from_utf8(output(&mut Command::new(example("strict"))).stdout).expect("a text");
    assert_eq!(said.lines().next(), Some("hello spiffe://example.org/billing/api"));
    assert!(readme().contains(&format!("```text\n{said}```\n")), "README.md shows another output than {said}");
}

/// README.md shows how a service tests its own use of the crate.
#[test]
fn a_test_of_a_service() -> Result<(), svid::Error> {
    // in five lines
    let issuer = Issuer::new("example.org");
    let guard = svid::Guard::open(&svid::Options::new(["ledger"]), issuer.bundles(), svid::OpenSsl::new())?;
    assert!(guard.check(issuer.token("/billing/api", "ledger")).is_ok());
    let expired = guard.check(issuer.wrong(Wrong::Expired, "/billing/api", "ledger"));
    assert_eq!(expired, Err(svid::Error::Refused(svid::Refusal::Expired)));
    // (so far)
    let own = std::fs::read_to_string(top().join("packages/rust/svid/tests/all/service.rs")).expect("this file");
    let five = own.split("// in five lines\n").nth(1).and_then(|it| it.split("    // (so far)").next()).expect("the lines");
    let shown: String = five.lines().map(|line| line.trim_start().to_owned() + "\n").collect();
    assert!(readme().contains(&shown), "README.md shows another test than {shown}");
    Ok(())
}
