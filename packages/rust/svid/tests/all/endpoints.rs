//! Trust bundles from bundle endpoints, over TLS on the loopback.
#![cfg(all(feature = "https", feature = "testing"))]

use std::io::{Read, Write};
use std::net::{TcpListener, TcpStream};
use std::path::PathBuf;
use std::sync::{Arc, Mutex};
use std::thread;
use std::time::{Duration, Instant};

use crate::common::*;
use openssl::asn1::Asn1Time;
use openssl::bn::BigNum;
use openssl::hash::MessageDigest;
use openssl::pkey::{PKey, Private};
use openssl::ssl::{SslAcceptor, SslMethod};
use openssl::x509::extension::{BasicConstraints, ExtendedKeyUsage, KeyUsage, SubjectAlternativeName};
use openssl::x509::{X509NameBuilder, X509};
use svid::testing::Issuer;
use svid::{Error, Guard, OpenSsl, OptionsFault, SourceFault, Sources};

/// A key with its certificate.
#[derive(Clone)]
struct Certified {
    key: PKey<Private>,
    certificate: X509,
}

/// What a certificate is for.
#[derive(Clone, Default)]
struct Of {
    names: Vec<&'static str>,
    uris: Vec<&'static str>,
    is_authority: bool,
    may_sign: bool,
    may_withdraw: bool,
    for_clients: bool,
}

/// Makes a certificate, signed by another one or by itself.
fn certified(of: &Of, by: Option<&Certified>) -> Certified {
    let group = openssl::ec::EcGroup::from_curve_name(openssl::nid::Nid::X9_62_PRIME256V1).unwrap();
    let key = PKey::from_ec_key(openssl::ec::EcKey::generate(&group).unwrap()).unwrap();
    let mut builder = X509::builder().unwrap();
    builder.set_version(2).unwrap();
    let number = BigNum::from_u32(1 + u32::from(by.is_some())).unwrap().to_asn1_integer().unwrap();
    builder.set_serial_number(&number).unwrap();
    let mut name = X509NameBuilder::new().unwrap();
    name.append_entry_by_text("CN", if by.is_none() { "authority" } else { "server" }).unwrap();
    let name = name.build();
    builder.set_subject_name(&name).unwrap();
    builder.set_issuer_name(by.map_or(&name, |it| it.certificate.subject_name())).unwrap();
    builder.set_pubkey(&key).unwrap();
    builder.set_not_before(&Asn1Time::days_from_now(0).unwrap()).unwrap();
    builder.set_not_after(&Asn1Time::days_from_now(1).unwrap()).unwrap();
    let mut constraints = BasicConstraints::new();
    if of.is_authority {
        constraints.ca();
    }
    builder.append_extension(constraints.critical().build().unwrap()).unwrap();
    if of.is_authority || of.may_sign {
        builder.append_extension(KeyUsage::new().key_cert_sign().digital_signature().build().unwrap()).unwrap();
    }
    if of.may_withdraw {
        builder.append_extension(KeyUsage::new().crl_sign().digital_signature().build().unwrap()).unwrap();
    }
    if of.for_clients {
        builder.append_extension(ExtendedKeyUsage::new().client_auth().build().unwrap()).unwrap();
    }
    if !of.names.is_empty() || !of.uris.is_empty() {
        let mut names = SubjectAlternativeName::new();
        for it in &of.names {
            names.dns(it);
        }
        for it in &of.uris {
            names.uri(it);
        }
        let names = names.build(&builder.x509v3_context(by.map(|it| &*it.certificate), None)).unwrap();
        builder.append_extension(names).unwrap();
    }
    builder.sign(by.map_or(&key, |it| &it.key), MessageDigest::sha256()).unwrap();
    Certified { key, certificate: builder.build() }
}

fn authority() -> Certified {
    certified(&Of { is_authority: true, ..Of::default() }, None)
}

/// An endpoint, and what it answers.
struct Endpoint {
    address: String,
    answer: Arc<Mutex<Vec<u8>>>,
    asked: Arc<Mutex<Vec<(Instant, String)>>>,
}

impl Endpoint {
    /// Begins to answer, for as long as the process lives.
    fn begin(shows: &Certified, answer: impl Into<Vec<u8>>) -> Endpoint {
        let listener = TcpListener::bind("127.0.0.1:0").unwrap();
        let mut acceptor = SslAcceptor::mozilla_intermediate_v5(SslMethod::tls_server()).unwrap();
        acceptor.set_private_key(&shows.key).unwrap();
        acceptor.set_certificate(&shows.certificate).unwrap();
        let (acceptor, answer, asked) = (acceptor.build(), Arc::new(Mutex::new(answer.into())), Arc::new(Mutex::new(Vec::new())));
        let made = Endpoint {
            address: format!("https://localhost:{}/bundle?of=all", listener.local_addr().unwrap().port()),
            answer: Arc::clone(&answer),
            asked: Arc::clone(&asked),
        };
        thread::spawn(move || {
            for stream in listener.incoming() {
                let (acceptor, answer, asked) = (acceptor.clone(), Arc::clone(&answer), Arc::clone(&asked));
                thread::spawn(move || serve(stream.unwrap(), &acceptor, &answer, &asked));
            }
        });
        made
    }

    fn answers(&self, with: impl Into<Vec<u8>>) {
        *self.answer.lock().unwrap() = with.into();
    }

    fn count(&self) -> usize {
        self.asked.lock().unwrap().len()
    }
}

fn serve(stream: TcpStream, acceptor: &SslAcceptor, answer: &Mutex<Vec<u8>>, asked: &Mutex<Vec<(Instant, String)>>) {
    let mut stream = match acceptor.accept(stream) {
        Ok(stream) => stream,
        Err(_) => return, // (the client does not trust it)
    };
    let (mut text, mut room) = (Vec::new(), [0; 4096]);
    while !text.ends_with(b"\r\n\r\n") {
        match stream.read(&mut room) {
            Ok(0) | Err(_) => return,
            Ok(len) => text.extend_from_slice(&room[..len]),
        }
    }
    asked.lock().unwrap().push((Instant::now(), String::from_utf8_lossy(&text).into_owned()));
    let answer = answer.lock().unwrap().clone();
    let _ = stream.write_all(&answer).and_then(|()| stream.flush());
    if answer.is_empty() {
        let _ = stream.read(&mut room); // (it answers nothing, until the client gives up)
    }
    let _ = stream.shutdown();
}

fn good(bundle: &str) -> String {
    format!("HTTP/1.1 200 OK\r\ncontent-length: {}\r\ncontent-type: application/json\r\n\r\n{bundle}", bundle.len())
}

/// A bundle that is to be asked for after a second, which is after ten.
fn hinted(issuer: &Issuer) -> String {
    good(&issuer.bundle().replace(":60}", ":1}"))
}

fn opened(sources: Sources) -> (Guard<OpenSsl>, Heard) {
    let heard = Heard::default();
    (Guard::open(&heard.options(), sources, OpenSsl::new()).expect("it opens"), heard)
}

fn is_good(guard: &Guard<OpenSsl>, issuer: &Issuer) -> bool {
    guard.check(issuer.token("/web", "ledger")).is_ok()
}

/// A file with what vouches for a server.
fn file(room: &Room, text: impl AsRef<[u8]>) -> Option<PathBuf> {
    let path = room.0.join("authorities");
    std::fs::write(&path, text).expect("it is written");
    Some(path)
}

fn pem(of: &Certified) -> Vec<u8> {
    of.certificate.to_pem().unwrap()
}

/// The warning that a source gives.
fn warning(sources: Sources) -> String {
    let (guard, heard) = opened(sources);
    until("a warning", || !heard.all().is_empty());
    assert!(matches!(guard.check("a.b.c"), Err(Error::Refused(_)) | Err(Error::Unavailable(_))));
    assert!(guard.unready().expect("it has no bundle").to_string().contains("no trust bundle"));
    heard.all().remove(0)
}

// -- https_web

#[test]
fn a_server_with_a_certificate_for_its_name() {
    let (room, by, mut issuer) = (Room::new("web"), authority(), Issuer::new("example.org"));
    let shows = certified(&Of { names: vec!["localhost"], ..Of::default() }, Some(&by));
    let endpoint = Endpoint::begin(&shows, hinted(&issuer));
    let (guard, heard) = opened(Sources::new().https_web("example.org", &endpoint.address, file(&room, pem(&by))));
    until("the bundle", || is_good(&guard, &issuer));
    let (first, request) = endpoint.asked.lock().unwrap()[0].clone();
    let port = endpoint.address.split(':').nth(2).and_then(|it| it.split('/').next()).unwrap();
    assert!(request.starts_with("GET /bundle?of=all HTTP/1.1\r\n"), "{request}");
    assert!(request.contains(&format!("\r\nhost: localhost:{port}\r\n")), "{request}");
    issuer.rotate();
    endpoint.answers(hinted(&issuer));
    until("the new key", || is_good(&guard, &issuer));
    assert!(endpoint.asked.lock().unwrap()[1].0 - first >= Duration::from_secs(10));
    assert!(heard.all().is_empty(), "{:?}", heard.all());
}

#[test]
fn a_server_that_is_not_the_right_one() {
    let (room, by) = (Room::new("wrong"), authority());
    let named = |name: &'static str, by: &Certified| certified(&Of { names: vec![name], ..Of::default() }, Some(by));
    let bundle = good(&Issuer::new("example.org").bundle());
    for shows in [named("other.example", &by), named("localhost", &authority()), authority()] {
        let endpoint = Endpoint::begin(&shows, bundle.as_str());
        let said = warning(Sources::new().https_web("example.org", &endpoint.address, file(&room, pem(&by))));
        assert!(said.starts_with(&format!("a trust bundle is not read: {}: ", endpoint.address)), "{said}");
        assert!(said.contains("certificate verify failed"), "{said}");
        assert_eq!(endpoint.count(), 0, "nothing is asked of it");
    }
    // The system knows none of these.
    let endpoint = Endpoint::begin(&named("localhost", &by), bundle);
    assert!(warning(Sources::new().https_web("example.org", &endpoint.address, None)).contains("certificate verify failed"));
    let said = warning(Sources::new().https_web("example.org", &endpoint.address, file(&room, "no PEM")));
    assert!(said.contains("no authority"), "{said}");
    let said = warning(Sources::new().https_web("example.org", &endpoint.address, Some(room.0.join("none"))));
    assert!(said.contains("No such file"), "{said}");
}

#[test]
fn an_answer_that_is_no_bundle() {
    let (room, by) = (Room::new("none"), authority());
    let shows = certified(&Of { names: vec!["localhost"], ..Of::default() }, Some(&by));
    let long = format!(r#"{{"keys":[],"x":"{}"}}"#, "x".repeat(1 << 20));
    let leads = "HTTP/1.1 302 Found\r\nlocation: https://localhost/\r\ncontent-length: 0\r\n\r\n";
    let rows = [
        ("HTTP/1.1 404 Not Found\r\ncontent-length: 0\r\n\r\n".to_owned(), "it answers 404"),
        (leads.to_owned(), "it answers 302"),
        (good(&long), "more than 1048576 bytes"),
        // (an answer that goes on is not read to its end)
        (good(&long).replacen("content-length: 1", "content-length: 9", 1), "more than 1048576 bytes"),
        (good("[]"), "no JSON object"),
        ("no HTTP\r\n\r\n".to_owned(), "invalid HTTP"),
        (format!("HTTP/1.1 200 OK\r\nx: {}\r\n\r\n", "x".repeat(1 << 17)), "too large"),
        ("HTTP/1.1 200 OK\r\ncontent-length: 99\r\n\r\n{".to_owned(), "message length reached"),
    ];
    for (answer, why) in rows {
        let endpoint = Endpoint::begin(&shows, answer);
        let said = warning(Sources::new().https_web("example.org", &endpoint.address, file(&room, pem(&by))));
        assert!(said.contains(why), "{said}, and not {why}");
    }
}

#[test]
fn the_longest_bundle() {
    let (room, by, issuer) = (Room::new("longest"), authority(), Issuer::new("example.org"));
    let shows = certified(&Of { names: vec!["localhost"], ..Of::default() }, Some(&by));
    let bundle = issuer.bundle();
    let spaces = " ".repeat((1 << 20) - bundle.len());
    let endpoint = Endpoint::begin(&shows, good(&(bundle + &spaces)));
    let (guard, heard) = opened(Sources::new().https_web("example.org", &endpoint.address, file(&room, pem(&by))));
    until("an answer", || is_good(&guard, &issuer) || !heard.all().is_empty());
    assert!(heard.all().is_empty(), "{:?}", heard.all());
}

/// The last good bundle stays. It is asked again soon, and then less and less often, until it answers.
#[test]
fn an_endpoint_that_fails_for_a_while() {
    let (room, by, mut issuer) = (Room::new("fails"), authority(), Issuer::new("example.org"));
    let shows = certified(&Of { names: vec!["localhost"], ..Of::default() }, Some(&by));
    let none = "HTTP/1.1 500 None\r\ncontent-length: 0\r\n\r\n";
    let endpoint = Endpoint::begin(&shows, none);
    let (guard, heard) = opened(Sources::new().https_web("example.org", &endpoint.address, file(&room, pem(&by))));
    until("three questions", || endpoint.count() >= 3);
    endpoint.answers(hinted(&issuer));
    until("the bundle", || is_good(&guard, &issuer));
    let times = || -> Vec<Instant> { endpoint.asked.lock().unwrap().iter().map(|it| it.0).collect() };
    let first = times();
    assert!(first[1] - first[0] >= Duration::from_secs(1) && first[2] - first[1] >= Duration::from_secs(2), "{first:?}");
    // After a good answer the first pause is one of a second again, and not of four or more. (A busy machine may take longer now and then.)
    let mut warnings = 1;
    until("a short pause", || {
        endpoint.answers(none);
        warnings += 1;
        until("a warning", || heard.all().len() == warnings);
        let count = endpoint.count();
        until("another question", || endpoint.count() > count);
        assert!(is_good(&guard, &issuer));
        issuer.rotate();
        endpoint.answers(hinted(&issuer));
        until("the new key", || is_good(&guard, &issuer));
        times()[count] - times()[count - 1] < Duration::from_secs(3)
    });
    assert_eq!(heard.all().len(), warnings, "{:?}", heard.all());
}

#[test]
fn an_endpoint_that_hangs() {
    let (room, by, issuer) = (Room::new("hangs"), authority(), Issuer::new("example.org"));
    let shows = certified(&Of { names: vec!["localhost"], ..Of::default() }, Some(&by));
    let endpoint = Endpoint::begin(&shows, "");
    let (guard, heard) = opened(Sources::new().https_web("example.org", &endpoint.address, file(&room, pem(&by))));
    until("a warning", || !heard.all().is_empty());
    assert!(heard.all()[0].ends_with("it does not answer in time"), "{:?}", heard.all());
    endpoint.answers(good(&issuer.bundle()));
    until("the bundle", || is_good(&guard, &issuer));
}

// -- https_spiffe

const SERVER: &str = "spiffe://example.org/spire/server";

fn server() -> Of {
    Of { uris: vec![SERVER], ..Of::default() }
}

/// The bundle of an issuer, with these X.509 authorities, and some that nobody can read.
fn with(issuer: &Issuer, authorities: &[&Certified]) -> String {
    let mut bundle: serde_json::Value = serde_json::from_str(&issuer.bundle()).expect("it is JSON");
    for unreadable in ["bm9uZQ==", "?"] {
        bundle["keys"].as_array_mut().unwrap().push(serde_json::json!({"use": "x509-svid", "x5c": [unreadable]}));
    }
    for it in authorities {
        let certificate = openssl::base64::encode_block(&it.certificate.to_der().unwrap());
        bundle["keys"].as_array_mut().unwrap().push(serde_json::json!({"use": "x509-svid", "x5c": [certificate]}));
    }
    bundle["spiffe_refresh_hint"] = 1.into();
    bundle.to_string()
}

/// The server is known by the bundle that it gave last, so its authorities may be rotated.
#[test]
fn a_server_with_the_id_of_its_trust_domain() {
    let (room, [one, other], mut issuer) = (Room::new("spiffe"), [authority(), authority()], Issuer::new("example.org"));
    let endpoint = Endpoint::begin(&certified(&server(), Some(&one)), good(&with(&issuer, &[&other])));
    let port = endpoint.address.split(':').nth(2).unwrap().to_owned();
    let first = file(&room, with(&Issuer::new("example.org"), &[&one]));
    // (the name in the address says nothing)
    let address = format!("https://127.0.0.1:{port}");
    let (guard, heard) = opened(Sources::new().https_spiffe("example.org", address, SERVER, first));
    until("the bundle", || is_good(&guard, &issuer));
    issuer.rotate();
    endpoint.answers(good(&with(&issuer, &[&one])));
    until("a warning, since the bundle has another authority", || !heard.all().is_empty());
    assert!(heard.all()[0].contains("certificate verify failed"), "{:?}", heard.all());
    assert_eq!(endpoint.count(), 1);
}

#[test]
fn a_server_of_another_trust_domain() {
    let (by, issuer, host) = (authority(), Issuer::new("example.org"), Issuer::new("host.example"));
    let shows = certified(&Of { uris: vec!["spiffe://host.example/server"], ..Of::default() }, Some(&by));
    let endpoint = Endpoint::begin(&shows, good(&issuer.bundle()));
    let sources = |host: &str| {
        let all = Sources::new().bundle("host.example", host);
        all.https_spiffe("example.org", &endpoint.address, "spiffe://host.example/server", None)
    };
    let (guard, heard) = opened(sources(&with(&host, &[&by])));
    until("the bundle", || is_good(&guard, &issuer));
    assert!(heard.all().is_empty(), "{:?}", heard.all());
    // Another authority does not vouch for it, and nobody does for one whose bundle is not there.
    let (_guard, heard) = opened(sources(&with(&host, &[&authority()])));
    until("a warning", || !heard.all().is_empty());
    assert!(heard.all()[0].contains("certificate verify failed"), "{:?}", heard.all());
    let (_guard, heard) = opened(sources(&host.bundle()));
    until("a warning", || !heard.all().is_empty());
    assert!(heard.all()[0].contains("no authority"), "{:?}", heard.all());
    // A file of the endpoint's own comes before the bundle of another source.
    let room = Room::new("own");
    let own = |host: &str, first: &str| {
        let all = Sources::new().bundle("host.example", host);
        all.https_spiffe("example.org", &endpoint.address, "spiffe://host.example/server", file(&room, first))
    };
    let (guard, heard) = opened(own(&with(&host, &[&authority()]), &with(&host, &[&by])));
    until("the bundle", || is_good(&guard, &issuer));
    assert!(heard.all().is_empty(), "{:?}", heard.all());
    let none = Sources::new().https_spiffe("example.org", &endpoint.address, "spiffe://host.example/server", None);
    assert!(warning(none).contains("the bundle of host.example, by which its server is known, was not read yet"));
}

#[test]
fn a_certificate_that_is_not_that_of_the_server() {
    let (room, by) = (Room::new("not"), authority());
    let rows = [
        (Of { uris: vec!["spiffe://example.org/web"], ..Of::default() }, "is that of \"spiffe://example.org/web\", and not of"),
        (Of { uris: vec![SERVER, "spiffe://example.org/web"], ..Of::default() }, "not exactly one URI"),
        (Of { names: vec!["localhost"], ..Of::default() }, "not exactly one URI"),
        (Of { is_authority: true, ..server() }, "may sign others"),
        (Of { may_sign: true, ..server() }, "may sign others"),
        (Of { may_withdraw: true, ..server() }, "may sign others"),
        (Of { for_clients: true, ..server() }, "certificate verify failed"),
    ];
    let bundle = good(&Issuer::new("example.org").bundle());
    let ask = |shows: &Certified, why: &str| {
        let endpoint = Endpoint::begin(shows, bundle.as_str());
        let first = file(&room, with(&Issuer::new("example.org"), &[&by]));
        let said = warning(Sources::new().https_spiffe("example.org", &endpoint.address, SERVER, first));
        assert!(said.contains(why), "{said}, and not {why}");
        assert_eq!(endpoint.count(), 0, "nothing is asked of it");
    };
    for (of, why) in rows {
        ask(&certified(&of, Some(&by)), why);
    }
    ask(&certified(&server(), Some(&authority())), "certificate verify failed");
}

#[test]
fn endpoints_that_are_none() {
    let web = |address: &str| Sources::new().https_web("example.org", address, None);
    let spiffe = |id: &str| Sources::new().https_spiffe("example.org", "https://localhost/", id, None);
    let address = SourceFault::Address { number: 0 };
    let rows = [
        (web("http://localhost/"), address),
        (web("localhost"), address),
        (web("https:///bundle"), address),
        (web("https://user@localhost/"), address),
        (web("https://localhost:65536/"), address),
        (web("https://localhost:/"), address),
        (Sources::new().https_web("A", "https://localhost/", None), SourceFault::Domain { number: 0 }),
        (spiffe("spiffe://host.example"), SourceFault::ServerId { number: 0 }),
        (spiffe("host.example/server"), SourceFault::ServerId { number: 0 }),
        (spiffe(SERVER), SourceFault::First { number: 0 }),
        (spiffe("spiffe://host.example/server").file("example.org", "a"), SourceFault::Twice { number: 1 }),
    ];
    for (sources, why) in rows {
        assert_eq!(Guard::open(&ledger(), sources, ()).map(drop), Err(Error::Options(OptionsFault::Source(why))));
        assert!(why.to_string().contains(": "), "it says what to do");
    }
}
