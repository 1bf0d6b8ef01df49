//! Trust bundles from a SPIFFE Workload API, as SPIRE's agent serves it.
//!
//! It makes one call, FetchJWTBundles: a stream of gRPC, over the HTTP/2 of hyper.

use std::collections::BTreeMap;
use std::convert::Infallible;
use std::fmt;
use std::future::Future;
use std::net::SocketAddr;
use std::path::{Path, PathBuf};
use std::time::Duration;

use hyper::body::HttpBody;
use hyper::client::conn;
use hyper::{Body, HeaderMap, Request, StatusCode};
use prost::Message;
use tokio::io::{AsyncRead, AsyncWrite};
use tokio::net::{TcpStream, UnixStream};
use tokio::time::{sleep, timeout_at, Instant};

use crate::follower::{told, Shared, Why};

/// The call (SPIFFE Workload API, section 6.2.2).
const METHOD: &str = "http://localhost/SpiffeWorkloadAPI/FetchJWTBundles";
/// The variable with the address of the Workload API (SPIFFE Workload Endpoint, section 4).
const VARIABLE: &str = "SPIFFE_ENDPOINT_SOCKET";
/// How long the server may take for its first message, for the rest of one that it has begun, and to say that it is still there.
const LIMIT: Duration = Duration::from_secs(15);
/// How long it may send nothing until it is asked whether it is there. Servers of gRPC hang up on who asks more often than every five minutes.
const IDLE: Duration = Duration::from_secs(360);
/// Between two calls, at first and at the most.
const PAUSES: (Duration, Duration) = (Duration::from_secs(1), Duration::from_secs(30));
/// How many bytes a message has at the most, as the clients of gRPC have it.
const MOST_MESSAGE: usize = 4 << 20;
/// A message without content, as gRPC frames it: whether it is compressed, and its length.
const EMPTY: &[u8] = &[0; 5];

/// The codes of gRPC that say more than that a call has failed.
const OK: u32 = 0;
const INVALID_ARGUMENT: u32 = 3;
const PERMISSION_DENIED: u32 = 7;

/// A JWTBundlesResponse: JWK sets, by the SPIFFE IDs of their trust domains.
#[derive(Clone, PartialEq, Message)]
struct Response {
    #[prost(btree_map = "string, bytes", tag = "1")]
    bundles: BTreeMap<String, Vec<u8>>,
}

/// A Workload API.
#[derive(Debug, Clone)]
pub(crate) struct WorkloadApi {
    pub address: String,
}

/// Where one is served.
#[derive(Debug, PartialEq)]
enum Address {
    Unix(PathBuf),
    Tcp(SocketAddr),
}

/// The server refuses the call itself, so it is not made again.
#[derive(Debug)]
struct ForGood(String);

impl fmt::Display for ForGood {
    fn fmt(&self, f: &mut fmt::Formatter<'_>) -> fmt::Result {
        write!(f, "it refuses the call itself (InvalidArgument): {}", self.0)
    }
}

impl std::error::Error for ForGood {}

impl WorkloadApi {
    /// The one of this address; of the environment's without one.
    pub fn new(address: Option<&str>) -> WorkloadApi {
        WorkloadApi { address: address.map_or_else(|| std::env::var(VARIABLE).unwrap_or_default(), str::to_owned) }
    }

    /// Whether its address can be one.
    pub fn is_valid(&self) -> bool {
        self.parse().is_some()
    }

    /// The source of the bundle of a trust domain.
    pub fn of(&self, domain: &str) -> String {
        format!("{domain} of {}", self.address)
    }

    fn parse(&self) -> Option<Address> {
        if let Some(path) = self.address.strip_prefix("unix:") {
            let path = path.strip_prefix("//").unwrap_or(path);
            return (path.starts_with('/') && !path.contains(['?', '#'])).then(|| Address::Unix(Path::new(path).to_owned()));
        }
        let at: SocketAddr = self.address.strip_prefix("tcp://")?.parse().ok()?;
        (at.port() != 0).then_some(Address::Tcp(at))
    }

    /// Calls `give` with the bundles of each message, until something goes wrong.
    async fn watch(&self, give: impl FnMut(BTreeMap<String, Vec<u8>>) -> Result<(), Why>) -> Result<Infallible, Why> {
        let until = Instant::now() + LIMIT;
        match self.parse() {
            Some(Address::Unix(path)) => stream(within(until, UnixStream::connect(path)).await?, until, give).await,
            Some(Address::Tcp(at)) => stream(within(until, TcpStream::connect(at)).await?, until, give).await,
            None => Err("it has no address".into()),
        }
    }
}

/// Calls `give` with the bundles of each message of one connection.
async fn stream(
    connected: impl AsyncRead + AsyncWrite + Unpin + Send + 'static,
    until: Instant,
    mut give: impl FnMut(BTreeMap<String, Vec<u8>>) -> Result<(), Why>,
) -> Result<Infallible, Why> {
    let mut builder = conn::Builder::new();
    builder.http2_only(true).http2_keep_alive_interval(IDLE).http2_keep_alive_timeout(LIMIT);
    let (mut sender, connection) = within(until, builder.handshake(connected)).await?;
    // (it ends with the last of the sender and the answer)
    tokio::spawn(connection);
    let request = Request::post(METHOD)
        .header("content-type", "application/grpc")
        .header("te", "trailers")
        .header("workload.spiffe.io", "true") // (SPIFFE Workload Endpoint, section 3)
        .body(Body::from(EMPTY))?;
    let mut answer = within(until, sender.send_request(request)).await?;
    let kind = answer.headers().get("content-type").map_or(&[][..], |it| it.as_bytes());
    if answer.status() != StatusCode::OK || !kind.starts_with(b"application/grpc") {
        return Err(format!("it answers {} of another type: no gRPC is served there", answer.status()).into());
    }
    let (mut received, mut until) = (Vec::new(), Some(until));
    loop {
        let more = match until {
            Some(until) => within(until, async { answer.body_mut().data().await.transpose() }).await?,
            None => answer.body_mut().data().await.transpose()?,
        };
        let more = match more {
            Some(more) => more,
            None if !received.is_empty() => return Err("it ends the stream within a message".into()),
            None => {
                let after = within(Instant::now() + LIMIT, answer.body_mut().trailers()).await?;
                return Err(ending(after.as_ref().unwrap_or_else(|| answer.headers())));
            }
        };
        let mut begins = until.is_none();
        received.extend_from_slice(&more);
        while let Some(bundles) = first(&mut received)? {
            give(bundles)?;
            begins = true;
        }
        if begins {
            until = (!received.is_empty()).then(|| Instant::now() + LIMIT);
        }
    }
}

/// Waits for something until a moment.
async fn within<T, E: Into<Why>>(until: Instant, what: impl Future<Output = Result<T, E>>) -> Result<T, Why> {
    match timeout_at(until, what).await {
        Ok(made) => made.map_err(Into::into),
        Err(_) => Err(format!("it sends no bundles within {} seconds", LIMIT.as_secs()).into()),
    }
}

/// Takes the first message off what was received, if all of it is there.
fn first(received: &mut Vec<u8>) -> Result<Option<BTreeMap<String, Vec<u8>>>, Why> {
    let (message, len) = match received.as_slice() {
        [0, a, b, c, d, message @ ..] => (message, u32::from_be_bytes([*a, *b, *c, *d]) as usize),
        [] | [0, ..] => return Ok(None),
        _ => return Err("it sends a compressed message, which nobody asked for".into()),
    };
    if len > MOST_MESSAGE {
        return Err(format!("it sends a message of {len} bytes; at most {MOST_MESSAGE} are read").into());
    }
    let message = match message.get(..len) {
        Some(message) => Response::decode(message).map_err(|why| format!("it sends what is no JWTBundlesResponse: {why}"))?,
        None => return Ok(None),
    };
    received.drain(..EMPTY.len() + len);
    Ok(Some(message.bundles))
}

/// Why a stream has ended, by the headers that say it.
fn ending(status: &HeaderMap) -> Why {
    let text = |name| status.get(name).map_or_else(String::new, |it| String::from_utf8_lossy(it.as_bytes()).chars().take(256).collect());
    let why = text("grpc-message");
    match text("grpc-status").parse() {
        Err(_) => "it ends the stream without a status".into(),
        Ok(OK) => "it ends the stream".into(),
        Ok(INVALID_ARGUMENT) => ForGood(why).into(),
        Ok(PERMISSION_DENIED) => format!("it has no identity for this process (PermissionDenied): {why}: register it as a workload").into(),
        Ok(code) => format!("it answers with code {code} of gRPC: {why}").into(),
    }
}

/// Follows a Workload API, until it refuses the call itself.
pub(crate) async fn follow(shared: &Shared, api: &WorkloadApi) {
    let mut pause = PAUSES.0;
    loop {
        let asked = api.watch(|bundles| {
            pause = PAUSES.0;
            shared.take_all(api, bundles)
        });
        let why = match asked.await {
            Err(why) => why,
            Ok(never) => match never {},
        };
        shared.fault("", &api.address, Some(told(&*why)));
        if why.is::<ForGood>() {
            return;
        }
        sleep(pause).await;
        pause = (pause * 2).min(PAUSES.1);
    }
}

#[cfg(test)]
mod tests {
    use super::*;

    /// A message of so many bytes, as gRPC frames it.
    fn framed(len: usize) -> Vec<u8> {
        let of = |text: usize| Response { bundles: [(String::new(), vec![b' '; text])].into() };
        let response = of(2 * len - of(len).encoded_len());
        assert_eq!(response.encoded_len(), len);
        [&[0], &u32::try_from(len).expect("it is short").to_be_bytes()[..], &response.encode_to_vec()].concat()
    }

    #[test]
    fn the_longest_message() {
        let mut received = framed(MOST_MESSAGE);
        assert!(first(&mut received).expect("it is read").is_some() && received.is_empty());
        assert!(first(&mut framed(MOST_MESSAGE + 1)).is_err());
    }
}
