//! Trust bundles from bundle endpoints (SPIFFE Federation, section 5).

use std::io;
use std::path::PathBuf;
use std::pin::Pin;
use std::time::Duration;

use foreign_types::ForeignTypeRef;
use hyper::client::conn;
use hyper::http::uri::Authority;
use hyper::{Body, Request, StatusCode, Uri};
use openssl::base64;
use openssl::ssl::{SslConnector, SslConnectorBuilder, SslMethod, SslVersion};
use openssl::stack::StackRef;
use openssl::x509::store::X509StoreBuilder;
use openssl::x509::verify::X509VerifyFlags;
use openssl::x509::{GeneralName, X509Ref, X509};
use openssl_sys as ffi;
use serde_json::{Map, Value};
use tokio::net::TcpStream;
use tokio::time::timeout;
use tokio_openssl::SslStream;

use crate::bundles::Form;
use crate::error::SourceFault;
use crate::follower::{read, told, Shared, Why, MOST};
use crate::id::SpiffeId;

/// How long one answer may take.
const LIMIT: Duration = Duration::from_secs(15);
/// After a fault, how long it takes to the next question at first, and at the most.
const PAUSES: (Duration, Duration) = (Duration::from_secs(1), Duration::from_secs(60));
/// The bounds of a bundle's hint, and what goes without one.
const REFRESH: (u64, u64, u64) = (10, 86_400, 300);
/// How many bytes the header of an answer has at the most.
const MOST_HEADER: usize = 1 << 16;

/// The bits of a key's usage that let it sign certificates, and lists of withdrawn ones (RFC 5280, section 4.2.1.3).
const SIGNS: u32 = 0x06;

/// A bundle endpoint.
#[derive(Debug, Clone)]
pub(crate) struct Endpoint {
    pub domain: String,
    pub url: String,
    /// The SPIFFE ID of its server. Without one it has a certificate for its name.
    pub server: Option<String>,
    /// The file of those that vouch for the server: certificates as PEM, or with a SPIFFE ID a trust bundle.
    pub authorities: Option<PathBuf>,
}

impl Endpoint {
    /// Whether what is said of it can be meant.
    pub fn check(&self, number: usize) -> Result<(), SourceFault> {
        // (what stands after the host is a port, or it is asked at another one)
        let is_server = |it: &Authority| !it.as_str().contains('@') && (it.as_str() == it.host() || it.port_u16().is_some());
        let is_plain = |it: &Uri| it.scheme_str() == Some("https") && it.authority().map_or(false, is_server);
        if !self.url.parse::<Uri>().map_or(false, |it| is_plain(&it) && it.host().map_or(false, |host| !host.is_empty())) {
            return Err(SourceFault::Address { number });
        }
        match &self.server {
            None => Ok(()),
            Some(id) if trust_domain(id).is_empty() => Err(SourceFault::ServerId { number }),
            Some(id) if trust_domain(id) == self.domain && self.authorities.is_none() => Err(SourceFault::First { number }),
            Some(_) => Ok(()),
        }
    }

    /// Asks for the bundle.
    async fn ask(&self, shared: &Shared) -> Result<Vec<u8>, Why> {
        let uri: Uri = self.url.parse()?;
        let host = uri.host().unwrap_or_default().trim_start_matches('[').trim_end_matches(']');
        let stream = TcpStream::connect((host, uri.port_u16().unwrap_or(443))).await?;
        let mut config = self.connector(shared)?.build().configure()?;
        config.set_verify_hostname(self.server.is_none());
        let mut stream = SslStream::new(config.into_ssl(host)?, stream)?;
        Pin::new(&mut stream).connect().await?;
        if let Some(id) = &self.server {
            is_server(stream.ssl().peer_certificate().ok_or("it shows no certificate")?.as_ref(), id)?;
        }
        let (mut sender, connection) = conn::Builder::new().http1_max_buf_size(MOST_HEADER).handshake(stream).await?;
        let path = uri.path_and_query().map_or("/", |it| it.as_str());
        let host = uri.authority().map_or("", |it| it.as_str());
        let request = Request::get(path).header("host", host).header("connection", "close").body(Body::empty())?;
        let answer = async move {
            let mut answer = sender.send_request(request).await?;
            if answer.status() != StatusCode::OK {
                return Err(format!("it answers {}", answer.status()).into());
            }
            let mut text = Vec::new();
            while let Some(data) = hyper::body::HttpBody::data(answer.body_mut()).await {
                text.extend_from_slice(&data?);
                if text.len() > MOST {
                    return Err(format!("it has more than {MOST} bytes").into());
                }
            }
            Ok(text)
        };
        tokio::pin!(answer, connection);
        tokio::select! {
            biased;
            answer = &mut answer => answer,
            // (a whole answer counts, however the connection ends)
            _ = &mut connection => answer.await,
        }
    }

    /// What connects to the server, and knows it.
    fn connector(&self, shared: &Shared) -> Result<SslConnectorBuilder, Why> {
        let mut builder = SslConnector::builder(SslMethod::tls_client())?;
        builder.set_min_proto_version(Some(SslVersion::TLS1_2))?;
        let authorities = match (&self.server, &self.authorities) {
            (None, None) => return Ok(builder),
            (None, Some(file)) => X509::stack_from_pem(&read(file)?)?,
            (Some(id), first) => self.authorities_of(trust_domain(id), first, shared)?,
        };
        if authorities.is_empty() {
            return Err("there is no authority that could vouch for the server".into());
        }
        let mut store = X509StoreBuilder::new()?;
        // (an authority counts though another one has signed it)
        store.set_flags(X509VerifyFlags::PARTIAL_CHAIN)?;
        for it in authorities {
            store.add_cert(it)?;
        }
        builder.set_cert_store(store.build());
        Ok(builder)
    }

    /// The X.509 authorities of the bundle of a trust domain.
    fn authorities_of(&self, domain: &str, first: &Option<PathBuf>, shared: &Shared) -> Result<Vec<X509>, Why> {
        let bundle = match (shared.last(domain), first) {
            (Some(last), None) => last,
            (Some(last), Some(_)) if domain == self.domain => last,
            (_, Some(file)) => read(file)?,
            (None, None) => return Err(format!("the bundle of {domain}, by which its server is known, was not read yet").into()),
        };
        let bundle: Map<String, Value> = serde_json::from_slice(&bundle)?;
        let entries = bundle.get("keys").and_then(Value::as_array).map_or(&[][..], Vec::as_slice);
        let is_authority = |it: &&Value| it["use"] == "x509-svid";
        let certificates = entries.iter().filter(is_authority).filter_map(|it| match it["x5c"].as_array().map(Vec::as_slice) {
            Some([one]) => one.as_str(),
            _ => None,
        });
        // (one that can't be read vouches for nobody, and keeps no other one from it)
        Ok(certificates.filter_map(|it| X509::from_der(&base64::decode_block(it).ok()?).ok()).collect())
    }
}

/// The trust domain of a SPIFFE ID with a path; "" of another text.
fn trust_domain(id: &str) -> &str {
    match SpiffeId::parse(id) {
        Ok(id) if !id.path().is_empty() => id.trust_domain(),
        _ => "",
    }
}

/// Whether a certificate is the X.509-SVID of a server with this ID. (That an authority signed it was verified.)
fn is_server(shown: &X509Ref, id: &str) -> Result<(), Why> {
    let names = shown.subject_alt_names();
    let uris: Vec<&str> =
        names.as_deref().map_or_else(Vec::new, |it: &StackRef<GeneralName>| it.iter().filter_map(|it| it.uri()).collect());
    // SAFETY: the certificate is one, which both calls read.
    let (flags, usage) = unsafe { (ffi::X509_get_extension_flags(shown.as_ptr()), ffi::X509_get_key_usage(shown.as_ptr())) };
    // (one without that extension may be used for all)
    let may_sign = usage != u32::MAX && usage & SIGNS != 0;
    match uris.as_slice() {
        [one] if *one == id && (flags & ffi::EXFLAG_CA != 0 || may_sign) => {
            Err("its certificate may sign others, so it is no X.509-SVID of a server".into())
        }
        [one] if *one == id => Ok(()),
        [one] => Err(format!("its certificate is that of {:?}, and not of {id}", one.chars().take(256).collect::<String>()).into()),
        _ => Err("its certificate has not exactly one URI, so it is no X.509-SVID".into()),
    }
}

/// Asks an endpoint again and again.
pub(crate) async fn follow(shared: &Shared, endpoint: &Endpoint) {
    let mut pause = PAUSES.0;
    loop {
        let asked = timeout(LIMIT, endpoint.ask(shared)).await;
        let asked = asked.unwrap_or_else(|_| Err(io::Error::new(io::ErrorKind::TimedOut, "it does not answer in time").into()));
        let refresh = asked.as_deref().ok().map(refresh);
        let is_good = shared.take(&endpoint.domain, &endpoint.url, asked.map_err(|why| told(&*why)), Form::Bundle);
        shared.tell_all();
        let wait = match refresh {
            Some(refresh) if is_good => {
                pause = PAUSES.0;
                refresh
            }
            _ => {
                let wait = pause;
                pause = (pause * 2).min(PAUSES.1);
                wait
            }
        };
        tokio::time::sleep(wait).await;
    }
}

/// How long a bundle is good before it is asked for again.
fn refresh(bundle: &[u8]) -> Duration {
    let hint = serde_json::from_slice::<Map<String, Value>>(bundle).ok().and_then(|it| it.get("spiffe_refresh_hint")?.as_u64());
    Duration::from_secs(hint.filter(|it| *it > 0).map_or(REFRESH.2, |it| it.clamp(REFRESH.0, REFRESH.1)))
}

#[cfg(test)]
mod tests {
    use super::*;

    #[test]
    fn hints() {
        for (hint, due) in [("9", 10), ("10", 10), ("86400", 86_400), ("86401", 86_400), ("0", 300), ("-1", 300), ("null", 300)] {
            assert_eq!(refresh(format!(r#"{{"keys":[],"spiffe_refresh_hint":{hint}}}"#).as_bytes()), Duration::from_secs(due), "{hint}");
        }
        assert_eq!(refresh(br#"{"keys":[]}"#), Duration::from_secs(300));
    }
}
