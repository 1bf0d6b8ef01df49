//! The address of a server, and how it is spoken to.

use std::env;
use std::path::Path;
use std::pin::Pin;
use std::task::{Context, Poll};

use openssl::error::ErrorStack;
use openssl::ssl::{Ssl, SslConnector, SslFiletype, SslMethod, SslVerifyMode, SslVersion};
use openssl::x509::store::X509StoreBuilder;
use openssl::x509::X509;
use tokio::io::{AsyncRead, AsyncWrite, ReadBuf};
use tokio_openssl::SslStream;
use tokio_postgres::config::{Config, Host, SslMode};
use tokio_postgres::tls::{ChannelBinding, MakeTlsConnect, TlsConnect, TlsStream};
use tokio_postgres::Socket;

use crate::follower::read;
use crate::store::StoreError;

/// The parameters of an address that the library does not know, and the variables that stand for them.
const OURS: [(&str, &str); 5] = [
    ("sslmode", "PGSSLMODE"),
    ("sslrootcert", "PGSSLROOTCERT"),
    ("sslcert", "PGSSLCERT"),
    ("sslkey", "PGSSLKEY"),
    ("target_session_attrs", ""),
];

/// An address as libpq reads it.
pub(crate) struct Address {
    config: Config,
    host: String,
    /// Without it, nothing is secret.
    tls: Option<Tls>,
}

struct Tls {
    is_checked: bool,
    has_name: bool,
    authorities: Option<String>,
    certificate: Option<String>,
    key: Option<String>,
}

impl Address {
    /// Reads an address. An error has no part of it, since it may be secret.
    pub fn of(url: &str) -> Result<Address, &'static str> {
        const NO_URL: &str = "is no URL like postgres://USER@HOST/DATABASE, or has a parameter that is not known";
        if !url.starts_with("postgres://") && !url.starts_with("postgresql://") {
            return Err(NO_URL);
        }
        let (location, parameters) = url.split_once('?').unwrap_or((url, ""));
        let named = |it: &str, name: &str| it.strip_prefix(name).and_then(|it| it.strip_prefix('=')).map(str::to_owned);
        let is_ours = |it: &&str| OURS.iter().any(|(name, _)| named(it, name).is_some());
        let (ours, others): (Vec<&str>, Vec<&str>) = parameters.split('&').filter(|it| !it.is_empty()).partition(is_ours);
        let mut config: Config = format!("{location}?{}", others.join("&")).parse().map_err(|_| NO_URL)?;
        let [mode, authorities, certificate, key, _] = OURS.map(|(name, variable)| {
            let given = ours.iter().find_map(|it| named(it, name)).map(|it| decoded(&it).ok_or(NO_URL));
            given.or_else(|| env::var(variable).ok().filter(|it| !it.is_empty()).map(Ok)).transpose()
        });
        let host = match config.get_hosts() {
            [Host::Tcp(host)] => host.clone(),
            [Host::Unix(_)] => String::new(),
            [] => return Err(NO_URL),
            _ => return Err("names several servers: give each its own address"),
        };
        if let (None, Ok(password)) = (config.get_password(), env::var("PGPASSWORD")) {
            config.password(password);
        }
        let (mode, authorities) = (mode?.unwrap_or_else(|| "require".to_owned()), authorities?);
        let is_plain = host.is_empty() || mode == "disable";
        if !is_plain && !["require", "verify-ca", "verify-full"].contains(&mode.as_str()) {
            return Err("has another sslmode than disable, require, verify-ca and verify-full");
        }
        // (with an authority, libpq checks in the mode `require` too)
        let (has_name, is_checked) = (mode == "verify-full", mode != "require" || authorities.is_some());
        let tls = Tls { is_checked, has_name, authorities, certificate: certificate?, key: key? };
        config.ssl_mode(if is_plain { SslMode::Disable } else { SslMode::Require });
        Ok(Address { config, host, tls: Some(tls).filter(|_| !is_plain) })
    }

    /// What connects to it. Files are read for each connection.
    pub fn connector(&self) -> Result<(&Config, Connector), StoreError> {
        Ok((&self.config, Connector(self.tls.as_ref().map(|it| it.ssl(&self.host)).transpose()?)))
    }
}

/// A value of an address, by the library that reads all of it.
fn decoded(value: &str) -> Option<String> {
    format!("postgres:///?dbname={value}").parse::<Config>().ok()?.get_dbname().map(str::to_owned)
}

impl Tls {
    fn ssl(&self, host: &str) -> Result<Ssl, StoreError> {
        let mut builder = SslConnector::builder(SslMethod::tls_client())?;
        builder.set_min_proto_version(Some(SslVersion::TLS1_2))?;
        if let Some(file) = &self.authorities {
            let mut store = X509StoreBuilder::new()?;
            for it in X509::stack_from_pem(&read(Path::new(file))?)? {
                store.add_cert(it)?;
            }
            builder.set_cert_store(store.build());
        }
        if let (Some(certificate), Some(key)) = (&self.certificate, &self.key) {
            builder.set_certificate_chain_file(certificate)?;
            builder.set_private_key_file(key, SslFiletype::PEM)?;
        }
        if !self.is_checked {
            builder.set_verify(SslVerifyMode::NONE);
        }
        let mut config = builder.build().configure()?;
        config.set_verify_hostname(self.has_name);
        Ok(config.into_ssl(host)?)
    }
}

/// Speaks TLS, once, or never.
pub(crate) struct Connector(Option<Ssl>);

impl MakeTlsConnect<Socket> for Connector {
    type Stream = Stream;
    type TlsConnect = Connector;
    type Error = ErrorStack;

    fn make_tls_connect(&mut self, _: &str) -> Result<Connector, ErrorStack> {
        Ok(Connector(self.0.take()))
    }
}

impl TlsConnect<Socket> for Connector {
    type Stream = Stream;
    type Error = StoreError;
    type Future = Pin<Box<dyn std::future::Future<Output = Result<Stream, StoreError>> + Send>>;

    fn connect(self, socket: Socket) -> Self::Future {
        Box::pin(async move {
            let mut stream = SslStream::new(self.0.ok_or("this address has no TLS")?, socket)?;
            Pin::new(&mut stream).connect().await?;
            Ok(Stream(stream))
        })
    }
}

/// A connection over TLS.
pub(crate) struct Stream(SslStream<Socket>);

impl AsyncRead for Stream {
    fn poll_read(mut self: Pin<&mut Self>, cx: &mut Context<'_>, to: &mut ReadBuf<'_>) -> Poll<std::io::Result<()>> {
        Pin::new(&mut self.0).poll_read(cx, to)
    }
}

impl AsyncWrite for Stream {
    fn poll_write(mut self: Pin<&mut Self>, cx: &mut Context<'_>, from: &[u8]) -> Poll<std::io::Result<usize>> {
        Pin::new(&mut self.0).poll_write(cx, from)
    }

    fn poll_flush(mut self: Pin<&mut Self>, cx: &mut Context<'_>) -> Poll<std::io::Result<()>> {
        Pin::new(&mut self.0).poll_flush(cx)
    }

    fn poll_shutdown(mut self: Pin<&mut Self>, cx: &mut Context<'_>) -> Poll<std::io::Result<()>> {
        Pin::new(&mut self.0).poll_shutdown(cx)
    }
}

impl TlsStream for Stream {
    fn channel_binding(&self) -> ChannelBinding {
        ChannelBinding::none()
    }
}
