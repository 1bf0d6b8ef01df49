//! Where trust bundles come from.

use std::path::PathBuf;

use crate::bundles::{self, Bundles, Form};
use crate::error::{Error, OptionsFault, SourceFault};
use crate::id::SpiffeId;

/// Where the trust bundles of a guard come from: the keys of the issuers whose tokens it accepts.
///
/// Files and folders are followed: a change is used within two seconds. What can't be read changes nothing, so the last good bundle stays; and
/// [`Options::warns`](crate::Options::warns) hears of it, once for each fault. Only a file that is gone from a folder takes its trust domain with
/// it. A bundle is a JWK set as SPIRE writes it (`spire-server bundle show -format spiffe`), of at most 1,048,576 bytes.
///
/// JSON text is a source too, which never changes: an object from trust domain names to bundles.
///
/// ```
/// use svid::Sources;
///
/// let followed = Sources::new().file("example.org", "/etc/svid/example.org.json").folder("/etc/svid/partners");
/// let fixed = Sources::from(br#"{"example.org": {"keys": []}}"#);
/// ```
#[derive(Debug, Clone, Default)]
pub struct Sources {
    pub(crate) all: Vec<Source>,
}

/// One source.
#[derive(Debug, Clone)]
pub(crate) enum Source {
    /// JSON text of an object from trust domain names to bundles.
    Text(Vec<u8>),
    /// JSON text of the bundle of a trust domain.
    Bundle(String, Vec<u8>),
    File(String, PathBuf),
    Folder(PathBuf),
    #[cfg(feature = "https")]
    Endpoint(crate::endpoint::Endpoint),
    #[cfg(feature = "workload")]
    Workload(crate::workload::WorkloadApi),
}

impl Source {
    /// The trust domain whose bundle it gives. Others name theirs.
    pub fn domain(&self) -> Option<&str> {
        match self {
            Source::Text(_) | Source::Folder(_) => None,
            Source::Bundle(domain, _) | Source::File(domain, _) => Some(domain),
            #[cfg(feature = "https")]
            Source::Endpoint(it) => Some(&it.domain),
            #[cfg(feature = "workload")]
            Source::Workload(_) => None,
        }
    }

    /// Whether it may give the bundle that came from the source of this name.
    pub fn gives(&self, domain: &str, _source: &str) -> bool {
        match self {
            #[cfg(feature = "workload")]
            Source::Workload(it) => it.of(domain) == _source,
            it => it.domain() == Some(domain),
        }
    }
}

impl Sources {
    /// No source. A guard wants one at the least.
    pub fn new() -> Sources {
        Sources::default()
    }

    /// The bundle of this trust domain, as JSON text.
    #[must_use]
    pub fn bundle(self, domain: impl Into<String>, json: impl Into<Vec<u8>>) -> Sources {
        self.with(Source::Bundle(domain.into(), json.into()))
    }

    /// The bundle of this trust domain is this file. It may come later.
    #[must_use]
    pub fn file(self, domain: impl Into<String>, path: impl Into<PathBuf>) -> Sources {
        self.with(Source::File(domain.into(), path.into()))
    }

    /// Each file `DOMAIN.json` of this folder is the bundle of that trust domain. A file whose name begins with a period is none.
    #[must_use]
    pub fn folder(self, path: impl Into<PathBuf>) -> Sources {
        self.with(Source::Folder(path.into()))
    }

    /// The bundle of this trust domain is at a bundle endpoint, `https://HOST/PATH`, whose server has a certificate for its name (SPIFFE
    /// Federation, profile `https_web`). `authorities` is a PEM file with the authorities that vouch for it; `None` for those of the system.
    ///
    /// The guard asks it at once, and again when the bundle's `spiffe_refresh_hint` says so: in 10 seconds at the soonest and in a day at the
    /// latest, without a hint in five minutes. After a fault it asks again in a second, and later each time, in a minute at the latest. An answer
    /// may take 15 seconds. It follows no redirect.
    #[cfg(feature = "https")]
    #[must_use]
    pub fn https_web(self, domain: impl Into<String>, url: impl Into<String>, authorities: Option<PathBuf>) -> Sources {
        self.with(Source::Endpoint(crate::endpoint::Endpoint { domain: domain.into(), url: url.into(), server: None, authorities }))
    }

    /// The same, where the server has an X.509-SVID of this SPIFFE ID (profile `https_spiffe`). The X.509 authorities of a bundle vouch for it.
    /// If `server` is of this trust domain, that is its last good bundle, and before the first answer the file `first`. If it is of another one,
    /// it is the file `first`, and without one the last good bundle that another source gave.
    #[cfg(feature = "https")]
    #[must_use]
    pub fn https_spiffe(
        self,
        domain: impl Into<String>,
        url: impl Into<String>,
        server: impl Into<String>,
        first: Option<PathBuf>,
    ) -> Sources {
        let endpoint =
            crate::endpoint::Endpoint { domain: domain.into(), url: url.into(), server: Some(server.into()), authorities: first };
        self.with(Source::Endpoint(endpoint))
    }

    /// The bundles of all trust domains that a SPIFFE Workload API gives, as SPIRE's agent serves it at `unix:///run/spire/agent.sock`, or at
    /// `tcp://127.0.0.1:8081`. Without an `address`, the environment variable `SPIFFE_ENDPOINT_SOCKET` has it. Other sources may have bundles
    /// beside it, but no folder; a trust domain that one of them names has its bundle from there.
    ///
    /// The guard uses each change at once. A trust domain that the agent names no more is gone. While the agent is away, or knows no such
    /// workload, the last good bundles stay, and the guard asks again in a second, and later each time, in 30 seconds at the latest. One that
    /// refuses the call itself is not asked again. An agent has 15 seconds for its first message, which has at most 4,194,304 bytes.
    #[cfg(feature = "workload")]
    #[must_use]
    pub fn workload_api(self, address: Option<&str>) -> Sources {
        self.with(Source::Workload(crate::workload::WorkloadApi::new(address)))
    }

    fn with(mut self, source: Source) -> Sources {
        self.all.push(source);
        self
    }

    /// Whether these can be followed, and the bundles that never change are good.
    pub(crate) fn check(&self) -> Result<(), Error> {
        let fault = |why| Err(Error::Options(OptionsFault::Source(why)));
        if self.all.is_empty() {
            return fault(SourceFault::None);
        }
        for (number, it) in self.all.iter().enumerate() {
            let is_text = |it: &Source| matches!(it, Source::Text(_));
            // (a folder and a Workload API name their trust domains themselves, so there is one of them at the most)
            let is_there_twice = !is_text(it) && self.all[..number].iter().any(|other| !is_text(other) && other.domain() == it.domain());
            // (the library says of a bundle that never changes what is wrong with its name)
            let is_fixed = matches!(it, Source::Bundle(..));
            if !is_fixed && it.domain().map_or(false, |name| !is_domain(name)) {
                return fault(SourceFault::Domain { number });
            }
            if !is_fixed && is_there_twice {
                return fault(SourceFault::Twice { number });
            }
            #[cfg(feature = "https")]
            if let Source::Endpoint(it) = it {
                it.check(number).or_else(fault)?;
            }
            #[cfg(feature = "workload")]
            if matches!(it, Source::Workload(it) if !it.is_valid()) {
                return fault(SourceFault::Workload { number });
            }
        }
        Bundles::read(&bundles::join(self.fixed())?).map(drop)
    }

    /// The bundles that never change.
    pub(crate) fn fixed(&self) -> impl Iterator<Item = (Option<&str>, &[u8], Form)> {
        self.all.iter().filter_map(|it| match it {
            Source::Text(text) => Some((None, text.as_slice(), Form::Bundle)),
            Source::Bundle(domain, text) => Some((Some(domain.as_str()), text.as_slice(), Form::Bundle)),
            _ => None,
        })
    }
}

/// Whether a text is the name of a trust domain (SPIFFE-ID, section 2.1).
pub(crate) fn is_domain(name: &str) -> bool {
    SpiffeId::parse(&format!("spiffe://{name}")).map_or(false, |id| id.path().is_empty())
}

impl From<Vec<u8>> for Sources {
    fn from(json: Vec<u8>) -> Sources {
        Sources::new().with(Source::Text(json))
    }
}

macro_rules! text {
    ($($kind:ty)*) => {$(
        impl From<$kind> for Sources {
            fn from(json: $kind) -> Sources {
                Sources::from(AsRef::<[u8]>::as_ref(json).to_vec())
            }
        }
    )*};
}

text!(&[u8] &Vec<u8> &str &String);

impl<const LEN: usize> From<&[u8; LEN]> for Sources {
    fn from(json: &[u8; LEN]) -> Sources {
        Sources::from(json.to_vec())
    }
}
