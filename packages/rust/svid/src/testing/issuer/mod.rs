//! An issuer of tokens.

use std::sync::atomic::{AtomicU64, Ordering};

use openssl::base64::encode_block;
use openssl::bn::{BigNum, BigNumContext};
use openssl::ec::{EcGroup, EcKey};
use openssl::ecdsa::EcdsaSig;
use openssl::error::ErrorStack;
use openssl::nid::Nid;
use openssl::pkey::Private;
use openssl::sha::sha256;
use serde_json::{json, Map, Value};

use super::Clock;

/// How many seconds a token lives.
const LIFE: u64 = 300;

/// An issuer of JWT-SVIDs for a trust domain, whose keys are made for the test (ES256).
///
/// Its calls panic where OpenSSL makes no key or no signature.
///
/// ```
/// use svid::testing::{Issuer, Wrong};
/// use svid::{Error, Guard, OpenSsl, Options, Refusal};
///
/// let mut issuer = Issuer::new("example.org");
/// let guard = Guard::open(&Options::new(["ledger"]), issuer.bundles(), OpenSsl::new())?;
/// let expired = issuer.wrong(Wrong::Expired, "/billing/api", "ledger");
/// assert_eq!(guard.check(expired), Err(Error::Refused(Refusal::Expired)));
///
/// issuer.rotate();
/// let token = issuer.token_with(serde_json::json!({"sub": "spiffe://example.org/web", "aud": ["ledger"], "role": "reader"}));
/// assert_eq!(guard.check(&token), Err(Error::Refused(Refusal::NoKey)));
/// guard.follow(issuer.bundles())?;
/// assert_eq!(guard.check(&token)?.claims().unwrap()["role"], "reader");
/// # Ok::<(), Error>(())
/// ```
#[derive(Debug)]
pub struct Issuer {
    domain: String,
    keys: Vec<EcKey<Private>>,
    /// How many keys were forgotten: the name of a key is its number among all.
    gone: usize,
    clock: Option<Clock>,
    tokens: AtomicU64,
}

/// What is wrong with a token, and how a guard answers it.
#[derive(Debug, Clone, Copy, PartialEq, Eq, Hash)]
#[non_exhaustive]
pub enum Wrong {
    /// It has expired: [`Expired`](crate::Refusal::Expired).
    Expired,
    /// It is valid in a minute: [`NotYet`](crate::Refusal::NotYet).
    NotYet,
    /// It is for another service: [`NotAudience`](crate::Refusal::NotAudience).
    Audience,
    /// Another token was signed: [`BadSignature`](crate::Refusal::BadSignature).
    Signature,
    /// No bundle has the key that it names: [`NoKey`](crate::Refusal::NoKey).
    Key,
    /// It is cut off in its payload: [`NotThreeParts`](crate::Refusal::NotThreeParts).
    Malformed,
}

impl Issuer {
    /// An issuer for this trust domain, by the clock of the system.
    pub fn new(domain: impl Into<String>) -> Issuer {
        Issuer { domain: domain.into(), keys: vec![key()], gone: 0, clock: None, tokens: AtomicU64::new(0) }
    }

    /// Gives it another clock.
    #[must_use]
    pub fn clock(mut self, clock: &Clock) -> Issuer {
        self.clock = Some(clock.clone());
        self
    }

    /// The bundle of the trust domain, a JWK set: [`Sources::bundle`](crate::Sources::bundle) takes it, or a file.
    pub fn bundle(&self) -> String {
        let keys: Vec<Value> = (self.gone..).zip(&self.keys).map(|(number, key)| public(number, key)).collect();
        json!({ "keys": keys, "spiffe_refresh_hint": 60 }).to_string()
    }

    /// The bundles of a guard that knows this issuer alone, as JSON: [`Guard::open`](crate::Guard::open) takes them.
    pub fn bundles(&self) -> Vec<u8> {
        format!("{{{}:{}}}", Value::from(self.domain.as_str()), self.bundle()).into_bytes()
    }

    /// A good token of `spiffe://DOMAIN/PATH` for an audience, which lives for five minutes. No two are the same.
    pub fn token(&self, path: &str, audience: &str) -> String {
        self.token_with(self.claims(path, audience))
    }

    /// A token with these claims, an object. `exp` and `jti` are those of [`Issuer::token`], unless they stand there.
    pub fn token_with(&self, claims: Value) -> String {
        let mut all = self.claims("", "");
        all.as_object_mut().expect("an object").extend(match claims {
            Value::Object(claims) => claims,
            other => panic!("claims are an object, and not {other}"),
        });
        self.signed(self.gone + self.keys.len() - 1, &all)
    }

    /// A token with which one thing is wrong.
    pub fn wrong(&self, what: Wrong, path: &str, audience: &str) -> String {
        let now = self.now();
        let with = |name: &str, value: Value| {
            let mut claims = self.claims(path, audience);
            claims[name] = value;
            self.token_with(claims)
        };
        match what {
            Wrong::Expired => with("exp", json!(now.saturating_sub(1))),
            Wrong::NotYet => with("nbf", json!(now + 60)),
            Wrong::Audience => with("aud", json!([format!("not {audience}")])),
            Wrong::Signature => {
                let (good, other) = (self.token(path, audience), self.token(path, audience));
                let cut = |token: &str| token.rfind('.').expect("it has three parts");
                format!("{}{}", &good[..cut(&good)], &other[cut(&other)..])
            }
            Wrong::Key => self.signed(usize::MAX, &self.claims(path, audience)),
            Wrong::Malformed => {
                let token = self.token(path, audience);
                token[..token.rfind('.').expect("it has three parts")].to_owned()
            }
        }
    }

    /// Another key signs from now on. The bundle has it, and those before it.
    pub fn rotate(&mut self) {
        self.keys.push(key());
    }

    /// The bundle has the newest key alone from now on.
    pub fn forget(&mut self) {
        self.gone += self.keys.len() - 1;
        self.keys.drain(..self.keys.len() - 1);
    }

    fn now(&self) -> u64 {
        self.clock.as_ref().map_or_else(|| crate::now().expect("the system's clock is right"), Clock::now)
    }

    fn claims(&self, path: &str, audience: &str) -> Value {
        let number = self.tokens.fetch_add(1, Ordering::Relaxed);
        let subject = format!("spiffe://{}{path}", self.domain);
        let mut claims = Map::new();
        claims.insert("sub".to_owned(), subject.into());
        claims.insert("aud".to_owned(), json!([audience]));
        claims.insert("exp".to_owned(), (self.now() + LIFE).into());
        claims.insert("jti".to_owned(), number.to_string().into());
        Value::Object(claims)
    }

    /// A token that names the key of this number. The newest one signs it.
    fn signed(&self, number: usize, claims: &Value) -> String {
        let header = json!({ "alg": "ES256", "kid": name(number), "typ": "JWT" });
        let input = format!("{}.{}", written(header.to_string().as_bytes()), written(claims.to_string().as_bytes()));
        let key = self.keys.last().expect("it has a key");
        let signature = EcdsaSig::sign(&sha256(input.as_bytes()), key).and_then(|it| Ok([half(it.r())?, half(it.s())?].concat()));
        format!("{input}.{}", written(&signature.expect("OpenSSL signs")))
    }
}

fn key() -> EcKey<Private> {
    let made = EcGroup::from_curve_name(Nid::X9_62_PRIME256V1).and_then(|group| EcKey::generate(&group));
    made.expect("OpenSSL makes a key")
}

/// A key as an entry of a bundle (RFC 7517).
fn public(number: usize, key: &EcKey<Private>) -> Value {
    let coordinates = || {
        let (mut x, mut y, mut room) = (BigNum::new()?, BigNum::new()?, BigNumContext::new()?);
        key.public_key().affine_coordinates(key.group(), &mut x, &mut y, &mut room)?;
        Ok::<_, ErrorStack>((half(&x)?, half(&y)?))
    };
    let (x, y) = coordinates().expect("OpenSSL says what the key is");
    json!({ "use": "jwt-svid", "kid": name(number), "kty": "EC", "crv": "P-256", "x": written(&x), "y": written(&y) })
}

fn name(number: usize) -> String {
    format!("key-{number}")
}

/// A number in as many bytes as one of the curve has.
fn half(number: &openssl::bn::BigNumRef) -> Result<Vec<u8>, ErrorStack> {
    number.to_vec_padded(32)
}

/// Bytes as the parts of a token have them (RFC 4648, section 5, without padding).
fn written(bytes: &[u8]) -> String {
    encode_block(bytes).trim_end_matches('=').replace('+', "-").replace('/', "_")
}
