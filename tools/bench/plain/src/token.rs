use crate::base64url;
use crate::bundles::is_domain;
use crate::json::{Json, Object};
use crate::sha256::{Digest, Sha256};

/// Why a token is refused, in the order in which it is looked for.
#[derive(Clone, Copy, Debug, PartialEq, Eq)]
#[rustfmt::skip]
// lists:begin refusals (written by tools/lists from lists/refusals.toml)
pub enum Refusal {
    TooLong, NotThreeParts, HeaderSpelling, HeaderNotObject, Crit, Alg, Typ, Kid,
    PayloadSpelling, PayloadNotObject, SignatureSpelling, Sub, Aud, Exp, Nbf, Jti, NotAudience,
    Expired, NotYet, UnknownDomain, NoKey, BadSignature, Replayed,
}
// lists:end

/// The names of algorithms, each with the kind of its keys.
// lists:begin algorithms (written by tools/lists from lists/algorithms.toml)
const ALGORITHMS: [(&str, &str); 9] = [
    ("RS256", "RSA"),
    ("RS384", "RSA"),
    ("RS512", "RSA"),
    ("ES256", "EC"),
    ("ES384", "EC"),
    ("ES512", "EC"),
    ("PS256", "RSA"),
    ("PS384", "RSA"),
    ("PS512", "RSA"),
];
// lists:end

/// What a token says.
pub struct Token<'a> {
    pub signing_input: &'a [u8],
    pub signature: Vec<u8>,
    pub algorithm: &'static str,
    pub key_kind: &'static str,
    pub kid: Option<String>,
    pub subject: String,
    pub audiences: Vec<String>,
    pub exp: u64,
    pub nbf: Option<u64>,
    pub jti: Option<String>,
}

impl Token<'_> {
    pub fn read(token: &[u8]) -> Result<Token<'_>, Refusal> {
        if token.len() > 65_536 {
            return Err(Refusal::TooLong);
        }
        let parts: Vec<&[u8]> = token.split(|&byte| byte == b'.').collect();
        let &[header, payload, signature] = parts.as_slice() else {
            return Err(Refusal::NotThreeParts);
        };
        let signing_input = &token[..header.len() + 1 + payload.len()];
        let mut header = read_object(header, Refusal::HeaderSpelling, Refusal::HeaderNotObject)?;
        if header.contains_key("crit") {
            return Err(Refusal::Crit);
        }
        let &(algorithm, key_kind) = algorithm_of(&header).ok_or(Refusal::Alg)?;
        let is_typ = |typ: &Json| matches!(typ.as_text(), Some("JWT" | "JOSE"));
        if !header.get("typ").is_none_or(is_typ) {
            return Err(Refusal::Typ);
        }
        let kid = take_text(&mut header, "kid").map_err(|()| Refusal::Kid)?;
        let mut claims = read_object(payload, Refusal::PayloadSpelling, Refusal::PayloadNotObject)?;
        let signature = base64url::decode(signature).filter(|bytes| !bytes.is_empty());
        let number = |claims: &Object, name| claims.get(name).map(|value| value.as_u64().ok_or(()));
        Ok(Token {
            signing_input,
            signature: signature.ok_or(Refusal::SignatureSpelling)?,
            algorithm,
            key_kind,
            kid,
            subject: take_id(&mut claims).ok_or(Refusal::Sub)?,
            audiences: take_audiences(&mut claims).ok_or(Refusal::Aud)?,
            exp: claims
                .get("exp")
                .and_then(Json::as_u64)
                .ok_or(Refusal::Exp)?,
            nbf: number(&claims, "nbf")
                .transpose()
                .map_err(|()| Refusal::Nbf)?,
            jti: take_text(&mut claims, "jti").map_err(|()| Refusal::Jti)?,
        })
    }

    /// The name of the subject's trust domain.
    pub fn domain(&self) -> &str {
        let behind = &self.subject[SCHEME.len()..];
        behind.split_once('/').map_or(behind, |(domain, _)| domain)
    }

    /// The digest that asks whether the signature is good for a key of this text.
    pub fn question(&self, key_text: &str) -> Digest {
        let mut hasher = Sha256::new();
        for field in [
            self.domain().as_bytes(),
            key_text.as_bytes(),
            self.algorithm.as_bytes(),
            self.signing_input,
            &self.signature,
        ] {
            hasher.update(&(field.len() as u32).to_be_bytes());
            hasher.update(field);
        }
        hasher.finish()
    }

    /// The key that identifies the token.
    pub fn key(&self) -> Digest {
        let mut hasher = Sha256::new();
        match self.jti.as_deref() {
            None | Some("") => {
                hasher.update(&[0]);
                hasher.update(self.signing_input);
            }
            Some(jti) => {
                hasher.update(&[1]);
                hasher.update(&(self.domain().len() as u32).to_be_bytes());
                hasher.update(self.domain().as_bytes());
                hasher.update(jti.as_bytes());
            }
        }
        hasher.finish()
    }
}

/// The object that a part spells, or what it lacks.
fn read_object(part: &[u8], spelling: Refusal, not_object: Refusal) -> Result<Object, Refusal> {
    let bytes = base64url::decode(part).ok_or(spelling)?;
    Json::read(&bytes)
        .and_then(Json::into_object)
        .ok_or(not_object)
}

fn algorithm_of(header: &Object) -> Option<&'static (&'static str, &'static str)> {
    let wanted = header.get("alg")?.as_text()?;
    ALGORITHMS.iter().find(|(name, _)| *name == wanted)
}

/// The text of a member that may be missing.
fn take_text(members: &mut Object, name: &str) -> Result<Option<String>, ()> {
    match members.remove(name) {
        None => Ok(None),
        Some(value) => value.into_text().map(Some).ok_or(()),
    }
}

const SCHEME: &str = "spiffe://";

fn take_id(claims: &mut Object) -> Option<String> {
    let text = claims.remove("sub")?.into_text()?;
    let behind = text.strip_prefix(SCHEME).filter(|_| text.len() <= 2048)?;
    let mut pieces = behind.split('/');
    let domain = pieces.next().filter(|domain| domain.len() <= 255);
    let is_letter = |byte: u8| byte.is_ascii_alphanumeric() || b".-_".contains(&byte);
    let is_segment =
        |piece: &str| !matches!(piece, "" | "." | "..") && piece.bytes().all(is_letter);
    (domain.is_some_and(is_domain) && pieces.all(is_segment)).then_some(text)
}

fn take_audiences(claims: &mut Object) -> Option<Vec<String>> {
    match claims.remove("aud")? {
        Json::Text(text) => Some(vec![text]),
        Json::List(values) if !values.is_empty() => {
            values.into_iter().map(Json::into_text).collect()
        }
        _ => None,
    }
}
