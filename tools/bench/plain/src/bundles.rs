use crate::json::{Json, Object};
use std::collections::HashMap;

/// How many bytes the compact text of an entry has at the most.
const MOST_ENTRY: usize = 65_536;

/// An entry that is a key.
pub struct Key {
    pub kid: String,
    /// `RSA` or `EC`.
    pub kind: String,
    /// The compact text of the entry.
    pub text: String,
}

/// The keys of each trust domain.
pub type Bundles = HashMap<String, Vec<Key>>;

/// Reads bundles, or tells what is wrong with them.
pub fn read(bytes: &[u8]) -> Result<Bundles, String> {
    let members = Json::read(bytes).and_then(Json::into_object);
    let mut bundles = Bundles::new();
    for (index, (name, set)) in members.ok_or("NotObject")?.into_iter().enumerate() {
        if name.len() > 255 || !is_domain(&name) {
            return Err(format!("Domain({index})"));
        }
        let keys = read_keys(set).ok_or_else(|| format!("Keys({index})"))?;
        bundles.insert(name, keys);
    }
    Ok(bundles)
}

/// Whether these are bytes of a trust domain's name, one at the least.
pub fn is_domain(name: &str) -> bool {
    let is_letter =
        |byte: u8| byte.is_ascii_lowercase() || byte.is_ascii_digit() || b".-_".contains(&byte);
    !name.is_empty() && name.bytes().all(is_letter)
}

fn read_keys(set: Json) -> Option<Vec<Key>> {
    match set.into_object()?.remove("keys")? {
        Json::Null => Some(Vec::new()),
        Json::List(entries) => Some(entries.into_iter().filter_map(read_key).collect()),
        _ => None,
    }
}

fn read_key(entry: Json) -> Option<Key> {
    let mut text = String::new();
    entry.write_compact(&mut text)?;
    let mut members = entry.into_object()?;
    let mut take = |name: &str| take_text(&mut members, name);
    let (usage, kid, kind) = (take("use")?, take("kid")?, take("kty")?);
    let is_key = usage == "jwt-svid" && (kind == "RSA" || kind == "EC") && text.len() <= MOST_ENTRY;
    is_key.then_some(Key { kid, kind, text })
}

fn take_text(members: &mut Object, name: &str) -> Option<String> {
    members.remove(name)?.into_text()
}
