//! What an error says, in the words of lists/statuses.toml.

use std::collections::HashMap;

use crate::common::*;
use svid::{
    bearer_token, BearerFault, Error, Guard, JournalError, KeyError, KeyFault, MessageFault, MessagesError, Pattern, PatternError, Sources,
    SpiffeId, TokenKey, Use, ValidatorId,
};

const NOW: u64 = 1_767_225_600;

/// What the list has of each status, by its name behind `SVID_`.
struct Listed(HashMap<String, HashMap<String, String>>);

impl Listed {
    fn read() -> Listed {
        let text = std::fs::read_to_string(top().join("lists/statuses.toml")).expect("the list");
        let mut found = HashMap::new();
        for group in text.split("[[group]]").skip(1) {
            let mut rows = group.split("[[group.status]]").map(fields);
            let of = rows.next().expect("a group");
            for mut row in rows {
                if let Some(advice) = of.get("advice") {
                    row.entry("advice".to_owned()).or_insert_with(|| advice.clone());
                }
                let prefix = of.get("prefix").map_or("", String::as_str);
                found.insert(format!("{prefix}{}", row["name"]), row);
            }
        }
        Listed(found)
    }

    fn field(&self, name: &str, field: &str) -> &str {
        self.0.get(name).unwrap_or_else(|| panic!("there is no status {name}")).get(field).map_or("", String::as_str)
    }

    /// What is wrong, as an error has it: without marks, without a capital, and without a period.
    fn says(&self, name: &str) -> String {
        let (words, says) = (self.field(name, "words"), self.field(name, "says"));
        let text = if words.is_empty() { says } else { words }.replace('`', "");
        let text = text.strip_suffix('.').unwrap_or(&text);
        text[..1].to_lowercase() + &text[1..]
    }

    /// That, and what to do.
    fn whole(&self, name: &str) -> String {
        match self.field(name, "advice") {
            "" => self.says(name),
            advice => format!("{}: {advice}", self.says(name)),
        }
    }
}

fn fields(row: &str) -> HashMap<String, String> {
    let pairs = row.lines().filter_map(|line| line.split_once(" = "));
    pairs.map(|(name, value)| (name.to_owned(), value.trim_matches('"').to_owned())).collect()
}

/// Why bundles can't be read.
fn unread(sources: impl Into<Sources>) -> Error {
    Guard::open(&ledger(), sources, ()).map(drop).unwrap_err()
}

/// Cargo refuses an older Rust by what the manifest says, and whoever chooses one reads README.
#[test]
fn the_manifest_names_the_rust_of_readme() {
    let (manifest, readme) = (include_str!("../../Cargo.toml"), include_str!("../../../README.md"));
    let named = manifest.lines().find_map(|it| Some(it.strip_prefix("rust-version = \"")?.trim_end_matches('"')));
    let named = named.expect("the manifest names one");
    assert!(readme.contains(&format!("It needs Rust {named}, and Linux")), "{named}");
}

#[test]
fn calls() {
    let (listed, time) = (Listed::read(), Time::at(NOW));
    let guard = Guard::open(&time.of(ledger()).step(100), b"{}", ()).expect("it opens");
    tick(&guard).expect("the clock");
    let beyond = empty(&Time::at(NOW + 31));
    tick(&beyond).expect("the clock");
    let empty_batch = [b"JSR\x02\x01".as_slice(), &[0; 12]].concat();
    let said = [
        ("GONE", guard.withdraw(TokenKey([0; 32]), NOW).unwrap_err()),
        ("TOO_FAR", guard.take(beyond.tell().expect("its record")).unwrap_err()),
        ("TOO_MUCH", guard.take(empty_batch.repeat(3_947_581)).unwrap_err()),
        ("NOT_SUMMARY", guard.answer(&empty_batch).unwrap_err()),
        ("NO_MEMORY", Error::NoMemory),
        ("BUNDLES_NOT_OBJECT", unread("[]")),
    ];
    for (name, why) in said {
        assert_eq!(why.to_string(), listed.whole(name), "{name}");
    }
    time.set(NOW + 101);
    assert_eq!(guard.take(b"").unwrap_err().to_string(), listed.whole("JUMP"));
    let no_memory = [KeyError::NoMemory.to_string(), PatternError::NoMemory.to_string(), JournalError::NoMemory.to_string()];
    assert!(no_memory.iter().all(|it| *it == listed.whole("NO_MEMORY")), "{no_memory:?}");
    assert_eq!(JournalError::Ended.to_string(), listed.whole("FOLDER_ENDED"));
}

#[test]
fn bundles() {
    let listed = Listed::read();
    let rows: [(&[u8], &str, u32); 2] =
        [(b"{\"a\":{\"keys\":[]},\"B\":{}}", "BUNDLES_DOMAIN", 0), (b"{\"a\":{\"keys\":[]},\"b\":{}}", "BUNDLES_KEYS", 1)];
    for (text, name, number) in rows {
        let whence = format!(" (number {number} of the names in rising order, counted from 0): ");
        let due = listed.says(name) + &whence + listed.field(name, "advice");
        assert_eq!(unread(text).to_string(), due);
    }
    let none = r#"{"keys":[]}"#;
    for text in [none, r#"{"A":1,"keys":null}"#] {
        assert_eq!(unread(text).to_string(), listed.whole("BUNDLES_UNNAMED"));
        let due = listed.says("BUNDLES_UNNAMED")
            + " (number 0 of the joined bundles, counted from 0): "
            + listed.field("BUNDLES_UNNAMED", "advice");
        assert_eq!(unread(Sources::from(text).bundle("b", none)).to_string(), due);
    }
    let rows = [("a", "[]", "NOT_OBJECT"), ("B", none, "DOMAIN"), ("a", "{}", "KEYS"), ("spiffe://b", none, "TWICE")];
    for (name, text, status) in rows {
        let status = format!("BUNDLES_{status}");
        let whence = " (number 1 of the joined bundles, counted from 0): ";
        let due = listed.says(&status) + whence + listed.field(&status, "advice");
        assert_eq!(unread(Sources::new().bundle("b", none).bundle(name, text)).to_string(), due);
    }
}

#[test]
fn messages() {
    let (listed, mut seen) = (Listed::read(), Vec::new());
    each("messages", |_, vector| {
        let due = &vector["fault"];
        if due.is_null() {
            return Ok(());
        }
        let why = empty(&Time::default()).take(bytes_of(vector, "messages")).unwrap_err();
        let Error::Messages(MessagesError { fault, message, offset, .. }) = why else { return Err(format!("{why:?}")) };
        let mut name = String::new();
        for it in fault.name().chars() {
            if it.is_uppercase() && !name.is_empty() {
                name.push('_');
            }
            name.extend(it.to_uppercase());
        }
        let says = format!("{}, and due is {}", listed.says(&name), listed.field(&name, "due"));
        same(fault.to_string(), format!("{}: {says}", fault.name()))?;
        same((message as u64, offset as u64), (number_of(due, "message"), number_of(due, "offset")))?;
        same(why.to_string(), format!("{} in message {message} at byte {offset}: {says}", fault.name()))
    });
    for vector in read("messages").vectors.iter().filter(|it| !it["fault"].is_null()) {
        seen.push(text_of(&vector["fault"], "reason").to_owned());
    }
    let expired = Use { expires: 1, key: TokenKey([0; 32]), validator_id: ValidatorId([0; 16]), at: 1, withdrawn: false };
    let says = format!("{}, and due is {}", listed.says("USE_EXPIRED"), listed.field("USE_EXPIRED", "due"));
    assert_eq!(expired.message().unwrap_err().to_string(), format!("UseExpired at offset 0: {says}"));
    assert!(seen.contains(&MessageFault::Magic.name().to_owned()) && seen.len() >= 8, "{seen:?}");
}

#[test]
fn ids_and_patterns() {
    let (listed, long) = (Listed::read(), "a".repeat(256));
    let rows = [
        ("TOO_LONG", format!("spiffe://{}", "a".repeat(2040)), 0),
        ("SCHEME", "example.org".to_owned(), 0),
        ("DOMAIN_EMPTY", "spiffe://".to_owned(), 0),
        ("DOMAIN_BYTE", "spiffe://A".to_owned(), 9),
        ("DOMAIN_LONG", format!("spiffe://{long}"), 0),
        ("SEGMENT_EMPTY", "spiffe://a//b".to_owned(), 11),
        ("SEGMENT_DOTS", "spiffe://a/../b".to_owned(), 11),
        ("PATH_BYTE", "spiffe://a/b*".to_owned(), 12),
    ];
    for (name, text, offset) in rows {
        let due = format!("no SPIFFE ID (byte {offset}): {}", listed.whole(&format!("ID_{name}")));
        assert_eq!(SpiffeId::parse(&text).unwrap_err().to_string(), due);
        let due = format!("no pattern of SPIFFE IDs (byte {offset}): {}", listed.whole(&format!("PATTERN_{name}")));
        assert_eq!(Pattern::parse(&text).unwrap_err().to_string(), due);
    }
}

#[test]
fn bearer_headers() {
    let listed = Listed::read();
    let rows: [(&str, &[&str]); 4] =
        [("Absent", &[]), ("Several", &["Bearer a", "Bearer a"]), ("Scheme", &["Basic a"]), ("Spelling", &["Bearer a b"])];
    for (name, fields) in rows {
        let due = format!("{name}: {}", listed.whole(&format!("BEARER_{}", name.to_uppercase())));
        assert_eq!(bearer_token(fields.iter().copied()).unwrap_err().to_string(), due);
    }
    assert_eq!(BearerFault::Absent.name(), "Absent");
}

#[test]
fn keys() {
    let listed = Listed::read();
    let due = listed.says("KEY_X").replacen("its ", "the key's ", 1).replace("ALGORITHM_LENGTHS", "32, 48 or 66");
    assert_eq!(KeyFault::X.to_string(), format!("X: {due}"));
    let due = listed.says("KEY_NOT_OBJECT");
    assert_eq!(KeyError::Unfit(KeyFault::NotObject).to_string(), format!("NotObject: {due}"));
}
