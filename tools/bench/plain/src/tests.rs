//! What the inputs of `tools/bench/run` don't show: faults, uses that expire, digests of any length, and tokens that
//! are refused. The expected values are worked out by hand from docs/FORMATS.md, and digests by `sha256sum`.

use crate::base64url;
use crate::batch::{self, Batch};
use crate::fault::{Fault, Reason};
use crate::hex::Hex;
use crate::json::Json;
use crate::message::Message;
use crate::record::{Known, Record};
use crate::report;
use crate::sha256::Sha256;
use crate::summary::Summary;
use crate::token::{Refusal, Token};
use crate::token_use::{Told, Use};

const MAGIC: &[u8] = b"JSR\x02";

/// A use of a key of ones, by a validator of twos.
fn used(exp: u64, at: u64) -> Use {
    Use {
        exp,
        key: [0x11; 32],
        validator_id: [0x22; 16],
        at,
        told: Told::Used,
    }
}

/// The same as a withdrawal.
fn withdrawn(exp: u64, at: u64) -> Use {
    Use {
        told: Told::Withdrawn,
        ..used(exp, at)
    }
}

/// A message of this moment that tells of `count` uses.
fn message(moment: u64, count: u32, uses: &[Use]) -> Vec<u8> {
    let mut bytes = [MAGIC, &[1], &moment.to_be_bytes(), &count.to_be_bytes()].concat();
    for used in uses {
        bytes.extend(used.text());
    }
    bytes
}

/// The record of a moment with these uses.
fn record(moment: u64, uses: &[Use]) -> Record {
    let mut record = Record::default();
    record.absorb(&Batch {
        moment,
        uses: uses.to_vec(),
    });
    record
}

fn summary_text(summary: &Summary) -> Vec<u8> {
    let mut text = Vec::new();
    summary.write(&mut text).unwrap();
    text
}

#[test]
fn tells_the_first_bad_field() {
    let mut bad_kind = message(9, 1, &[used(9, 10)]);
    bad_kind[81] = 2;
    let bad_kind = bad_kind.as_slice();
    let short = &message(9, 1, &[used(10, 9)])[..80];
    let short_summary = &summary_text(&Summary::of(&record(9, &[])))[..8204];
    let table: [(&[u8], usize, Reason); 14] = [
        (b"JSR\x01", 0, Reason::Magic),
        (b"JSR", 3, Reason::Truncated),
        (b"JSR\x02\x03", 4, Reason::Kind),
        (b"JSR\x02\x02", 5, Reason::Truncated),
        (short_summary, 8204, Reason::Truncated),
        (&message(9, 65_537, &[]), 13, Reason::Count),
        (&message(9, 65_536, &[]), 17, Reason::Truncated),
        (&message(10, 1, &[used(10, 11)]), 17, Reason::UseExpired),
        (&message(9, 1, &[used(10, 10)]), 17, Reason::UseFuture),
        (
            &message(9, 2, &[used(10, 9), used(10, 9)]),
            82,
            Reason::UseOrder,
        ),
        (
            &message(9, 2, &[used(10, 9), used(9, 9)]),
            82,
            Reason::UseExpired,
        ),
        (
            &message(9, 2, &[withdrawn(10, 9), used(10, 9)]),
            82,
            Reason::UseOrder,
        ),
        (bad_kind, 17, Reason::UseKind),
        (short, 80, Reason::Truncated),
    ];
    for (bytes, offset, reason) in table {
        assert_eq!(Message::read(&mut &*bytes), Err(Fault { offset, reason }));
    }
}

#[test]
fn drops_what_expired_in_either_order() {
    let earlier = Batch {
        moment: 5,
        uses: vec![used(8, 4), used(8, 5), used(9, 5)],
    };
    let later = Batch {
        moment: 8,
        uses: vec![used(9, 6)],
    };
    for batches in [[&earlier, &later], [&later, &earlier]] {
        let mut record = Record::default();
        for batch in batches {
            record.absorb(batch);
        }
        let mut text = Vec::new();
        report::write(&record, &mut text).unwrap();
        let (key, id) = ("11".repeat(32), "22".repeat(16));
        let expected =
            format!("moment 8\nuses 2\n9 {key} {id} 5\n9 {key} {id} 6\ntwice 1\n{key} 2\n");
        assert_eq!(String::from_utf8(text).unwrap(), expected);
    }
}

#[test]
fn marks_withdrawals_and_counts_none_of_them() {
    let mut record = record(5, &[used(9, 4), withdrawn(9, 4), withdrawn(9, 5)]);
    let (key, id) = ("11".repeat(32), "22".repeat(16));
    let lines = format!("9 {key} {id} 4\n9 {key} {id} 4 withdrawn\n9 {key} {id} 5 withdrawn\n");
    for (moment, expected) in [
        (5, format!("moment 5\nuses 3\n{lines}twice 0\n")),
        (9, "moment 9\nuses 0\ntwice 0\n".to_string()),
    ] {
        record.raise(moment);
        let mut text = Vec::new();
        report::write(&record, &mut text).unwrap();
        assert_eq!(String::from_utf8(text).unwrap(), expected);
    }
}

#[test]
fn writes_an_empty_record_as_one_empty_batch() {
    let mut bytes = Vec::new();
    batch::write_parts(7, &[], &mut bytes).unwrap();
    assert_eq!(bytes, message(7, 0, &[]));
}

#[test]
fn digests_pieces_of_any_length() {
    let table = [
        (
            0,
            "e3b0c44298fc1c149afbf4c8996fb92427ae41e4649b934ca495991b7852b855",
        ),
        (
            1,
            "ca978112ca1bbdcafac231b39a23dc4da786eff8147c4e72b9807785afee48bb",
        ),
        (
            55,
            "9f4390f8d30c2dd92ec9f095b65e2b9ae9b0a925a5258e241c9f1e910f734318",
        ),
        (
            56,
            "b35439a4ac6f0948b6d6f9e3c6af0f5f590ce20f1bde7090ef7970686ec6738a",
        ),
        (
            63,
            "7d3e74a05d7db15bce4ad9ec0658ea98e3f06eeecf16b4c6fff2da457ddc2f34",
        ),
        (
            64,
            "ffe054fe7ae0cb6dc65c3af9b61d5209f439851db43d0ba5997337df154668eb",
        ),
        (
            65,
            "635361c48bb9eab14198e76ea8ab7f1a41685d6ad62aa9146d301d4f17eb0ae0",
        ),
        (
            119,
            "31eba51c313a5c08226adf18d4a359cfdfd8d2e816b13f4af952f7ea6584dcfb",
        ),
        (
            120,
            "2f3d335432c70b580af0e8e1b3674a7c020d683aa5f73aaaedfdc55af904c21c",
        ),
        (
            1000,
            "41edece42d63e8d9bf515a9ba6932e1c20cbc9f5a5d134645adb5db1b9737ea3",
        ),
    ];
    for (len, digest) in table {
        let bytes = vec![b'a'; len];
        for piece_len in [1, 55, 64, 65, 1000] {
            let mut hasher = Sha256::new();
            for piece in bytes.chunks(piece_len) {
                hasher.update(piece);
            }
            assert_eq!(
                Hex(hasher.finish()).to_string(),
                digest,
                "{len} by {piece_len}"
            );
        }
    }
}

#[test]
fn summarizes_each_bucket() {
    let text = summary_text(&Summary::of(&record(5, &[used(8, 4), used(9, 4)])));
    assert_eq!(text.len(), 8205);
    assert_eq!(text[..13], *b"JSR\x02\x02\0\0\0\0\0\0\0\x05");
    for (bucket, digest) in text[13..].chunks_exact(32).enumerate() {
        let expected = match bucket {
            0x11 => "7ec6142944d12d6f834f4834076f28e6982e49c6e8947283312d5245971d6d83",
            _ => "e3b0c44298fc1c149afbf4c8996fb92427ae41e4649b934ca495991b7852b855",
        };
        assert_eq!(
            Hex(<[u8; 32]>::try_from(digest).unwrap()).to_string(),
            expected
        );
    }
}

#[test]
fn answers_the_buckets_that_differ() {
    let other = Use {
        key: [0x33; 32],
        ..used(9, 5)
    };
    let all = record(5, &[used(8, 5), used(9, 5), other]);
    let table = [
        (record(5, &[]), vec![used(8, 5), used(9, 5), other]),
        (record(5, &[other]), vec![used(8, 5), used(9, 5)]),
        (record(5, &[used(8, 5), used(9, 5)]), vec![other]),
        (record(5, &[used(8, 5), used(9, 5), other]), vec![]),
    ];
    for (asking, uses) in table {
        let text = summary_text(&Summary::of(&asking));
        let Ok(Message::Summary(asked)) = Message::read(&mut &*text) else {
            panic!("no summary");
        };
        assert_eq!(asked.differing(&all), uses);
    }
}

#[test]
fn reads_json_and_writes_its_compact_text() {
    let deep = |depth: usize| "[".repeat(depth) + &"]".repeat(depth);
    let deepest = deep(127);
    let table = [
        (
            r#" { "b" : [ 1 , -2 ] , "a" : { } } "#,
            Some(r#"{"a":{},"b":[1,-2]}"#),
        ),
        (
            r#"{"a":1,"a":null,"b":[true,false]}"#,
            Some(r#"{"a":null,"b":[true,false]}"#),
        ),
        (
            r#""\u0041\u001F\b\f\/\"\\\ud834\udd1e""#,
            Some("\"A\\u001f\\b\\f/\\\"\\\\\u{1d11e}\""),
        ),
        ("18446744073709551615", Some("18446744073709551615")),
        (&deepest, Some(&deepest)),
        ("18446744073709551616", None),
        ("-0", None),
        ("1.5e+3", None),
    ];
    for (text, expected) in table {
        let mut compact = String::new();
        let value = Json::read(text.as_bytes()).expect(text);
        let written = value.write_compact(&mut compact).map(|()| compact.as_str());
        assert_eq!(written, expected, "{text}");
    }
    let no_json = [
        "",
        "01",
        "1.",
        ".5",
        "1e",
        "+1",
        "1e999",
        "nul",
        "[1 2]",
        "[1,]",
        "{\"a\":1,}",
        "{1:2}",
        "\"\\x\"",
        "\"\\ud834\"",
        "\"\\udd1e\"",
        "\"\\u+041\"",
        "\"\n\"",
        "\"",
        "1 1",
        &deep(128),
    ];
    for text in no_json {
        assert!(Json::read(text.as_bytes()).is_none(), "{text}");
    }
}

#[test]
fn decodes_base64url() {
    let table: [(&str, Option<&[u8]>); 8] = [
        ("", Some(b"")),
        ("Zg", Some(b"f")),
        ("Zm8", Some(b"fo")),
        ("Zm9v", Some(b"foo")),
        ("-_8", Some(b"\xfb\xff")),
        ("Zh", None),
        ("Zm9", None),
        ("Z", None),
    ];
    for (text, bytes) in table {
        assert_eq!(
            base64url::decode(text.as_bytes()).as_deref(),
            bytes,
            "{text}"
        );
    }
}

const TOKEN: &str = "eyJhbGciOiJFUzI1NiIsImtpZCI6ImswMSIsInR5cCI6IkpXVCJ9.eyJzdWIiOiJzcGlmZmU6Ly9hL2IiLCJhdWQiOiJzIiwiZXhwIjoxMDAxLCJqdGkiOiJqMSJ9.c2ln";

#[test]
fn asks_the_question_of_a_token() {
    let token = Token::read(TOKEN.as_bytes()).unwrap();
    let entry = r#"{"crv":"P-256","kid":"k01","kty":"EC","use":"jwt-svid","x":"AA","y":"AA"}"#;
    let digests = [token.question(entry), token.key()].map(|digest| Hex(digest).to_string());
    let expected = [
        "bc905fb9ff409ccd144f0ea328f043d7d765a8e7d61f27505a41839950f6ed1e",
        "aa248ce528cb9cae518c0ae05cdaf85eda5482429ab9cc3d6d5681f47a1f4596",
    ];
    assert_eq!(digests, expected);
}

#[test]
fn refuses_tokens() {
    let (signed, _) = TOKEN.rsplit_once('.').unwrap();
    let (header, _) = signed.split_once('.').unwrap();
    let table = [
        (format!("{header}.e30"), Refusal::NotThreeParts),
        ("e30.e30.c2ln".to_string(), Refusal::Alg),
        (format!("{signed}."), Refusal::SignatureSpelling),
        (format!("{signed}.c2lo="), Refusal::SignatureSpelling),
        (format!("{header}.e30.c2ln"), Refusal::Sub),
        (format!("{header}.W10.c2ln"), Refusal::PayloadNotObject),
        ("a".repeat(65_537), Refusal::TooLong),
    ];
    for (text, refusal) in table {
        assert_eq!(Token::read(text.as_bytes()).err(), Some(refusal));
    }
}
