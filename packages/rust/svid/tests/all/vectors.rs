//! The vectors of tests/vectors/, which say where their answers come from. (Those of state folders are in src/journal/tests.rs.)

use crate::common::*;
use serde_json::Value;
use svid::{bearer_token, Denied, Error, Guard, LogMember, LogPosition, LogStart, Pattern, PatternError, Sources, SpiffeId};

fn now_of(file: &Value) -> u64 {
    file["setting"]["now"].as_u64().or_else(|| file["now"].as_u64()).expect("the file has a time")
}

/// Keys and signatures, by a verifier of this crate.
fn keys_and_signatures<V: Verifies>() {
    let kept = V::default();
    for name in ["keys", "signatures"] {
        each(name, |file, it| {
            let keys: Vec<&str> = list_of(it, "keys").iter().map(|key| key.as_str().expect("a text")).collect();
            let bundles = format!(r#"{{"example.org":{{"keys":[{}]}}}}"#, keys.join(","));
            let most_bits = it["rsa_bits"].as_u64().map_or(svid::USUAL_RSA_BITS, |bits| bits as usize);
            let verifier = V::of_bits(most_bits);
            let options = Time::at(now_of(file)).of(ledger());
            let guard = Guard::open(&options, &bundles, verifier).map_err(|why| why.to_string())?;
            let token = text_of(it, "token");
            let judged = guard.judge(token);
            let got = verdict(guard.check(token));
            same(verdict(judged), got.clone())?;
            if most_bits == svid::USUAL_RSA_BITS {
                // (one that has seen other keys before)
                let other = Guard::open(&options, &bundles, &kept).map_err(|why| why.to_string())?;
                same(verdict(other.check(token)), got.clone())?;
            }
            let due = text_of(it, "answer");
            if got == "Unsupported" {
                // (never let in, and only where the library can't)
                let algorithm = svid::Said::of(token).map_err(|why| why.to_string())?.algorithm().name();
                let cant = V::CANT.contains(&algorithm) || most_bits > V::MOST_BITS;
                let signed = due.starts_with("accepted") || due == "refused BadSignature";
                return if cant && signed { Ok(()) } else { Err(format!("Unsupported, and not {due}")) };
            }
            same(got.as_str(), due)
        });
    }
}

#[test]
#[cfg(feature = "openssl")]
fn keys_and_signatures_by_openssl() {
    assert!(svid::OpenSsl::CANT.is_empty());
    keys_and_signatures::<svid::OpenSsl>();
}

#[test]
#[cfg(feature = "ring")]
fn keys_and_signatures_by_ring() {
    keys_and_signatures::<svid::Ring>();
}

/// What a call answers, in the words of the vectors.
#[cfg(any(feature = "openssl", feature = "ring"))]
fn called(guard: &Guard<&Table>, table: &Table, call: &Value) -> String {
    let answered = match text_of(call, "call") {
        "check" | "judge" => {
            let token = text_of(call, "token");
            table.set(token, Some(list_of(call, "yes")));
            let accepted = if text_of(call, "call") == "check" { guard.check(token) } else { guard.judge(token) };
            accepted.map(|it| verdict(Ok(it)))
        }
        "withdraw" => guard.withdraw(key_of(call, "key"), number_of(call, "exp")).map(|_| "withdrawn".to_owned()),
        "take" => guard.take(bytes_of(call, "messages")).map(|()| "taken".to_owned()),
        "tick" => tick(guard).map(|()| "ticked".to_owned()),
        "tell" => guard.tell().map(|text| hex(&text)),
        other => panic!("{other} is no call"),
    };
    answered.unwrap_or_else(fault)
}

#[test]
#[cfg(any(feature = "openssl", feature = "ring"))]
fn calls_of_a_guard() {
    each("tokens", |file, it| {
        let setting = |name: &str| if it["setting"][name].is_null() { &file["setting"][name] } else { &it["setting"][name] };
        let audiences = setting("audiences").as_array().expect("a list").iter().map(|it| it.as_str().expect("a text"));
        let (time, table) = (Time::default(), Table::default());
        let options = svid::Options::new(audiences)
            .longest(limit_of(setting("longest")))
            .ahead(limit_of(setting("ahead")))
            .step(limit_of(setting("step")))
            .validator_id(svid::ValidatorId(from_hex(setting("validator_id").as_str().expect("a text")).try_into().expect("16 bytes")));
        let bundles = text_of(&file["bundles"], setting("bundles").as_str().expect("a text"));
        let guard = Guard::open(&time.of(options), bundles, &table).map_err(|why| why.to_string())?;
        for call in list_of(it, "calls") {
            time.set(call["now"].as_u64().unwrap_or(0));
            same(called(&guard, &table, call).as_str(), text_of(call, "answer")).map_err(|why| format!("{}: {why}", call["call"]))?;
        }
        Ok(())
    });
}

#[test]
#[cfg(any(feature = "openssl", feature = "ring"))]
fn bundles() {
    each("bundles", |file, it| {
        let (due, token, table) = (text_of(it, "answer"), text_of(it, "token"), Table::default());
        let sources = match text_of(it, "form") {
            "domains" if it["text"].is_string() => Sources::from(text_of(it, "text")),
            "domains" => Sources::from(bytes_of(it, "hex")),
            _ => Sources::new().bundle(text_of(it, "domain"), text_of(it, "text")),
        };
        // (of the other form, the first key has made the signature)
        table.set(token, if text_of(it, "form") == "domains" { Some(list_of(it, "yes")) } else { None });
        let guard = match Guard::open(&Time::at(now_of(file)).of(ledger()), sources, &table) {
            Ok(guard) => guard,
            Err(Error::Bundles(why)) => {
                let said = match why {
                    svid::BundlesFault::NotObject => "NotObject".to_owned(),
                    svid::BundlesFault::Domain { number } => format!("Domain {number}"),
                    svid::BundlesFault::Keys { number } => format!("Keys {number}"),
                    other => format!("{other:?}"),
                };
                return match due {
                    "BadBundles" => Ok(()),
                    due => same(said.as_str(), due),
                };
            }
            Err(why) => return Err(why.to_string()),
        };
        same(verdict(guard.judge(token)).as_str(), due)?;
        same(verdict(guard.check(token)).as_str(), due)
    });
}

#[test]
fn headers() {
    each("headers", |_, it| {
        let values: Vec<Vec<u8>> = list_of(it, "values").iter().map(|it| latin_1(it.as_str().expect("a text"))).collect();
        let token = bearer_token(&values);
        let (why, due) = (it["why"].as_str(), text_of(it, "answer"));
        match token {
            Ok(token) => {
                same(why, None)?;
                same(values.iter().any(|value| value.windows(token.len()).any(|it| it == token)), true)
            }
            Err(Denied::NoToken(fault)) => same(Some(fault.name()), why).and(same(due, "refused")),
            Err(Denied::Refused(refusal)) => same(Some(refusal.name()), why).and(same(due, "refused")),
            Err(other) => Err(format!("{other:?}")),
        }
    });
}

/// The middleware lets in the one that the token is of, or answers with status 401.
#[test]
#[cfg(feature = "openssl")]
fn headers_of_requests() {
    each("headers", |file, it| {
        let values: Vec<Vec<u8>> = list_of(it, "values").iter().map(|it| latin_1(it.as_str().expect("a text"))).collect();
        let bundles = text_of(&file["setting"], "bundles").as_bytes();
        let options = Time::at(now_of(file)).of(ledger());
        let guard = Guard::open(&options, bundles, svid::OpenSsl::new()).map_err(|why| why.to_string())?;
        match (guard.admit(&values), text_of(it, "answer")) {
            (Ok(accepted), due) => same(verdict(Ok(accepted)).as_str(), due),
            (Err(denied), "refused") => {
                same(denied.status(), 401)?;
                same(denied.challenge().map(|it| it.split(' ').next() == Some("Bearer")), Some(true))?;
                same(it["challenge"].as_str().or(denied.challenge()), denied.challenge())
            }
            (Err(denied), due) => Err(format!("{denied}, and not {due}")),
        }
    });
}

/// The bytes of a text whose characters are bytes.
fn latin_1(text: &str) -> Vec<u8> {
    text.chars().map(|it| u8::try_from(u32::from(it)).expect("a byte")).collect()
}

#[test]
fn ids() {
    each("ids", |_, it| match SpiffeId::parse(text_of(it, "text")) {
        Ok(id) => same((Some(id.trust_domain()), Some(id.path())), (it["domain"].as_str(), it["path"].as_str())),
        Err(why) => same((Some(why.fault.name()), Some(why.offset as u64)), (it["fault"].as_str(), it["offset"].as_u64().or(Some(0)))),
    });
}

#[test]
fn patterns() {
    each("patterns", |_, it| {
        let id = SpiffeId::parse(text_of(it, "id"));
        let got = match (Pattern::parse(text_of(it, "pattern")), id) {
            (Err(PatternError::Bad { fault, offset }), _) => {
                same(it["offset"].as_u64().unwrap_or(offset as u64), offset as u64)?;
                same(it["fault"].as_str().unwrap_or(fault.name()), fault.name())?;
                "no pattern"
            }
            (Err(_), _) => "unexpected",
            (Ok(_), Err(_)) => "no ID",
            (Ok(pattern), Ok(id)) => match pattern.allows(&id) {
                Ok(true) => "allowed",
                Ok(false) => "not allowed",
                Err(_) => "unexpected",
            },
        };
        same(got, text_of(it, "answer"))
    });
}

#[test]
fn rows_of_messages() {
    each("messages", |_, it| {
        let (given, now, time) = (bytes_of(it, "messages"), number_of(it, "now"), Time::default());
        let guard = empty(&time);
        let taken = guard.take(&given);
        if it["fault"].is_object() {
            let due = &it["fault"];
            let said = format!("{} {} {}", text_of(due, "reason"), number_of(due, "message"), number_of(due, "offset"));
            return same(taken.map_err(fault), Err(said));
        }
        taken.map_err(fault)?;
        time.set(now);
        tick(&guard).map_err(fault)?;
        same(guard.tell(), Ok(bytes_of(it, "record")))
    });
}

#[test]
fn summaries() {
    each("summaries", |_, it| {
        let (given, summary, guard) = (bytes_of(it, "messages"), bytes_of(it, "summary"), empty(&Time::default()));
        guard.take(&given).map_err(fault)?;
        if text_of(it, "call") == "summary" {
            return same(guard.summary(), Ok(summary));
        }
        let answer = guard.answer(&summary);
        match it["fault"].as_str() {
            Some("NotSummary") => same(answer, Err(Error::NotSummary)),
            Some(due) => same(answer.map_err(fault), Err(due.to_owned())),
            None => same(answer, Ok(bytes_of(it, "answer"))),
        }
    });
}

#[test]
fn logs() {
    each("logs", |file, it| {
        let (setting, log) = (&file["setting"], &it["log"]);
        let (beside, ahead, lasts) = (bytes_of(log, "beside"), number_of(setting, "ahead"), number_of(log, "lasts"));
        let (passed, begun, deaf) = (number_of(log, "passed"), number_of(log, "begun") as usize, number_of(log, "deaf"));
        let start = LogStart { position: LogPosition { passed, begun, deaf }, ready: number_of(log, "ready"), beside: &beside };
        let options = ledger().longest(lasts - 2 * ahead).ahead(ahead).validator_id(validator_id_of(setting, "validator_id"));
        let mut member = LogMember::open(&options, b"{}", (), &start).map_err(fault)?;
        member.take(number_of(setting, "now"), b"").map_err(fault)?;
        for call in list_of(it, "calls") {
            read_on(&mut member, call).map_err(|why| format!("{call}: {why}"))?;
        }
        Ok(())
    });
}

fn read_on(member: &mut LogMember<()>, call: &Value) -> Result<(), String> {
    match text_of(call, "call") {
        "read" => {
            let (value, mut fates) = (bytes_of(call, "value"), Vec::new());
            let read = member.read(number_of(call, "now"), number_of(call, "position"), value, &mut fates).map_err(fault)?;
            same((read.is_whole, read.from as u64), (text_of(call, "rest") == "Nothing", number_of(call, "from")))?;
            same(format!("{:?}", read.order).as_str(), text_of(call, "order"))?;
            let due: Vec<&str> = list_of(call, "fates").iter().map(|it| it.as_str().expect("a text")).collect();
            same(fates.iter().map(|(_, fate)| format!("{fate:?}")).collect::<Vec<_>>().join(" "), due.join(" "))?;
            let said = read.fault.map(|why| format!("{} {}", why.fault.name(), why.offset));
            same(said.as_deref(), call["fault"].as_str())
        }
        "mark" => {
            let (position, accepts) = member.mark().map_err(fault)?;
            let due =
                LogPosition { passed: number_of(call, "passed"), begun: number_of(call, "begun") as usize, deaf: number_of(call, "deaf") };
            same((position, Some(accepts)), (due, call["accepts"].as_bool()))
        }
        "beside" => same(member.beside().map(|text| hex(&text)).as_deref(), Ok(text_of(call, "messages"))),
        "go_on" => member.go_on().map_err(fault),
        other => panic!("{other} is no call"),
    }
}
