use std::collections::BTreeMap;
use std::fmt::Write;
use std::str;

/// How deep objects and lists may stand in one another.
const DEEPEST: usize = 127;

pub type Object = BTreeMap<String, Json>;

/// A value of JSON (RFC 8259).
pub enum Json {
    Null,
    Bool(bool),
    /// A number from -2^63 to 2^64-1 that is written with digits alone, and not `-0`.
    Whole(i128),
    /// Any other number that a double can hold.
    Float,
    Text(String),
    List(Vec<Json>),
    /// Of a name that is written twice the last value stands.
    Object(Object),
}

impl Json {
    pub fn read(bytes: &[u8]) -> Option<Json> {
        let mut reader = Reader {
            rest: str::from_utf8(bytes).ok()?,
        };
        let value = reader.value(DEEPEST)?;
        reader.skip_blanks();
        reader.rest.is_empty().then_some(value)
    }

    pub fn into_object(self) -> Option<Object> {
        match self {
            Json::Object(members) => Some(members),
            _ => None,
        }
    }

    pub fn into_text(self) -> Option<String> {
        match self {
            Json::Text(text) => Some(text),
            _ => None,
        }
    }

    pub fn as_text(&self) -> Option<&str> {
        match self {
            Json::Text(text) => Some(text),
            _ => None,
        }
    }

    pub fn as_u64(&self) -> Option<u64> {
        match self {
            Json::Whole(number) => u64::try_from(*number).ok(),
            _ => None,
        }
    }

    /// Puts the compact text of the value behind `out`, or answers `None` where a number is not whole.
    pub fn write_compact(&self, out: &mut String) -> Option<()> {
        match self {
            Json::Null => out.push_str("null"),
            Json::Bool(value) => write!(out, "{value}").ok()?,
            Json::Whole(number) => write!(out, "{number}").ok()?,
            Json::Float => return None,
            Json::Text(text) => write_text(text, out),
            Json::List(values) => {
                for (index, value) in values.iter().enumerate() {
                    out.push(if index == 0 { '[' } else { ',' });
                    value.write_compact(out)?;
                }
                out.push_str(if values.is_empty() { "[]" } else { "]" });
            }
            Json::Object(members) => {
                for (index, (name, value)) in members.iter().enumerate() {
                    out.push(if index == 0 { '{' } else { ',' });
                    write_text(name, out);
                    out.push(':');
                    value.write_compact(out)?;
                }
                out.push_str(if members.is_empty() { "{}" } else { "}" });
            }
        }
        Some(())
    }
}

fn write_text(text: &str, out: &mut String) {
    out.push('"');
    for letter in text.chars() {
        match letter {
            '"' => out.push_str("\\\""),
            '\\' => out.push_str("\\\\"),
            '\u{8}' => out.push_str("\\b"),
            '\t' => out.push_str("\\t"),
            '\n' => out.push_str("\\n"),
            '\u{c}' => out.push_str("\\f"),
            '\r' => out.push_str("\\r"),
            '\0'..='\u{1f}' => out.push_str(&format!("\\u{:04x}", u32::from(letter))),
            _ => out.push(letter),
        }
    }
    out.push('"');
}

/// What is left of a text.
struct Reader<'a> {
    rest: &'a str,
}

impl<'a> Reader<'a> {
    /// Takes this many bytes.
    fn take(&mut self, count: usize) -> &'a str {
        let (front, behind) = self.rest.split_at(count);
        self.rest = behind;
        front
    }

    fn skip_blanks(&mut self) {
        self.rest = self.rest.trim_start_matches([' ', '\t', '\n', '\r']);
    }

    /// Takes this word if it stands here, behind blanks.
    fn takes(&mut self, word: &str) -> bool {
        self.skip_blanks();
        let behind = self.rest.strip_prefix(word);
        self.rest = behind.unwrap_or(self.rest);
        behind.is_some()
    }

    fn value(&mut self, depth: usize) -> Option<Json> {
        self.skip_blanks();
        Some(match self.rest.bytes().next()? {
            b'{' => Json::Object(self.object(depth.checked_sub(1)?)?),
            b'[' => Json::List(self.list(depth.checked_sub(1)?)?),
            b'"' => Json::Text(self.text()?),
            b'n' => self.takes("null").then_some(Json::Null)?,
            b't' => self.takes("true").then_some(Json::Bool(true))?,
            b'f' => self.takes("false").then_some(Json::Bool(false))?,
            _ => self.number()?,
        })
    }

    fn object(&mut self, depth: usize) -> Option<Object> {
        let mut members = Object::new();
        self.takes("{");
        if self.takes("}") {
            return Some(members);
        }
        loop {
            self.skip_blanks();
            let name = self.text()?;
            self.takes(":").then_some(())?;
            members.insert(name, self.value(depth)?);
            if !self.takes(",") {
                return self.takes("}").then_some(members);
            }
        }
    }

    fn list(&mut self, depth: usize) -> Option<Vec<Json>> {
        let mut values = Vec::new();
        self.takes("[");
        if self.takes("]") {
            return Some(values);
        }
        loop {
            values.push(self.value(depth)?);
            if !self.takes(",") {
                return self.takes("]").then_some(values);
            }
        }
    }

    fn text(&mut self) -> Option<String> {
        self.rest = self.rest.strip_prefix('"')?;
        let mut text = String::new();
        loop {
            let is_end = |byte: u8| byte == b'"' || byte == b'\\' || byte < 0x20;
            let plain = self.rest.bytes().position(is_end)?;
            text.push_str(self.take(plain));
            match self.take(1) {
                "\"" => return Some(text),
                "\\" => text.push(self.escape()?),
                _ => return None,
            }
        }
    }

    fn escape(&mut self) -> Option<char> {
        let letter = self.rest.chars().next()?;
        self.take(letter.len_utf8());
        Some(match letter {
            '"' | '\\' | '/' => letter,
            'b' => '\u{8}',
            'f' => '\u{c}',
            'n' => '\n',
            'r' => '\r',
            't' => '\t',
            'u' => self.unit_pair()?,
            _ => return None,
        })
    }

    fn unit(&mut self) -> Option<u16> {
        let digits = self.rest.get(..4)?;
        self.take(4);
        let is_number = digits.bytes().all(|digit| digit.is_ascii_hexdigit());
        is_number.then(|| u16::from_str_radix(digits, 16).ok())?
    }

    /// The character of one unit of UTF-16, or of two.
    fn unit_pair(&mut self) -> Option<char> {
        let mut units = vec![self.unit()?];
        if (0xd800..0xdc00).contains(&units[0]) {
            self.rest = self.rest.strip_prefix("\\u")?;
            units.push(self.unit()?);
        }
        let mut letters = char::decode_utf16(units);
        letters.next()?.ok()
    }

    fn number(&mut self) -> Option<Json> {
        let is_part = |byte: u8| byte.is_ascii_digit() || b"+-.eE".contains(&byte);
        let part = self.rest.bytes().position(|byte| !is_part(byte));
        let text = self.take(part.unwrap_or(self.rest.len()));
        let digits = text.strip_prefix('-').unwrap_or(text);
        let whole = digits.bytes().take_while(u8::is_ascii_digit).count();
        let is_long_zero = digits.starts_with('0') && whole > 1;
        if whole == 0 || is_long_zero || !is_fraction(&digits[whole..]) {
            return None;
        }
        if whole == digits.len() && text != "-0" {
            let number = text.parse::<i128>().unwrap_or(i128::MAX);
            if (i128::from(i64::MIN)..=i128::from(u64::MAX)).contains(&number) {
                return Some(Json::Whole(number));
            }
        }
        text.parse::<f64>().ok()?.is_finite().then_some(Json::Float)
    }
}

/// Whether this may stand behind the whole part of a number: a fraction and an exponent, or none.
fn is_fraction(text: &str) -> bool {
    let (fraction, exponent) = match text.find(['e', 'E']) {
        Some(at) => (&text[..at], Some(&text[at + 1..])),
        None => (text, None),
    };
    let is_number = |text: &str| !text.is_empty() && text.bytes().all(|byte| byte.is_ascii_digit());
    let is_exponent = |text: &str| is_number(text.strip_prefix(['+', '-']).unwrap_or(text));
    (fraction.is_empty() || fraction.strip_prefix('.').is_some_and(is_number))
        && exponent.is_none_or(is_exponent)
}
