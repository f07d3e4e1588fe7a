//! A small reader of JSON: what the suite has. Numbers are kept as they are written.

use std::collections::BTreeMap;

#[derive(Clone, Debug, PartialEq)]
pub enum Json {
    Null,
    Bool(bool),
    Number(String),
    Text(String),
    List(Vec<Json>),
    Object(BTreeMap<String, Json>),
}

pub const NULL: Json = Json::Null;

impl Json {
    pub fn number(it: impl ToString) -> Json {
        Json::Number(it.to_string())
    }

    pub fn text(it: impl Into<String>) -> Json {
        Json::Text(it.into())
    }

    pub fn object<const N: usize>(fields: [(&str, Json); N]) -> Json {
        Json::Object(fields.into_iter().map(|(name, it)| (name.to_string(), it)).collect())
    }

    pub fn pairs(of: &[(String, String)]) -> Json {
        Json::List(of.iter().map(|(one, other)| Json::List(vec![Json::text(one), Json::text(other)])).collect())
    }

    /// A field, or null.
    pub fn get(&self, name: &str) -> &Json {
        self.may_get(name).unwrap_or(&NULL)
    }

    pub fn may_get(&self, name: &str) -> Option<&Json> {
        match self {
            Json::Object(fields) => fields.get(name),
            _ => None,
        }
    }

    pub fn list(&self) -> &[Json] {
        match self {
            Json::List(items) => items,
            _ => &[],
        }
    }

    /// A text, empty if it is none.
    pub fn str(&self) -> &str {
        self.may_str().unwrap_or("")
    }

    pub fn may_str(&self) -> Option<&str> {
        match self {
            Json::Text(it) => Some(it),
            _ => None,
        }
    }

    /// A number, which may be a string of digits.
    pub fn may_u64(&self) -> Option<u64> {
        match self {
            Json::Number(it) | Json::Text(it) => it.parse().ok(),
            _ => None,
        }
    }

    pub fn u64(&self) -> u64 {
        self.may_u64().unwrap_or(0)
    }

    pub fn u32(&self) -> u32 {
        u32::try_from(self.u64()).expect("a number of 32 bits")
    }

    pub fn is_true(&self) -> bool {
        *self == Json::Bool(true)
    }
}

struct Reader<'a> {
    text: &'a str,
    at: usize,
}

/// Reads one value, which is all of the text.
pub fn read(text: &str) -> Json {
    let mut reader = Reader { text, at: 0 };
    let found = reader.value();
    reader.blanks();
    assert_eq!(reader.at, text.len(), "more than one value");
    found
}

impl Reader<'_> {
    fn peek(&self) -> char {
        self.text[self.at..].chars().next().expect("the text ends too early")
    }

    fn next(&mut self) -> char {
        let found = self.peek();
        self.at += found.len_utf8();
        found
    }

    fn blanks(&mut self) {
        self.at = self.text.len() - self.text[self.at..].trim_start().len();
    }

    fn sign(&mut self, sign: char) -> bool {
        self.blanks();
        let is_it = self.text[self.at..].starts_with(sign);
        self.at += if is_it { sign.len_utf8() } else { 0 };
        is_it
    }

    fn word(&mut self, word: &str, it: Json) -> Json {
        assert!(self.text[self.at..].starts_with(word), "no {}", word);
        self.at += word.len();
        it
    }

    fn value(&mut self) -> Json {
        self.blanks();
        match self.peek() {
            '{' => self.object(),
            '[' => Json::List(self.items('[', ']', |it| it.value())),
            '"' => Json::Text(self.string()),
            't' => self.word("true", Json::Bool(true)),
            'f' => self.word("false", Json::Bool(false)),
            'n' => self.word("null", NULL),
            _ => self.digits(),
        }
    }

    fn items<T>(&mut self, open: char, close: char, mut item: impl FnMut(&mut Self) -> T) -> Vec<T> {
        assert!(self.sign(open));
        let mut found = Vec::new();
        while !self.sign(close) {
            found.push(item(self));
            self.sign(',');
        }
        found
    }

    fn object(&mut self) -> Json {
        let fields = self.items('{', '}', |it| {
            it.blanks();
            let name = it.string();
            assert!(it.sign(':'), "a field has no value");
            (name, it.value())
        });
        Json::Object(fields.into_iter().collect())
    }

    fn digits(&mut self) -> Json {
        let rest = &self.text[self.at..];
        let len = rest.find(|it: char| !(it.is_ascii_digit() || it == '-')).unwrap_or(rest.len());
        assert!(len > 0, "no value at {}", self.at);
        self.at += len;
        Json::Number(rest[..len].to_string())
    }

    fn string(&mut self) -> String {
        assert!(self.sign('"'), "no text at {}", self.at);
        let mut found = String::new();
        loop {
            match self.next() {
                '"' => return found,
                '\\' => found.push(self.escaped()),
                it => found.push(it),
            }
        }
    }

    fn escaped(&mut self) -> char {
        match self.next() {
            'b' => '\u{8}',
            'f' => '\u{c}',
            'n' => '\n',
            'r' => '\r',
            't' => '\t',
            'u' => self.code(),
            it => it,
        }
    }

    fn code(&mut self) -> char {
        let first = self.unit();
        if !(0xd800..0xdc00).contains(&first) {
            return char::from_u32(first).expect("half of a surrogate pair");
        }
        assert!(self.next() == '\\' && self.next() == 'u', "half of a surrogate pair");
        let second = self.unit();
        char::from_u32(0x10000 + ((first - 0xd800) << 10) + (second - 0xdc00)).expect("a surrogate pair")
    }

    fn unit(&mut self) -> u32 {
        let digits: String = (0..4).map(|_| self.next()).collect();
        u32::from_str_radix(&digits, 16).expect("four hex digits")
    }
}
