//! JSON as the server writes it: whole numbers of 64 bits are exact; any other number stays a text.

use std::fmt;

/// The greatest depth of nested values.
const DEPTH: usize = 128;

/// A value of JSON.
#[derive(Clone, Debug, PartialEq)]
pub enum Value {
    Null,
    Bool(bool),
    Number(u64),
    /// A number below 0, above 64 bits, or with a point or an exponent, as it was written.
    OtherNumber(String),
    Text(String),
    List(Vec<Value>),
    Object(Vec<(String, Value)>),
}

impl Value {
    /// The value of a whole text, or what is wrong with it.
    pub fn parse(text: &str) -> Result<Value, &'static str> {
        let mut reader = Reader { bytes: text.as_bytes(), text, at: 0 };
        let value = reader.value(0)?;
        reader.skip_spaces();
        if reader.at == text.len() {
            Ok(value)
        } else {
            Err("there is more behind the value")
        }
    }

    /// The member of this name of an object; the last one, if it is there twice.
    pub fn get(&self, name: &str) -> Option<&Value> {
        match self {
            Value::Object(members) => members.iter().rev().find(|(it, _)| it == name).map(|(_, value)| value),
            _ => None,
        }
    }

    pub fn as_number(&self) -> Option<u64> {
        match self {
            Value::Number(number) => Some(*number),
            _ => None,
        }
    }

    pub fn as_text(&self) -> Option<&str> {
        match self {
            Value::Text(text) => Some(text),
            _ => None,
        }
    }

    pub fn as_bool(&self) -> Option<bool> {
        match self {
            Value::Bool(holds) => Some(*holds),
            _ => None,
        }
    }

    pub fn as_list(&self) -> Option<&[Value]> {
        match self {
            Value::List(values) => Some(values),
            _ => None,
        }
    }
}

impl From<u64> for Value {
    fn from(number: u64) -> Value {
        Value::Number(number)
    }
}

impl From<&str> for Value {
    fn from(text: &str) -> Value {
        Value::Text(text.to_string())
    }
}

/// An object with these members.
pub fn object(members: Vec<(&str, Value)>) -> Value {
    Value::Object(members.into_iter().map(|(name, value)| (name.to_string(), value)).collect())
}

impl fmt::Display for Value {
    fn fmt(&self, out: &mut fmt::Formatter<'_>) -> fmt::Result {
        match self {
            Value::Null => out.write_str("null"),
            Value::Bool(holds) => write!(out, "{holds}"),
            Value::Number(number) => write!(out, "{number}"),
            Value::OtherNumber(text) => out.write_str(text),
            Value::Text(text) => write_text(out, text),
            Value::List(values) => {
                out.write_str("[")?;
                for (at, value) in values.iter().enumerate() {
                    write!(out, "{}{value}", if at == 0 { "" } else { "," })?;
                }
                out.write_str("]")
            }
            Value::Object(members) => {
                out.write_str("{")?;
                for (at, (name, value)) in members.iter().enumerate() {
                    out.write_str(if at == 0 { "" } else { "," })?;
                    write_text(out, name)?;
                    write!(out, ":{value}")?;
                }
                out.write_str("}")
            }
        }
    }
}

fn write_text(out: &mut fmt::Formatter<'_>, text: &str) -> fmt::Result {
    out.write_str("\"")?;
    for letter in text.chars() {
        match letter {
            '"' => out.write_str("\\\"")?,
            '\\' => out.write_str("\\\\")?,
            '\u{0}'..='\u{1f}' => write!(out, "\\u{:04x}", u32::from(letter))?,
            _ => write!(out, "{letter}")?,
        }
    }
    out.write_str("\"")
}

struct Reader<'a> {
    bytes: &'a [u8],
    text: &'a str,
    at: usize,
}

impl Reader<'_> {
    fn peek(&self) -> Option<u8> {
        self.bytes.get(self.at).copied()
    }

    fn skip_spaces(&mut self) {
        while matches!(self.peek(), Some(b' ' | b'\t' | b'\n' | b'\r')) {
            self.at += 1;
        }
    }

    /// Goes on after this byte, if it is the next one.
    fn takes(&mut self, byte: u8) -> bool {
        let is_there = self.peek() == Some(byte);
        self.at += usize::from(is_there);
        is_there
    }

    fn value(&mut self, depth: usize) -> Result<Value, &'static str> {
        if depth > DEPTH {
            return Err("it is too deep");
        }
        self.skip_spaces();
        match self.peek() {
            Some(b'{') => self.object(depth),
            Some(b'[') => self.list(depth),
            Some(b'"') => self.string().map(Value::Text),
            Some(b'-' | b'0'..=b'9') => self.number(),
            _ => self.word(),
        }
    }

    fn word(&mut self) -> Result<Value, &'static str> {
        let rest = &self.bytes[self.at..];
        let words = [("null", Value::Null), ("true", Value::Bool(true)), ("false", Value::Bool(false))];
        let found = words.into_iter().find(|(word, _)| rest.starts_with(word.as_bytes()));
        let (word, value) = found.ok_or("a value is missing")?;
        self.at += word.len();
        Ok(value)
    }

    fn list(&mut self, depth: usize) -> Result<Value, &'static str> {
        let mut values = Vec::new();
        self.at += 1;
        self.skip_spaces();
        if self.takes(b']') {
            return Ok(Value::List(values));
        }
        loop {
            values.push(self.value(depth + 1)?);
            self.skip_spaces();
            if self.takes(b']') {
                return Ok(Value::List(values));
            }
            if !self.takes(b',') {
                return Err("a list has no end");
            }
        }
    }

    fn object(&mut self, depth: usize) -> Result<Value, &'static str> {
        let mut members = Vec::new();
        self.at += 1;
        self.skip_spaces();
        if self.takes(b'}') {
            return Ok(Value::Object(members));
        }
        loop {
            self.skip_spaces();
            let name = self.string()?;
            self.skip_spaces();
            if !self.takes(b':') {
                return Err("a member has no value");
            }
            members.push((name, self.value(depth + 1)?));
            self.skip_spaces();
            if self.takes(b'}') {
                return Ok(Value::Object(members));
            }
            if !self.takes(b',') {
                return Err("an object has no end");
            }
        }
    }

    fn digits(&mut self) -> Result<(), &'static str> {
        let begin = self.at;
        while matches!(self.peek(), Some(b'0'..=b'9')) {
            self.at += 1;
        }
        if self.at > begin {
            Ok(())
        } else {
            Err("a number has no digits")
        }
    }

    fn number(&mut self) -> Result<Value, &'static str> {
        let begin = self.at;
        self.takes(b'-');
        if !self.takes(b'0') {
            self.digits()?;
        }
        if self.takes(b'.') {
            self.digits()?;
        }
        if self.takes(b'e') || self.takes(b'E') {
            let _ = self.takes(b'+') || self.takes(b'-');
            self.digits()?;
        }
        let text = &self.text[begin..self.at];
        let is_whole = text.bytes().all(|byte| byte.is_ascii_digit());
        let whole = if is_whole { text.parse().ok() } else { None };
        Ok(whole.map_or_else(|| Value::OtherNumber(text.to_string()), Value::Number))
    }

    fn string(&mut self) -> Result<String, &'static str> {
        if !self.takes(b'"') {
            return Err("a text is missing");
        }
        let mut found = String::new();
        loop {
            let begin = self.at;
            while !matches!(self.peek(), None | Some(b'"' | b'\\' | 0..=0x1f)) {
                self.at += 1;
            }
            found.push_str(&self.text[begin..self.at]);
            match self.peek() {
                Some(b'"') => {
                    self.at += 1;
                    return Ok(found);
                }
                Some(b'\\') => {
                    self.at += 1;
                    found.push(self.escaped()?);
                }
                _ => return Err("a text has no end"),
            }
        }
    }

    fn escaped(&mut self) -> Result<char, &'static str> {
        let byte = self.peek().ok_or("a text has no end")?;
        self.at += 1;
        Ok(match byte {
            b'"' | b'\\' | b'/' => char::from(byte),
            b'b' => '\u{8}',
            b'f' => '\u{c}',
            b'n' => '\n',
            b'r' => '\r',
            b't' => '\t',
            b'u' => return self.unit(),
            _ => return Err("an escape is invalid"),
        })
    }

    /// The character after `\u`, which may have two units.
    fn unit(&mut self) -> Result<char, &'static str> {
        let first = self.hexadecimal()?;
        if !(0xd800..0xdc00).contains(&first) {
            return char::from_u32(first).ok_or("a surrogate has no partner");
        }
        if !(self.takes(b'\\') && self.takes(b'u')) {
            return Err("a surrogate has no partner");
        }
        let second = self.hexadecimal()?;
        if !(0xdc00..0xe000).contains(&second) {
            return Err("a surrogate has no partner");
        }
        char::from_u32(0x10000 + ((first - 0xd800) << 10) + (second - 0xdc00)).ok_or("a surrogate has no partner")
    }

    fn hexadecimal(&mut self) -> Result<u32, &'static str> {
        let digits = self.bytes.get(self.at..self.at + 4).ok_or("an escape is invalid")?;
        self.at += 4;
        digits.iter().try_fold(0, |value, digit| {
            let digit = char::from(*digit).to_digit(16).ok_or("an escape is invalid")?;
            Ok(16 * value + digit)
        })
    }
}

#[cfg(test)]
mod tests {
    use super::*;

    #[test]
    fn whole_numbers_are_exact() {
        assert_eq!(Value::parse("18446744073709551615"), Ok(Value::Number(u64::MAX)));
        assert_eq!(Value::parse("9007199254740993"), Ok(Value::Number(9_007_199_254_740_993)));
        for other in ["18446744073709551616", "-0", "-1", "1.0", "1e0", "1E+2"] {
            assert_eq!(Value::parse(other), Ok(Value::OtherNumber(other.to_string())));
        }
    }

    #[test]
    fn what_is_no_json_is_refused() {
        for text in
            ["", "01", "1.", "1e", "-", "nul", "[1", "[1,]", "{\"a\"}", "{\"a\":1,}", "{a:1}", "\"a", "\"\n\"", "1 2"]
        {
            assert!(Value::parse(text).is_err(), "{text}");
        }
        for text in ["\"\\x\"", "\"\\u12\"", "\"\\ud800\"", "\"\\ud800\\u0041\"", "\"\\udc00\""] {
            assert!(Value::parse(text).is_err(), "{text}");
        }
        assert!(Value::parse(&"[".repeat(100_000)).is_err());
        assert!(Value::parse(&format!("{}{}", "[".repeat(100), "]".repeat(100))).is_ok());
    }

    #[test]
    fn texts_come_back() {
        let value =
            Value::parse(r#" {"a" : ["\"\\\/\b\f\n\r\t\u00e4\ud83c\udf4e", true, false, null, {}, []], "b":5} "#);
        let value = value.unwrap();
        let list = value.get("a").and_then(Value::as_list).unwrap();
        assert_eq!(list[0].as_text(), Some("\"\\/\u{8}\u{c}\n\r\t\u{e4}\u{1f34e}"));
        assert_eq!(value.get("b").and_then(Value::as_number), Some(5));
        assert_eq!(Value::parse(&value.to_string()), Ok(value));
    }
}
