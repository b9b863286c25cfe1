//! A strict JSON reader (RFC 8259): texts without escapes are borrowed. The last of a repeated member counts.
//! Compiled with `--cfg copied` each text is copied instead, as a tree that owns its texts does.
use std::borrow::Cow;

fn plain(text: &str) -> Cow<'_, str> {
    if cfg!(copied) { Cow::Owned(text.to_string()) } else { Cow::Borrowed(text) }
}

pub enum Value<'a> {
    Null,
    Bool(bool),
    /// An integer of 64 bits, signed or not.
    Integer(i128),
    /// Any other number that 64-bit floats hold.
    Number,
    Text(Cow<'a, str>),
    List(Vec<Value<'a>>),
    Object(Vec<(Cow<'a, str>, Value<'a>)>),
}

impl<'a> Value<'a> {
    /// The member of that name, unless it is absent or null.
    pub fn get(&self, name: &str) -> Option<&Value<'a>> {
        let Value::Object(of) = self else { return None };
        let (_, value) = of.iter().rev().find(|it| it.0 == name)?;
        if let Value::Null = value { None } else { Some(value) }
    }

    pub fn text(&self) -> Option<&str> {
        if let Value::Text(it) = self { Some(it) } else { None }
    }

    pub fn list(&self) -> Option<&[Value<'a>]> {
        if let Value::List(of) = self { Some(of) } else { None }
    }
}

const MOST_LEVELS: usize = 127;

/// The value that the bytes are the text of.
pub fn parse(bytes: &[u8]) -> Option<Value<'_>> {
    let mut reader = Reader { text: std::str::from_utf8(bytes).ok()?, at: 0 };
    let value = reader.value(0)?;
    reader.blanks();
    (reader.at == bytes.len()).then_some(value)
}

struct Reader<'a> {
    text: &'a str,
    at: usize,
}

impl<'a> Reader<'a> {
    fn peek(&self) -> Option<u8> {
        self.text.as_bytes().get(self.at).copied()
    }

    fn blanks(&mut self) {
        while let Some(b' ' | b'\t' | b'\n' | b'\r') = self.peek() {
            self.at += 1;
        }
    }

    fn eat(&mut self, byte: u8) -> bool {
        let is_here = self.peek() == Some(byte);
        self.at += usize::from(is_here);
        is_here
    }

    fn word(&mut self, word: &str, value: Value<'a>) -> Option<Value<'a>> {
        let stands = self.text.as_bytes()[self.at..].starts_with(word.as_bytes());
        self.at += word.len();
        stands.then_some(value)
    }

    fn value(&mut self, level: usize) -> Option<Value<'a>> {
        self.blanks();
        match self.peek()? {
            b'{' | b'[' if level == MOST_LEVELS => None,
            b'{' => self.object(level),
            b'[' => self.list(level),
            b'"' => self.string().map(Value::Text),
            b't' => self.word("true", Value::Bool(true)),
            b'f' => self.word("false", Value::Bool(false)),
            b'n' => self.word("null", Value::Null),
            _ => self.number(),
        }
    }

    fn object(&mut self, level: usize) -> Option<Value<'a>> {
        let mut of = Vec::new();
        self.at += 1;
        self.blanks();
        if self.eat(b'}') {
            return Some(Value::Object(of));
        }
        loop {
            self.blanks();
            let name = self.string()?;
            self.blanks();
            if !self.eat(b':') {
                return None;
            }
            of.push((name, self.value(level + 1)?));
            self.blanks();
            if !self.eat(b',') {
                return self.eat(b'}').then_some(Value::Object(of));
            }
        }
    }

    fn list(&mut self, level: usize) -> Option<Value<'a>> {
        let mut of = Vec::new();
        self.at += 1;
        self.blanks();
        if self.eat(b']') {
            return Some(Value::List(of));
        }
        loop {
            of.push(self.value(level + 1)?);
            self.blanks();
            if !self.eat(b',') {
                return self.eat(b']').then_some(Value::List(of));
            }
        }
    }

    fn digits(&mut self) -> Option<()> {
        let start = self.at;
        while let Some(b'0'..=b'9') = self.peek() {
            self.at += 1;
        }
        (self.at > start).then_some(())
    }

    fn number(&mut self) -> Option<Value<'a>> {
        let start = self.at;
        self.eat(b'-');
        if !self.eat(b'0') {
            self.digits()?;
        }
        let mut is_whole = true;
        if self.eat(b'.') {
            is_whole = false;
            self.digits()?;
        }
        if self.eat(b'e') || self.eat(b'E') {
            is_whole = false;
            let _ = self.eat(b'+') || self.eat(b'-');
            self.digits()?;
        }
        let text = &self.text[start..self.at];
        let integer = || text.parse().ok().filter(|it| (i64::MIN.into()..=u64::MAX.into()).contains(it));
        if let Some(it) = integer().filter(|_| is_whole && text != "-0") {
            return Some(Value::Integer(it));
        }
        text.parse::<f64>().ok().filter(|it| it.is_finite()).map(|_| Value::Number)
    }

    fn string(&mut self) -> Option<Cow<'a, str>> {
        if !self.eat(b'"') {
            return None;
        }
        let mut start = self.at;
        let mut built: Option<String> = None;
        loop {
            match self.peek()? {
                b'"' => {
                    let rest = &self.text[start..self.at];
                    self.at += 1;
                    return Some(match built {
                        None => plain(rest),
                        Some(text) => Cow::Owned(text + rest),
                    });
                }
                b'\\' => {
                    let text = built.get_or_insert_default();
                    text.push_str(&self.text[start..self.at]);
                    self.at += 1;
                    let byte = self.peek()?;
                    self.at += 1;
                    let letter = match byte {
                        b'"' | b'\\' | b'/' => char::from(byte),
                        b'b' => '\u{8}',
                        b'f' => '\u{c}',
                        b'n' => '\n',
                        b'r' => '\r',
                        b't' => '\t',
                        b'u' => self.escaped()?,
                        _ => return None,
                    };
                    built.get_or_insert_default().push(letter);
                    start = self.at;
                }
                0..32 => return None,
                _ => self.at += 1,
            }
        }
    }

    fn unit(&mut self) -> Option<u32> {
        let digits = self.text.as_bytes().get(self.at..self.at + 4)?;
        self.at += 4;
        digits.iter().try_fold(0, |sum, &it| Some(sum * 16 + char::from(it).to_digit(16)?))
    }

    /// The letter after `\u`, of two units where it is past the first plane.
    fn escaped(&mut self) -> Option<char> {
        let unit = self.unit()?;
        if !(0xd800..0xdc00).contains(&unit) {
            return char::from_u32(unit);
        }
        let low = if self.eat(b'\\') && self.eat(b'u') { self.unit()? } else { return None };
        (0xdc00..0xe000).contains(&low).then_some(())?;
        char::from_u32(0x10000 + (unit - 0xd800) * 1024 + (low - 0xdc00))
    }
}
