//! JSON, read.

/// The deepest that lists and objects may stand in one another.
const DEEPEST: usize = 32;

/// A JSON value as it was read.
#[derive(Clone, Debug, PartialEq)]
pub enum Value {
    Null,
    Bool(bool),
    Number(f64),
    Text(String),
    List(Vec<Value>),
    Object(Vec<(String, Value)>),
}

impl Value {
    /// A field of an object.
    pub fn field(&self, name: &str) -> Option<&Value> {
        match self {
            Value::Object(fields) => {
                fields.iter().find(|(known, _)| known == name).map(|(_, value)| value)
            }
            _ => None,
        }
    }

    pub fn text(&self) -> Option<&str> {
        match self {
            Value::Text(text) => Some(text),
            _ => None,
        }
    }

    pub fn list(&self) -> Option<&[Value]> {
        match self {
            Value::List(list) => Some(list),
            _ => None,
        }
    }

    /// A whole number that is not negative.
    pub fn count(&self) -> Option<usize> {
        match self {
            Value::Number(number) if *number >= 0.0 && number.fract() == 0.0 => {
                (*number <= f64::from(u32::MAX)).then_some(*number as usize)
            }
            _ => None,
        }
    }
}

/// Reads one value and nothing after it; none where the text has another form.
pub fn read(text: &str) -> Option<Value> {
    let mut reader = Reader { text, place: 0, depth: 0 };
    let value = reader.value()?;
    reader.blanks();
    (reader.place == text.len()).then_some(value)
}

struct Reader<'a> {
    text: &'a str,
    place: usize,
    depth: usize,
}

impl Reader<'_> {
    fn peek(&self) -> Option<u8> {
        self.text.as_bytes().get(self.place).copied()
    }

    fn blanks(&mut self) {
        while matches!(self.peek(), Some(b' ' | b'\t' | b'\n' | b'\r')) {
            self.place += 1;
        }
    }

    /// Takes a sign, with the blanks before it.
    fn take(&mut self, sign: u8) -> bool {
        self.blanks();
        let there = self.peek() == Some(sign);
        self.place += usize::from(there);
        there
    }

    fn value(&mut self) -> Option<Value> {
        self.blanks();
        match self.peek()? {
            b'{' | b'[' => {
                self.depth += 1;
                if self.depth > DEEPEST {
                    return None;
                }
                let value = if self.take(b'{') { self.object() } else { self.list() };
                self.depth -= 1;
                value
            }
            b'"' => self.string().map(Value::Text),
            b't' => self.word("true", Value::Bool(true)),
            b'f' => self.word("false", Value::Bool(false)),
            b'n' => self.word("null", Value::Null),
            _ => self.number(),
        }
    }

    fn word(&mut self, word: &str, value: Value) -> Option<Value> {
        let there = self.text[self.place..].starts_with(word);
        self.place += word.len();
        there.then_some(value)
    }

    fn list(&mut self) -> Option<Value> {
        self.place += 1;
        let mut values = Vec::new();
        if self.take(b']') {
            return Some(Value::List(values));
        }
        loop {
            values.push(self.value()?);
            if self.take(b']') {
                return Some(Value::List(values));
            }
            if !self.take(b',') {
                return None;
            }
        }
    }

    /// After the brace. A field that is there twice has no meaning.
    fn object(&mut self) -> Option<Value> {
        let mut fields: Vec<(String, Value)> = Vec::new();
        if self.take(b'}') {
            return Some(Value::Object(fields));
        }
        loop {
            self.blanks();
            let name = self.string()?;
            if !self.take(b':') || fields.iter().any(|(known, _)| *known == name) {
                return None;
            }
            fields.push((name, self.value()?));
            if self.take(b'}') {
                return Some(Value::Object(fields));
            }
            if !self.take(b',') {
                return None;
            }
        }
    }

    fn string(&mut self) -> Option<String> {
        if self.peek()? != b'"' {
            return None;
        }
        self.place += 1;
        let mut text = String::new();
        loop {
            let letter = self.text[self.place..].chars().next()?;
            self.place += letter.len_utf8();
            match letter {
                '"' => return Some(text),
                '\\' => text.push(self.escaped()?),
                letter if letter < ' ' => return None,
                letter => text.push(letter),
            }
        }
    }

    /// The letter that a backslash begins.
    fn escaped(&mut self) -> Option<char> {
        let sign = self.peek()?;
        self.place += 1;
        Some(match sign {
            b'"' | b'\\' | b'/' => sign as char,
            b'b' => '\u{8}',
            b'f' => '\u{c}',
            b'n' => '\n',
            b'r' => '\r',
            b't' => '\t',
            b'u' => {
                let first = self.unit()?;
                if !(0xd800..0xdc00).contains(&first) {
                    return char::from_u32(first);
                }
                // A letter beyond the first 65,536 is written as two.
                if !(self.text[self.place..].starts_with("\\u")) {
                    return None;
                }
                self.place += 2;
                let second = self.unit()?.checked_sub(0xdc00).filter(|unit| *unit < 0x400)?;
                return char::from_u32(0x10000 + ((first - 0xd800) << 10) + second);
            }
            _ => return None,
        })
    }

    /// Four hexadecimal digits.
    fn unit(&mut self) -> Option<u32> {
        let digits = self.text.get(self.place..self.place + 4)?;
        self.place += 4;
        let plain = digits.bytes().all(|byte| byte.is_ascii_hexdigit());
        plain.then(|| u32::from_str_radix(digits, 16).ok()).flatten()
    }

    fn number(&mut self) -> Option<Value> {
        let start = self.place;
        self.place += usize::from(self.peek() == Some(b'-'));
        let whole = self.digits()?;
        if whole > 1 && self.text.as_bytes()[self.place - whole] == b'0' {
            return None;
        }
        if self.peek() == Some(b'.') {
            self.place += 1;
            self.digits()?;
        }
        if matches!(self.peek(), Some(b'e' | b'E')) {
            self.place += 1;
            self.place += usize::from(matches!(self.peek(), Some(b'+' | b'-')));
            self.digits()?;
        }
        self.text[start..self.place].parse().ok().map(Value::Number)
    }

    /// How many digits come next; at least one.
    fn digits(&mut self) -> Option<usize> {
        let count = self.text.as_bytes()[self.place..]
            .iter()
            .take_while(|byte| byte.is_ascii_digit())
            .count();
        self.place += count;
        (count > 0).then_some(count)
    }
}

#[cfg(test)]
mod tests;
