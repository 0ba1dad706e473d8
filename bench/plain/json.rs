//! JSON as manifests have it: the last of two members of one name counts, and members stand in the order of their names' bytes.

use std::collections::BTreeMap;

pub type Object = BTreeMap<String, Value>;

pub enum Value {
    Null,
    Bool(bool),
    Number,
    Text(String),
    List(Vec<Value>),
    Object(Object),
}

impl Value {
    pub fn as_bool(&self) -> Option<bool> {
        if let Value::Bool(b) = self { Some(*b) } else { None }
    }

    pub fn as_str(&self) -> Option<&str> {
        if let Value::Text(text) = self { Some(text) } else { None }
    }

    pub fn as_array(&self) -> Option<&Vec<Value>> {
        if let Value::List(list) = self { Some(list) } else { None }
    }

    pub fn as_object(&self) -> Option<&Object> {
        if let Value::Object(object) = self { Some(object) } else { None }
    }
}

/// So many lists and objects may stand in each other.
const MOST_DEPTH: u32 = 127;

/// The value of a whole text, or `None` where it isn't JSON.
pub fn read(bytes: &[u8]) -> Option<Value> {
    let text = std::str::from_utf8(bytes).ok()?;
    let mut reader = Reader { text, at: 0, depth: 0 };
    let value = reader.value()?;
    reader.blanks();
    (reader.at == text.len()).then_some(value)
}

struct Reader<'t> {
    text: &'t str,
    at: usize,
    depth: u32,
}

impl Reader<'_> {
    fn next(&self) -> Option<u8> {
        self.text.as_bytes().get(self.at).copied()
    }

    fn eat(&mut self, text: &str) -> Option<()> {
        self.text.as_bytes()[self.at..].starts_with(text.as_bytes()).then(|| self.at += text.len())
    }

    fn blanks(&mut self) {
        while matches!(self.next(), Some(b' ' | b'\t' | b'\n' | b'\r')) {
            self.at += 1;
        }
    }

    fn value(&mut self) -> Option<Value> {
        self.blanks();
        match self.next()? {
            b'n' => self.eat("null").map(|()| Value::Null),
            b't' => self.eat("true").map(|()| Value::Bool(true)),
            b'f' => self.eat("false").map(|()| Value::Bool(false)),
            b'"' => self.text().map(Value::Text),
            b'[' => self.list().map(Value::List),
            b'{' => self.object().map(Value::Object),
            _ => self.number().map(|()| Value::Number),
        }
    }

    /// Reads entries up to the closing bracket.
    fn entries(&mut self, close: &str, mut entry: impl FnMut(&mut Self) -> Option<()>) -> Option<()> {
        self.at += 1;
        self.depth += 1;
        if self.depth > MOST_DEPTH {
            return None;
        }
        self.blanks();
        if self.eat(close).is_none() {
            loop {
                entry(self)?;
                self.blanks();
                if self.eat(close).is_some() {
                    break;
                }
                self.eat(",")?;
            }
        }
        self.depth -= 1;
        Some(())
    }

    fn list(&mut self) -> Option<Vec<Value>> {
        let mut list = Vec::new();
        self.entries("]", |reader| reader.value().map(|value| list.push(value)))?;
        Some(list)
    }

    fn object(&mut self) -> Option<Object> {
        let mut object = Object::new();
        self.entries("}", |reader| {
            reader.blanks();
            let name = reader.text()?;
            reader.blanks();
            reader.eat(":")?;
            let value = reader.value()?;
            object.insert(name, value);
            Some(())
        })?;
        Some(object)
    }

    fn digits(&mut self) -> Option<()> {
        let from = self.at;
        while self.next().is_some_and(|b| b.is_ascii_digit()) {
            self.at += 1;
        }
        (self.at > from).then_some(())
    }

    /// A number's value isn't asked for, but one beyond a double's range isn't JSON here.
    fn number(&mut self) -> Option<()> {
        let from = self.at;
        let _ = self.eat("-");
        if self.eat("0").is_none() {
            self.digits()?;
        }
        if self.eat(".").is_some() {
            self.digits()?;
        }
        if self.eat("e").or_else(|| self.eat("E")).is_some() {
            let _ = self.eat("+").or_else(|| self.eat("-"));
            self.digits()?;
        }
        self.text[from..self.at].parse::<f64>().ok()?.is_finite().then_some(())
    }

    fn text(&mut self) -> Option<String> {
        self.eat("\"")?;
        let mut out = String::new();
        loop {
            let from = self.at;
            while !matches!(self.next()?, b'"' | b'\\' | 0..=0x1f) {
                self.at += 1;
            }
            out.push_str(&self.text[from..self.at]);
            if self.eat("\"").is_some() {
                return Some(out);
            }
            self.eat("\\")?;
            out.push(self.escaped()?);
        }
    }

    fn escaped(&mut self) -> Option<char> {
        let byte = self.next()?;
        self.at += 1;
        Some(match byte {
            b'"' | b'\\' | b'/' => char::from(byte),
            b'b' => '\u{8}',
            b'f' => '\u{c}',
            b'n' => '\n',
            b'r' => '\r',
            b't' => '\t',
            b'u' => {
                let first = self.unit()?;
                if !(0xd800..0xdc00).contains(&first) {
                    return char::from_u32(first);
                }
                self.eat("\\u")?;
                let second = self.unit()?.checked_sub(0xdc00).filter(|low| *low < 0x400)?;
                return char::from_u32(0x10000 + ((first - 0xd800) << 10) + second);
            }
            _ => return None,
        })
    }

    /// Four hexadecimal digits.
    fn unit(&mut self) -> Option<u32> {
        let mut unit = 0;
        for _ in 0..4 {
            unit = unit * 16 + char::from(self.next()?).to_digit(16)?;
            self.at += 1;
        }
        Some(unit)
    }
}
