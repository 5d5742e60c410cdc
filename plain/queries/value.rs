//! Values, and their JSON.
use std::io::Write;

/// In the order in which values sort.
#[derive(Clone, PartialEq, Eq, Hash, PartialOrd, Ord)]
pub enum Value {
    Map(Vec<(String, Value)>),
    Node(u64),
    List(Vec<Value>),
    Text(String),
    Bool(bool),
    Int(i64),
    Null,
}

pub fn write_items(items: &[Value], to: &mut Vec<u8>) {
    to.push(b'[');
    for (at, item) in items.iter().enumerate() {
        if at > 0 {
            to.push(b',');
        }
        write_value(item, to);
    }
    to.push(b']');
}

fn write_value(value: &Value, to: &mut Vec<u8>) {
    match value {
        Value::Null => to.extend_from_slice(b"null"),
        Value::Bool(it) => to.extend_from_slice(if *it { b"true" } else { b"false" }),
        Value::Int(it) => write!(to, "{it}").unwrap(),
        Value::Text(text) => {
            to.push(b'"');
            to.extend_from_slice(text.as_bytes());
            to.push(b'"');
        }
        Value::List(items) => write_items(items, to),
        Value::Map(_) | Value::Node(_) => unreachable!(),
    }
}

/// Reads the JSON of a request, whose texts hold no escapes.
pub struct Reader<'a> {
    bytes: &'a [u8],
    at: usize,
}

impl<'a> Reader<'a> {
    pub fn new(bytes: &'a [u8]) -> Reader<'a> {
        Reader { bytes, at: 0 }
    }

    fn eat(&mut self, byte: u8) -> Option<()> {
        while self.bytes.get(self.at) == Some(&b' ') {
            self.at += 1;
        }
        (self.bytes.get(self.at) == Some(&byte)).then(|| self.at += 1)
    }

    fn text(&mut self) -> Option<String> {
        self.eat(b'"')?;
        let rest = &self.bytes[self.at..];
        let end = rest.iter().position(|byte| matches!(byte, b'"' | b'\\'))?;
        self.at += end;
        self.eat(b'"')?;
        String::from_utf8(rest[..end].to_vec()).ok()
    }

    pub fn object(&mut self) -> Option<Vec<(String, Value)>> {
        let mut members = Vec::new();
        self.eat(b'{')?;
        while self.eat(b'}').is_none() {
            let key = self.text()?;
            self.eat(b':')?;
            members.push((key, self.value()?));
            let _ = self.eat(b',');
        }
        Some(members)
    }

    fn value(&mut self) -> Option<Value> {
        while self.bytes.get(self.at) == Some(&b' ') {
            self.at += 1;
        }
        match self.bytes.get(self.at)? {
            b'"' => Some(Value::Text(self.text()?)),
            b'{' => Some(Value::Map(self.object()?)),
            b'[' => {
                self.at += 1;
                let mut items = Vec::new();
                while self.eat(b']').is_none() {
                    items.push(self.value()?);
                    let _ = self.eat(b',');
                }
                Some(Value::List(items))
            }
            _ => {
                let rest = &self.bytes[self.at..];
                let end = rest.iter().position(|byte| !matches!(byte, b'-' | b'0'..=b'9'))?;
                self.at += end;
                Some(Value::Int(std::str::from_utf8(&rest[..end]).ok()?.parse().ok()?))
            }
        }
    }
}
