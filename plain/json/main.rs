//! The same work in plain Rust, with nothing proved: what `bench` is compared with.
use std::collections::BTreeMap;
use std::fmt::Write;
use std::time::Instant;

#[allow(dead_code)]
enum Out {
    Null,
    Bool(bool),
    Int(i64),
    Text(String),
    List(Vec<Out>),
    Map(BTreeMap<String, Out>),
    Node { id: u64, labels: Vec<String>, properties: BTreeMap<String, Out> },
    Rel { id: u64, kind: String, start: u64, end: u64, properties: BTreeMap<String, Out> },
    Path(Vec<Out>),
}

fn write_text(text: &str, to: &mut String) {
    to.push('"');
    let mut from = 0;
    for (at, byte) in text.bytes().enumerate() {
        let letter = match byte {
            b'"' | b'\\' => byte,
            8 => b'b',
            9 => b't',
            10 => b'n',
            12 => b'f',
            13 => b'r',
            0..32 => b'u',
            _ => continue,
        };
        to.push_str(&text[from..at]);
        to.push('\\');
        to.push(letter as char);
        if letter == b'u' {
            write!(to, "{byte:04x}").unwrap();
        }
        from = at + 1;
    }
    to.push_str(&text[from..]);
    to.push('"');
}

fn write_items(items: &[Out], to: &mut String) {
    to.push('[');
    for (at, item) in items.iter().enumerate() {
        if at > 0 {
            to.push(',');
        }
        write_value(item, to);
    }
    to.push(']');
}

fn write_value(value: &Out, to: &mut String) {
    match value {
        Out::Null => to.push_str("null"),
        Out::Bool(b) => to.push_str(if *b { "true" } else { "false" }),
        Out::Int(i) => write!(to, "{i}").unwrap(),
        Out::Text(text) => write_text(text, to),
        Out::List(items) => write_items(items, to),
        _ => unreachable!(),
    }
}

fn write_reply(columns: &[String], rows: &[Vec<Out>], steps: u64) -> String {
    let mut to = String::from("{\"code\":0,\"columns\":[");
    for (at, column) in columns.iter().enumerate() {
        if at > 0 {
            to.push(',');
        }
        write_text(column, &mut to);
    }
    to.push_str("],\"rows\":[");
    for (at, row) in rows.iter().enumerate() {
        if at > 0 {
            to.push(',');
        }
        write_items(row, &mut to);
    }
    write!(to, "],\"steps\":{steps}}}").unwrap();
    to
}

fn skip_space(rest: &mut &str) {
    *rest = rest.trim_start_matches([' ', '\t', '\n', '\r']);
}

fn read_text(rest: &mut &str) -> Option<String> {
    skip_space(rest);
    *rest = rest.strip_prefix('"')?;
    let mut text = String::new();
    loop {
        let end = rest.bytes().position(|byte| byte == b'"' || byte == b'\\' || byte < 32)?;
        text.push_str(&rest[..end]);
        let stop = rest.as_bytes()[end];
        *rest = &rest[end + 1..];
        match stop {
            b'"' => return Some(text),
            b'\\' => {
                let letter = rest.chars().next()?;
                *rest = &rest[letter.len_utf8()..];
                text.push(match letter {
                    '"' | '\\' | '/' => letter,
                    'b' => '\u{8}',
                    'f' => '\u{c}',
                    'n' => '\n',
                    'r' => '\r',
                    't' => '\t',
                    _ => return None,
                });
            }
            _ => return None,
        }
    }
}

fn read_mark(mark: char, rest: &mut &str) -> Option<()> {
    skip_space(rest);
    *rest = rest.strip_prefix(mark)?;
    Some(())
}

fn read_request(body: &[u8]) -> Option<(String, String)> {
    let mut rest = std::str::from_utf8(body).ok()?;
    let mut members = BTreeMap::new();
    read_mark('{', &mut rest)?;
    loop {
        let key = read_text(&mut rest)?;
        read_mark(':', &mut rest)?;
        members.insert(key, read_text(&mut rest)?);
        if read_mark(',', &mut rest).is_none() {
            break;
        }
    }
    read_mark('}', &mut rest)?;
    skip_space(&mut rest);
    if !rest.is_empty() || members.len() != 3 || members.get("op")? != "query" {
        return None;
    }
    Some((members.remove("token")?, members.remove("text")?))
}

const TEXT: &str = "a name of some forty letters, plain ones";

fn row(kind: &str, i: i64) -> Vec<Out> {
    let first = if kind == "texts" { Out::Text(TEXT.to_string()) } else { Out::Int(1_000_000 + i) };
    let second = if kind == "integers" { Out::Int(-7919 * i) } else { Out::Text(TEXT.to_string()) };
    vec![first, second]
}

fn main() {
    let args: Vec<String> = std::env::args().collect();
    let (kind, size, times) = (args[1].as_str(), args[2].parse().unwrap(), args[3].parse().unwrap());
    let line = "MATCH (n:Person {name: \\\"x\\\"}) WHERE n.age > 1234567 RETURN n.name\\n";
    let body = format!("{{\"op\":\"query\",\"token\":\"a1\",\"text\":\"{}\"}}", line.repeat(size));
    let columns = ["n.number".to_string(), "n.name".to_string()];
    let rows: Vec<Vec<Out>> = match kind {
        "request" => Vec::new(),
        _ => (0..size as i64).map(|i| row(kind, i)).collect(),
    };
    for _ in 0..times {
        let start = Instant::now();
        let (len, time) = if kind == "request" {
            let request = read_request(body.as_bytes()).unwrap();
            drop(request);
            (body.len(), start.elapsed())
        } else {
            let text = write_reply(&columns, &rows, size as u64);
            let time = start.elapsed();
            (text.len(), time)
        };
        println!("took {} {kind}\nfound {len} {kind}", time.as_micros());
    }
}
