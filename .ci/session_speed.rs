//! The work of `restgate session orders:2` for produces, in Rust: reads heads, JSON and base64, stores the records, and writes each
//! response by one write; the 100,000th closes. `rustc -O` builds it, and `.ci/session_speed` runs both.

use std::collections::HashMap;
use std::fs::File;
use std::io::{Read, Write};
use std::mem::ManuallyDrop;
use std::os::fd::FromRawFd;

enum Json {
    Null,
    Bool,
    Number(i64),
    Text(String),
    Array(Vec<Json>),
    Object(Vec<(String, Json)>),
}

struct Reader<'a> {
    bytes: &'a [u8],
    place: usize,
}

impl Reader<'_> {
    fn blanks(&mut self) {
        while matches!(self.bytes.get(self.place), Some(b' ' | b'\t' | b'\r' | b'\n')) {
            self.place += 1;
        }
    }

    fn token(&mut self, byte: u8) -> Option<()> {
        self.blanks();
        (*self.bytes.get(self.place)? == byte).then(|| self.place += 1)
    }

    fn word(&mut self, word: &[u8], value: Json) -> Option<Json> {
        self.bytes[self.place..].starts_with(word).then(|| self.place += word.len())?;
        Some(value)
    }

    fn text(&mut self) -> Option<String> {
        self.token(b'"')?;
        let start = self.place;
        let mut escaped = false;
        loop {
            match *self.bytes.get(self.place)? {
                b'"' => break,
                b'\\' => {
                    escaped = true;
                    self.place += 2;
                }
                0..=31 => return None,
                _ => self.place += 1,
            }
        }
        let inside = std::str::from_utf8(&self.bytes[start..self.place]).ok()?;
        self.place += 1;
        if !escaped {
            return Some(inside.to_string());
        }
        let mut text = String::with_capacity(inside.len());
        let mut chars = inside.chars();
        while let Some(c) = chars.next() {
            if c != '\\' {
                text.push(c);
                continue;
            }
            text.push(match chars.next()? {
                'n' => '\n',
                't' => '\t',
                'r' => '\r',
                'b' => '\u{8}',
                'f' => '\u{c}',
                'u' => {
                    let digits: String = chars.by_ref().take(4).collect();
                    char::from_u32(u32::from_str_radix(&digits, 16).ok()?)?
                }
                other => other,
            });
        }
        Some(text)
    }

    fn value(&mut self) -> Option<Json> {
        self.blanks();
        match *self.bytes.get(self.place)? {
            b'"' => self.text().map(Json::Text),
            b'n' => self.word(b"null", Json::Null),
            b't' => self.word(b"true", Json::Bool),
            b'f' => self.word(b"false", Json::Bool),
            b'[' => {
                self.place += 1;
                let mut items = Vec::new();
                if self.token(b']').is_some() {
                    return Some(Json::Array(items));
                }
                loop {
                    items.push(self.value()?);
                    if self.token(b',').is_none() {
                        self.token(b']')?;
                        return Some(Json::Array(items));
                    }
                }
            }
            b'{' => {
                self.place += 1;
                let mut members = Vec::new();
                if self.token(b'}').is_some() {
                    return Some(Json::Object(members));
                }
                loop {
                    let name = self.text()?;
                    self.token(b':')?;
                    members.push((name, self.value()?));
                    if self.token(b',').is_none() {
                        self.token(b'}')?;
                        return Some(Json::Object(members));
                    }
                }
            }
            _ => {
                let start = self.place;
                while matches!(self.bytes.get(self.place), Some(b'-' | b'+' | b'.' | b'0'..=b'9' | b'e' | b'E')) {
                    self.place += 1;
                }
                std::str::from_utf8(&self.bytes[start..self.place]).ok()?.parse().ok().map(Json::Number)
            }
        }
    }
}

fn read(bytes: &[u8]) -> Option<Json> {
    let mut reader = Reader { bytes, place: 0 };
    let value = reader.value()?;
    reader.blanks();
    (reader.place == bytes.len()).then_some(value)
}

fn member<'a>(members: &'a [(String, Json)], name: &str) -> Option<&'a Json> {
    members.iter().rev().find(|(it, _)| it == name).map(|(_, value)| value)
}

const fn digits() -> [u8; 256] {
    let alphabet = b"ABCDEFGHIJKLMNOPQRSTUVWXYZabcdefghijklmnopqrstuvwxyz0123456789+/";
    let mut table = [255; 256];
    let mut i = 0;
    while i < 64 {
        table[alphabet[i] as usize] = i as u8;
        i += 1;
    }
    table
}

static DIGITS: [u8; 256] = digits();

fn decode(text: &[u8]) -> Option<Vec<u8>> {
    if text.len() % 4 != 0 {
        return None;
    }
    let mut out = Vec::with_capacity(text.len() / 4 * 3);
    for four in text.chunks_exact(4) {
        let pads = four.iter().rev().take_while(|b| **b == b'=').count();
        let mut bits = 0u32;
        for b in &four[..4 - pads] {
            let digit = DIGITS[*b as usize];
            if digit == 255 {
                return None;
            }
            bits = bits << 6 | u32::from(digit);
        }
        bits <<= 6 * pads;
        out.extend_from_slice(&bits.to_be_bytes()[1..4 - pads]);
    }
    Some(out)
}

fn bytes_of(value: Option<&Json>) -> Option<Option<Vec<u8>>> {
    match value {
        None | Some(Json::Null) => Some(None),
        Some(Json::Text(text)) => decode(text.as_bytes()).map(Some),
        Some(_) => None,
    }
}

type Stored = (Option<Vec<u8>>, Option<Vec<u8>>);

fn produce(topics: &mut HashMap<String, Vec<Vec<Stored>>>, topic: &str, body: &[u8]) -> Option<String> {
    let partitions = topics.get_mut(topic)?;
    let Json::Object(members) = read(body)? else { return None };
    let Some(Json::Array(records)) = member(&members, "records") else { return None };
    let mut text = String::from("{\"offsets\":[");
    for (index, record) in records.iter().enumerate() {
        let Json::Object(members) = record else { return None };
        let Some(Json::Number(partition)) = member(members, "partition") else { return None };
        let rows = partitions.get_mut(usize::try_from(*partition).ok()?)?;
        if index > 0 {
            text.push(',');
        }
        let offset = rows.len();
        text += &format!("{{\"partition\":{partition},\"offset\":{offset},\"error_code\":null,\"error\":null}}");
        rows.push((bytes_of(member(members, "key"))?, bytes_of(member(members, "value"))?));
    }
    text += "],\"key_schema_id\":null,\"value_schema_id\":null}";
    Some(text)
}

/// The length of a head and of its body, with the topic, if it is a produce.
fn head_of(held: &[u8]) -> Option<(usize, usize, String)> {
    let end = held.windows(4).position(|it| it == b"\r\n\r\n")? + 4;
    let head = std::str::from_utf8(&held[..end]).ok()?;
    let mut lines = head.split("\r\n");
    let mut words = lines.next()?.split(' ');
    if (words.next()?, words.clone().nth(1)?) != ("POST", "HTTP/1.1") {
        return None;
    }
    let topic = words.next()?.strip_prefix("/topics/")?.to_string();
    let (mut length, mut is_binary) = (0, false);
    for line in lines.filter(|line| !line.is_empty()) {
        let (name, value) = line.split_once(':')?;
        let value = value.trim_matches([' ', '\t']);
        if name.eq_ignore_ascii_case("content-length") {
            length = value.parse().ok()?;
        } else if name.eq_ignore_ascii_case("content-type") {
            is_binary = value.eq_ignore_ascii_case("application/vnd.kafka.binary.v2+json");
        }
    }
    is_binary.then_some((end, length, topic))
}

fn main() {
    let (mut source, mut sink) = unsafe { (ManuallyDrop::new(File::from_raw_fd(0)), ManuallyDrop::new(File::from_raw_fd(1))) };
    let mut topics = HashMap::from([(String::from("orders"), vec![Vec::new(), Vec::new()])]);
    let mut held: Vec<u8> = Vec::new();
    let mut piece = vec![0; 65_536];
    let mut start = 0;
    let mut requests = 0;
    loop {
        let whole = head_of(&held[start..]).filter(|(end, length, _)| start + end + length <= held.len());
        let Some((end, length, topic)) = whole else {
            held.drain(..start);
            start = 0;
            let count = source.read(&mut piece).expect("a read");
            if count == 0 {
                break;
            }
            held.extend_from_slice(&piece[..count]);
            continue;
        };
        let body = &held[start + end..start + end + length];
        let text = produce(&mut topics, &topic, body).expect("a produce");
        let mut response = Vec::with_capacity(text.len() + 96);
        requests += 1;
        let close = if requests == 100_000 { "Connection: close\r\n" } else { "" };
        write!(response, "HTTP/1.1 200 OK\r\nContent-Type: application/vnd.kafka.v2+json\r\nContent-Length: {}\r\n{close}\r\n", text.len()).expect("memory");
        response.extend_from_slice(text.as_bytes());
        sink.write_all(&response).expect("a write");
        start += end + length;
    }
}
