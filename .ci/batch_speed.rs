//! The work of `crates/batch_speed` in Rust: the same three counts as words, the same line. `rustc -O` builds it, and `.ci/speeds` runs both.
//! One buffer for a batch, the lengths computed first; CRC-32C by eight tables; owned keys and values, and the same tests of what is read.

use std::env;
use std::hint::black_box;

struct NewRecord {
    key: Option<Vec<u8>>,
    value: Option<Vec<u8>>,
}

struct Stored {
    #[allow(dead_code)]
    offset: i64,
    #[allow(dead_code)]
    key: Option<Vec<u8>>,
    #[allow(dead_code)]
    value: Option<Vec<u8>>,
}

const fn tables() -> [[u32; 256]; 8] {
    let mut tables = [[0u32; 256]; 8];
    let mut byte = 0;
    while byte < 256 {
        let mut crc = byte as u32;
        let mut bit = 0;
        while bit < 8 {
            crc = if crc & 1 == 1 { (crc >> 1) ^ 0x82f6_3b78 } else { crc >> 1 };
            bit += 1;
        }
        tables[0][byte] = crc;
        byte += 1;
    }
    let mut behind = 1;
    while behind < 8 {
        let mut byte = 0;
        while byte < 256 {
            let before = tables[behind - 1][byte];
            tables[behind][byte] = (before >> 8) ^ tables[0][(before & 255) as usize];
            byte += 1;
        }
        behind += 1;
    }
    tables
}

static TABLES: [[u32; 256]; 8] = tables();

fn crc32c(bytes: &[u8]) -> u32 {
    let mut crc = u32::MAX;
    let mut chunks = bytes.chunks_exact(8);
    for chunk in &mut chunks {
        let low = crc ^ u32::from_le_bytes([chunk[0], chunk[1], chunk[2], chunk[3]]);
        crc = TABLES[7][(low & 255) as usize]
            ^ TABLES[6][(low >> 8 & 255) as usize]
            ^ TABLES[5][(low >> 16 & 255) as usize]
            ^ TABLES[4][(low >> 24) as usize]
            ^ TABLES[3][chunk[4] as usize]
            ^ TABLES[2][chunk[5] as usize]
            ^ TABLES[1][chunk[6] as usize]
            ^ TABLES[0][chunk[7] as usize];
    }
    for byte in chunks.remainder() {
        crc = (crc >> 8) ^ TABLES[0][((crc as u8) ^ byte) as usize];
    }
    !crc
}

fn zigzag(value: i32) -> u32 {
    ((value << 1) ^ (value >> 31)) as u32
}

fn varint_len(value: i32) -> usize {
    match zigzag(value) {
        0..=0x7f => 1,
        0x80..=0x3fff => 2,
        0x4000..=0x1f_ffff => 3,
        0x20_0000..=0xfff_ffff => 4,
        _ => 5,
    }
}

fn put_varint(out: &mut Vec<u8>, value: i32) {
    let mut number = zigzag(value);
    while number >= 128 {
        out.push(number as u8 | 128);
        number >>= 7;
    }
    out.push(number as u8);
}

fn nullable_len(piece: &Option<Vec<u8>>) -> usize {
    match piece {
        Some(piece) => varint_len(piece.len() as i32) + piece.len(),
        None => 1,
    }
}

fn put_nullable(out: &mut Vec<u8>, piece: &Option<Vec<u8>>) {
    match piece {
        Some(piece) => {
            put_varint(out, piece.len() as i32);
            out.extend_from_slice(piece);
        }
        None => put_varint(out, -1),
    }
}

fn write_batch(rows: &[NewRecord], base_ts: i64) -> Vec<u8> {
    let room: usize = rows.iter().map(|row| 13 + nullable_len(&row.key) + nullable_len(&row.value)).sum();
    let mut out = Vec::with_capacity(61 + room);
    out.extend_from_slice(&[0; 21]);
    out.extend_from_slice(&0i16.to_be_bytes());
    out.extend_from_slice(&(rows.len() as i32 - 1).to_be_bytes());
    out.extend_from_slice(&base_ts.to_be_bytes());
    out.extend_from_slice(&base_ts.to_be_bytes());
    out.extend_from_slice(&(-1i64).to_be_bytes());
    out.extend_from_slice(&(-1i16).to_be_bytes());
    out.extend_from_slice(&(-1i32).to_be_bytes());
    out.extend_from_slice(&(rows.len() as i32).to_be_bytes());
    for (delta, row) in rows.iter().enumerate() {
        let delta = delta as i32;
        let size = 3 + varint_len(delta) + nullable_len(&row.key) + nullable_len(&row.value);
        put_varint(&mut out, size as i32);
        out.extend_from_slice(&[0, 0]);
        put_varint(&mut out, delta);
        put_nullable(&mut out, &row.key);
        put_nullable(&mut out, &row.value);
        out.push(0);
    }
    let size = out.len() as i32 - 12;
    let crc = crc32c(&out[21..]);
    out[8..12].copy_from_slice(&size.to_be_bytes());
    out[12..16].copy_from_slice(&(-1i32).to_be_bytes());
    out[16] = 2;
    out[17..21].copy_from_slice(&crc.to_be_bytes());
    out
}

struct Cursor<'a> {
    rest: &'a [u8],
}

impl<'a> Cursor<'a> {
    fn piece(&mut self, count: usize) -> Option<&'a [u8]> {
        let (piece, rest) = self.rest.split_at_checked(count)?;
        self.rest = rest;
        Some(piece)
    }

    fn int8(&mut self) -> Option<i8> {
        Some(self.piece(1)?[0] as i8)
    }

    fn int16(&mut self) -> Option<i16> {
        Some(i16::from_be_bytes(self.piece(2)?.try_into().ok()?))
    }

    fn int32(&mut self) -> Option<i32> {
        Some(i32::from_be_bytes(self.piece(4)?.try_into().ok()?))
    }

    fn int64(&mut self) -> Option<i64> {
        Some(i64::from_be_bytes(self.piece(8)?.try_into().ok()?))
    }

    fn number(&mut self, limit: usize) -> Option<u64> {
        let mut number = 0u128;
        for index in 0..limit {
            let (&byte, rest) = self.rest.split_first()?;
            self.rest = rest;
            number |= u128::from(byte & 127) << (7 * index);
            if byte < 128 {
                return u64::try_from(number).ok();
            }
        }
        None
    }

    fn varint(&mut self) -> Option<i32> {
        let mut number = 0u64;
        for index in 0..5 {
            let (&byte, rest) = self.rest.split_first()?;
            self.rest = rest;
            number |= u64::from(byte & 127) << (7 * index);
            if byte < 128 {
                let number = u32::try_from(number).ok()?;
                return Some((number >> 1) as i32 ^ -((number & 1) as i32));
            }
        }
        None
    }

    fn varlong(&mut self) -> Option<i64> {
        let number = self.number(10)?;
        Some((number >> 1) as i64 ^ -((number & 1) as i64))
    }

    fn nullable(&mut self) -> Option<Option<&'a [u8]>> {
        match self.varint()? {
            -1 => Some(None),
            size => Some(Some(self.piece(usize::try_from(size).ok()?)?)),
        }
    }
}

fn read_record(cursor: &mut Cursor, base: i64, low: i64) -> Option<Stored> {
    let size = usize::try_from(cursor.varint()?).ok()?;
    let mut part = Cursor { rest: cursor.piece(size)? };
    part.int8()?;
    part.varlong()?;
    let offset = base.checked_add(i64::from(part.varint()?))?;
    if offset < low || offset == i64::MAX {
        return None;
    }
    let key = part.nullable()?;
    let value = part.nullable()?;
    let headers = u32::try_from(part.varint()?).ok()?;
    for _ in 0..headers {
        let size = usize::try_from(part.varint()?).ok()?;
        std::str::from_utf8(part.piece(size)?).ok()?;
        part.nullable()?;
    }
    if !part.rest.is_empty() {
        return None;
    }
    Some(Stored { offset, key: key.map(<[u8]>::to_vec), value: value.map(<[u8]>::to_vec) })
}

fn read_batch(batch: &[u8], from: i64, rows: &mut Vec<Stored>) -> Option<()> {
    let mut cursor = Cursor { rest: batch };
    let base = cursor.int64()?;
    cursor.int32()?;
    cursor.int32()?;
    if cursor.int8()? != 2 {
        return None;
    }
    let crc = cursor.int32()? as u32;
    if crc32c(cursor.rest) != crc {
        return None;
    }
    let attributes = cursor.int16()?;
    if attributes % 8 != 0 || attributes / 16 % 4 != 0 {
        return None;
    }
    cursor.piece(34)?;
    let count = u32::try_from(cursor.int32()?).ok()?;
    let mut low = 0;
    for _ in 0..count {
        let row = read_record(&mut cursor, base, low)?;
        low = row.offset + 1;
        if row.offset >= from {
            rows.push(row);
        }
    }
    cursor.rest.is_empty().then_some(())
}

fn read_batches(bytes: &[u8], from: i64) -> Option<Vec<Stored>> {
    let mut rows = Vec::new();
    let mut rest = bytes;
    while rest.len() >= 12 {
        let size = i32::from_be_bytes(rest[8..12].try_into().ok()?);
        if size < 49 {
            return None;
        }
        let Some((batch, after)) = rest.split_at_checked(size as usize + 12) else { break };
        read_batch(batch, from, &mut rows)?;
        rest = after;
    }
    Some(rows)
}

fn main() {
    let counts: Vec<u32> = env::args().skip(1).map(|word| word.parse().unwrap_or(0)).collect();
    let count = |index: usize| counts.get(index).copied().unwrap_or(0);
    let rows: Vec<NewRecord> =
        (0..1000).map(|_| NewRecord { key: Some(vec![b'k'; 4]), value: Some(vec![b'v'; 100]) }).collect();
    let written: u64 = (0..count(0)).map(|_| write_batch(black_box(&rows), 0).len() as u64).sum();
    let batch = write_batch(&rows, 0);
    let read: u64 = (0..count(1)).map(|_| read_batches(black_box(&batch), 0).map_or(0, |rows| rows.len() as u64)).sum();
    let varints = [2u8; 1000];
    let mut sum = 0u64;
    for _ in 0..count(2) {
        let mut cursor = Cursor { rest: black_box(&varints) };
        for _ in 0..1000 {
            sum = sum.wrapping_add(cursor.varint().unwrap_or(0) as u64);
        }
    }
    println!("{written} {read} {sum}");
}
