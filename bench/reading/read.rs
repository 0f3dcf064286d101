//! The same in plain Rust: `read FILE` reads the file five times as records; `read make small FILE` makes 1,000,000 records of a
//! few fields, `read make large FILE` makes 4,000 records of 60 fields of up to 900 bytes.
use std::env;
use std::fs::File;
use std::io::{self, BufWriter, Read, Write};
use std::time::Instant;

const BUFFER_LEN: usize = 131_072;
const RECORD_TERMINATOR: u8 = 0x1D;
const FIELD_TERMINATOR: u8 = 0x1E;
const DELIMITER: u8 = 0x1F;

struct Subfield {
    code: u8,
    text: String,
}

enum Field {
    Control { tag: [u8; 3], text: String },
    Variable { tag: [u8; 3], indicators: [u8; 2], subfields: Vec<Subfield> },
}

struct Record {
    leader: [u8; 7],
    fields: Vec<Field>,
}

fn number(digits: &[u8]) -> Option<usize> {
    let mut value = 0;
    for digit in digits {
        if !digit.is_ascii_digit() {
            return None;
        }
        value = value * 10 + (digit - b'0') as usize;
    }
    Some(value)
}

fn is_printable(byte: u8) -> bool {
    (0x20..=0x7E).contains(&byte)
}

fn subfields(text: &str) -> Option<Vec<Subfield>> {
    let mut all = Vec::new();
    let mut parts = text.split(DELIMITER as char);
    if parts.next() != Some("") {
        return None;
    }
    for part in parts {
        let code = *part.as_bytes().first()?;
        if !(0x21..=0x7E).contains(&code) {
            return None;
        }
        all.push(Subfield { code, text: part[1..].to_owned() });
    }
    Some(all)
}

fn field(tag: [u8; 3], area: &[u8]) -> Option<Field> {
    if area.iter().any(|byte| matches!(*byte, RECORD_TERMINATOR | FIELD_TERMINATOR)) {
        return None;
    }
    if tag[0] == b'0' && tag[1] == b'0' {
        if area.contains(&DELIMITER) {
            return None;
        }
        return Some(Field::Control { tag, text: std::str::from_utf8(area).ok()?.to_owned() });
    }
    let indicators = [*area.first()?, *area.get(1)?];
    if !indicators.iter().all(|byte| is_printable(*byte)) {
        return None;
    }
    let text = std::str::from_utf8(&area[2..]).ok()?;
    Some(Field::Variable { tag, indicators, subfields: subfields(text)? })
}

fn record(bytes: &[u8]) -> Option<Record> {
    if bytes.len() < 26 || number(&bytes[..5])? != bytes.len() || bytes[9] != b'a' {
        return None;
    }
    let leader = [bytes[5], bytes[6], bytes[7], bytes[8], bytes[17], bytes[18], bytes[19]];
    if !leader.iter().all(|byte| is_printable(*byte)) {
        return None;
    }
    let base = number(&bytes[12..17])?;
    if base < 25 || base > bytes.len() || (base - 25) % 12 != 0 || bytes[base - 1] != FIELD_TERMINATOR {
        return None;
    }
    let data = &bytes[base..bytes.len() - 1];
    let mut fields = Vec::with_capacity((base - 25) / 12);
    for entry in bytes[24..base - 1].chunks_exact(12) {
        let tag = [entry[0], entry[1], entry[2]];
        if !tag.iter().all(u8::is_ascii_alphanumeric) {
            return None;
        }
        let (len, start) = (number(&entry[3..7])?, number(&entry[7..12])?);
        let area = data.get(start..start + len)?;
        if area.last() != Some(&FIELD_TERMINATOR) {
            return None;
        }
        fields.push(field(tag, &area[..len - 1])?);
    }
    Some(Record { leader, fields })
}

fn text_bytes(record: &Record) -> u64 {
    let mut total = record.leader.len() as u64;
    for field in &record.fields {
        total += match field {
            Field::Control { tag, text } => (tag.len() + text.len()) as u64,
            Field::Variable { tag, indicators, subfields } => {
                let text: usize = subfields.iter().map(|subfield| (subfield.code != 0) as usize + subfield.text.len()).sum();
                (tag.len() + indicators.len() + text) as u64
            }
        };
    }
    total
}

/// The C library's search, which is what a Rust program has without a crate.
fn memchr(byte: u8, bytes: &[u8]) -> Option<usize> {
    unsafe extern "C" {
        fn memchr(s: *const u8, c: i32, n: usize) -> *const u8;
    }
    let found = unsafe { memchr(bytes.as_ptr(), byte as i32, bytes.len()) };
    if found.is_null() { None } else { Some(found as usize - bytes.as_ptr() as usize) }
}

fn read(mut file: File) -> io::Result<(u64, u64)> {
    let mut buffer = vec![0; BUFFER_LEN];
    let (mut from, mut to) = (0, 0);
    let (mut records, mut total) = (0, 0);
    loop {
        if let Some(at) = memchr(RECORD_TERMINATOR, &buffer[from..to]) {
            if let Some(record) = record(&buffer[from..from + at + 1]) {
                records += 1;
                total += std::hint::black_box(text_bytes(&record));
            }
            from += at + 1;
            continue;
        }
        buffer.copy_within(from..to, 0);
        to -= from;
        from = 0;
        let count = file.read(&mut buffer[to..])?;
        if count == 0 {
            return Ok((records, total));
        }
        to += count;
    }
}

fn put(out: &mut impl Write, status: &str, fields: &[(&str, String)]) -> io::Result<()> {
    let mut directory = String::new();
    let mut data = String::new();
    for (tag, text) in fields {
        directory += &format!("{tag}{:04}{:05}", text.len() + 1, data.len());
        data += text;
        data.push(FIELD_TERMINATOR as char);
    }
    let base = 25 + directory.len();
    write!(out, "{:05}{status}a22{base:05} a 4500{directory}\x1e{data}\x1d", base + data.len() + 1)
}

fn small(out: &mut impl Write) -> io::Result<()> {
    let mut state = 7u64;
    for n in 0..1_000_000 {
        state = state.wrapping_mul(6364136223846793005).wrapping_add(1442695040888963407);
        let name = state >> 50;
        put(out, "nam ", &[
            ("001", format!("b{n}")),
            ("100", format!("1 \x1faName{name}, Given{},\x1fd{}-\x1feauthor", name % 97, 1800 + name % 200)),
            ("245", format!("10\x1faTitle {n} of the caf\u{e9} /\x1fcby Given{} Name{name}.", name % 97)),
            ("260", format!("  \x1faBerlin :\x1fbVerlag {},\x1fc{}", name % 31, 1900 + name % 100)),
            ("650", format!(" 0\x1faSubject {}\x1fxHistory", name % 511)),
        ])?;
    }
    Ok(())
}

fn large(out: &mut impl Write) -> io::Result<()> {
    for n in 0..4_000 {
        let mut fields = vec![("001", format!("b{n}"))];
        for place in 0..60 {
            fields.push(("505", format!("0 \x1fa{}\x1ft{}", "Contents of it ".repeat(place % 30), "word \u{e9}".repeat(place % 60))));
        }
        put(out, "nam ", &fields)?;
    }
    Ok(())
}

fn report(path: &str) -> io::Result<()> {
    let mut best = u128::MAX;
    let mut counts = (0, 0);
    for _ in 0..5 {
        let file = File::open(path)?;
        let start = Instant::now();
        counts = read(file)?;
        best = best.min(start.elapsed().as_nanos());
    }
    let size = File::open(path)?.metadata()?.len();
    println!("rust:   {} records, {} bytes of text; best of {size} bytes: {best} nanoseconds", counts.0, counts.1);
    Ok(())
}

fn main() -> io::Result<()> {
    let words: Vec<String> = env::args().skip(1).collect();
    match words.as_slice() {
        [word, kind, path] if word == "make" => {
            let mut out = BufWriter::new(File::create(path)?);
            if kind == "small" { small(&mut out)? } else { large(&mut out)? }
            out.flush()
        }
        [path] => report(path),
        _ => Ok(()),
    }
}
