//! The same in plain Rust: `plain FILE` reads the records of a file, keeps their numbers, and finds and writes those that records
//! share; `plain make COUNT FILE` makes a file of records of an ISBN and an LCCN each, of which every tenth ISBN stands twice.
use std::collections::{BTreeMap, BTreeSet};
use std::env;
use std::fs::{self, File};
use std::io::{self, BufWriter, Write};
use std::time::Instant;

const RECORD_TERMINATOR: u8 = 0x1D;
const FIELD_TERMINATOR: u8 = 0x1E;
const DELIMITER: u8 = 0x1F;

#[derive(PartialEq, Eq, PartialOrd, Ord)]
enum Number {
    Isbn(String),
    Lccn(String),
}

type Key = (String, String);

fn number(digits: &[u8]) -> usize {
    digits.iter().fold(0, |value, digit| value * 10 + (digit - b'0') as usize)
}

fn check_digit(twelve: &[u8]) -> u8 {
    let sum: usize = twelve.iter().zip([1, 3].into_iter().cycle()).map(|(byte, weight)| (byte - b'0') as usize * weight).sum();
    b'0' + ((10 - sum % 10) % 10) as u8
}

fn isbn(text: &str) -> Option<String> {
    let printed: Vec<u8> = text.bytes().take_while(|byte| *byte != b' ').filter(|byte| *byte != b'-').collect();
    if printed.len() == 13 && printed.iter().all(u8::is_ascii_digit) && (printed.starts_with(b"978") || printed.starts_with(b"979")) {
        return (check_digit(&printed[..12]) == printed[12]).then(|| String::from_utf8(printed).unwrap());
    }
    let value = |byte: u8| if byte == b'X' || byte == b'x' { 10 } else { (byte - b'0') as usize };
    let is_ten = printed.len() == 10
        && printed[..9].iter().all(u8::is_ascii_digit)
        && (printed[9].is_ascii_digit() || matches!(printed[9], b'X' | b'x'))
        && printed.iter().zip((1..=10).rev()).map(|(byte, weight)| value(*byte) * weight).sum::<usize>() % 11 == 0;
    is_ten.then(|| {
        let mut digits = b"978".to_vec();
        digits.extend(&printed[..9]);
        digits.push(check_digit(&digits));
        String::from_utf8(digits).unwrap()
    })
}

fn lccn(text: &str) -> Option<String> {
    let filled: String = text.chars().filter(|letter| *letter != ' ').collect();
    let is_number = (1..=64).contains(&filled.len()) && filled.bytes().all(|byte| (0x21..=0x7E).contains(&byte));
    is_number.then_some(filled)
}

/// The key and the numbers of a record.
fn numbers(record: &[u8]) -> (Key, Vec<Number>) {
    let base = number(&record[12..17]);
    let mut key = ("ULIB".to_owned(), String::new());
    let (mut isbns, mut lccns) = (Vec::new(), Vec::new());
    for entry in record[24..base - 1].chunks_exact(12) {
        let start = base + number(&entry[7..12]);
        let text = std::str::from_utf8(&record[start..start + number(&entry[3..7]) - 1]).unwrap();
        let first = |text: &str| text.split(DELIMITER as char).skip(1).filter_map(|part| part.strip_prefix('a').map(str::to_owned)).collect::<Vec<_>>();
        match &entry[..3] {
            b"001" => key.1 = text.to_owned(),
            b"020" => isbns.extend(first(text).iter().filter_map(|text| isbn(text)).map(Number::Isbn)),
            b"010" => lccns.extend(first(text).iter().filter_map(|text| lccn(text)).map(Number::Lccn)),
            _ => {}
        }
    }
    isbns.append(&mut lccns);
    (key, isbns)
}

fn write(out: &mut impl Write, group: &[(&Number, &Key)]) -> io::Result<()> {
    match group[0].0 {
        Number::Isbn(text) => write!(out, "ISBN {text}")?,
        Number::Lccn(text) => write!(out, "LCCN {text}")?,
    }
    for (_, (code, number)) in group {
        write!(out, " ({code}){number}")?;
    }
    out.write_all(b"\n")
}

fn report(path: &str, keeps: bool) -> io::Result<()> {
    let bytes = fs::read(path)?;
    let start = Instant::now();
    let mut rows = BTreeMap::new();
    let mut count = 0u64;
    for record in bytes.split_inclusive(|byte| *byte == RECORD_TERMINATOR) {
        let (key, found) = numbers(record);
        count += found.len() as u64;
        if keeps {
            rows.insert(key, found);
        }
    }
    println!("plain: {count} numbers read{} in {} ms", if keeps { " and kept" } else { "" }, start.elapsed().as_millis());
    if !keeps {
        return Ok(());
    }
    let start = Instant::now();
    let held: BTreeSet<(&Number, &Key)> = rows.iter().flat_map(|(key, found)| found.iter().map(move |number| (number, key))).collect();
    let held: Vec<_> = held.into_iter().collect();
    let mut out = Vec::new();
    let mut groups = 0;
    for group in held.chunk_by(|a, b| a.0 == b.0).filter(|group| group.len() > 1) {
        write(&mut out, group)?;
        groups += 1;
    }
    println!("plain: {groups} groups found and written in {} ms ({} bytes)", start.elapsed().as_millis(), out.len());
    Ok(())
}

fn put(out: &mut impl Write, fields: &[(&str, String)]) -> io::Result<()> {
    let mut directory = String::new();
    let mut data = String::new();
    for (tag, text) in fields {
        directory += &format!("{tag}{:04}{:05}", text.len() + 1, data.len());
        data += text;
        data.push(FIELD_TERMINATOR as char);
    }
    let base = 25 + directory.len();
    write!(out, "{:05}nam a22{base:05} a 4500{directory}\x1e{data}\x1d", base + data.len() + 1)
}

fn make(out: &mut impl Write, count: u64) -> io::Result<()> {
    for n in 0..count {
        let place = n.wrapping_mul(2_654_435_761) % count;
        let book = if place % 10 == 0 { place + 1 } else { place };
        let twelve = format!("978{book:09}");
        let isbn = format!("{twelve}{}", check_digit(twelve.as_bytes()) as char);
        put(out, &[
            ("001", format!("b{n}")),
            ("010", format!("  \x1fa   {:08} ", 10_000_000 + place)),
            ("020", format!("  \x1fa{isbn} (paper)")),
            ("245", format!("10\x1faTitle {place} /\x1fcby somebody.")),
        ])?;
    }
    Ok(())
}

fn main() -> io::Result<()> {
    let words: Vec<String> = env::args().skip(1).collect();
    match words.iter().map(String::as_str).collect::<Vec<_>>().as_slice() {
        ["make", count, path] => {
            let mut out = BufWriter::new(File::create(path)?);
            make(&mut out, count.parse().unwrap())?;
            out.flush()
        }
        ["read", path] => report(path, false),
        ["keep", path] => report(path, true),
        _ => Ok(()),
    }
}
