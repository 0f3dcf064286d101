//! Holdings attached to an export, in plain Rust: what `union_cat holdings` writes, next to which it is timed.
//!
//! plain make COUNT EXPORT HOLDINGS: so many holdings of the export's bibliographic records; each fiftieth names none.
//! plain attach EXPORT HOLDINGS OUT REST: the export's records with their holdings, and the holdings that wait.
use std::collections::{BTreeMap, HashSet};
use std::io::{BufWriter, Write};
use std::{env, fs, io};

fn records(data: &[u8]) -> Vec<&[u8]> {
    let mut found = Vec::new();
    let mut rest = data;
    while rest.len() >= 24 {
        let (first, behind) = rest.split_at(number(&rest[..5]));
        found.push(first);
        rest = behind;
    }
    found
}

fn number(digits: &[u8]) -> usize {
    digits.iter().fold(0, |n, d| n * 10 + usize::from(d - b'0'))
}

fn field<'a>(record: &'a [u8], tag: &[u8]) -> Option<&'a [u8]> {
    let base = number(&record[12..17]);
    let entry = record[24..base - 1].chunks(12).find(|entry| &entry[..3] == tag)?;
    let start = base + number(&entry[7..12]);
    Some(&record[start..start + number(&entry[3..7]) - 1])
}

fn is_bibliographic(record: &[u8]) -> bool {
    record[6] != b'z'
}

fn holding(control: &str, target: &str) -> Vec<u8> {
    let fields = [("001", control), ("003", "UCAT"), ("004", target), ("852", "  \u{1f}aULIB")];
    let (mut directory, mut data) = (String::new(), String::new());
    for (tag, text) in fields {
        directory += &format!("{tag}{:04}{:05}", text.len() + 1, data.len());
        data += text;
        data.push('\u{1e}');
    }
    let base = 24 + directory.len() + 1;
    let length = base + data.len() + 1;
    format!("{length:05}nx  a22{base:05}1n 4500{directory}\u{1e}{data}\u{1d}").into_bytes()
}

fn make(count: usize, export: &[u8]) -> Vec<u8> {
    let keys: Vec<&[u8]> =
        records(export).into_iter().filter(|it| is_bibliographic(it)).filter_map(|it| field(it, b"001")).collect();
    let mut made = Vec::new();
    for at in 0..count {
        let target = match at % 50 {
            0 => format!("none{at}"),
            _ => String::from_utf8_lossy(keys[at * 7919 % keys.len()]).into_owned(),
        };
        made.extend(holding(&format!("h{at}"), &target));
    }
    made
}

fn attach(export: &[u8], holdings: &[u8], out: &str, rest: &str) -> io::Result<()> {
    let mut shelf: BTreeMap<&[u8], BTreeMap<&[u8], &[u8]>> = BTreeMap::new();
    for record in records(holdings) {
        if let (Some(control), Some(target)) = (field(record, b"001"), field(record, b"004")) {
            shelf.entry(target).or_default().insert(control, record);
        }
    }
    let mut out = BufWriter::new(fs::File::create(out)?);
    let mut kept: HashSet<&[u8]> = HashSet::new();
    for record in records(export) {
        out.write_all(record)?;
        if let (true, Some(key)) = (is_bibliographic(record), field(record, b"001")) {
            kept.insert(key);
            for holding in shelf.get(key).into_iter().flat_map(BTreeMap::values) {
                out.write_all(holding)?;
            }
        }
    }
    out.flush()?;
    let waiting: BTreeMap<&[u8], &[u8]> =
        shelf.iter().filter(|(target, _)| !kept.contains(*target)).flat_map(|(_, held)| held.iter().map(|(k, v)| (*k, *v))).collect();
    let mut rest = BufWriter::new(fs::File::create(rest)?);
    for record in waiting.values() {
        rest.write_all(record)?;
    }
    rest.flush()
}

fn main() -> io::Result<()> {
    let words: Vec<String> = env::args().skip(1).collect();
    match words.iter().map(String::as_str).collect::<Vec<_>>()[..] {
        ["make", count, export, out] => fs::write(out, make(count.parse().expect("a number"), &fs::read(export)?)),
        ["attach", export, holdings, out, rest] => attach(&fs::read(export)?, &fs::read(holdings)?, out, rest),
        _ => Err(io::Error::other("plain make COUNT EXPORT HOLDINGS, or plain attach EXPORT HOLDINGS OUT REST")),
    }
}
