"""Writes the tables of the plain Rust program from Python's Unicode data, for its first 0x3000 code points."""
import unicodedata

LAST = 0x3000


def rust(text):
    return '"' + "".join(f"\\u{{{ord(c):x}}}" for c in text) + '"'


def table(name, value):
    return f"static {name}: [&str; {LAST}] = [{', '.join(value(c) for c in range(LAST))}];"


def changed(c, text):
    return rust("" if text == chr(c) else text)


def is_mark(c):
    return unicodedata.category(chr(c)) == "Mn"


marks = sum((1 << (c % 64)) << (64 * (c // 64)) for c in range(LAST) if is_mark(c))
words = [(marks >> (64 * k)) & (2 ** 64 - 1) for k in range(LAST // 64)]
classes = [unicodedata.combining(chr(c)) for c in range(LAST)]
print(table("FOLDED", lambda c: changed(c, chr(c).casefold())))
print(table("DECOMPOSED", lambda c: changed(c, unicodedata.normalize("NFD", chr(c)))))
print(f"static MARKS: [u64; {len(words)}] = {words};")
print(f"static CLASSES: [u8; {LAST}] = {classes};")
print('''
/// The text with full case folding applied.
pub fn fold(text: &str) -> String {
    let mut out = String::with_capacity(text.len());
    for c in text.chars() {
        push(&mut out, &FOLDED, c);
    }
    out
}

fn push(out: &mut String, table: &[&str], c: char) {
    match table.get(c as usize) {
        Some(&text) if !text.is_empty() => out.push_str(text),
        _ => out.push(c),
    }
}

/// The text in NFD.
pub fn decompose(text: &str) -> String {
    let mut out = String::with_capacity(text.len());
    let mut marks: Vec<(u8, char)> = Vec::new();
    for c in text.chars() {
        match DECOMPOSED.get(c as usize) {
            Some(&pieces) if !pieces.is_empty() => pieces.chars().for_each(|d| put(&mut out, &mut marks, d)),
            _ => put(&mut out, &mut marks, c),
        }
    }
    flush(&mut out, &mut marks);
    out
}

fn put(out: &mut String, marks: &mut Vec<(u8, char)>, c: char) {
    match CLASSES.get(c as usize) {
        Some(&class) if class != 0 => marks.push((class, c)),
        _ => {
            flush(out, marks);
            out.push(c);
        }
    }
}

fn flush(out: &mut String, marks: &mut Vec<(u8, char)>) {
    marks.sort_by_key(|mark| mark.0);
    out.extend(marks.drain(..).map(|mark| mark.1));
}

/// Whether the character is a nonspacing mark.
pub fn is_mark(c: char) -> bool {
    MARKS.get(c as usize / 64).is_some_and(|word| word >> (c as usize % 64) & 1 == 1)
}
''')
