//! The same work in plain Rust: comparison texts of the lines of standard input, timed.
use std::io::Read;
use std::time::Instant;

mod tables;

const NOTHING: u8 = 0;

/// What each ASCII character becomes by folding and the table.
static ASCII_ENTRIES: [u8; 128] = ascii_entries();

const fn ascii_entries() -> [u8; 128] {
    let mut entries = [b' '; 128];
    let mut byte = 0u8;
    while byte < 128 {
        entries[byte as usize] = match byte {
            b'0'..=b'9' | b'a'..=b'z' | b'#' | b'&' | b'+' | b'@' | b',' => byte,
            b'A'..=b'Z' => byte + 32,
            b'\'' | b'[' | b']' => NOTHING,
            _ => b' ',
        };
        byte += 1;
    }
    entries
}

#[derive(PartialEq)]
enum At {
    Front,
    Word,
    Blank,
}

struct Pen {
    out: String,
    at: At,
    keeps_comma: bool,
}

impl Pen {
    fn new(code: u8, room: usize) -> Pen {
        Pen { out: String::with_capacity(room), at: At::Front, keeps_comma: code == b'a' }
    }

    fn put(&mut self, c: char) {
        let keeps = c != ' ' && (c != ',' || std::mem::take(&mut self.keeps_comma));
        if !keeps {
            if self.at == At::Word {
                self.at = At::Blank;
            }
            return;
        }
        if self.at == At::Blank {
            self.out.push(' ');
        }
        self.out.push(c);
        self.at = At::Word;
    }

    fn put_entry(&mut self, c: char) {
        match c {
            'æ' => self.put_two('a', 'e'),
            'œ' => self.put_two('o', 'e'),
            'ø' => self.put('o'),
            'ł' | 'ℓ' => self.put('l'),
            'đ' | 'ð' => self.put('d'),
            'þ' => self.put_two('t', 'h'),
            'ı' => self.put('i'),
            '\'' | '[' | ']' | 'ʻ' | 'ʼ' | 'ʹ' | 'ʺ' => {}
            '#' | '&' | '+' | '@' | ',' => self.put(c),
            '0'..='9' | 'A'..='Z' | 'a'..='z' => self.put(c),
            '\0'..='\u{9f}' => self.put(' '),
            _ => self.put(c),
        }
    }

    fn put_two(&mut self, first: char, second: char) {
        self.put(first);
        self.put(second);
    }

    fn finish(mut self) -> String {
        if self.out.ends_with(',') {
            self.out.pop();
        }
        while self.out.ends_with(' ') {
            self.out.pop();
        }
        self.out
    }
}

fn comparison(code: u8, text: &str) -> String {
    if text.is_ascii() {
        let mut pen = Pen::new(code, text.len());
        for &byte in text.as_bytes() {
            let entry = ASCII_ENTRIES[byte as usize];
            if entry != NOTHING {
                pen.put(entry as char);
            }
        }
        return pen.finish();
    }
    let folded = tables::fold(text);
    let decomposed = tables::decompose(&folded);
    let mut pen = Pen::new(code, decomposed.len());
    for c in decomposed.chars() {
        if !tables::is_mark(c) {
            pen.put_entry(c);
        }
    }
    pen.finish()
}

fn main() {
    let mut input = String::new();
    std::io::stdin().read_to_string(&mut input).unwrap();
    let texts: Vec<String> = input.lines().map(str::to_string).collect();
    for _ in 0..5 {
        let start = Instant::now();
        let mut total = 0u64;
        for text in &texts {
            let compared = comparison(b'a', text);
            total = total.wrapping_mul(31).wrapping_add(compared.len() as u64);
        }
        println!("{total} {}", start.elapsed().as_nanos());
    }
}
