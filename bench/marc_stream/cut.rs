//! The same in plain Rust: `cut FILE` cuts the file five times, and `cut make FILE` makes one of 200 MB.
use std::env;
use std::fs::File;
use std::io::{self, BufRead, BufReader, BufWriter, Read, Write};
use std::time::Instant;

const BUFFER_LEN: usize = 131_072;
const MAX_PIECE_LEN: usize = 99_999;
const RECORD_TERMINATOR: u8 = 0x1D;

enum Next<'a> {
    Piece { ordinal: u64, offset: u64, bytes: &'a [u8] },
    Refused { ordinal: u64, offset: u64 },
    End,
}

struct Pieces<R> {
    source: R,
    buffer: Vec<u8>,
    from: usize,
    to: usize,
    offset: u64,
    ordinal: u64,
}

impl<R: Read> Pieces<R> {
    fn new(source: R) -> Self {
        Pieces { source, buffer: vec![0; BUFFER_LEN], from: 0, to: 0, offset: 0, ordinal: 0 }
    }

    fn fill(&mut self) -> io::Result<usize> {
        if self.from > 0 {
            self.buffer.copy_within(self.from..self.to, 0);
            self.to -= self.from;
            self.from = 0;
        }
        let count = self.source.read(&mut self.buffer[self.to..])?;
        self.to += count;
        Ok(count)
    }

    fn take(&mut self, count: usize) {
        self.from += count;
        self.offset += count as u64;
    }

    fn next(&mut self) -> io::Result<Next<'_>> {
        loop {
            let ends = self.buffer[self.from..self.to].iter().take_while(|b| matches!(b, b'\r' | b'\n')).count();
            self.take(ends);
            if self.from < self.to {
                break;
            }
            if self.fill()? == 0 {
                return Ok(Next::End);
            }
        }
        let offset = self.offset;
        self.ordinal += 1;
        let ordinal = self.ordinal;
        let mut searched = 0;
        loop {
            if let Some(at) = memchr(RECORD_TERMINATOR, &self.buffer[self.from + searched..self.to]) {
                let len = searched + at + 1;
                self.take(len);
                if len > MAX_PIECE_LEN {
                    return Ok(Next::Refused { ordinal, offset });
                }
                return Ok(Next::Piece { ordinal, offset, bytes: &self.buffer[self.from - len..self.from] });
            }
            searched = self.to - self.from;
            if searched > MAX_PIECE_LEN {
                loop {
                    self.take(self.to - self.from);
                    if self.fill()? == 0 {
                        return Ok(Next::Refused { ordinal, offset });
                    }
                    if let Some(at) = memchr(RECORD_TERMINATOR, &self.buffer[self.from..self.to]) {
                        self.take(at + 1);
                        return Ok(Next::Refused { ordinal, offset });
                    }
                }
            }
            if self.fill()? == 0 {
                self.take(searched);
                return Ok(Next::Refused { ordinal, offset });
            }
        }
    }
}

/// The C library's search, which is what a Rust program has without a crate.
fn memchr(byte: u8, bytes: &[u8]) -> Option<usize> {
    unsafe extern "C" {
        fn memchr(s: *const u8, c: i32, n: usize) -> *const u8;
    }
    let found = unsafe { memchr(bytes.as_ptr(), byte as i32, bytes.len()) };
    if found.is_null() { None } else { Some(found as usize - bytes.as_ptr() as usize) }
}

fn cut(file: File) -> io::Result<(u64, u64)> {
    let mut pieces = Pieces::new(file);
    let (mut count, mut total) = (0u64, 0u64);
    loop {
        match pieces.next()? {
            Next::Piece { ordinal, offset, bytes } => {
                std::hint::black_box((ordinal, offset));
                count += 1;
                total += bytes.len() as u64;
            }
            Next::Refused { ordinal, offset } => {
                std::hint::black_box((ordinal, offset));
            }
            Next::End => return Ok((count, total)),
        }
    }
}

/// The way of few lines: each record copied into a `Vec` by `read_until`.
fn cut_read_until(file: File) -> io::Result<(u64, u64)> {
    let mut reader = BufReader::with_capacity(BUFFER_LEN, file);
    let mut record = Vec::new();
    let (mut count, mut total) = (0u64, 0u64);
    loop {
        record.clear();
        if reader.read_until(RECORD_TERMINATOR, &mut record)? == 0 {
            return Ok((count, total));
        }
        count += 1;
        total += record.len() as u64;
    }
}

/// Records of 300 to 2,000 bytes.
fn make(path: &str) -> io::Result<()> {
    let mut out = BufWriter::new(File::create(path)?);
    let (mut state, mut size) = (1u64, 0usize);
    while size < 200_000_000 {
        state = state.wrapping_mul(6364136223846793005).wrapping_add(1442695040888963407);
        let len = 300 + (state >> 33) as usize % 1701;
        for i in 0..len - 1 {
            out.write_all(&[b' ' + ((state as usize + i * 7) % 90) as u8])?;
        }
        out.write_all(&[RECORD_TERMINATOR])?;
        size += len;
    }
    out.flush()
}

fn report(path: &str, name: &str, cut: fn(File) -> io::Result<(u64, u64)>) -> io::Result<()> {
    let mut best = u128::MAX;
    for _ in 0..5 {
        let file = File::open(path)?;
        let start = Instant::now();
        let (pieces, bytes) = cut(file)?;
        let nanos = start.elapsed().as_nanos();
        best = best.min(nanos);
        println!("{name}: pieces {pieces}, bytes {bytes}, nanoseconds {nanos}");
    }
    let size = File::open(path)?.metadata()?.len();
    println!("{name}: best of {size} bytes: {best} nanoseconds");
    Ok(())
}

fn main() -> io::Result<()> {
    let words: Vec<String> = env::args().skip(1).collect();
    match words.as_slice() {
        [word, path] if word == "make" => make(path),
        [path] => {
            report(path, "window", cut)?;
            report(path, "read_until", cut_read_until)
        }
        _ => Ok(()),
    }
}
