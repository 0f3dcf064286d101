//! A model in plain Rust of two copies of a table of established headings that share their rows: the memory of a heading and copy, and
//! the time of a page of 20 rows. `rustc -O --edition 2024 plain.rs && ./plain COUNT`
use std::collections::{BTreeMap, BTreeSet};
use std::sync::Arc;
use std::{env, fs};

const ROUNDS: usize = 21;
const PASSES: u64 = 10;

// Texts of up to 30 bytes lie in the value, as those of `marc_types` do.
#[derive(PartialEq, Eq, PartialOrd, Ord, Clone)]
enum Text {
    Inline([u8; 30], u8),
    Apart(String),
}

#[derive(PartialEq, Eq, PartialOrd, Ord, Clone)]
struct Item {
    code: u8,
    text: Text,
}

#[derive(PartialEq, Eq, PartialOrd, Ord, Clone)]
struct Form {
    kind: u8,
    items: Vec<Item>,
}

#[derive(PartialEq, Eq, PartialOrd, Ord, Clone)]
struct Key {
    code: Text,
    number: Text,
}

#[derive(PartialEq, Eq, PartialOrd, Ord)]
struct Row {
    form: Form,
    key: Key,
}

#[derive(PartialEq, Eq, PartialOrd, Ord)]
struct PackedKey {
    text: String,
    code_len: usize,
}

#[derive(Default)]
struct Table {
    authorities: BTreeMap<PackedKey, Option<Arc<Row>>>,
    rows: BTreeSet<Arc<Row>>,
}

fn text(of: &str) -> Text {
    if of.len() > 30 {
        return Text::Apart(of.to_string());
    }
    let mut bytes = [0; 30];
    bytes[..of.len()].copy_from_slice(of.as_bytes());
    Text::Inline(bytes, of.len() as u8)
}

fn resident() -> u64 {
    let pages = fs::read_to_string("/proc/self/statm").unwrap();
    pages.split(' ').nth(1).unwrap().parse::<u64>().unwrap() * 4096
}

/// The nanoseconds for which this thread had a processor.
fn processor_time() -> u64 {
    fs::read_to_string("/proc/self/schedstat").unwrap().split(' ').next().unwrap().parse().unwrap()
}

fn mixed(state: u64) -> u64 {
    let first = (state ^ (state >> 30)).wrapping_mul(0xBF58_476D_1CE4_E5B9);
    let second = (first ^ (first >> 27)).wrapping_mul(0x94D0_49BB_1331_11EB);
    second ^ (second >> 31)
}

fn row(number: u64) -> (String, Row) {
    let mixed = mixed(number);
    let name = format!("name{} first{}", mixed % 1_000_003, number % 977);
    let dates = format!("{} {}", 1800 + number % 200, 1850 + number % 170);
    let key = format!("n{:08}", mixed % 100_000_000);
    let items = vec![Item { code: b'a', text: text(&name) }, Item { code: b'd', text: text(&dates) }];
    let form = Form { kind: 0, items };
    let row = Row { form, key: Key { code: text("DLC"), number: text(&key) } };
    (key, row)
}

fn put(table: &mut Table, key: &str, row: &Arc<Row>) {
    let mut packed = String::with_capacity(3 + key.len());
    packed.push_str("DLC");
    packed.push_str(key);
    let former = table.authorities.insert(PackedKey { text: packed, code_len: 3 }, Some(row.clone()));
    table.rows.insert(row.clone());
    if let Some(Some(former)) = former {
        if former != *row {
            table.rows.remove(&former);
        }
    }
}

fn page(table: &Table, from: &Form) -> Vec<(Form, Key)> {
    let least = Key { code: text(""), number: text("") };
    let first = Arc::new(Row { form: from.clone(), key: least });
    table.rows.range(first..).take(20).map(|row| (row.form.clone(), row.key.clone())).collect()
}

/// The nanoseconds that a page from one of these forms on takes.
fn round(table: &Table, forms: &[Form]) -> u64 {
    let begun = processor_time();
    for _ in 0..PASSES {
        let found: usize = forms.iter().map(|form| page(table, form).len()).sum();
        assert!(found > 0);
    }
    (processor_time() - begun) / forms.len() as u64 / PASSES
}

fn main() {
    let count = env::args().nth(1).map_or(1_000_000, |word| word.parse().unwrap());
    let before = resident();
    let mut copies = [Table::default(), Table::default()];
    for number in 0..count {
        let (key, row) = row(number);
        let row = Arc::new(row);
        copies.iter_mut().for_each(|copy| put(copy, &key, &row));
    }
    let rows = copies[0].rows.len() as u64;
    println!("{rows} rows, {} bytes a heading and copy", (resident() - before) / 2 / rows);
    let forms: Vec<Form> = copies[0].rows.iter().step_by(997).map(|row| row.form.clone()).collect();
    let mut took: Vec<u64> = (0..ROUNDS).map(|_| round(&copies[0], &forms)).collect();
    took.sort_unstable();
    println!("{}, {} and {} ns of processor a page: least, median and most", took[0], took[ROUNDS / 2], took[ROUNDS - 1]);
}
