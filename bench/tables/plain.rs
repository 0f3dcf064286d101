//! The same work as main.rt.txt in plain Rust: std's hash maps with a quick hasher, and lists in key order.
use std::collections::{HashMap, HashSet};
use std::env;
use std::hash::{BuildHasherDefault, Hash, Hasher};
use std::rc::Rc;
use std::time::Instant;

const LONG: u32 = 30_000;
const PLACES: u32 = 10;

// std's own hasher withstands chosen keys and is slower; this one folds each word in by a long multiplication.
#[derive(Default)]
struct Quick(u64);

impl Quick {
    fn word(&mut self, word: u64) {
        let product = (self.0 ^ word ^ 0x243F_6A88_85A3_08D3) as u128 * 0x9E37_79B9_7F4A_7C15;
        self.0 = product as u64 ^ (product >> 64) as u64;
    }
}

impl Hasher for Quick {
    fn finish(&self) -> u64 {
        self.0
    }
    fn write(&mut self, bytes: &[u8]) {
        for chunk in bytes.chunks(8) {
            let mut word = [0u8; 8];
            word[..chunk.len()].copy_from_slice(chunk);
            self.word(u64::from_le_bytes(word));
        }
    }
    fn write_u8(&mut self, n: u8) {
        self.word(n as u64);
    }
    fn write_u32(&mut self, n: u32) {
        self.word(n as u64);
    }
    fn write_usize(&mut self, n: usize) {
        self.word(n as u64);
    }
}

type Map<K, V> = HashMap<K, V, BuildHasherDefault<Quick>>;
type Set<K> = HashSet<K, BuildHasherDefault<Quick>>;

fn mixed(state: u64) -> u64 {
    let first = (state ^ (state >> 30)).wrapping_mul(0xBF58_476D_1CE4_E5B9);
    let second = (first ^ (first >> 27)).wrapping_mul(0x94D0_49BB_1331_11EB);
    second ^ (second >> 31)
}

fn shuffle(numbers: &mut [u32], seed: u64) {
    let mut state = seed;
    for i in 0..numbers.len() {
        state = state.wrapping_add(0x9E37_79B9_7F4A_7C15);
        numbers.swap(i, (mixed(state) % (i as u64 + 1)) as usize);
    }
}

fn numbers(count: u32, seed: u64) -> Vec<u32> {
    let mut all: Vec<u32> = (0..count).collect();
    shuffle(&mut all, seed);
    all
}

fn show(what: &str, start: Instant, count: usize, sum: u64) {
    if count > 0 {
        let each = start.elapsed().as_nanos() / count as u128;
        println!("plain {what}: {each} ns (sum {sum})");
    }
}

struct Steps(Vec<u32>);

impl Steps {
    fn note(&mut self, step: usize, start: Instant) {
        let took = start.elapsed().as_nanos().min(u32::MAX as u128) as u32;
        self.0[step] = self.0[step].min(took);
    }
    fn show(&self, what: &str) {
        let longest = self.0.iter().max().unwrap();
        let long = self.0.iter().filter(|n| **n > LONG).count();
        let mean = self.0.iter().map(|n| *n as u64).sum::<u64>() / self.0.len() as u64;
        println!("plain {what}: longest step {longest} ns, {long} over {LONG} ns, mean {mean} ns");
    }
}

// ---- numbers

#[derive(PartialEq, Eq, PartialOrd, Ord, Hash)]
struct Key {
    code: String,
    number: String,
}

#[derive(PartialEq, Eq, Hash)]
struct Form {
    kind: u8,
    items: Vec<(u8, String)>,
}

fn key(i: u32) -> Key {
    Key { code: "DLC".to_string(), number: format!("n{i:08}") }
}

fn form(i: u32) -> Form {
    Form { kind: 0, items: vec![(b'a', format!("a heading of some length {i:08}"))] }
}

struct Numbering<T> {
    numbers: Map<Rc<T>, u32>,
    things: Vec<Rc<T>>,
}

impl<T: Eq + Hash> Numbering<T> {
    fn new() -> Self {
        Numbering { numbers: Map::default(), things: Vec::new() }
    }
    fn add(&mut self, thing: T) -> u32 {
        if let Some(number) = self.numbers.get(&thing) {
            return *number;
        }
        let number = self.things.len() as u32;
        let thing = Rc::new(thing);
        self.things.push(thing.clone());
        self.numbers.insert(thing, number);
        number
    }
}

fn time_numbers<T: Eq + Hash>(name: &str, count: u32, make: impl Fn(u32) -> T, size: impl Fn(&T) -> usize) {
    let mut order = numbers(count, 1);
    let mut all = Numbering::new();
    let start = Instant::now();
    let sum = order.iter().map(|i| size(&make(*i)) as u64).sum();
    show(&format!("{name} made"), start, order.len(), sum);
    let start = Instant::now();
    let sum = order.iter().map(|i| all.add(make(*i)) as u64).sum();
    show(&format!("{name} made, and a number for a new one"), start, order.len(), sum);
    shuffle(&mut order, 2);
    let start = Instant::now();
    let sum = order.iter().map(|i| all.numbers[&make(*i)] as u64).sum();
    show(&format!("{name} made, and the number of a known one"), start, order.len(), sum);
    std::mem::forget(all);
}

// ---- the index

struct Row {
    established: u32,
    see_from: Vec<u32>,
    bare: bool,
}

#[derive(Default)]
struct Lists {
    established: Vec<Vec<u32>>,
    see_from: Vec<Vec<u32>>,
}

struct Index {
    keys: Numbering<Key>,
    rows: Vec<Option<Row>>,
    all: Lists,
    bare: Lists,
}

fn enter(keys: &[Rc<Key>], lists: &mut Vec<Vec<u32>>, form: u32, number: u32) {
    if lists.len() <= form as usize {
        lists.resize_with(form as usize + 1, Vec::new);
    }
    let list = &mut lists[form as usize];
    if let Err(place) = list.binary_search_by(|n| keys[*n as usize].cmp(&keys[number as usize])) {
        list.insert(place, number);
    }
}

fn withdraw(keys: &[Rc<Key>], lists: &mut [Vec<u32>], form: u32, number: u32) {
    let list = &mut lists[form as usize];
    if let Ok(place) = list.binary_search_by(|n| keys[*n as usize].cmp(&keys[number as usize])) {
        list.remove(place);
    }
}

impl Index {
    fn put(&mut self, number: u32, row: Row) {
        if self.rows.len() <= number as usize {
            self.rows.resize_with(number as usize + 1, || None);
        }
        let keys = &self.keys.things;
        enter(keys, &mut self.all.established, row.established, number);
        row.see_from.iter().for_each(|form| enter(keys, &mut self.all.see_from, *form, number));
        if row.bare {
            enter(keys, &mut self.bare.established, row.established, number);
            row.see_from.iter().for_each(|form| enter(keys, &mut self.bare.see_from, *form, number));
        }
        self.rows[number as usize] = Some(row);
    }
    fn take(&mut self, number: u32) -> Row {
        let row = self.rows[number as usize].take().unwrap();
        let keys = &self.keys.things;
        withdraw(keys, &mut self.all.established, row.established, number);
        row.see_from.iter().for_each(|form| withdraw(keys, &mut self.all.see_from, *form, number));
        if row.bare {
            withdraw(keys, &mut self.bare.established, row.established, number);
            row.see_from.iter().for_each(|form| withdraw(keys, &mut self.bare.see_from, *form, number));
        }
        row
    }
    fn candidates(&self, form: u32) -> &[u32] {
        match self.all.established.get(form as usize) {
            Some(list) if !list.is_empty() => list,
            _ => self.all.see_from.get(form as usize).map_or(&[], |list| list),
        }
    }
}

fn row(form: u32) -> Row {
    Row { established: form, see_from: Vec::new(), bare: false }
}

fn index(order: &[u32]) -> Index {
    let mut keys = Numbering::new();
    order.iter().for_each(|i| {
        keys.add(key(*i));
    });
    Index { keys, rows: Vec::new(), all: Lists::default(), bare: Lists::default() }
}

fn time_index(count: u32) {
    let mut order = numbers(count, 1);
    let mut index = index(&order);
    shuffle(&mut order, 2);
    let start = Instant::now();
    order.iter().for_each(|n| index.put(*n, row(*n)));
    show("index put of a new row", start, order.len(), 0);
    shuffle(&mut order, 3);
    let start = Instant::now();
    for n in &order {
        drop(index.take(*n));
        index.put(*n, row(*n));
    }
    show("index take, let_go, put", start, order.len(), 0);
    let start = Instant::now();
    for n in &order {
        let row = index.take(*n);
        index.put(*n, row);
    }
    show("index take, put_back", start, order.len(), 0);
    shuffle(&mut order, 4);
    let start = Instant::now();
    let sum = order.iter().map(|n| index.candidates(*n)[0] as u64).sum();
    show("index candidates", start, order.len(), sum);
    std::mem::forget(index);
}

fn time_one_form(count: u32) {
    let order = numbers(count, 1);
    let mut puts = Steps(vec![u32::MAX; order.len()]);
    let mut changes = Steps(vec![u32::MAX; order.len()]);
    let mut returns = Steps(vec![u32::MAX; order.len()]);
    for _ in 0..5 {
        let mut index = index(&order);
        for (step, n) in order.iter().enumerate() {
            let start = Instant::now();
            index.put(*n, row(0));
            puts.note(step, start);
        }
        for (step, n) in order.iter().enumerate() {
            let start = Instant::now();
            drop(index.take(*n));
            index.put(*n, row(0));
            changes.note(step, start);
        }
        for (step, n) in order.iter().enumerate() {
            let start = Instant::now();
            let row = index.take(*n);
            index.put(*n, row);
            returns.note(step, start);
        }
    }
    puts.show("one form, put of a new row");
    changes.show("one form, take, let_go, put");
    returns.show("one form, take, put_back");
}

// ---- links

#[derive(Clone, Copy, PartialEq, Eq, Hash)]
struct Seat {
    class: u8,
    number: u32,
    field: u32,
}

fn seat(number: u32) -> Seat {
    Seat { class: 1, number, field: 3 }
}

#[derive(Default)]
struct Names {
    seats: Map<u32, Set<Seat>>,
}

impl Names {
    fn note(&mut self, name: u32, seat: Seat) {
        self.seats.entry(name).or_default().insert(seat);
    }
    fn forget(&mut self, name: u32, seat: Seat) {
        if let Some(seats) = self.seats.get_mut(&name) {
            seats.remove(&seat);
            if seats.is_empty() {
                self.seats.remove(&name);
            }
        }
    }
    fn list(&self, name: u32) -> Vec<Seat> {
        self.seats.get(&name).map_or_else(Vec::new, |seats| seats.iter().copied().collect())
    }
}

#[derive(Default)]
struct Links {
    keys: Map<Seat, u32>,
    names: Names,
}

impl Links {
    fn add(&mut self, name: u32, seat: Seat) {
        self.keys.insert(seat, name);
        self.names.note(name, seat);
    }
    fn take(&mut self, seat: Seat) -> u32 {
        let name = self.keys.remove(&seat).unwrap();
        self.names.forget(name, seat);
        name
    }
}

fn time_links(count: u32) {
    let mut order = numbers(count, 1);
    let mut links = Links::default();
    let start = Instant::now();
    for place in &order {
        if !links.keys.contains_key(&seat(*place)) {
            links.add(*place / PLACES, seat(*place));
        }
    }
    show("links key_of, add", start, order.len(), 0);
    shuffle(&mut order, 2);
    for what in ["links take, let_go, add", "links take, put_back"] {
        let start = Instant::now();
        for place in &order {
            let name = links.take(seat(*place));
            links.add(name, seat(*place));
        }
        show(what, start, order.len(), 0);
    }
    shuffle(&mut order, 3);
    let start = Instant::now();
    let names = order.iter().filter(|place| **place % PLACES == 0);
    let sum = names.map(|place| links.names.list(*place / PLACES).len() as u64).sum();
    show("links of, a place", start, order.len(), sum);
    std::mem::forget(links);
}

fn time_one_key(count: u32) {
    let order = numbers(count, 1);
    let mut adds = Steps(vec![u32::MAX; order.len()]);
    let mut changes = Steps(vec![u32::MAX; order.len()]);
    for _ in 0..5 {
        let mut links = Links::default();
        for (step, place) in order.iter().enumerate() {
            let start = Instant::now();
            links.add(0, seat(*place));
            adds.note(step, start);
        }
        for (step, place) in order.iter().enumerate() {
            let start = Instant::now();
            let name = links.take(seat(*place));
            links.add(name, seat(*place));
            changes.note(step, start);
        }
    }
    adds.show("one key, links key_of, add");
    changes.show("one key, links take, let_go, add");
}

// ---- what waits

struct Waiting {
    forms: Vec<u32>,
    keys: Vec<u32>,
}

#[derive(Default)]
struct Waits {
    rows: Map<Seat, Waiting>,
    forms: Names,
    keys: Names,
}

impl Waits {
    fn add(&mut self, seat: Seat, waiting: Waiting) {
        waiting.forms.iter().for_each(|form| self.forms.note(*form, seat));
        waiting.keys.iter().for_each(|key| self.keys.note(*key, seat));
        self.rows.insert(seat, waiting);
    }
    fn take(&mut self, seat: Seat) -> Waiting {
        let waiting = self.rows.remove(&seat).unwrap();
        waiting.forms.iter().for_each(|form| self.forms.forget(*form, seat));
        waiting.keys.iter().for_each(|key| self.keys.forget(*key, seat));
        waiting
    }
}

fn asks(form: u32) -> Waiting {
    Waiting { forms: vec![form], keys: Vec::new() }
}

fn time_waits(count: u32) {
    let mut order = numbers(count, 1);
    let mut waits = Waits::default();
    let start = Instant::now();
    for place in &order {
        if !waits.rows.contains_key(&seat(*place)) {
            waits.add(seat(*place), asks(*place / PLACES));
        }
    }
    show("waits row, add", start, order.len(), 0);
    shuffle(&mut order, 2);
    let start = Instant::now();
    for place in &order {
        drop(waits.take(seat(*place)));
        waits.add(seat(*place), asks(*place / PLACES));
    }
    show("waits take, let_go, add", start, order.len(), 0);
    let start = Instant::now();
    for place in &order {
        let waiting = waits.take(seat(*place));
        waits.add(seat(*place), waiting);
    }
    show("waits take, put_back", start, order.len(), 0);
    shuffle(&mut order, 3);
    let start = Instant::now();
    let forms = order.iter().filter(|place| **place % PLACES == 0);
    let sum = forms.map(|place| waits.forms.list(*place / PLACES).len() as u64).sum();
    show("waits by_form, a place", start, order.len(), sum);
    std::mem::forget(waits);
}

fn time_one_waited(count: u32) {
    let order = numbers(count, 1);
    let mut adds = Steps(vec![u32::MAX; order.len()]);
    let mut changes = Steps(vec![u32::MAX; order.len()]);
    for _ in 0..5 {
        let mut waits = Waits::default();
        for (step, place) in order.iter().enumerate() {
            let start = Instant::now();
            waits.add(seat(*place), asks(0));
            adds.note(step, start);
        }
        for (step, place) in order.iter().enumerate() {
            let start = Instant::now();
            drop(waits.take(seat(*place)));
            waits.add(seat(*place), asks(0));
            changes.note(step, start);
        }
    }
    adds.show("one form, waits row, add");
    changes.show("one form, waits take, let_go, add");
}

fn main() {
    let arguments: Vec<String> = env::args().collect();
    let count = arguments[2].parse().unwrap();
    match arguments[1].as_str() {
        "keys" => time_numbers("key", count, key, |key| key.number.len()),
        "forms" => time_numbers("form", count, form, |form| form.items.len()),
        "index" => time_index(count),
        "one_form" => time_one_form(count),
        "links" => time_links(count),
        "one_key" => time_one_key(count),
        "waits" => time_waits(count),
        "one_waited" => time_one_waited(count),
        _ => {}
    }
}
