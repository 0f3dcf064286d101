//! The same work in plain Rust.
use std::time::Instant;

const FIELDS: u32 = 300_000;

#[derive(Clone)]
struct Subfield {
    code: u8,
    text: String,
}

#[allow(dead_code)]
#[derive(Clone, Copy)]
struct Tag(u8, u8, u8);

#[allow(dead_code)]
struct Field {
    tag: Tag,
    ind1: u8,
    ind2: u8,
    subs: Vec<Subfield>,
}

#[derive(Clone, Copy, PartialEq)]
enum Kind {
    Personal,
    Topical,
}

struct Key {
    code: String,
    number: String,
}

struct Case {
    field: Field,
    kind: Kind,
    whole: bool,
    heading: usize,
}

struct Authority {
    heading: Field,
    key: Key,
}

fn is_controlled(code: u8, kind: Kind) -> bool {
    match kind {
        Kind::Personal => matches!(code, b'a'..=b'd' | b'f' | b'g' | b'k'..=b't'),
        Kind::Topical => matches!(code, b'a' | b'b'),
    }
}

fn is_subdivision(code: u8) -> bool {
    matches!(code, b'v' | b'x'..=b'z')
}

fn belongs(sub: &Subfield, kind: Kind, whole: bool) -> bool {
    is_controlled(sub.code, kind) || (whole && is_subdivision(sub.code))
}

fn is_number_of(sub: &Subfield, key: &Key) -> bool {
    if sub.code != b'0' {
        return false;
    }
    let due = std::iter::once(b'(')
        .chain(key.code.bytes())
        .chain(std::iter::once(b')'))
        .chain(key.number.bytes());
    sub.text.bytes().filter(|b| *b != b' ').eq(due)
}

fn region(subs: &[Subfield], whole: bool) -> (&[Subfield], &[Subfield]) {
    if whole {
        return (subs, &[]);
    }
    let place = subs.iter().position(|s| is_subdivision(s.code)).unwrap_or(subs.len());
    subs.split_at(place)
}

fn rewrite(field: &Field, kind: Kind, heading: &Field, key: &Key, whole: bool) -> Field {
    let whole = whole && field.tag.0 == b'6';
    let (inside, behind) = region(&field.subs, whole);
    let place = inside.iter().position(|s| belongs(s, kind, whole)).unwrap_or(inside.len());
    let (front, onward) = inside.split_at(place);
    let (standing, _) = region(&heading.subs, whole);
    let part = standing.iter().filter(|s| belongs(s, kind, whole));
    let kept = |s: &&Subfield| !is_number_of(s, key);
    let room = field.subs.iter().filter(kept).count() - inside.iter().filter(|s| belongs(s, kind, whole)).count()
        + part.clone().count()
        + 1;
    let mut text = String::with_capacity(key.code.len() + key.number.len() + 2);
    text.push('(');
    text.push_str(&key.code);
    text.push(')');
    text.push_str(&key.number);
    let mut subs = Vec::with_capacity(room);
    subs.extend(front.iter().filter(kept).cloned());
    subs.extend(part.cloned());
    subs.push(Subfield { code: b'0', text });
    subs.extend(onward.iter().filter(|s| !belongs(s, kind, whole)).filter(kept).cloned());
    subs.extend(behind.iter().filter(kept).cloned());
    let ind1 = if kind == Kind::Personal { heading.ind1 } else { field.ind1 };
    Field { tag: field.tag, ind1, ind2: field.ind2, subs }
}

fn field(tag: Tag, pieces: &[(u8, &str)]) -> Field {
    let subs = pieces.iter().map(|(code, text)| Subfield { code: *code, text: text.to_string() }).collect();
    Field { tag, ind1: b'1', ind2: b'0', subs }
}

const NAME: Tag = Tag(b'1', b'0', b'0');
const SUBJECT: Tag = Tag(b'6', b'5', b'0');

fn authority(tag: Tag, pieces: &[(u8, &str)], number: &str) -> Authority {
    Authority { heading: field(tag, pieces), key: Key { code: "DLC".to_string(), number: number.to_string() } }
}

fn case(number: u32) -> Case {
    match number % 4 {
        0 => Case {
            field: field(NAME, &[(b'a', "Clemens, Samuel Langhorne,"), (b'd', "1835-1910,"), (b'e', "author.")]),
            kind: Kind::Personal,
            whole: false,
            heading: 0,
        },
        1 => Case {
            field: field(
                SUBJECT,
                &[(b'a', "Moving-pictures"), (b'0', "(DLC)sh85088084"), (b'z', "France"), (b'v', "Periodicals.")],
            ),
            kind: Kind::Topical,
            whole: false,
            heading: 1,
        },
        2 => Case {
            field: field(
                SUBJECT,
                &[(b'a', "Females"), (b'x', "History."), (b'0', "(DLC)sh85147274"), (b'0', "(ULIB)4711")],
            ),
            kind: Kind::Topical,
            whole: true,
            heading: 2,
        },
        _ => Case {
            field: field(
                NAME,
                &[(b'i', "Container of:"), (b'a', "Twayne, M."), (b'0', "(DLC)n 79021164"), (b'4', "aut")],
            ),
            kind: Kind::Personal,
            whole: false,
            heading: 0,
        },
    }
}

fn main() {
    let cases: Vec<Case> = (0..FIELDS).map(case).collect();
    let authorities = [
        authority(NAME, &[(b'a', "Twain, Mark,"), (b'd', "1835-1910")], "n79021164"),
        authority(SUBJECT, &[(b'a', "Motion pictures")], "sh85088084"),
        authority(SUBJECT, &[(b'a', "Women"), (b'x', "History")], "sh85147274"),
    ];
    for _ in 0..5 {
        let start = Instant::now();
        let mut made = 0;
        for case in &cases {
            let authority = &authorities[case.heading];
            made += rewrite(&case.field, case.kind, &authority.heading, &authority.key, case.whole).subs.len();
        }
        println!("plain {} us, {made} subfields", start.elapsed().as_micros());
    }
}
