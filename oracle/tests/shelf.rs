//! Section 8 of docs/SHELF.md, read from the paper, on the independent player; the example of docs/SHEET.md on the reference.

use oracle::format::STORE;
use oracle::lists::lowered;
use oracle::machine::Reference;
use oracle::make::raw;
use oracle::names::{ARITH, BI, UNI};
use oracle::player::play;
use oracle::random::ToLower;

fn paper(name: &str) -> String {
    let path = format!("{}/../docs/{name}.md", env!("CARGO_MANIFEST_DIR"));
    std::fs::read_to_string(path).unwrap()
}

/// Section 8 of docs/SHELF.md without the lines that number its pages.
fn section_8() -> String {
    let text: String = paper("SHELF").split('\u{c}').map(|page| page.split_once('\n').unwrap().1).collect();
    between(&text, "\n8. TO TRY A NEW PLAYER\n", "\n9. ").to_string()
}

/// What stands behind `start`, up to `end`.
fn between<'a>(text: &'a str, start: &str, end: &str) -> &'a str {
    let from = text.find(start).unwrap() + start.len();
    let to = if end.is_empty() { text.len() } else { from + text[from..].find(end).unwrap() };
    &text[from..to]
}

/// A word as section 8 writes it: without the zeros at its end.
fn word(digits: &str) -> u64 {
    if digits == "ones" {
        return u64::MAX;
    }
    u64::from_str_radix(&format!("{digits:0<16}"), 16).unwrap()
}

/// What is parted by semicolons: the words left and right of each `=`.
fn items(text: &str) -> Vec<(Vec<&str>, Vec<&str>)> {
    let halves = text.split(';').filter_map(|item| item.split_once('='));
    halves.map(|(left, right)| (left.split_whitespace().collect(), right.split_whitespace().collect())).collect()
}

fn number(names: &[&str], name: &str) -> Option<u8> {
    names.iter().position(|n| *n == name).map(|n| n as u8)
}

/// The record of an operation: from registers 10 and on into registers 0 and 1.
fn record(name: &str) -> Vec<u8> {
    if let Some(op) = name.strip_prefix("ComplexBi ") {
        return raw(13, &[number(&ARITH, op).unwrap(), 0, 1, 10, 11, 12, 13]);
    }
    if name == "MulAdd" {
        return raw(7, &[0, 0, 10, 11, 12]);
    }
    match number(&UNI, name) {
        Some(op) => raw(1, &[op, 0, 10]),
        None => raw(2, &[number(&BI, name).unwrap(), 0, 10, 11]),
    }
}

#[test]
fn operations() {
    let text = section_8();
    let mut rows = items(between(&text, "Operands = result:", "With NaN operands:"));
    rows.extend(items(between(&text, "With NaN operands:", "Then plays")));
    assert!(rows.len() >= 150);
    let mut name = String::new();
    for (left, right) in rows {
        let names = left.iter().take_while(|one| one.starts_with(char::is_uppercase)).count();
        if names > 0 {
            name = left[..names].join(" ");
        }
        let mut store = vec![0; STORE];
        for (at, operand) in left[names..].iter().enumerate() {
            store[10 + at] = word(operand);
        }
        let answer = play(&record(&name), &[], &mut store, 0);
        assert_eq!((answer.number, answer.played), (0, 1));
        let results: Vec<u64> = right.iter().map(|one| word(one)).collect();
        assert_eq!(store[..results.len()], results, "{name} of {:?}", &left[names..]);
    }
}

fn bytes(text: &str) -> Vec<u8> {
    text.split_whitespace().map(|byte| u8::from_str_radix(byte, 16).unwrap()).collect()
}

/// The store with the words that are named.
fn with(mut store: Vec<u64>, text: &str) -> Vec<u64> {
    for (left, right) in items(text) {
        store[left[0].parse::<usize>().unwrap()] = word(right[0]);
    }
    store
}

/// The checksum of a store, Adler-32 of its words with the lowest byte first.
fn checksum(store: &[u64]) -> String {
    let (mut a, mut b) = (1u32, 0u32);
    for byte in store.iter().flat_map(|word| word.to_le_bytes()) {
        a = (a + u32::from(byte)) % 65521;
        b = (b + a) % 65521;
    }
    format!("{:08x}", b * 65536 + a)
}

/// A listing of section 8: bytes, constants, the stores before and after, what comes back from start 0.
struct Listing<'a> {
    bytes: Vec<u8>,
    constants: Vec<u64>,
    before: Vec<u64>,
    after: Vec<u64>,
    answer: Vec<&'a str>,
}

/// What a play is given: so many of each, the last left off or zeros behind them, then the bytes changed.
fn given(listing: &Listing, left: &[&str]) -> (Vec<u8>, Vec<u64>, Vec<u64>, u64) {
    let (mut bytes, mut constants, mut store, mut start) =
        (listing.bytes.clone(), listing.constants.clone(), listing.before.clone(), 0);
    for pair in left.windows(2).filter(|pair| pair[1].parse::<usize>().is_ok()) {
        let count = pair[1].parse().unwrap();
        match pair[0] {
            "bytes" => bytes.resize(count, 0),
            "constants" => constants.resize(count, 0),
            "words" => store.resize(count, 0),
            "start" => start = count as u64,
            other => panic!("{other}"),
        }
    }
    for (at, byte) in left.iter().filter_map(|one| one.split_once(':')) {
        bytes[at.parse::<usize>().unwrap()] = u8::from_str_radix(byte, 16).unwrap();
    }
    (bytes, constants, store, start)
}

/// One play; a checksum alone goes with the number, index and records played from start 0.
fn play_of(listing: &Listing, left: &[&str], right: &[&str]) {
    let right = if right.len() == 1 { [&listing.answer[..3], right].concat() } else { right.to_vec() };
    let (bytes, constants, before, start) = given(listing, left);
    let mut store = before.clone();
    let answer = play(&bytes, &constants, &mut store, start);
    let numbers: Vec<u64> = right[..3].iter().map(|one| one.parse().unwrap()).collect();
    assert_eq!(vec![answer.number as u64, answer.index, answer.played], numbers, "{left:?}");
    if answer.number == 0 {
        assert_eq!(checksum(&store), right[3], "{left:?}");
    } else {
        assert_eq!((&store, right.len()), (&before, 3), "{left:?}");
    }
    if left == ["start", "0"] {
        assert_eq!(store, listing.after);
    }
}

/// A listing with its plays, in the text behind "Listing".
fn plays_of(text: &str) -> usize {
    let before = with(vec![0; STORE], between(text, "zeros but for words", "from start 0"));
    let listing = Listing {
        bytes: bytes(between(text, ":", "With one constant")),
        constants: vec![word(between(text, "With one constant, ", ","))],
        after: with(before.clone(), between(text, "words are new:", "With a change")),
        before,
        answer: between(text, "comes back", ",").split_whitespace().collect(),
    };
    let mut rows = items(between(text, "With a change comes back:", ""));
    rows.push((vec!["start", "0"], listing.answer.clone()));
    rows.iter().for_each(|(left, right)| play_of(&listing, left, right));
    rows.len()
}

#[test]
fn plays() {
    let text = section_8();
    let listings: Vec<&str> = text.split("\nListing ").skip(1).collect();
    assert_eq!(listings.len(), 3);
    assert!(listings.into_iter().map(plays_of).sum::<usize>() >= 110);
}

/// The bytes at the start of each line of an example; other words end them.
fn example(text: &str) -> Vec<u8> {
    let is_byte = |one: &&str| one.len() == 2 && u8::from_str_radix(one, 16).is_ok();
    text.lines()
        .flat_map(|line| bytes(&line.split_whitespace().take_while(is_byte).collect::<Vec<_>>().join(" ")))
        .collect()
}

#[test]
fn sheet() {
    let text = paper("SHEET");
    let mut sheet = bytes(between(&text, "4. AN EXAMPLE\n", "and 64 times 00"));
    sheet.extend([0; 64]);
    sheet.extend(example(between(&text, "no place real), then\n", "Mem 4 becomes")));
    let listing = example(between(&text, "the listing has 41 bytes:\n", "\n\n"));
    let case = ToLower { sheet, room: 41, table: 256 };
    let (answer, written, constants) = lowered(&Reference, &case);
    assert_eq!((answer.number, answer.index, answer.written, answer.count), (0, 4, 41, 1));
    assert_eq!(written, listing);
    assert_eq!(constants[0], 0x4000_0000_0000_0000);
}
