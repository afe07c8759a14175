//! The ways in which a text is made wrong, or by chance stays right.

// All damages to rows have one form, so that one of them can be picked.
#![allow(clippy::ptr_arg)]

use super::texts::Row;
use super::Random;

const ODD_FIELDS: [&str; 42] = [
    "",
    "0",
    "00",
    "01",
    "1",
    "2",
    "63",
    "64",
    "65",
    "100",
    "1023",
    "1024",
    "1025",
    "4096",
    "4097",
    "9999",
    "10000",
    "65536",
    "99999999999999999999",
    "G",
    "N",
    "E",
    "C",
    "R",
    "K",
    "T",
    "P",
    "PE",
    "EP",
    "c",
    " 1",
    "1 ",
    "+1",
    "-1",
    "0 1",
    "1 0",
    "0 0",
    "0  1",
    "0 64",
    "0 100",
    "63 9999",
    "\"\"",
];

const GRANTS: usize = 5;

type Damage = fn(&mut Vec<Row>, &mut Random);

/// The commoner ones more than once.
const DAMAGES: [Damage; 16] = [
    replace_a_field,
    replace_a_field,
    replace_a_field,
    add_a_zero,
    damage_grants,
    damage_grants,
    damage_grants,
    damage_check,
    damage_edge,
    damage_edge,
    damage_marks,
    damage_counts,
    damage_field_count,
    damage_order,
    damage_order,
    add_a_row,
];

pub fn damage_rows(rows: &mut Vec<Row>, random: &mut Random) {
    let damage = random.pick(&DAMAGES);
    damage(rows, random);
    if random.one_in(10) {
        damage_rows(rows, random);
    }
}

fn some_row<'a>(rows: &'a mut [Row], random: &mut Random) -> &'a mut Row {
    let place = random.below(rows.len());
    &mut rows[place]
}

/// A row that starts with the letter, if there is one.
fn row_of<'a>(rows: &'a mut [Row], random: &mut Random, letter: &[u8]) -> Option<&'a mut Row> {
    let of_letter = |row: &Row| row.len() == 6 && row[0] == letter;
    let places: Vec<usize> = (0..rows.len()).filter(|&place| of_letter(&rows[place])).collect();
    match places.is_empty() {
        true => None,
        false => Some(&mut rows[random.pick(&places)]),
    }
}

fn replace_a_field(rows: &mut Vec<Row>, random: &mut Random) {
    let row = some_row(rows, random);
    let place = random.below(row.len());
    row[place] = random.pick(&ODD_FIELDS).into();
}

fn add_a_zero(rows: &mut Vec<Row>, random: &mut Random) {
    let row = some_row(rows, random);
    let place = random.below(row.len());
    row[place].insert(0, b'0');
}

fn damage_grants(rows: &mut Vec<Row>, random: &mut Random) {
    let row = match row_of(rows, random, b"N") {
        Some(row) => row,
        None => return,
    };
    let mut members: Vec<Vec<u8>> =
        row[GRANTS].split(|&byte| byte == b' ').map(Vec::from).collect();
    let place = random.below(members.len());
    match random.below(6) {
        0 => members.insert(place, members[place].clone()),
        1 => members.insert(place, vec![]),
        2 => members.swap(0, place),
        3 => members[place].insert(0, b'0'),
        4 => members.push(vec![]),
        _ => {
            let past: &str = random.pick(&["63", "64", "65", "100", "999", "9999", "10000"]);
            members.retain(|member| !member.is_empty());
            members.push(past.into());
        }
    }
    row[GRANTS] = members.join(&b' ');
}

fn damage_check(rows: &mut Vec<Row>, random: &mut Random) {
    let k: Vec<u8> = rows[0].get(1).cloned().unwrap_or_default();
    if let Some(row) = row_of(rows, random, b"N") {
        let past: &str = random.pick(&["63", "64", "65", "100", "9999", "10000", "65536"]);
        row[2] = b"K".to_vec();
        row[3] = if random.one_in(2) { k } else { past.into() };
    }
}

fn damage_edge(rows: &mut Vec<Row>, random: &mut Random) {
    let n: Vec<u8> = rows[0].get(2).cloned().unwrap_or_default();
    let row = match row_of(rows, random, b"E") {
        Some(row) => row,
        None => return,
    };
    let end = random.between(1, 2);
    let past: &str = random.pick(&["0", "1", "1023", "1024", "9999", "10000", "65536"]);
    match random.below(4) {
        0 => row[end] = n,
        1 => row[end] = past.into(),
        2 => row[3] = if row[3] == b"C" { b"T".to_vec() } else { b"C".to_vec() },
        _ => row.swap(1, 2),
    }
}

/// Without any entry, or with marks that are none.
fn damage_marks(rows: &mut Vec<Row>, random: &mut Random) {
    let clear_all = random.one_in(2);
    let marks: &str = random.pick(&["EP", "p", "P ", "PEP", "EE"]);
    match clear_all {
        true => {
            let nodes = rows.iter_mut().filter(|row| row[0] == b"N" && row.len() == 6);
            nodes.for_each(|row| row[4].retain(|&byte| byte != b'E'));
        }
        false => {
            if let Some(row) = row_of(rows, random, b"N") {
                row[4] = marks.into();
            }
        }
    }
}

fn damage_counts(rows: &mut Vec<Row>, random: &mut Random) {
    let place = random.between(1, 3);
    let field = match rows[0].get_mut(place) {
        Some(field) => field,
        None => return,
    };
    let count: usize = String::from_utf8_lossy(field).parse().unwrap_or(0);
    let changed = match random.below(3) {
        0 => count + 1,
        1 => count.saturating_sub(1),
        _ => random.pick(&[0, 1, 64, 65, 1_024, 1_025, 4_096, 4_097, 9_999, 10_000]),
    };
    *field = changed.to_string().into();
}

fn damage_field_count(rows: &mut Vec<Row>, random: &mut Random) {
    let row = some_row(rows, random);
    if random.one_in(2) || row.len() == 1 {
        row.push(vec![]);
    } else {
        row.pop();
    }
}

fn damage_order(rows: &mut Vec<Row>, random: &mut Random) {
    let (place, other) = (random.below(rows.len()), random.below(rows.len()));
    match random.below(4) {
        0 => rows.swap(place, other),
        1 if rows.len() > 1 => drop(rows.remove(place)),
        2 => rows.insert(place, vec![vec![]]),
        _ => rows.insert(place, rows[place].clone()),
    }
}

fn add_a_row(rows: &mut Vec<Row>, random: &mut Random) {
    let copied = rows[random.below(rows.len())].clone();
    let edge = ["E", "0", "0", "C", "", ""].map(|field| field.as_bytes().to_vec()).to_vec();
    rows.push(match random.below(3) {
        0 => copied,
        1 => edge,
        _ => vec![vec![]],
    });
}

pub fn damage_bytes(text: &mut Vec<u8>, random: &mut Random) {
    let place = random.below(text.len() + 1);
    let likely = random.pick(b"\",\r\n 0123456789GNECRKTPx\0");
    let byte = if random.one_in(3) { random.number() as u8 } else { likely };
    match random.below(9) {
        0 | 1 if place < text.len() => text[place] = byte,
        2 if place < text.len() => drop(text.remove(place)),
        3 => text.truncate(place),
        4 => text.retain(|&kept| kept != b'\r'),
        5 => damage_one_row_end(text, random),
        6 => text.extend(random.pick(&[&b"\r\n"[..], b"\r", b"\n", b" ", b"\0", b"\""])),
        7 => damage_quotes(text, random),
        _ => text.insert(place, byte),
    }
}

fn damage_one_row_end(text: &mut Vec<u8>, random: &mut Random) {
    let ends: Vec<usize> = (0..text.len()).filter(|&place| text[place] == b'\r').collect();
    if ends.is_empty() {
        return;
    }
    let end = random.pick(&ends);
    match random.below(3) {
        0 => drop(text.remove(end)),
        1 => text.insert(end, b'\r'),
        _ if end + 1 < text.len() => drop(text.remove(end + 1)),
        _ => text.push(b'\r'),
    }
}

/// A quote where a field starts: left open, doubled, or with something after it.
fn damage_quotes(text: &mut Vec<u8>, random: &mut Random) {
    let starts: Vec<usize> = (0..text.len()).filter(|&place| text[place] == b',').collect();
    if starts.is_empty() {
        return text.push(b'"');
    }
    let start = random.pick(&starts) + 1;
    let inserted =
        random.pick(&[&b"\""[..], b"\"\"", b"\"\"\"\"", b"\"\"x", b"\"a\"\"b\"", b" \"\""]);
    text.splice(start..start, inserted.iter().copied());
}
