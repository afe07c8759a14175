//! T and L requests: texts of graphs, most of them damaged.

use super::text_damage::{damage_bytes, damage_rows};
use super::{graphs, Random};
use crate::graph::Graph;
use crate::requests::{rows_of, Request, LONGEST_BODY, READER_LENGTHS};
use crate::text::LONGEST_TEXT;

pub type Row = Vec<Vec<u8>>;

pub fn request(random: &mut Random) -> Request {
    let mut body = some_text(random);
    body.truncate(LONGEST_BODY);
    Request { letter: b'T', body }
}

pub fn request_with_lengths(random: &mut Random) -> Request {
    let mut lengths = READER_LENGTHS;
    if random.percent(60) {
        let place = random.below(8);
        let right = lengths[place];
        lengths[place] = random.pick(&[right + 1, right - 1, 0, 1]);
    }
    let mut body: Vec<u8> =
        lengths.iter().flat_map(|length| format!("{length} ").into_bytes()).collect();
    body.extend(some_text(random));
    body.truncate(LONGEST_BODY);
    Request { letter: b'L', body }
}

fn some_text(random: &mut Random) -> Vec<u8> {
    match random.below(200) {
        0..=1 => near_the_longest(random),
        2..=8 => garbage(random),
        9..=79 => sound(random),
        80..=149 => {
            let mut rows = rows_of_some_graph(random);
            damage_rows(&mut rows, random);
            let chance = some_chance(random);
            to_text(&rows, random, chance)
        }
        _ => {
            let mut text = sound(random);
            damage_bytes(&mut text, random);
            text
        }
    }
}

fn sound(random: &mut Random) -> Vec<u8> {
    let rows = rows_of_some_graph(random);
    let chance = some_chance(random);
    to_text(&rows, random, chance)
}

fn some_chance(random: &mut Random) -> usize {
    random.pick(&[0, 0, 10, 50, 100])
}

fn rows_of_some_graph(random: &mut Random) -> Vec<Row> {
    rows(&graphs::usual(random))
}

fn rows(graph: &Graph) -> Vec<Row> {
    let fields = |row: &str| row.split(',').map(|field| field.as_bytes().to_vec()).collect();
    rows_of(graph).lines().map(fields).collect()
}

/// `chance` is how many of a hundred fields are quoted.
fn to_text(rows: &[Row], random: &mut Random, chance: usize) -> Vec<u8> {
    let mut text = Vec::new();
    for row in rows {
        for (place, field) in row.iter().enumerate() {
            if place > 0 {
                text.push(b',');
            }
            text.extend(quoted_if(random.percent(chance), field));
        }
        text.extend(b"\r\n");
    }
    if random.one_in(4) {
        text.truncate(text.len().saturating_sub(2));
    }
    text
}

fn quoted_if(quoted: bool, field: &[u8]) -> Vec<u8> {
    match quoted {
        true => [b"\"", field, b"\""].concat(),
        false => field.to_vec(),
    }
}

fn garbage(random: &mut Random) -> Vec<u8> {
    let length = random.pick(&[0, 1, 2, 7, 40, 300]);
    let likely = b"GNECRKTP0123456789,,,,, \"\r\n";
    match random.below(4) {
        0 => vec![],
        1 => (0..length).map(|_| random.number() as u8).collect(),
        2 => vec![random.pick(likely); length],
        _ => (0..length).map(|_| random.pick(likely)).collect(),
    }
}

fn near_the_longest(random: &mut Random) -> Vec<u8> {
    let length = LONGEST_TEXT + random.below(5) - 2;
    if random.one_in(4) {
        return vec![random.pick(b"x,\"\r0G"); length + random.pick(&[0, 0, 20_000])];
    }
    let mut rows = rows(&graphs::large(random));
    if random.one_in(4) {
        damage_rows(&mut rows, random);
    }
    stretched(rows, length)
}

/// Quotes fields from the first row on until the text has its length, give or take one byte.
fn stretched(rows: Vec<Row>, length: usize) -> Vec<u8> {
    let plain: usize =
        rows.iter().flatten().map(|field| field.len() + 1).sum::<usize>() + rows.len();
    let mut quotes = length.saturating_sub(plain) / 2;
    let mut text = Vec::new();
    for row in rows {
        let fields: Vec<Vec<u8>> = row
            .iter()
            .map(|field| {
                let quoted = quotes > 0;
                quotes -= usize::from(quoted);
                quoted_if(quoted, field)
            })
            .collect();
        text.extend(fields.join(&b','));
        text.extend(b"\r\n");
    }
    text
}
