//! Numbers in every place of the worked gateway's text that has one.

use super::gateway_with_row;
use crate::named::build::text_and_quoted;
use crate::named::Case;

/// A place's name, its row, and what stands there before and after the number.
type Place = (&'static str, usize, &'static str, &'static str);

pub fn cases() -> Vec<Case> {
    [written(), counts(), beyond()].concat()
}

fn in_place((place, row, before, after): &Place, name: &str, number: &[u8]) -> Case {
    let bytes = [before.as_bytes(), number, after.as_bytes(), b"\r\n"].concat();
    text_and_quoted(format!("read: row {row}, {place}{name}"), &gateway_with_row(*row, &bytes))
}

/// Each number in each place.
fn digits(places: &[Place], numbers: &[&str]) -> Vec<Case> {
    let everywhere = |number: &&str| -> Vec<Case> {
        let name = format!(" {number}");
        places.iter().map(|place| in_place(place, &name, number.as_bytes())).collect()
    };
    numbers.iter().flat_map(everywhere).collect()
}

/// 1 is right in every place but the counts.
fn written() -> Vec<Case> {
    let places: &[Place] = &[
        ("K", 1, "G,", ",8,8,,"),
        ("N", 1, "G,2,", ",8,,"),
        ("M", 1, "G,2,8,", ",,"),
        ("own number", 3, "N,", ",C,,E,1"),
        ("check", 4, "N,2,K,", ",,0 1"),
        ("grants", 9, "N,7,R,,,", ""),
        ("to", 10, "E,0,", ",C,,"),
        ("from", 17, "E,", ",7,T,,"),
    ];
    let everywhere = |(name, number): &(&str, &[u8])| -> Vec<Case> {
        let name = format!(", {name}");
        places.iter().map(|place| in_place(place, &name, number)).collect()
    };
    NUMBERS.iter().flat_map(everywhere).collect()
}

const NUMBERS: &[(&str, &[u8])] = &[
    ("1", b"1"),
    ("needless zero", b"01"),
    ("zero twice", b"00"),
    ("plus", b"+1"),
    ("minus", b"-1"),
    ("space before", b" 1"),
    ("space after", b"1 "),
    ("space inside", b"1 0"),
    ("letter", b"1x"),
    ("point", b"1.0"),
    ("byte before 0", b"/"),
    ("byte after 9", b":"),
    ("digit of another script", b"\xd9\xa1"),
];

/// A count in its range has rows missing or to spare. The longest would be 2 or 8 if their high
/// digits were lost.
fn counts() -> Vec<Case> {
    let places: &[Place] =
        &[("K", 1, "G,", ",8,8,,"), ("N", 1, "G,2,", ",8,,"), ("M", 1, "G,2,8,", ",,")];
    digits(places, COUNTS)
}

const COUNTS: &[&str] = &[
    "0",
    "7",
    "8",
    "9",
    "63",
    "64",
    "65",
    "1024",
    "1025",
    "4096",
    "4097",
    "9999",
    "10000",
    "65538",
    "65544",
    "4294967298",
    "4294967304",
    "18446744073709551618",
    "18446744073709551624",
    "1000000000000000000000000000000000000000",
];

/// Out of range in every place: up to four digits the node or edge is refused, from five on the
/// row.
fn beyond() -> Vec<Case> {
    let places: &[Place] = &[
        ("grants", 2, "N,0,C,,E,", ""),
        ("check", 4, "N,2,K,", ",,0 1"),
        ("grants", 9, "N,7,R,,,", ""),
        ("from", 10, "E,", ",2,C,,"),
        ("to", 10, "E,0,", ",C,,"),
        ("from", 17, "E,", ",7,T,,"),
        ("to", 17, "E,1,", ",T,,"),
    ];
    digits(places, BEYOND)
}

const BEYOND: &[&str] = &[
    "8",
    "63",
    "64",
    "65",
    "1024",
    "9999",
    "10000",
    "65535",
    "65536",
    "4294967296",
    "18446744073709551616",
    "1000000000000000000000000000000000000000",
];
