//! The header and this crate say the same: the version, the codes in document 01's order of test, and the ends.
use zone::End;

const HEADER: &str = include_str!("../../include/zone.h");
const REFUSALS: &str = include_str!("../src/refusal.rs");

/// The number after each text that starts a line, in the order of the lines.
fn numbers(text: &str, starts: fn(&str) -> Option<&str>) -> Vec<u32> {
    let digits = |rest: &str| {
        rest.chars()
            .take_while(char::is_ascii_digit)
            .collect::<String>()
    };
    text.lines()
        .filter_map(|line| starts(line.trim()))
        .filter_map(|rest| digits(rest).parse().ok())
        .collect()
}

/// The values of an enum of the header.
fn values(name: &str) -> Vec<u32> {
    let start = format!("enum {name} {{");
    let after = HEADER.split(&start).nth(1).unwrap();
    let within = after.split("};").next().unwrap();
    numbers(within, |line| {
        Some(line.strip_prefix("ZONE_")?.split_once(" = ")?.1)
    })
}

fn defined(name: &str) -> u64 {
    let line = HEADER
        .lines()
        .find_map(|line| line.strip_prefix(&format!("#define {name} ")));
    line.unwrap().parse().unwrap()
}

#[test]
fn the_versions_are_the_same() {
    let header = (defined("ZONE_VERSION_MAJOR"), defined("ZONE_VERSION_MINOR"));
    let own = (
        env!("CARGO_PKG_VERSION_MAJOR"),
        env!("CARGO_PKG_VERSION_MINOR"),
    );
    assert_eq!(header, (own.0.parse().unwrap(), own.1.parse().unwrap()));
}

#[test]
fn the_codes_stand_in_the_order_of_test() {
    let order = [1, 2, 3, 4, 5, 6, 9, 7, 8, 10];
    assert_eq!(values("ZoneCode"), [&[0], &order[..]].concat());
    assert_eq!(numbers(REFUSALS, |line| line.strip_prefix("/// ")), order);
}

#[test]
fn the_ends_have_the_same_numbers() {
    assert_eq!(values("ZoneEnd"), [End::Low as u32, End::High as u32]);
}
