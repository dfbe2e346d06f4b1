//! Each refusal has a name and a number in three places: the proved code, the header of C, and the wrapper. They are
//! compared case by case; none may be left out anywhere.

use hubeltxa::Refusal;

const CODE: &str = include_str!("../../crates/colour/src/refusal.rt");
const HEADER: &str = include_str!("../../include/hubeltxa.h");

/// The lines of a text after `start` and before the next `}`: each without its comment, its comma and blanks around it.
fn lines_after<'t>(text: &'t str, start: &str) -> Vec<&'t str> {
    let (_, rest) = text.split_once(start).unwrap_or_else(|| panic!("there is no `{start}`"));
    let (block, _) = rest.split_once('}').unwrap();
    let bare = |line: &'t str| line.split("/*").next().unwrap().trim().trim_end_matches(',');
    block.lines().map(bare).filter(|line| !line.is_empty()).collect()
}

/// The name and the number of a line that has both.
fn numbered(line: &str, between: &str) -> (String, u32) {
    let (name, number) = line.split_once(between).unwrap_or_else(|| panic!("no `{between}` in `{line}`"));
    (name.to_string(), number.parse().unwrap())
}

/// The name of a case in C: `TooShort` is `HBX_TOO_SHORT`.
fn c_name(case: &str) -> String {
    let mut name = String::from("HBX");
    for letter in case.chars() {
        if letter.is_ascii_uppercase() {
            name.push('_');
        }
        name.push(letter.to_ascii_uppercase());
    }
    name
}

/// The cases of the proved code: every case of the enum with its number, numbered from 1.
fn cases() -> Vec<(String, u32)> {
    let cases: Vec<_> = lines_after(CODE, "pub enum Refusal {").iter().map(|line| numbered(line, " = ")).collect();
    assert!(!cases.is_empty());
    assert_eq!(cases.iter().map(|case| case.1).collect::<Vec<_>>(), (1..).take(cases.len()).collect::<Vec<_>>());
    cases
}

#[test]
fn the_wrapper_names_them_alike() {
    let named: Vec<_> = Refusal::ALL.iter().map(|refusal| (format!("{refusal:?}"), refusal.number())).collect();
    assert_eq!(named, cases());
}

#[test]
fn the_header_names_them_alike() {
    let named: Vec<_> = lines_after(HEADER, "    HBX_ACCEPTED = 0,").iter().map(|line| numbered(line, " = ")).collect();
    let expected: Vec<_> = cases().iter().map(|(name, number)| (c_name(name), *number)).collect();
    assert_eq!(named, expected);
}
