//! Which numbers were seen, of which calls.

use crate::compared::{Compared, Row};

/// A call that takes no tables, or a check. What gives no number is counted by what it says.
#[derive(Clone, Copy)]
pub enum Plain {
    Codes,
    Floats,
    Line,
    NameFound,
    NameNone,
    Sound,
    NotSound,
}

/// These calls, in that sequence, and the numbers that each can give.
const PLAIN: [(&str, &[usize]); 7] = [
    ("codes", &[0, 9]),
    ("floats", &[0, 4]),
    ("line", &[0, 4, 10, 13]),
    ("name, found", &[0]),
    ("name, none", &[0]),
    ("check, sound", &[0]),
    ("check, not sound", &[0]),
];

#[derive(Default)]
pub struct Seen {
    pub compared: Compared,
    plain: [[usize; 14]; PLAIN.len()],
}

impl Seen {
    pub fn count(&mut self, call: Plain, number: u32) {
        self.plain[call as usize][number as usize] += 1;
    }

    fn rows(&self) -> impl Iterator<Item = Row> + '_ {
        let plain = PLAIN.iter().zip(self.plain).map(|(&(name, numbers), counts)| (name, numbers, counts));
        plain.chain(self.compared.rows())
    }

    /// How often each number was given by any call.
    fn totals(&self) -> [usize; 14] {
        let mut totals = [0; 14];
        self.rows().for_each(|(_, _, counts)| (0..14).for_each(|number| totals[number] += counts[number]));
        totals
    }

    /// A row for each call, a column for each number. A number that a call cannot give is left blank.
    pub fn table(&self) -> String {
        let totals = self.totals();
        let width = totals.iter().max().unwrap().to_string().len() + 2;
        let row = |name: &str, cells: [String; 14]| {
            let cells: String = cells.iter().map(|cell| format!("{cell:>width$}")).collect();
            format!("{}\n", format!("{name:<20}{cells}").trim_end())
        };
        let counted = |(name, numbers, counts): Row| {
            let blank = |number: usize| counts[number] == 0 && !numbers.contains(&number);
            let cell = |number| if blank(number) { String::new() } else { counts[number].to_string() };
            row(name, std::array::from_fn(cell))
        };
        let calls: String = self.rows().map(counted).collect();
        let heads = row("call", std::array::from_fn(|number| number.to_string()));
        heads + &calls + &row("all", totals.map(|count| count.to_string()))
    }

    /// What was to be seen and was not: a number of a call that can give it, or one from 1 to 13 of any call.
    pub fn not_seen(&self) -> Vec<String> {
        let of_call = |(name, numbers, counts): Row| {
            let never = numbers.iter().filter(move |&&number| counts[number] == 0);
            never.map(move |number| format!("{number} of {name}"))
        };
        let totals = self.totals();
        let of_any = (1..14).filter(|&number| totals[number] == 0).map(|number| format!("{number} of any call"));
        self.rows().flat_map(of_call).chain(of_any).collect()
    }
}
