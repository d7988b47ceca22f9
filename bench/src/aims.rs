//! The aims of change request 2026-09, and what became of them.

use crate::table::{
    Times, COMPARE, COMPARE_EQUAL, COMPARE_RESPELLED, JUDGE, NORMALISE, NORMALISE_BOTH,
    NORMALISE_BOTH_RESPELLED,
};

const OURS: usize = 0;
const RIVAL: usize = 1;
const SECOND: usize = 3;

type Row = (&'static str, Times);

/// A figure of ours, by its name, and what it is to be at most.
struct Aim {
    name: &'static str,
    most: f64,
    /// Of this flavour alone; else of every flavour.
    flavour: Option<&'static str>,
    figure: fn(&Times) -> f64,
}

const fn all(name: &'static str, most: f64, figure: fn(&Times) -> f64) -> Aim {
    Aim { name, most, flavour: None, figure }
}

const fn of(flavour: &'static str, aim: Aim) -> Aim {
    Aim { flavour: Some(flavour), ..aim }
}

fn judge_over_rival(times: &Times) -> f64 {
    times[JUDGE][OURS] / times[JUDGE][RIVAL]
}

fn normalise_over_rival(times: &Times) -> f64 {
    times[NORMALISE][OURS] / times[NORMALISE][RIVAL]
}

/// The last two are four times 0.3 to 0.5 ns a byte, which a normaliser takes that is
/// tuned by hand for wide registers: of the two bounds, 1.2 and 2.0, the higher.
const AIMS: [Aim; 12] = [
    of("mixed orders", all("judge over the rival's", 1.0, judge_over_rival)),
    all("judge over the rival's", 1.5, judge_over_rival),
    of("mixed orders", all("normalise over the rival's", 1.0, normalise_over_rival)),
    all("normalise over the rival's", 1.5, normalise_over_rival),
    all("compare over the two normalises", 1.0, |times| {
        times[COMPARE][OURS] / times[NORMALISE_BOTH][OURS]
    }),
    all("compare respelled over the two normalises", 1.0, |times| {
        times[COMPARE_RESPELLED][OURS] / times[NORMALISE_BOTH_RESPELLED][OURS]
    }),
    all("compare of equal bytes over judge", 1.0, |times| {
        times[COMPARE_EQUAL][OURS] / times[JUDGE][OURS]
    }),
    all("judge over the second's", 1.0, |times| times[JUDGE][OURS] / times[JUDGE][SECOND]),
    all("normalise over the second's", 1.0, |times| {
        times[NORMALISE][OURS] / times[NORMALISE][SECOND]
    }),
    all("compare over the second's", 1.0, |times| times[COMPARE][OURS] / times[COMPARE][SECOND]),
    of("nothing to trim", all("judge, ns a byte", 2.0, |times| times[JUDGE][OURS])),
    of("nothing to trim", all("normalise, ns a byte", 2.0, |times| times[NORMALISE][OURS])),
];

/// The flavour in which the figure is highest, and the figure.
fn highest(aim: &Aim, rows: &[Row]) -> (&'static str, f64) {
    let wanted = |row: &&Row| aim.flavour.map_or(true, |flavour| flavour == row.0);
    let figures = rows.iter().filter(wanted).map(|(name, times)| (*name, (aim.figure)(times)));
    figures.max_by(|one, other| one.1.total_cmp(&other.1)).expect("a flavour of that name")
}

/// Prints each aim, the highest figure, and the flavour that has it.
pub fn print(rows: &[Row]) {
    println!("{:<44}{:>8}{:>8}", "aims", "at most", "is");
    for aim in &AIMS {
        let (flavour, figure) = highest(aim, rows);
        let met = if figure <= aim.most { "" } else { ": not met" };
        println!("{:<44}{:>8.1}{figure:>8.2}  {flavour}{met}", aim.name, aim.most);
    }
}
