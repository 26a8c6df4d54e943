//! The constants and tables of the header beside the figures of the paper, and its version beside the changes.

use paper::card::{profile, LEAST_LENGTHS};
use paper::minsk::road_of;

pub const HEADER: &str = include_str!("../../../include/pippinterm.h");

/// The changelog, which has a section for each request of document 02 that is in, and says what the version's numbers count.
const CHANGES: &str = include_str!("../../../docs/CHANGES.md");

/// "What a turned-away card or book says", by the trade's word, which the header puts behind `REFUSED`.
/// The constant for 7 stays, though "Number 7 never occurs again" (document 02, Slip 1).
/// Slip 2 has no words for 29 and 30, nor has Slip 4 for 31 and 33, and its "twin name" is the word for 25: these are the header's own.
/// The words for 34 and 35 are what Slip 5 refuses with them. Slip 7 has none for 36 to 38: these are the header's own.
const REFUSALS: [(&str, u32); 29] = [
    ("profile", 1),
    ("terrain", 2),
    ("radius", 3),
    ("clothoid", 4),
    ("full slope", 5),
    ("widening", 6),
    ("narrow shoulder", 7),
    ("added slope", 8),
    ("step", 9),
    ("unit", 10),
    ("short table", 11),
    ("book size", 21),
    ("count line", 22),
    ("contents line", 23),
    ("wrong line", 24),
    ("twin name", 25),
    ("body", 26),
    ("tail", 27),
    ("short list", 28),
    ("many cards", 29),
    ("short replies", 30),
    ("wrong list", 31),
    ("listed twin", 32),
    ("short buffer", 33),
    ("height", 34),
    ("grade", 35),
    ("method", 36),
    ("first stage", 37),
    ("widening place", 38),
];

/// The greatest book: the count line, 64 names of 8 bytes with a blank and the end of the line, the lines 66 to 129 that they name, and
/// 64 bodies of eight numbers of 7 digits and two with a minus besides.
const GREATEST_BOOK: u32 =
    3 + 64 * (8 + 1 + 1) + 34 * 2 + 30 * 3 + 64 * (8 * (7 + 1) + 2 * (1 + 7 + 1));

/// The card, the row by either method, the list, a day's replies, and the sizes; 0 for an accepted card, day, book or list.
const OTHERS: [(&str, u32); 50] = [
    ("accepted", 0),
    ("card profile", 0),
    ("card terrain", 1),
    ("card radius", 2),
    ("card clothoid", 3),
    ("card slope", 4),
    ("card widening", 5),
    ("card step", 6),
    ("card unit", 7),
    ("card mark", 8),
    ("card height", 9),
    ("card grade", 10),
    ("card numbers", 11),
    ("mark relative", 0),
    ("mark absolute", 1),
    ("row station", 0),
    ("row widening", 1),
    ("row inner brow", 2),
    ("row inner edge", 3),
    ("row axis", 4),
    ("row outer edge", 5),
    ("row outer brow", 6),
    ("row numbers", 7),
    ("minsk row station", 0),
    ("minsk row widening", 1),
    ("minsk row axis", 2),
    ("minsk row outer edge", 3),
    ("minsk row outer strip", 4),
    ("minsk row outer brow", 5),
    ("minsk row inner edge", 6),
    ("minsk row inner strip", 7),
    ("minsk row inner brow", 8),
    ("minsk row numbers", 9),
    ("curve name place", 0),
    ("curve name size", 1),
    ("curve card", 2),
    ("curve numbers", 13),
    ("reply reason", 0),
    ("reply count", 1),
    ("reply numbers", 2),
    ("most rows", 300_000 / 1000 + 1),
    ("enough table", 7 * 301),
    ("enough minsk table", 9 * 301),
    ("most cards", 64),
    ("enough day", 64 * 7 * 301),
    ("enough replies", 2 * 64),
    ("most curves", 64),
    ("most bytes", 8192),
    ("least list", 64 * 13),
    ("enough book", GREATEST_BOOK),
];

/// The version's own macros, which are no constants of the papers.
const VERSION: [&str; 6] = [
    "PIPPINTERM_VERSION_MAJOR",
    "PIPPINTERM_VERSION_MINOR",
    "PIPPINTERM_VERSION_PATCH",
    "PIPPINTERM_VERSION_JOINED_",
    "PIPPINTERM_VERSION_JOINED",
    "PIPPINTERM_VERSION",
];

/// The macro of a line, its name and the rest without a comment: whatever stands around the word `define`, the line has one.
fn definition(line: &str) -> Option<(String, String)> {
    let rest = line.split_once("define")?.1.trim_start();
    let end = rest.find(|c: char| c != '_' && !c.is_ascii_alphanumeric());
    let (name, rest) = rest.split_at(end.unwrap_or(rest.len()));
    let (before, comment) = rest.split_once("/*").unwrap_or((rest, ""));
    let after = comment.split_once("*/").map_or("", |(_, after)| after);
    let value = [before, after].concat();
    Some((name.to_string(), value.trim().to_string()))
}

/// The macros of a header but for the version's.
fn constants(header: &str) -> Vec<(String, String)> {
    let macros = header.lines().filter_map(definition);
    macros
        .filter(|(name, _)| !VERSION.contains(&name.as_str()))
        .collect()
}

/// They are the refusals and the others, each with a plain number, and the guard, which has none.
#[test]
fn constants_are_the_papers() {
    let name = |word: &str| format!("PIPPINTERM_{}", word.to_uppercase().replace(' ', "_"));
    let refused = REFUSALS
        .iter()
        .map(|&(word, n)| (name(&format!("refused {word}")), n.to_string()));
    let others = OTHERS.iter().map(|&(word, n)| (name(word), n.to_string()));
    let mut due: Vec<_> = refused.chain(others).collect();
    due.push((name("h"), String::new()));
    let mut there = constants(HEADER);
    there.sort();
    due.sort();
    assert_eq!(there, due);
}

/// No macro is passed over, however it is spelled, but for the six of the version.
#[test]
fn every_macro_is_found() {
    let others = ["PIPPINTERM_X", "X", "PIPPINTERM_VERSION_X"];
    for spelled in ["#define", "# define", "#\tdefine", " #define", "\t# define"] {
        for name in others {
            let line = format!("{spelled} {name}\t5 /* five */");
            assert_eq!(constants(&line), [(name.to_string(), "5".to_string())]);
        }
        let version = VERSION.map(|name| format!("{spelled} {name} 5\n")).concat();
        assert!(constants(&version).is_empty());
    }
}

/// One of the three numbers of the version, as it stands.
fn number_of_version(part: &str) -> String {
    let name = format!("PIPPINTERM_VERSION_{part}");
    let macros = HEADER.lines().filter_map(definition);
    let values: Vec<_> = macros.filter(|(there, _)| *there == name).collect();
    assert_eq!(values.len(), 1, "{name}");
    values[0].1.clone()
}

/// The rule in the changes: 0 and the count of requests that are in, until all thirteen are, which is 1.0; and the last section's is the header's.
#[test]
fn version_is_that_of_the_changes() {
    let version = ["MAJOR", "MINOR", "PATCH"].map(number_of_version).join(".");
    let requests = CHANGES.matches("\n## Slip ").count();
    let due = match requests {
        0..13 => format!("0.{requests}."),
        _ => "1.0.".to_string(),
    };
    assert!(version.starts_with(&due), "{version}, not {due}");
    let (_, last) = CHANGES.rsplit_once("\n## ").expect("a section");
    let lines = last.lines();
    let versions: Vec<_> = lines.filter(|line| line.starts_with("Version ")).collect();
    assert_eq!(versions, [format!("Version {version}.")]);
}

/// The words of the indented lines of the header that have numbers only, or pairs of numbers.
fn figures() -> Vec<Vec<&'static str>> {
    let is_figure = |word: &&str| word.split(':').all(|n| n.parse::<u32>().is_ok());
    let lines = HEADER.lines().filter(|line| line.starts_with("     "));
    let words = lines.map(|line| line.split_whitespace().take_while(is_figure).collect());
    words.filter(|words: &Vec<_>| !words.is_empty()).collect()
}

fn number(word: &str) -> u32 {
    word.parse().expect("a number")
}

#[test]
fn profiles_are_the_papers() {
    let rows = figures().into_iter().filter(|row| !row[0].contains(':'));
    let there: Vec<Vec<u32>> = rows
        .map(|row| row.into_iter().map(number).collect())
        .collect();
    let due = |n| {
        let p = profile(n).expect("a profile");
        let widths = [n, p.half, p.shoulder, p.crown_slope, p.shoulder_slope];
        let least = [p.least_shoulder, p.least_radius];
        [&widths[..], &least, &[p.added_level, p.added_mountain]].concat()
    };
    assert_eq!(there, (1..=5).map(due).collect::<Vec<_>>());
}

/// The lines of the header with the handbook's widths begin with their category.
#[test]
fn widths_of_the_handbook_are_the_papers() {
    let roads = ["II", "III", "IV"];
    let lines = HEADER.lines().filter(|line| line.starts_with("     "));
    let lines = lines.map(|line| line.trim_end_matches("*/").split_whitespace());
    let lines = lines.map(|words| words.collect::<Vec<_>>());
    let there: Vec<_> = lines
        .filter(|words| roads.iter().any(|road| words.first() == Some(road)))
        .collect();
    let due = |(n, road): (u32, &&str)| {
        let w = road_of(n).expect("a road of the handbook");
        let widths = [w.half, w.shoulder, w.strip, w.least_shoulder];
        let mut words = vec![road.to_string()];
        words.extend(widths.iter().map(u32::to_string));
        words
    };
    assert_eq!(there, (1..).zip(&roads).map(due).collect::<Vec<_>>());
}

#[test]
fn least_lengths_are_the_papers() {
    let pairs = figures().into_iter().flatten();
    let pairs = pairs.filter_map(|word| word.split_once(':'));
    let there: Vec<_> = pairs.map(|(r, l)| (number(r), number(l))).collect();
    assert_eq!(there, LEAST_LENGTHS);
}
