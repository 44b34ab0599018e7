//! The cases of a list of tests/reference, whose README.md has its form.

use std::collections::HashMap;
use std::str::FromStr;

/// The lines of one case by their tags.
pub struct Case<'a> {
    pub name: &'a str,
    pub lines: HashMap<char, &'a str>,
}

impl<'a> Case<'a> {
    pub fn numbers<T: FromStr>(&self, tag: char) -> Option<Vec<T>> {
        let words = self.lines.get(&tag)?.split_whitespace();
        Some(words.map(|w| w.parse().ok().expect("a number")).collect())
    }

    /// `length past ..`: the entries that are not written hold `past`.
    pub fn row<T: FromStr + Clone>(&self, tag: char) -> Option<Vec<T>> {
        let (length, rest) = self.lines.get(&tag)?.trim_start().split_once(' ').expect("two numbers");
        let words: Vec<T> = rest.split(' ').map(|w| w.parse().ok().expect("a number")).collect();
        let mut row = words[1..].to_vec();
        row.resize(length.parse().expect("a length"), words[0].clone());
        Some(row)
    }

    /// The change count that is given: 7 where the case has none.
    pub fn changes(&self) -> u32 {
        self.numbers('c').map_or(7, |c| c[0])
    }
}

/// One of the lists in tests/reference/lists.
pub fn text(name: &str) -> String {
    let lists = concat!(env!("CARGO_MANIFEST_DIR"), "/../../tests/reference/lists");
    std::fs::read_to_string(format!("{lists}/{name}.txt")).expect("the list")
}

pub fn cases(text: &str) -> Vec<Case<'_>> {
    let (mut cases, mut name, mut lines) = (Vec::new(), "", HashMap::new());
    for line in text.lines() {
        let (tag, rest) = line.split_at(1);
        match tag.chars().next() {
            Some('#') => name = rest,
            Some('z') => assert!(lines.is_empty()),
            Some(tag) => assert!(lines.insert(tag, rest).is_none(), "{line}"),
            None => panic!("an empty line"),
        }
        if tag == "r" {
            cases.push(Case { name, lines: std::mem::take(&mut lines) });
        }
    }
    cases
}
