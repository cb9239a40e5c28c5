//! What a program wrote, and how many operations it ran.

use std::fmt::Display;

use crate::refusal::Refusal;

#[derive(Default)]
pub struct Run {
    pub text: String,
    pub operations: usize,
}

impl Run {
    pub fn line(&mut self, line: impl Display) {
        self.text.push_str(&line.to_string());
        self.text.push('\n');
    }

    /// A line of numbers with single spaces between them.
    pub fn numbers(&mut self, numbers: &[i128]) {
        self.line(spaced(numbers));
    }

    /// A word and numbers.
    pub fn named(&mut self, name: &str, numbers: &[i128]) {
        self.line(named(name, numbers));
    }

    pub fn refused(&mut self, refusal: Refusal) {
        self.line(format!("refused {}", refusal.number()));
    }

    pub fn malformed(&mut self) {
        self.line("malformed");
    }
}

pub fn spaced(numbers: &[i128]) -> String {
    let words: Vec<String> = numbers.iter().map(i128::to_string).collect();
    words.join(" ")
}

/// A word and numbers; the word alone if there are none.
pub fn named(name: &str, numbers: &[i128]) -> String {
    let mut words = vec![name.to_string()];
    words.extend(numbers.iter().map(i128::to_string));
    words.join(" ")
}
