//! The numbers of a description.

use crate::contents::Item;
use crate::kind::Kind;

impl Kind {
    /// A number as the kind writes it: two hexadecimal digits, or a decimal number.
    pub fn value(&self, word: &str) -> Result<i128, String> {
        let digits = word.strip_prefix('-').unwrap_or(word);
        let value = match self.hexadecimal {
            true if word.len() == 2 && word.bytes().all(is_hexadecimal) => {
                i128::from_str_radix(word, 16).ok()
            }
            false if digits.bytes().all(|digit| digit.is_ascii_digit()) => word.parse().ok(),
            _ => None,
        };
        self.checked(value.ok_or(format!("'{word}' is not a number"))?)
    }

    pub fn checked(&self, value: i128) -> Result<i128, String> {
        let (least, most) = (self.least, self.most);
        match (least..=most).contains(&value) {
            true => Ok(value),
            false => Err(format!("{value} is out of range: {least} to {most}")),
        }
    }

    /// Whether the word is meant as a number, be it a good one or not.
    pub fn is_item(&self, word: &str) -> bool {
        let digits = word.strip_prefix('-').unwrap_or(word);
        let first = word.split('+').next().unwrap_or(word);
        digits.starts_with(|sign: char| sign.is_ascii_digit()) || self.value(first).is_ok()
    }

    /// A number, or one that grows: `03+04`.
    pub fn item(&self, word: &str) -> Result<Item, String> {
        let (first, step) = match word.split_once('+') {
            Some((first, step)) => (self.value(first)?, self.value(step)?),
            None => (self.value(word)?, 0),
        };
        Ok(Item { first, step })
    }
}

fn is_hexadecimal(digit: u8) -> bool {
    matches!(digit, b'0'..=b'9' | b'A'..=b'F')
}
