//! Reads the description of what a slice or a number holds.
//!
//!     512 of 00             so many cells, all the same
//!     marked                the contents of that name
//!     at 8 = 7F FF          numbers from a place on
//!     at 0 x 63 = 1 2       the same, 63 times one after another
//!     at 8 every 24 x 21 =  the same, the times beginning 24 cells apart
//!     .. = 03+04            a number that grows by 04 from one time to the next
//!     dot 1                 the cell of a record, by its name
//!     length 511            cut; or longer, by the number that filled it or that follows: length 28 of 7
//!     sync 0 512            7F 7F 7F at each of these places
//!     control 0C 00 ..      C0 to C4, which stand at 3
//!     put other at 8        the contents of another name, from a place on

use crate::contents::{Contents, Item, Run};
use crate::kind::Kind;
use std::collections::HashMap;

const SYNC: i128 = 0x7F;
const SYNC_LENGTH: usize = 3;
const CONTROL_PLACE: usize = 3;
const CONTROL_LENGTH: usize = 5;
/// Longer than any slice of a case; it keeps a slip of the pen from filling the memory.
const LONGEST: usize = 1 << 20;

/// Contents that have been given a name, by their kind and name.
pub type Named = HashMap<(&'static str, String), Contents>;

pub struct Describer<'a> {
    pub kind: &'static Kind,
    pub named: &'a Named,
}

/// The words that are still to be read.
type Words<'a> = std::iter::Peekable<std::slice::Iter<'a, String>>;

fn next<'a>(words: &mut Words<'a>, wanted: &str) -> Result<&'a str, String> {
    let word = words.next().ok_or(format!("{wanted} is missing"))?;
    Ok(word)
}

fn take(words: &mut Words, word: &str) -> bool {
    words.next_if(|next| *next == word).is_some()
}

fn count(words: &mut Words, wanted: &str) -> Result<usize, String> {
    let word = next(words, wanted)?;
    match word.parse() {
        Ok(count) if count <= LONGEST => Ok(count),
        _ => Err(format!("'{word}' is not {wanted}")),
    }
}

impl Describer<'_> {
    /// What the words say, over what was there before.
    pub fn read(&self, before: Option<&Contents>, words: &[String]) -> Result<Contents, String> {
        let mut words = words.iter().peekable();
        if words.peek().is_none() {
            return Err("nothing is said of it".to_owned());
        }
        if self.kind.single {
            return self.single(&mut words);
        }
        let mut contents = self.base(before, &mut words)?;
        let mut said = Vec::new();
        while let Some(word) = words.next() {
            self.change(&mut contents, word, &mut words, &mut said)?;
        }
        Ok(contents)
    }

    fn single(&self, words: &mut Words) -> Result<Contents, String> {
        let value = self.kind.value(next(words, "a number")?)?;
        match words.next() {
            Some(word) => Err(format!("unknown word '{word}'")),
            None => Ok(Contents::filled(1, value)),
        }
    }

    fn base(&self, before: Option<&Contents>, words: &mut Words) -> Result<Contents, String> {
        let first = words.peek().map_or("", |word| word.as_str());
        if let Some(named) = self.find(first) {
            words.next();
            return Ok(named.clone().widened(self.kind.names.len()));
        }
        if first.starts_with(|sign: char| sign.is_ascii_digit()) {
            return self.filled(words);
        }
        match before {
            Some(before) => Ok(before.clone()),
            None if self.kind.names.is_empty() => {
                Err(format!("'{first}' is neither a length nor a known name"))
            }
            None => Ok(Contents::unsaid(self.kind.names.len())),
        }
    }

    fn filled(&self, words: &mut Words) -> Result<Contents, String> {
        let length = count(words, "a number of cells")?;
        if !take(words, "of") {
            return Err("'of' is missing".to_owned());
        }
        let fill = self.kind.value(next(words, "what the cells hold")?)?;
        Ok(Contents::filled(length, fill))
    }

    fn find(&self, name: &str) -> Option<&Contents> {
        let bases = self.kind.bases.iter();
        let mut found = bases.filter_map(|&kind| self.named.get(&(kind, name.to_owned())));
        found.next()
    }

    fn change(
        &self,
        contents: &mut Contents,
        word: &str,
        words: &mut Words,
        said: &mut Vec<usize>,
    ) -> Result<(), String> {
        match word {
            "at" => self.run(contents, words),
            "length" => self.length(contents, words),
            "put" => self.put(contents, words),
            "sync" if self.kind.hexadecimal => self.sync(contents, words),
            "control" if self.kind.hexadecimal => self.control(contents, words),
            _ => self.cell(contents, word, words, said),
        }
    }

    fn run(&self, contents: &mut Contents, words: &mut Words) -> Result<(), String> {
        let place = count(words, "a place")?;
        let every = match take(words, "every") {
            true => Some(count(words, "a number of cells")?),
            false => None,
        };
        let times = match take(words, "x") {
            true => count(words, "a number of times")?,
            false => 1,
        };
        if !take(words, "=") {
            return Err("'=' is missing".to_owned());
        }
        let items = self.items(words)?;
        let every = every.unwrap_or(items.len());
        if times == 0 || every < items.len() {
            return Err("no times, or times that overlap".to_owned());
        }
        let run = Run {
            place,
            every,
            times,
            items,
        };
        contents.put_run(&run, |value| self.kind.checked(value))
    }

    fn length(&self, contents: &mut Contents, words: &mut Words) -> Result<(), String> {
        let length = count(words, "a length")?;
        let more = match take(words, "of") {
            true => Some(self.kind.value(next(words, "what the cells hold")?)?),
            false => None,
        };
        contents.resize(length, more)
    }

    fn put(&self, contents: &mut Contents, words: &mut Words) -> Result<(), String> {
        let name = next(words, "a name")?;
        let named = self.find(name).ok_or(format!("unknown word '{name}'"))?;
        if !take(words, "at") {
            return Err("'at' is missing".to_owned());
        }
        contents.paste(named, count(words, "a place")?)
    }

    fn sync(&self, contents: &mut Contents, words: &mut Words) -> Result<(), String> {
        let mut place = count(words, "a place")?;
        loop {
            for place in place..place + SYNC_LENGTH {
                contents.put(place, SYNC)?;
            }
            match words.peek().is_some_and(|word| word.parse::<u64>().is_ok()) {
                true => place = count(words, "a place")?,
                false => return Ok(()),
            }
        }
    }

    fn control(&self, contents: &mut Contents, words: &mut Words) -> Result<(), String> {
        let items = self.items(words)?;
        if items.len() != CONTROL_LENGTH || items.iter().any(|item| item.step != 0) {
            return Err("control is not five bytes".to_owned());
        }
        let mut bytes = (CONTROL_PLACE..).zip(items);
        bytes.try_for_each(|(place, item)| contents.put(place, item.first))
    }

    fn cell(
        &self,
        contents: &mut Contents,
        name: &str,
        words: &mut Words,
        said: &mut Vec<usize>,
    ) -> Result<(), String> {
        let cell = self.kind.cell(name);
        let cell = cell.ok_or(format!("unknown word '{name}'"))?;
        if said.contains(&cell) {
            return Err(format!("'{name}' is said twice"));
        }
        said.push(cell);
        contents.put(cell, self.kind.value(next(words, "a number")?)?)
    }

    /// One or more, up to the word that is none.
    fn items(&self, words: &mut Words) -> Result<Vec<Item>, String> {
        let mut items = Vec::new();
        while let Some(word) = words.next_if(|word| self.kind.is_item(word)) {
            items.push(self.kind.item(word)?);
        }
        match items.is_empty() {
            true => Err("a number is missing".to_owned()),
            false => Ok(items),
        }
    }
}
