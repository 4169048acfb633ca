//! The lines of a case file. A line that begins at the margin begins an entry, an indented one goes on with
//! it. The clauses of an entry are its lines, and the parts of a line between bars. What follows a `#` is a
//! comment.

pub struct Clause {
    pub line: usize,
    pub words: Vec<String>,
}

impl Clause {
    pub fn mistake(&self, text: impl Into<String>) -> Mistake {
        mistake(self.line, text)
    }

    pub fn unknown(&self, word: &str) -> Mistake {
        self.mistake(format!("unknown word '{word}'"))
    }

    pub fn word(&self, place: usize, wanted: &str) -> Result<&str, Mistake> {
        let word = self.words.get(place).map(String::as_str);
        word.ok_or_else(|| self.mistake(format!("{wanted} is missing")))
    }

    pub fn ends_at(&self, place: usize) -> Result<(), Mistake> {
        match self.words.get(place) {
            Some(word) => Err(self.unknown(word)),
            None => Ok(()),
        }
    }
}

/// At least one clause, and in each at least one word.
pub struct Entry {
    pub clauses: Vec<Clause>,
}

/// A line that is not as it should be, and why.
pub struct Mistake {
    pub line: usize,
    pub text: String,
}

pub fn mistake(line: usize, text: impl Into<String>) -> Mistake {
    let text = text.into();
    Mistake { line, text }
}

fn clauses(line: usize, text: &str) -> impl Iterator<Item = Clause> + '_ {
    text.split('|').filter_map(move |part| {
        let words: Vec<String> = part.split_whitespace().map(str::to_owned).collect();
        (!words.is_empty()).then_some(Clause { line, words })
    })
}

/// The entries of a text, and a mistake for each line that belongs to none.
pub fn entries(text: &str) -> (Vec<Entry>, Vec<Mistake>) {
    let (mut entries, mut mistakes) = (Vec::<Entry>::new(), Vec::new());
    for (line, text) in (1..).zip(text.lines()) {
        let said = text.split('#').next().unwrap_or_default();
        let mut found = clauses(line, said).peekable();
        if found.peek().is_none() {
            continue;
        }
        if !said.starts_with(char::is_whitespace) {
            let clauses = found.collect();
            entries.push(Entry { clauses });
        } else if let Some(entry) = entries.last_mut() {
            entry.clauses.extend(found);
        } else {
            mistakes.push(mistake(line, "an indented line with no entry above it"));
        }
    }
    (entries, mistakes)
}
