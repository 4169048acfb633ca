//! A case file. Its entries are
//!
//!     parts NAME                takes in the named contents of another file of the folder
//!     define KIND NAME ..       gives contents a name
//!     usual CALL | ..           the arguments that the cases of a call have where they do not say other ones
//!     CALL TITLE | ..           a case: its arguments, the answer, what has then changed
//!
//! where an argument is its name and a description. A description changes what was said of the argument
//! before, unless it begins with a length or a name. After the answer it changes what was given, and all
//! that it does not name must be as it was given.

use crate::answer::answer;
use crate::call::Call;
use crate::calls;
use crate::contents::Contents;
use crate::describe::{Describer, Named};
use crate::entry::{entries, mistake, Clause, Entry, Mistake};
use crate::kind::{Kind, NAMED};
use std::collections::HashMap;
use std::path::Path;

pub struct Case {
    pub line: usize,
    pub call: &'static Call,
    pub title: String,
    /// The cells of each argument before the call, and after it.
    pub given: Vec<Vec<i128>>,
    pub after: Vec<Vec<i128>>,
    /// As the door returns it.
    pub answer: u64,
}

/// The arguments of a call as far as they have been said.
type Said = Vec<Option<Contents>>;

#[derive(Default)]
pub struct Reader {
    named: Named,
    usual: HashMap<&'static str, Said>,
    titles: HashMap<(&'static str, String), usize>,
    pub cases: Vec<Case>,
    /// What is not as it should be, each with its file and line.
    pub mistakes: Vec<String>,
}

impl Reader {
    pub fn read(path: &Path) -> Reader {
        let mut reader = Reader::default();
        reader.take_in(path, Reader::entry);
        if reader.cases.is_empty() {
            reader.report(path, mistake(1, "there is no case in the file"));
        }
        reader
    }

    fn report(&mut self, path: &Path, mistake: Mistake) {
        let Mistake { line, text } = mistake;
        self.mistakes
            .push(format!("{}:{line}: {text}", path.display()));
    }

    fn take_in(
        &mut self,
        path: &Path,
        take: fn(&mut Reader, &Path, &Entry) -> Result<(), Mistake>,
    ) {
        let text = match std::fs::read_to_string(path) {
            Ok(text) => text,
            Err(error) => return self.report(path, mistake(1, error.to_string())),
        };
        let (entries, mistakes) = entries(&text);
        for mistake in mistakes {
            self.report(path, mistake);
        }
        for entry in &entries {
            if let Err(mistake) = take(self, path, entry) {
                self.report(path, mistake);
            }
        }
    }

    fn entry(&mut self, path: &Path, entry: &Entry) -> Result<(), Mistake> {
        let first = &entry.clauses[0];
        match first.words[0].as_str() {
            "parts" => {
                let name = first.word(1, "the name of a file")?;
                first.ends_at(2)?;
                self.take_in(&path.with_file_name(name), Reader::part);
                Ok(())
            }
            "define" => self.define(entry),
            "usual" => self.usual(entry),
            _ => self.case(entry),
        }
    }

    /// An entry of a file of parts.
    fn part(&mut self, _: &Path, entry: &Entry) -> Result<(), Mistake> {
        let first = &entry.clauses[0];
        match first.words[0].as_str() {
            "define" => self.define(entry),
            other => Err(first.unknown(other)),
        }
    }

    fn define(&mut self, entry: &Entry) -> Result<(), Mistake> {
        let first = &entry.clauses[0];
        let kind = first.word(1, "a kind")?;
        let name = first.word(2, "a name")?;
        let found = NAMED.iter().find(|known| known.name == kind);
        let kind = found.ok_or_else(|| first.unknown(kind))?;
        let mut said = None;
        if first.words.len() > 3 {
            self.describe(name, kind, &mut said, first.line, &first.words[3..])?;
        }
        for clause in &entry.clauses[1..] {
            self.describe(name, kind, &mut said, clause.line, &clause.words)?;
        }
        whole(name, kind, said.as_ref(), first.line)?;
        let key = (kind.name, name.to_owned());
        match said.map(|contents| self.named.insert(key, contents)) {
            Some(Some(_)) => Err(first.mistake(format!("'{name}' is defined twice"))),
            _ => Ok(()),
        }
    }

    fn usual(&mut self, entry: &Entry) -> Result<(), Mistake> {
        let first = &entry.clauses[0];
        let name = first.word(1, "a call")?;
        let call = calls::find(name).ok_or_else(|| first.unknown(name))?;
        first.ends_at(2)?;
        let mut said = vec![None; call.arguments.len()];
        let mut clauses = entry.clauses[1..].iter();
        let outcome = clauses.try_for_each(|clause| self.say(call, &mut said, clause));
        self.usual.insert(call.name, said);
        outcome
    }

    fn case(&mut self, entry: &Entry) -> Result<(), Mistake> {
        let (first, clauses) = (&entry.clauses[0], &entry.clauses[1..]);
        let line = first.line;
        let name = &first.words[0];
        let call = calls::find(name).ok_or_else(|| first.unknown(name))?;
        let title = self.title(call, first)?;
        let answer_at = clauses
            .iter()
            .position(|clause| clause.words[0] == "answer");
        let answer_at = answer_at.ok_or_else(|| mistake(line, "the answer is missing"))?;
        let nothing = || vec![None; call.arguments.len()];
        let mut said = self.usual.get(call.name).cloned().unwrap_or_else(nothing);
        for clause in &clauses[..answer_at] {
            self.say(call, &mut said, clause)?;
        }
        let given = all_whole(call, &said, line)?;
        for clause in &clauses[answer_at + 1..] {
            self.say(call, &mut said, clause)?;
        }
        let after = all_whole(call, &said, line)?;
        same_lengths(call, &given, &after, line)?;
        let answer = answer(call, &clauses[answer_at])?;
        self.cases.push(Case {
            line,
            call,
            title,
            given,
            after,
            answer,
        });
        Ok(())
    }

    /// Every case has a title of its own, so that a copy that was to be changed is found.
    fn title(&mut self, call: &'static Call, first: &Clause) -> Result<String, Mistake> {
        first.word(1, "the case's title")?;
        let title = first.words[1..].join(" ");
        match self.titles.insert((call.name, title.clone()), first.line) {
            Some(line) => Err(first.mistake(format!("line {line} has a case of the same title"))),
            None => Ok(title),
        }
    }

    /// Takes in what a clause says of the argument that it begins with.
    fn say(&self, call: &Call, said: &mut Said, clause: &Clause) -> Result<(), Mistake> {
        let name = clause.words[0].as_str();
        let place = call.arguments.iter().position(|known| known.name == name);
        let place = place.ok_or_else(|| clause.unknown(name))?;
        let (kind, said) = (call.arguments[place].kind, &mut said[place]);
        self.describe(name, kind, said, clause.line, &clause.words[1..])
    }

    fn describe(
        &self,
        name: &str,
        kind: &'static Kind,
        said: &mut Option<Contents>,
        line: usize,
        words: &[String],
    ) -> Result<(), Mistake> {
        let named = &self.named;
        let read = Describer { kind, named }.read(said.as_ref(), words);
        *said = Some(read.map_err(|text| mistake(line, format!("{name}: {text}")))?);
        Ok(())
    }
}

/// Every cell of what has been said, none of which may be unsaid.
fn whole(
    name: &str,
    kind: &Kind,
    said: Option<&Contents>,
    line: usize,
) -> Result<Vec<i128>, Mistake> {
    let said = said.ok_or_else(|| mistake(line, format!("{name} is missing")))?;
    let missing = |cell| mistake(line, format!("{name}{} is missing", kind.place(cell)));
    said.said().map_err(missing)
}

fn all_whole(call: &Call, said: &Said, line: usize) -> Result<Vec<Vec<i128>>, Mistake> {
    let arguments = call.arguments.iter().zip(said);
    arguments
        .map(|(argument, said)| whole(argument.name, argument.kind, said.as_ref(), line))
        .collect()
}

fn same_lengths(
    call: &Call,
    given: &[Vec<i128>],
    after: &[Vec<i128>],
    line: usize,
) -> Result<(), Mistake> {
    let mut lengths = call.arguments.iter().zip(given.iter().zip(after));
    match lengths.find(|(_, (given, after))| given.len() != after.len()) {
        Some((argument, (given, after))) => Err(mistake(
            line,
            format!(
                "{}: {} cells are given and {} expected",
                argument.name,
                given.len(),
                after.len()
            ),
        )),
        None => Ok(()),
    }
}
