//! What stands behind a command on the command line: what the command takes,
//! what was given, and what is said if that is not the same.

use crate::output::visible;

/// One word, or several of a sort.
pub struct Argument {
    /// What stands for it in the usage.
    pub name: &'static str,
    pub expected: Expected,
}

pub enum Expected {
    /// A file, a program.
    Anything,
    /// A number from the first to the last.
    Number(u64, u64),
    OneOf(&'static [&'static str]),
}

/// Something that can be chosen by its name, anywhere behind the command.
pub struct Choice {
    pub name: &'static str,
    pub value: Option<Argument>,
    pub does: &'static str,
}

/// What a command takes. What may be left out stands behind what has to be given,
/// and only the last can be several.
pub enum Takes {
    One(Argument),
    /// It may be left out, and then what stands behind it too.
    Maybe(Argument),
    /// One or more.
    Several(Argument),
    Choice(Choice),
}

/// The words that were given, each with the name of its argument or choice. They
/// are all as expected.
pub struct Given<'a>(Vec<(&'static str, &'a str)>);

impl<'a> Given<'a> {
    pub fn words(&self, name: &str) -> Vec<&'a str> {
        let named = self.0.iter().filter(|(given, _)| *given == name);
        named.map(|(_, word)| *word).collect()
    }

    /// Nothing if it was left out; the last if it was chosen twice.
    pub fn word(&self, name: &str) -> Option<&'a str> {
        self.words(name).last().copied()
    }

    pub fn number(&self, name: &str) -> Option<u64> {
        self.word(name).and_then(number)
    }
}

/// Reads the words behind a command that takes these.
pub fn read<'a>(takes: &[Takes], words: &[&'a str]) -> Result<Given<'a>, String> {
    let mut given = Vec::new();
    let mut count = 0;
    let mut words = words.iter().copied();
    while let Some(word) = words.next() {
        if word.starts_with("--") {
            given.push(read_choice(takes, word, &mut words)?);
        } else {
            let argument = argument(takes, count);
            let argument = argument.ok_or_else(|| too_many(word))?;
            given.push((argument.name, argument.check(word)?));
            count += 1;
        }
    }
    match places(takes).nth(count) {
        Some(Takes::One(argument) | Takes::Several(argument)) => Err(missing(argument)),
        _ => Ok(Given(given)),
    }
}

fn places(takes: &[Takes]) -> impl Iterator<Item = &Takes> {
    let is_place = |takes: &&Takes| !matches!(takes, Takes::Choice(_));
    takes.iter().filter(is_place)
}

pub fn choices(takes: &[Takes]) -> impl Iterator<Item = &Choice> {
    takes.iter().filter_map(|takes| match takes {
        Takes::Choice(choice) => Some(choice),
        _ => None,
    })
}

/// What the next word is, after so many.
fn argument(takes: &[Takes], count: usize) -> Option<&Argument> {
    match (places(takes).nth(count), places(takes).last()) {
        (Some(Takes::One(argument) | Takes::Maybe(argument)), _) => Some(argument),
        (_, Some(Takes::Several(argument))) => Some(argument),
        _ => None,
    }
}

pub fn too_many(word: &str) -> String {
    format!("`{}` is one argument too many", visible(word))
}

fn missing(argument: &Argument) -> String {
    format!("{} is missing", argument.name)
}

/// The choice of this name, with its value if it has one: the next word.
fn read_choice<'a>(
    takes: &[Takes],
    name: &'a str,
    words: &mut impl Iterator<Item = &'a str>,
) -> Result<(&'static str, &'a str), String> {
    let choice = choices(takes).find(|choice| choice.name == name);
    let choice = choice.ok_or_else(|| {
        let expected = expected_choices(takes);
        format!("option `{}`: {expected}", visible(name))
    })?;
    let Some(argument) = &choice.value else {
        return Ok((choice.name, name));
    };
    let value = match words.next() {
        Some(word) => argument.check(word),
        None => Err(missing(argument)),
    };
    let value = value.map_err(|error| format!("{name}: {error}"))?;
    Ok((choice.name, value))
}

fn expected_choices(takes: &[Takes]) -> String {
    let names: Vec<&str> = choices(takes).map(|choice| choice.name).collect();
    match names.is_empty() {
        true => "expected none".to_string(),
        false => format!("expected {}", names.join(" or ")),
    }
}

impl Argument {
    /// The word, if it is what is expected.
    fn check<'a>(&self, word: &'a str) -> Result<&'a str, String> {
        let (is_right, expected) = match self.expected {
            Expected::Anything => (true, String::new()),
            Expected::Number(first, last) => (
                number(word).is_some_and(|number| (first..=last).contains(&number)),
                format!("a number from {first} to {last}"),
            ),
            Expected::OneOf(words) => (words.contains(&word), words.join(" or ")),
        };
        match is_right {
            true => Ok(word),
            false => {
                let (name, word) = (self.name, visible(word));
                Err(format!("{name} `{word}`: expected {expected}"))
            }
        }
    }
}

/// In digits alone.
fn number(word: &str) -> Option<u64> {
    let in_digits = word.bytes().all(|byte| byte.is_ascii_digit());
    word.parse().ok().filter(|_| in_digits)
}
