//! The name that was meant, where a word is none: the usual slips of the keyboard.

/// So many slips can lie between a word and the name that was meant.
const SLIPS: usize = 2;
/// Longer words are not near to any name.
const LONGEST: usize = 20;

/// The name that a word is nearly, in small or capital letters, if there is one;
/// the first of those that are as near.
pub fn nearest<'a>(word: &str, names: impl Iterator<Item = &'a str>) -> Option<&'a str> {
    let letters: Vec<char> = word.to_lowercase().chars().take(LONGEST).collect();
    let distances = names.map(|name| (distance(name, &letters), name));
    let (distance, name) = distances.min_by_key(|(distance, _)| *distance)?;
    (distance <= SLIPS && distance < letters.len()).then_some(name)
}

/// How many letters have to be put in, left out or replaced to make one word of
/// the other.
fn distance(from: &str, to: &[char]) -> usize {
    // The distances of what is read of `from` to each beginning of `to`.
    let mut distances: Vec<usize> = (0..=to.len()).collect();
    for (place, letter) in from.chars().enumerate() {
        let mut replaced = distances[0];
        distances[0] = place + 1;
        for end in 1..=to.len() {
            let change = replaced + usize::from(to[end - 1] != letter);
            replaced = distances[end];
            distances[end] = change.min(replaced + 1).min(distances[end - 1] + 1);
        }
    }
    distances[to.len()]
}
