//! The usage in print, made of the table of commands.

use crate::commands::arguments::{choices, Choice, Takes};
use crate::commands::{all, Command, GROUPS};

const WIDTH: usize = 80;
/// Where it stands what a command does.
const COLUMN: usize = 33;

const START: &str = "\
second: the second program, written from the papers alone, to be run beside the
proved one. Usage:
";

const END: &str = "\
second --help prints this, and second --help COMMAND the part of one command.

The exit status is 0 if all is well; 1 if a difference was found, or something
that has to be reached was not; 2 if there is an error: a bad argument, a broken
or missing scenario, a program that cannot be run or does not end.
";

/// All the commands.
pub fn whole() -> String {
    let mut text = START.to_string();
    for (title, commands) in GROUPS {
        text += &format!("\n{title}\n");
        text.extend(commands.iter().map(part));
    }
    text += "\nOptions\n";
    let mut options: Vec<String> = all().flat_map(option_parts).collect();
    options.sort();
    options.dedup();
    text.extend(options);
    format!("{text}\n{END}")
}

/// One command, with its options.
pub fn of(command: &Command) -> String {
    [part(command)]
        .into_iter()
        .chain(option_parts(command))
        .collect()
}

fn part(command: &Command) -> String {
    let mut head = format!("second {}{}", command.name, places(command.takes));
    for choice in choices(command.takes) {
        head += &format!(" [{}]", choice_head(choice));
    }
    if !command.streams.is_empty() {
        head += &format!(" {}", command.streams);
    }
    in_columns(&head, command.does)
}

/// What may be left out holds what stands behind it.
fn places(takes: &[Takes]) -> String {
    let Some((first, rest)) = takes.split_first() else {
        return String::new();
    };
    let rest = places(rest);
    match first {
        Takes::One(argument) => format!(" {}{rest}", argument.name),
        Takes::Maybe(argument) => format!(" [{}{rest}]", argument.name),
        Takes::Several(argument) => format!(" {}...{rest}", argument.name),
        Takes::Choice(_) => rest,
    }
}

fn option_parts(command: &Command) -> impl Iterator<Item = String> + use<'_> {
    choices(command.takes).map(|choice| in_columns(&choice_head(choice), choice.does))
}

fn choice_head(choice: &Choice) -> String {
    match &choice.value {
        Some(value) => format!("{} {}", choice.name, value.name),
        None => choice.name.to_string(),
    }
}

/// The text beside its head, or below where there is no room.
fn in_columns(head: &str, text: &str) -> String {
    let mut lines = vec![format!("  {head}")];
    if lines[0].len() >= COLUMN {
        lines.push(String::new());
    }
    for word in text.split(' ') {
        let line = lines.last_mut().expect("there is one");
        if line.len() < COLUMN {
            *line = format!("{line:COLUMN$}{word}");
        } else if line.len() + 1 + word.len() > WIDTH {
            lines.push(format!("{:COLUMN$}{word}", ""));
        } else {
            *line += &format!(" {word}");
        }
    }
    lines.join("\n") + "\n"
}
