//! Counts of the forms that tests have to reach, and their table in print.

use crate::output;
use std::collections::HashMap;

const LINE: usize = 100;

pub struct Counts {
    /// The forms that are wanted, in groups with their titles.
    wanted: Vec<(&'static str, Vec<String>)>,
    reached: HashMap<String, u64>,
}

impl Counts {
    pub fn new(wanted: Vec<(&'static str, Vec<String>)>) -> Counts {
        Counts {
            wanted,
            reached: HashMap::new(),
        }
    }

    pub fn count(&mut self, form: String) {
        self.add(form, 1);
    }

    fn add(&mut self, form: String, count: u64) {
        *self.reached.entry(form).or_default() += count;
    }

    pub fn add_all(&mut self, other: Counts) {
        for (form, count) in other.reached {
            self.add(form, count);
        }
    }

    /// Prints the counts and the forms that were never reached, and says how many
    /// these are.
    pub fn print(&self) -> Result<usize, String> {
        let mut missing = Vec::new();
        for (title, forms) in &self.wanted {
            output::line(format_args!("{title}:"))?;
            let mut line = String::new();
            for form in forms {
                let count = self.reached.get(form).copied().unwrap_or(0);
                let cell = format!("  {form}: {count}");
                if line.len() + cell.len() > LINE {
                    output::line(&line)?;
                    line.clear();
                }
                line += &cell;
                if count == 0 {
                    missing.push(form);
                }
            }
            output::line(&line)?;
        }
        for form in &missing {
            output::line(format_args!("never reached: {form}"))?;
        }
        Ok(missing.len())
    }
}

/// The last line of a command: what was done; and if some forms are missing, that
/// it was not enough. True if none is.
pub fn conclude(done: &str, missing: usize) -> Result<bool, String> {
    let forms = if missing == 1 { "form" } else { "forms" };
    match missing {
        0 => output::line(done)?,
        _ => output::line(format_args!(
            "{done}, but {missing} {forms} never reached: COUNT is too small"
        ))?,
    }
    Ok(missing == 0)
}
