//! What the program was called with.

use crate::help;

/// A call that can't be done: what is said, and exit status 2.
pub struct Wrong(pub String);

impl Wrong {
    pub fn new(says: impl Into<String>) -> Wrong {
        Wrong(says.into())
    }
}

/// Files and options behind a verb.
#[derive(Default)]
pub struct Call {
    pub files: Vec<String>,
    pub house: Option<String>,
    pub out: Option<String>,
    pub svg: Option<String>,
    pub text: bool,
    pub from: Option<u64>,
    pub to: Option<u64>,
}

impl Call {
    /// Reads what stands behind the verb; `options` are those that it has.
    pub fn read(verb: &str, options: &[&str], words: &[String]) -> Result<Call, Wrong> {
        let mut call = Call::default();
        let mut words = words.iter();
        while let Some(word) = words.next() {
            if !word.starts_with("--") {
                call.files.push(word.clone());
                continue;
            }
            if !options.contains(&word.as_str()) {
                let known =
                    if options.is_empty() { "none".to_string() } else { options.join(", ") };
                let says = format!("'{verb}' has no option {word}; its options: {known}");
                return Err(Wrong(format!("{says}\n{}", help::hint(verb))));
            }
            if word == "--text" {
                call.text = true;
                continue;
            }
            let Some(value) = words.next() else {
                return Err(Wrong(format!("{word} needs a word behind it\n{}", help::hint(verb))));
            };
            call.set(word, value)?;
        }
        match (call.from, call.to) {
            (Some(from), Some(to)) if from >= to => {
                Err(Wrong(format!("--from {from} isn't before --to {to}")))
            }
            _ => Ok(call),
        }
    }

    fn set(&mut self, option: &str, value: &str) -> Result<(), Wrong> {
        let time = || {
            let wrong =
                |_| Wrong(format!("{option} needs a time, a whole number; found '{value}'"));
            value.parse::<u64>().map_err(wrong)
        };
        match option {
            "--house" => self.house = Some(value.to_string()),
            "--out" => self.out = Some(value.to_string()),
            "--svg" => self.svg = Some(value.to_string()),
            "--from" => self.from = Some(time()?),
            _ => self.to = Some(time()?),
        }
        Ok(())
    }

    /// The files, if they are as many as the verb takes.
    pub fn exactly<const K: usize>(&self, verb: &str) -> Result<[&str; K], Wrong> {
        let files: Vec<&str> = self.files.iter().map(String::as_str).collect();
        let found = files.len();
        files.try_into().map_err(|_| {
            Wrong(format!(
                "'{verb}' takes {K} files or numbers, found {found}\n{}",
                help::hint(verb)
            ))
        })
    }
}
