//! tteok: the desk's side of the judge. It decides nothing: proved.rs asks the
//! library.

mod call;
mod draw;
mod files;
mod help;
mod judge;
mod proved;
mod texts;

use call::{Call, Wrong};
use std::io::Write;
use std::process::ExitCode;

/// What a verb prints, and whether something was refused by number.
pub struct Done {
    pub says: String,
    pub refused: bool,
}

impl Done {
    pub fn new(says: String) -> Done {
        Done { says, refused: false }
    }
}

fn run(words: &[String]) -> Result<Done, Wrong> {
    let help = |word: &String| word == "--help" || word == "-h" || word == "help";
    let Some((verb, rest)) = words.split_first() else { return Err(Wrong::new(help::ALL)) };
    if help(verb) {
        return Ok(Done::new(help::ALL.to_string()));
    }
    let known = help::VERBS.iter().find(|(name, _, _)| name == verb);
    let Some((name, more, options)) = known else {
        let says = format!("no verb '{verb}'; 'tteok --help' lists them");
        return Err(Wrong(says));
    };
    if rest.iter().any(|word| word == "--help" || word == "-h") {
        return Ok(Done::new(more.to_string()));
    }
    let call = Call::read(name, options, rest)?;
    match *name {
        "build" => texts::build(&call),
        "show" => texts::show(&call),
        "judge" => judge::judge(&call),
        "draw" => draw::draw(&call),
        _ => judge::say(&call),
    }
}

fn main() -> ExitCode {
    let words: Vec<String> =
        std::env::args_os().skip(1).map(|word| word.to_string_lossy().into_owned()).collect();
    // Whoever reads may have gone away; the status still says how it went.
    match run(&words) {
        Ok(done) => {
            let _ = std::io::stdout().write_all(done.says.as_bytes());
            ExitCode::from(u8::from(done.refused))
        }
        Err(Wrong(says)) => {
            let _ = writeln!(std::io::stderr(), "{}", says.trim_end());
            ExitCode::from(2)
        }
    }
}
