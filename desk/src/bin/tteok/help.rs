//! What `--help` prints.

pub const ALL: &str = "\
tteok: rules and plans as text, the judge's answer in a sentence, the plan as a picture

  tteok build TEXT          write a text's words: book.bin, sheet.bin, plan.bin or events.bin
  tteok show FILE           write the text of such words, or of a text
  tteok judge BOOK PLAN     judge a plan, and say what the answer means
  tteok draw PLAN           draw a plan
  tteok say NUMBER A B C    say what a line of the judge means, without its files

tteok VERB --help says more. A file whose name ends in .bin is words; any other is text, in the
language of docs/TEXT.md. Every verdict is the proved library's.

Exit status: 0 accepted or done; 1 refused by number; 2 a wrong call or text.
";

const BUILD: &str = "\
tteok build TEXT [--house HOUSE] [--out FILE]

Reads a book, a sheet, a plan or a list of events as text and writes its words to book.bin,
sheet.bin, plan.bin or events.bin in this folder, or to FILE. With any mistake in the text all of
them are told and nothing is written. HOUSE is for a text that doesn't name its house.
";

const SHOW: &str = "\
tteok show FILE [--house HOUSE]

Writes the text of book.bin, sheet.bin, plan.bin or events.bin, with names from HOUSE, else with
numbers (\"timeline 0\", \"value 1\"). What FILE is, its words say. A text is written in its usual
layout.
";

const JUDGE: &str = "\
tteok judge BOOK PLAN [--house HOUSE] [--svg FILE] [--text] [--from TIME] [--to TIME]

Judges PLAN by BOOK, which is a book or a sheet; both are words (.bin) or text. Prints the judge's
line, then what it means: the names are HOUSE's, or those of the texts. --svg writes a picture to
FILE, --text draws it here; --from and --to say which part of the plan.
";

const DRAW: &str = "\
tteok draw PLAN [--house HOUSE] [--svg FILE] [--text] [--from TIME] [--to TIME]

Draws a plan, words (.bin) or text, without judging it: to FILE with --svg, else here.
";

const SAY: &str = "\
tteok say NUMBER [A [B [C]]] [--house HOUSE]

Says what a line of the judge, the translator or another function means, with no more than the
line to go by.
";

/// The verbs with their options.
pub const VERBS: [(&str, &str, &[&str]); 5] = [
    ("build", BUILD, &["--house", "--out"]),
    ("show", SHOW, &["--house"]),
    ("judge", JUDGE, &["--house", "--svg", "--text", "--from", "--to"]),
    ("draw", DRAW, &["--house", "--svg", "--text", "--from", "--to"]),
    ("say", SAY, &["--house"]),
];

pub fn hint(verb: &str) -> String {
    format!("'tteok {verb} --help' says more")
}
