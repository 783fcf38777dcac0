//! Writes the example folders. make-examples <folder>
//!
//! Each has the input files, `line` with the line of numbers that judging them
//! gives, and `what.txt` with what it shows. Those of narrowing have `ask`, the
//! alternative and the words of the table, and `leaves`, what is printed.
//! times of an alternative: `alternative` has its number, `earliest` the line
//! with the times behind it, and `forecast` what that program prints.

use second::generate::draft::{alternative, plan_with_jobs, plan_words, Draft, NO_TRIGGER};
use second::generate::load;
use second::layout::{Answer, Kind, N};
use second::specimens::{with, E, E_SHEET, P1, P2};
use second::words::to_bytes;
use second::{earliest, judge, judge_sheet, narrow};
use std::path::Path;
use std::{fs, io, process};

struct Example {
    folder: &'static str,
    /// Whether the first file is a sheet.
    sheet: bool,
    book: Vec<u32>,
    plan: Vec<u32>,
    expected: Answer,
    what: &'static str,
}

/// E judging some plan.
fn e(folder: &'static str, plan: Vec<u32>, expected: Answer, what: &'static str) -> Example {
    Example { folder, sheet: false, book: E.to_vec(), plan, expected, what }
}

/// Some book judging P2.
fn p2(folder: &'static str, book: Vec<u32>, expected: Answer, what: &'static str) -> Example {
    Example { folder, sheet: false, book, plan: P2.to_vec(), expected, what }
}

fn sheet(folder: &'static str, plan: &[u32], expected: Answer, what: &'static str) -> Example {
    let (book, plan) = (E_SHEET.to_vec(), plan.to_vec());
    Example { folder, sheet: true, book, plan, expected, what }
}

fn deepest() -> [Example; 2] {
    let ((book, plan), (sheet, long_trigger)) = (load::deepest(), load::deepest_sheet());
    [
        Example {
            folder: "deepest",
            sheet: false,
            book,
            plan,
            expected: [12, 0, 0, 0],
            what: "Four names whose only tokens stand last on full lines: \
                   the search in a book goes as deep as it can.",
        },
        Example {
            folder: "deepest-sheet",
            sheet: true,
            book: sheet,
            plan: long_trigger,
            expected: [12, 0, 0, 0],
            what: "Four names that stand first or last on full lines, and a set that no order settles: \
                   the search in a sheet, and the translator, go as deep as they can.",
        },
    ]
}

/// An alternative asked for, with its line and what the forecast prints.
struct Asked {
    folder: &'static str,
    alternative: u32,
    line: &'static str,
    forecast: &'static str,
}

const ASKED: [Asked; 3] = [
    Asked { folder: "accepted", alternative: 0, line: "0 1 0 0 0 5 0 5 5", forecast: "" },
    Asked { folder: "fault-27-book", alternative: 1, line: "27 0 0 0", forecast: "" },
    Asked {
        folder: "hopeless",
        alternative: 0,
        line: "0 0 0 0",
        forecast: "rule 0 alternative 0\n",
    },
];

/// The second of two tokens starts at least 40 and at most 30 after the first.
fn hopeless() -> Example {
    let mut draft = Draft::new(Kind::Book, vec![vec![[1, N, 1]]]);
    let both: [&[u32]; 2] = [&[0, 1, 0, 2, 40, N], &[0, 1, 0, 2, 0, 30]];
    draft.rule(NO_TRIGGER, vec![alternative(&[[0, 0]; 2], &both)]);
    Example {
        folder: "hopeless",
        sheet: false,
        book: draft.words(),
        plan: plan_words(&vec![vec![[0, 45], [0, 5]]]),
        expected: [12, 0, 0, 0],
        what: "\"At least 40 after\" and \"at most 30 after\" in one alternative: no day could meet it, \
               and the program forecast says so without any plan.",
    }
}

/// Bundles on one line, and the rule that each ends 20 or more before the plan.
fn late_bundle() -> Example {
    let mut draft = Draft::new(Kind::Book, vec![vec![[1, N, 3]; 2]]);
    draft.rule([0, 1], vec![alternative(&[], &[&[1, 0, 3, 0, 20, N]])]);
    Example {
        folder: "late-bundle",
        sheet: false,
        book: draft.words(),
        plan: plan_words(&vec![vec![[1, 30], [0, 10], [1, 30], [0, 19]]]),
        expected: [12, 0, 2, 0],
        what: "\"Last bundle at least 20 before the end\": trucks leave when the plan ends, at 89, and the last \
               bundle, token 2, ends at 70, one tick too late.",
    }
}

/// Line 0 has the proofs (value 1), line 1 the print runs (value 1), and a run
/// needs a proof of its job before it. The proof is of job 7, the run of job 9.
fn job_mix_up() -> [Example; 2] {
    let mut draft = Draft::new(Kind::Book, vec![vec![[1, N, 3]; 2]; 2]);
    let atoms: [&[u32]; 2] = [&[4, 0, 4, 1, 0, 0], &[1, 1, 0, 0, 0, N]];
    draft.rule([1, 1], vec![alternative(&[[0, 1]], &atoms)]);
    let lines = vec![vec![[1, 20], [0, 60]], vec![[0, 30], [1, 50]]];
    let example = |folder, plan, expected, what| Example {
        folder,
        sheet: false,
        book: draft.words(),
        plan,
        expected,
        what,
    };
    [
        example(
            "job-mix-up",
            plan_with_jobs(&lines, &[vec![7, 0], vec![0, 9]]),
            [12, 0, 1, 0],
            "A print run of job 9, token 1 of the press, stands behind the proof sheet of another client's job 7. \
             The plan is of edition 2, so the jobs are known and the rule isn't met.",
        ),
        example(
            "job-mix-up-edition-1",
            plan_words(&lines),
            [0, 1, 0, 0],
            "The same plan in edition 1, which has no jobs: all count as job 0, and the mix-up is let through.",
        ),
    ]
}

/// The words with one more at the end, the total being right.
fn one_more(words: &[u32]) -> Vec<u32> {
    let mut out = words.to_vec();
    out.push(0);
    out[1] = out.len() as u32;
    out
}

fn all() -> Vec<Example> {
    let mut list = vec![
        e(
            "accepted",
            P2.to_vec(),
            [0, 2, 0, 0],
            "Both UTF-8 jobs run while the decoder reads UTF-8, so the plan is accepted.",
        ),
        e(
            "misspelt",
            P1.to_vec(),
            [12, 0, 3, 0],
            "The second UTF-8 job, token 3 of the RIP, runs while the decoder reads Latin-1; \
             this plan spelled a name wrong.",
        ),
        p2(
            "fault-01",
            E[..13].to_vec(),
            [1, 0, 0, 0],
            "The book has 13 words, one less than its header needs.",
        ),
        p2(
            "fault-02",
            with(&E, 1, 51),
            [2, 1, 0, 0],
            "Word 1 of the book says 51 words in all, but it has 52.",
        ),
        p2("fault-03", one_more(&E), [3, 0, 0, 0], "The book has one word more than its tables."),
        p2(
            "fault-04",
            with(&E, 27, 61),
            [4, 1, 3, 1],
            "Word 1 of the last value record, 3 of table 1: the greatest duration is below the least.",
        ),
        e(
            "fault-05",
            P2[..6].to_vec(),
            [5, 0, 0, 0],
            "The plan has 6 words, too few for two timelines.",
        ),
        e(
            "fault-06",
            with(&P2, 5, 3),
            [6, 5, 0, 0],
            "Word 5 of the plan begins timeline 1 at token 3, but timeline 0 has two tokens.",
        ),
        e("fault-07", one_more(&P2), [7, 0, 0, 0], "The plan has one word more than its tokens."),
        e(
            "fault-08",
            with(&P2, 9, 2),
            [8, 0, 1, 0],
            "Token 1 of the decoder has value 2, but the decoder has only values 0 and 1.",
        ),
        e(
            "fault-09",
            with(&P2, 14, 61),
            [9, 1, 1, 0],
            "Token 1 of the RIP is a job of 61 ticks, but a job lasts 5 to 60.",
        ),
        e(
            "fault-10",
            with(&P2, 9, 0),
            [10, 0, 1, 0],
            "Token 1 of the decoder is Latin-1 again, but only UTF-8 may follow Latin-1.",
        ),
        e(
            "fault-11",
            with(&P2, 10, 999_999_991),
            [11, 0, 1, 0],
            "Token 1 of the decoder ends one tick after the last.",
        ),
        e(
            "fault-18",
            with(&P2, 14, 5),
            [18, 1, 0, 0],
            "Timeline 1, the RIP's, ends at tick 35, but timeline 0, the decoder's, ends at 50.",
        ),
        p2(
            "fault-27-book",
            E.to_vec(),
            [0, 2, 0, 0],
            "The book has one alternative, number 0; asked for the times of number 1, the answer is 27 0 0 0.",
        ),
        hopeless(),
        late_bundle(),
        sheet(
            "sheet",
            &P1,
            [12, 0, 3, 0],
            "The same rule as a sheet refuses the misspelt plan; \
             translating it prints 0 106 4 0, and the book it makes gives the same line.",
        ),
        sheet(
            "sheet-accepted",
            &P2,
            [0, 2, 0, 0],
            "The same rule as a sheet accepts the plan; \
             translating it prints 0 106 4 0, and the book it makes gives the same line.",
        ),
    ];
    list.extend(job_mix_up());
    list.extend(deepest());
    list.push(Example {
        folder: "largest-sheet",
        sheet: true,
        book: load::largest_sheet(),
        plan: load::largest_sheet_plan(),
        expected: [0, 68, 0, 0],
        what: "A sheet whose translation has 16,384 words, the most there may be: it prints 0 16384 888 0.",
    });
    list
}

fn write(root: &Path, example: &Example) -> io::Result<()> {
    let folder = root.join(example.folder);
    fs::create_dir_all(&folder)?;
    let book = if example.sheet { "sheet.bin" } else { "book.bin" };
    fs::write(folder.join(book), to_bytes(&example.book))?;
    fs::write(folder.join("plan.bin"), to_bytes(&example.plan))?;
    let [number, a, b, c] = example.expected;
    fs::write(folder.join("line"), format!("{number} {a} {b} {c}\n"))?;
    fs::write(folder.join("what.txt"), format!("{}\n", example.what))
}

struct Narrowed {
    folder: &'static str,
    sheet: Vec<u32>,
    alternative: u32,
    room: usize,
    leaves: &'static str,
    what: &'static str,
}

fn narrowed() -> Vec<Narrowed> {
    let before = vec![
        2, 39, 1, 14, 1, 16, 1, 19, 1, 23, 3, 27, 2, 33, 0, 1, 1, N, 1, N, 0, 0, 1, 0, 3, 0, 2, 0,
        0, 0, 0, 0, 0, 1, 2, 1, 2, 3, 1,
    ];
    vec![
        Narrowed {
            folder: "follows",
            sheet: before,
            alternative: 0,
            room: 10,
            leaves: "0 0 0 0\n64 1 1 4096 64 1 4096 4096 64 9\n",
            what: "Name 1 is before 2 and 2 before 3: that 1 is before 3 follows. \
                   The word behind the table of nine stays.",
        },
        Narrowed {
            folder: "fault-25",
            sheet: E_SHEET.to_vec(),
            alternative: 0,
            room: 3,
            leaves: "25 0 0 0\n9 9 9\n",
            what: "The alternative has two tokens, and the table lent for them three words, \
                   one too few. They stay.",
        },
        Narrowed {
            folder: "fault-27",
            sheet: E_SHEET.to_vec(),
            alternative: 1,
            room: 4,
            leaves: "27 0 0 0\n9 9 9 9\n",
            what: "The sheet has one alternative, number 0, and number 1 was asked for.",
        },
    ]
}

fn write_narrowed(root: &Path, example: &Narrowed) -> io::Result<()> {
    let mut table = vec![9; example.room];
    let [number, a, b, c] = narrow(&example.sheet, example.alternative, &mut table);
    let words: Vec<String> = table.iter().map(u32::to_string).collect();
    let leaves = format!("{number} {a} {b} {c}\n{}\n", words.join(" "));
    assert_eq!(leaves, example.leaves, "{}", example.folder);
    let folder = root.join(example.folder);
    fs::create_dir_all(&folder)?;
    fs::write(folder.join("sheet.bin"), to_bytes(&example.sheet))?;
    fs::write(folder.join("ask"), format!("{} {}\n", example.alternative, example.room))?;
    fs::write(folder.join("leaves"), leaves)?;
    fs::write(folder.join("what.txt"), format!("{}\n", example.what))
}

/// What is asked of the example's book, after its line was seen to be right.
fn write_asked(root: &Path, example: &Example, asked: &Asked) -> io::Result<()> {
    let mut times = [u64::MAX; 11];
    let [number, a, b, c] = earliest(&example.book, asked.alternative, &mut times);
    let mut line = format!("{number} {a} {b} {c}");
    times.iter().filter(|&&t| t != u64::MAX).for_each(|t| line += &format!(" {t}"));
    assert_eq!(line, asked.line, "{}", asked.folder);
    let folder = root.join(asked.folder);
    fs::write(folder.join("alternative"), format!("{}\n", asked.alternative))?;
    fs::write(folder.join("earliest"), format!("{line}\n"))?;
    fs::write(folder.join("forecast"), asked.forecast)
}

fn main() {
    let Some(root) = std::env::args_os().nth(1) else {
        eprintln!("usage: make-examples <folder>");
        process::exit(2);
    };
    for example in all() {
        let judge = if example.sheet { judge_sheet } else { judge };
        let answer = judge(&example.book, &example.plan);
        assert_eq!(answer, example.expected, "{}", example.folder);
        let root = Path::new(&root);
        let mut asked = ASKED.iter().filter(|asked| asked.folder == example.folder);
        let done = write(root, &example)
            .and_then(|()| asked.try_for_each(|asked| write_asked(root, &example, asked)));
        if let Err(error) = done {
            eprintln!("{}: {error}", example.folder);
            process::exit(1);
        }
    }
    for example in narrowed() {
        if let Err(error) = write_narrowed(Path::new(&root), &example) {
            eprintln!("{}: {error}", example.folder);
            process::exit(1);
        }
    }
}
