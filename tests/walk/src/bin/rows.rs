//! `rows CASES OUTDIR [LINE...]` writes the cases of the file CASES (see `walk::case`) as antt
//! modules, in which the definitions are asked for the same answers by computation.
//!
//! Without a line, all cases go to the crates OUTDIR/cases_a and OUTDIR/cases_b, in batches, each
//! batch one theorem: none of its cases fails. With lines, the cases that stand there go to the
//! crates OUTDIR/single_a and OUTDIR/single_b, each case a theorem of its own, whose error shows
//! what the definition gives. The modules use `Encode` of a crate `encode`.

use std::fs::{create_dir_all, read_to_string, write};
use std::path::Path;
use std::process::ExitCode;

/// Of many cases in one theorem, what they have in common is computed once.
const BATCH: usize = 100;

/// Cases in a module that has a theorem for each.
const SINGLE: usize = 25;

/// As many of one number are a long run.
const LONG: usize = 16;

fn main() -> ExitCode {
    let arguments: Vec<String> = std::env::args().skip(1).collect();
    let [cases, directory, lines @ ..] = &arguments[..] else {
        eprintln!("usage: rows CASES OUTDIR [LINE...]");
        return ExitCode::from(2);
    };
    let Ok(lines) = lines.iter().map(|word| word.parse()).collect() else {
        eprintln!("a LINE is a number");
        return ExitCode::from(2);
    };
    match save(Path::new(cases), Path::new(directory), lines) {
        Ok(()) => ExitCode::SUCCESS,
        Err(error) => {
            eprintln!("rows: {error}");
            ExitCode::FAILURE
        }
    }
}

fn save(cases: &Path, directory: &Path, lines: Vec<usize>) -> std::io::Result<()> {
    let text = read_to_string(cases)?;
    let rows: Vec<Row> = (1..).zip(text.lines()).map(row).collect();
    let (name, modules): (&str, Vec<Module>) = if lines.is_empty() {
        let batches = (1..).zip(rows.chunks(BATCH));
        ("cases", batches.map(one_theorem).collect())
    } else {
        let wanted = rows.into_iter().filter(|row| lines.contains(&row.line));
        let wanted: Vec<Row> = wanted.collect();
        let batches = (1..).zip(wanted.chunks(SINGLE));
        ("single", batches.map(single_theorems).collect())
    };
    // Two crates, for two processors.
    for (place, letter) in ["a", "b"].into_iter().enumerate() {
        let own = modules.iter().skip(place).step_by(2);
        save_crate(&directory.join(format!("{name}_{letter}")), own)?;
    }
    Ok(())
}

/// A module of antt.
struct Module {
    name: String,
    text: String,
}

/// A case as a term of antt.
struct Row {
    line: usize,
    term: String,
}

/// A crate of modules without code.
fn save_crate<'a>(
    directory: &Path,
    modules: impl Iterator<Item = &'a Module>,
) -> std::io::Result<()> {
    let (specs, source) = (directory.join("specs"), directory.join("src"));
    create_dir_all(&specs)?;
    create_dir_all(&source)?;
    write(source.join("lib.rt"), "")?;
    let mut root = String::new();
    for Module { name, text } in modules {
        root += &format!("pub mod {name}\n");
        write(specs.join(format!("{name}.antt")), text)?;
    }
    write(specs.join("Lib.antt"), root)
}

/// A batch as one theorem.
fn one_theorem((number, rows): (usize, &[Row])) -> Module {
    let mut text = heading("failing");
    text += "\nrows : List Case\nrows =\n";
    for row in rows {
        text += &format!("    {} ∷\n", row.term);
    }
    text += "    []\n\nagrees : failing rows ≡ []\nunfolding failing rows\nagrees = refl\n";
    let name = format!("Batch{number:03}");
    Module { name, text }
}

/// A batch with a theorem for each case.
fn single_theorems((number, rows): (usize, &[Row])) -> Module {
    let mut text = heading("otherwise");
    for Row { line, term } in rows {
        text += &format!("\nrow{line} : Case\nrow{line} = {term}\n\n");
        text += &format!("line{line} : otherwise row{line} ≡ []\n");
        text += &format!("unfolding otherwise row{line}\nline{line} = refl\n");
    }
    let name = format!("Single{number:03}");
    Module { name, text }
}

fn heading(used: &str) -> String {
    format!(
        "use Rattle.std.specs.Prelude.{{◌≡◌, refl, List, [], ◌∷◌, ℕ}}\n\
         use Rattle.encode.specs.Encode.{{Case, case, run, {used}}}\n"
    )
}

/// `case LINE CALL ARGUMENTS EXPECTED`.
fn row((line, text): (usize, &str)) -> Row {
    let fields: Vec<&str> = text.split('|').collect();
    let [call, arguments, expected] = fields[..] else {
        panic!("line {line} is no case");
    };
    let arguments: String = arguments
        .split(';')
        .map(|list| numbers(list) + " ∷ ")
        .collect();
    let (call, expected) = (call.trim(), numbers(expected));
    let term = format!("case {line} {call} ({arguments}[]) {expected}");
    Row { line, term }
}

/// A list of numbers; a long run of one number is written as such.
fn numbers(text: &str) -> String {
    let numbers: Vec<&str> = text.split_whitespace().collect();
    let (mut terms, mut brackets) = (String::new(), String::new());
    for run in numbers.chunk_by(|one, next| one == next) {
        if run.len() < LONG {
            terms.extend(run.iter().map(|number| format!("{number} ∷ ")));
        } else {
            terms += &format!("run {} {} (", run.len(), run[0]);
            brackets += ")";
        }
    }
    if terms.is_empty() {
        return "[]".to_string();
    }
    format!("({terms}[]{brackets})")
}
