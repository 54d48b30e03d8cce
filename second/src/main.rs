//! `second`: checks, explains and edits sheets, reads and writes them as text, makes
//! them, and counts what they bring up.

use second::edit_stream::{self, parts, Lent, Part};
use second::fields::lines;
use second::make::{edit_cases, full_sheet, sheets, text_cases};
use second::pencil::explained;
use second::print::{answer, fields, length};
use second::rows::says_too_few;
use second::stream::{framed, pieces, Piece};
use second::tally::Tally;
use second::tally_edits::EditTally;
use second::tally_texts::TextTally;
use second::tally_trails::TrailTally;
use second::text_stream::{self, cases, Broken, What};
use std::io::{self, BufWriter, Read, Write};
use std::process::ExitCode;

const USAGE: &str = "usage: second check
       second sheets | make-sheets SEED COUNT | tally-sheets
       second edits | make-edits SEED COUNT | tally-edits
       second texts | make-texts SEED COUNT | tally-texts | fields
       second explain [ID] | make-full SEED INDEX | tally-trails";

fn standard_input() -> io::Result<Vec<u8>> {
    let mut bytes = Vec::new();
    io::stdin().lock().read_to_end(&mut bytes)?;
    Ok(bytes)
}

fn answer_sheet(out: &mut impl Write) -> io::Result<()> {
    write!(out, "{}", answer(&standard_input()?))
}

fn explain(out: &mut impl Write, id: Option<i128>) -> io::Result<()> {
    write!(out, "{}", explained(&standard_input()?, id))
}

fn answer_sheets(out: &mut impl Write) -> io::Result<()> {
    for piece in pieces(&standard_input()?) {
        match piece {
            Piece::Sheet(sheet) => writeln!(out, "{}", answer(sheet))?,
            Piece::Broken => writeln!(out, "broken")?,
        }
    }
    Ok(())
}

fn answer_edits(out: &mut impl Write) -> io::Result<()> {
    let mut lent = Lent::default();
    for part in parts(&standard_input()?) {
        match part {
            Part::Case(case) => lent = case,
            Part::Edit(edit) => {
                write!(out, "{}", length(lent.edit(&edit)))?;
                out.write_all(&lent.buffer)?;
            }
            Part::Broken => writeln!(out, "broken")?,
        }
    }
    Ok(())
}

fn answer_texts(out: &mut impl Write) -> io::Result<()> {
    for case in cases(&standard_input()?) {
        match case {
            Ok(mut case) => {
                write!(out, "{}", length(case.run()))?;
                out.write_all(&case.output)?;
            }
            Err(Broken) => writeln!(out, "broken")?,
        }
    }
    Ok(())
}

/// Of the texts to be read, not of the sheets to be written.
fn fields_of_texts(out: &mut impl Write) -> io::Result<()> {
    for case in cases(&standard_input()?) {
        match case {
            Ok(case) if case.what == What::Read => write!(out, "{}", fields(&lines(&case.input)))?,
            Ok(_) => {}
            Err(Broken) => writeln!(out, "broken")?,
        }
    }
    Ok(())
}

/// The status where the only complaint is that something came up too seldom.
const TOO_FEW: u8 = 3;

/// What there is to complain of, and whether that is nothing.
fn verdict(mut complaints: Vec<String>, broken: bool) -> ExitCode {
    if broken {
        complaints.push("the stream is broken".to_string());
    }
    for complaint in &complaints {
        eprintln!("{complaint}");
    }
    if complaints.is_empty() {
        ExitCode::SUCCESS
    } else if complaints.iter().all(|complaint| says_too_few(complaint)) {
        ExitCode::from(TOO_FEW)
    } else {
        ExitCode::FAILURE
    }
}

fn tally_sheets(out: &mut impl Write) -> io::Result<ExitCode> {
    let tally = Tally::of(&standard_input()?);
    write!(out, "{}", tally.table())?;
    Ok(verdict(tally.complaints(), tally.broken))
}

fn tally_edits(out: &mut impl Write) -> io::Result<ExitCode> {
    let tally = EditTally::of(&standard_input()?);
    write!(out, "{}", tally.table())?;
    Ok(verdict(tally.complaints(), tally.broken))
}

fn tally_texts(out: &mut impl Write) -> io::Result<ExitCode> {
    let tally = TextTally::of(&standard_input()?);
    write!(out, "{}", tally.table())?;
    Ok(verdict(tally.complaints(), tally.broken))
}

fn tally_trails(out: &mut impl Write) -> io::Result<ExitCode> {
    let tally = TrailTally::of(&String::from_utf8_lossy(&standard_input()?));
    write!(out, "{}", tally.table())?;
    Ok(verdict(tally.complaints(), false))
}

/// A stream, or one sheet, made from a seed, piece by piece; none if there is no such
/// command.
fn made(command: &str, seed: &str, number: &str) -> Option<Box<dyn Iterator<Item = Vec<u8>>>> {
    let seed = seed.parse().ok()?;
    if command == "make-full" {
        let sheet = full_sheet(seed, number.parse().ok()?);
        return Some(Box::new(std::iter::once(sheet)));
    }
    let count = number.parse().ok()?;
    Some(match command {
        "make-sheets" => Box::new(sheets(seed).map(|sheet| framed(&sheet)).take(count)),
        "make-edits" => {
            let cases = edit_cases(seed).map(|(lent, edits)| edit_stream::framed(&lent, &edits));
            Box::new(cases.take(count))
        }
        "make-texts" => {
            let cases = text_cases(seed).map(|case| text_stream::framed(&case));
            Box::new(cases.take(count))
        }
        _ => return None,
    })
}

fn make(out: &mut impl Write, words: [&str; 3]) -> io::Result<ExitCode> {
    let [command, seed, number] = words;
    let Some(pieces) = made(command, seed, number) else {
        return Ok(usage());
    };
    for piece in pieces {
        out.write_all(&piece)?;
    }
    Ok(ExitCode::SUCCESS)
}

fn usage() -> ExitCode {
    eprintln!("{USAGE}");
    ExitCode::from(2)
}

fn run(words: &[&str], out: &mut impl Write) -> io::Result<ExitCode> {
    match *words {
        ["check"] => answer_sheet(out)?,
        ["explain"] => explain(out, None)?,
        ["explain", id] => match id.parse() {
            Ok(id) => explain(out, Some(id))?,
            Err(_) => return Ok(usage()),
        },
        ["sheets"] => answer_sheets(out)?,
        ["edits"] => answer_edits(out)?,
        ["texts"] => answer_texts(out)?,
        ["fields"] => fields_of_texts(out)?,
        ["tally-sheets"] => return tally_sheets(out),
        ["tally-edits"] => return tally_edits(out),
        ["tally-texts"] => return tally_texts(out),
        ["tally-trails"] => return tally_trails(out),
        [command, seed, number] => return make(out, [command, seed, number]),
        _ => return Ok(usage()),
    }
    Ok(ExitCode::SUCCESS)
}

fn main() -> io::Result<ExitCode> {
    let words: Vec<String> = std::env::args().skip(1).collect();
    let words: Vec<&str> = words.iter().map(String::as_str).collect();
    let mut out = BufWriter::new(io::stdout().lock());
    let status = run(&words, &mut out)?;
    out.flush()?;
    Ok(status)
}
