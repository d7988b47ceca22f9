//! The command line:
//! `second judge|judge-by|compare|locate|respell|report|shelf|acknowledge|export|import|
//! answers|generate|cases|selftest`.

use std::fs::{self, File};
use std::io::{self, BufReader, BufWriter, Read, Write};
use std::path::Path;
use std::process::ExitCode;

use second::operations::{self, Numbers};
use second::{
    cases, generator, mailbox, program_lines, report_lines, request_stream, respelling, selftest,
    shelf_lines,
};

const USAGE: &str =
    "usage: second judge [FILE] | judge-by TABLE FILE.. | compare FIRST SECOND .. | \
                     locate SEGMENT ELEMENT REPEAT COMPONENT FILE.. | respell SERVICE FILE.. | \
                     report FILE.. | \
                     shelf SIZE [put FILE | get SLOT | remove SLOT | slots - | sums - | \
                     carry - | back -].. | \
                     acknowledge DATE REFERENCE MESSAGE FILE.. | \
                     export FILE.. | import SERVICE FILE.. | \
                     answers [FILE] | generate SEED COUNT [KINDS] | cases DIR | selftest";

fn main() -> ExitCode {
    let arguments: Vec<String> = std::env::args().skip(1).collect();
    let words: Vec<&str> = arguments.iter().map(String::as_str).collect();
    let done = match words[..] {
        ["judge"] => judge(None),
        ["judge", file] => judge(Some(file)),
        ["judge-by", table, ref files @ ..] => judge_by(table, files),
        ["compare", ref files @ ..] if files.len() % 2 == 0 => compare(files),
        ["locate", segment, element, repeat, component, ref files @ ..] => {
            locate([segment, element, repeat, component], files)
        }
        ["respell", service, ref files @ ..] => respell(service, files),
        ["shelf", size, ref history @ ..] if history.len() % 2 == 0 => shelf(size, history),
        ["report", ref files @ ..] => report(files),
        ["acknowledge", date, reference, message, ref files @ ..] => {
            acknowledge([date, reference, message], files)
        }
        ["export", ref files @ ..] => export(files),
        ["import", service, ref files @ ..] => import(service, files),
        ["answers"] => answers(None),
        ["answers", file] => answers(Some(file)),
        ["generate", seed, count] => generate(seed, count, generator::ALL_KINDS),
        ["generate", seed, count, kinds] => generate(seed, count, kinds),
        ["cases", folder] => write_cases(folder),
        ["selftest"] => run_selftest(),
        _ => Err(fault(USAGE)),
    };
    match done {
        Ok(status) => status,
        Err(error) => {
            eprintln!("second: {error}");
            ExitCode::from(2)
        }
    }
}

fn fault(message: &str) -> io::Error {
    io::Error::new(io::ErrorKind::InvalidInput, message.to_string())
}

/// A file, or standard input.
fn source(file: Option<&str>) -> io::Result<Box<dyn Read>> {
    Ok(match file {
        Some(name) => Box::new(BufReader::new(File::open(name)?)),
        None => Box::new(BufReader::new(io::stdin())),
    })
}

fn judge(file: Option<&str>) -> io::Result<ExitCode> {
    let mut input = Vec::new();
    source(file)?.read_to_end(&mut input)?;
    let answer = operations::judge(&input);
    writeln!(io::stdout(), "{}", report_lines::judge_line(&answer))?;
    Ok(ExitCode::SUCCESS)
}

fn judge_by(table: &str, files: &[&str]) -> io::Result<ExitCode> {
    let table = fs::read(table)?;
    let mut out = BufWriter::new(io::stdout());
    for file in files {
        let answer = operations::judge_by_table(&table, &fs::read(file)?);
        writeln!(out, "{}", report_lines::judge_line(&answer))?;
    }
    out.flush()?;
    Ok(ExitCode::SUCCESS)
}

fn compare(files: &[&str]) -> io::Result<ExitCode> {
    let mut out = BufWriter::new(io::stdout());
    for pair in files.chunks(2) {
        out.write_all(&program_lines::compared_line(&fs::read(pair[0])?, &fs::read(pair[1])?))?;
        out.write_all(b"\n")?;
    }
    out.flush()?;
    Ok(ExitCode::SUCCESS)
}

fn locate(words: [&str; 4], files: &[&str]) -> io::Result<ExitCode> {
    let number = |word: &str| word.parse().map_err(|_| fault("no number"));
    let [segment, element, repeat, component] = words;
    let numbers = Numbers {
        segment: number(segment)?,
        element: number(element)?,
        repeat: number(repeat)?,
        component: number(component)?,
    };
    let mut out = BufWriter::new(io::stdout());
    for file in files {
        out.write_all(&program_lines::located_line(&fs::read(file)?, numbers))?;
        out.write_all(b"\n")?;
    }
    out.flush()?;
    Ok(ExitCode::SUCCESS)
}

fn respell(service: &str, files: &[&str]) -> io::Result<ExitCode> {
    let mut out = BufWriter::new(io::stdout());
    for file in files {
        let lines = respelling::respelled_lines(service.as_bytes(), &fs::read(file)?);
        out.write_all(&lines)?;
    }
    out.flush()?;
    Ok(ExitCode::SUCCESS)
}

fn report(files: &[&str]) -> io::Result<ExitCode> {
    let mut out = BufWriter::new(io::stdout());
    for file in files {
        writeln!(out, "{}", report_lines::report_line(&mailbox::report(&fs::read(file)?)))?;
    }
    out.flush()?;
    Ok(ExitCode::SUCCESS)
}

fn shelf(size: &str, history: &[&str]) -> io::Result<ExitCode> {
    let number = |word: &str| word.parse().map_err(|_| fault("no number"));
    let mut shelf = vec![0; number(size)?];
    let mut out = BufWriter::new(io::stdout());
    out.write_all(&shelf_lines::started_line(&mut shelf))?;
    out.write_all(b"\n")?;
    for step in history.chunks(2) {
        let line = match *step {
            ["put", file] => shelf_lines::put_line(&mut shelf, &fs::read(file)?),
            ["get", slot] => shelf_lines::got_line(&shelf, number(slot)?),
            ["remove", slot] => shelf_lines::removed_line(&mut shelf, number(slot)?),
            ["slots", _] => shelf_lines::slots_line(&shelf),
            ["sums", _] => shelf_lines::sums_line(&shelf),
            ["carry", _] => shelf_lines::carried_line(&mut shelf),
            ["back", _] => shelf_lines::carried_back_line(&mut shelf),
            _ => return Err(fault(USAGE)),
        };
        out.write_all(&line)?;
        out.write_all(b"\n")?;
    }
    out.flush()?;
    Ok(ExitCode::SUCCESS)
}

fn acknowledge(lent: [&str; 3], files: &[&str]) -> io::Result<ExitCode> {
    let [date, reference, message] = lent;
    let mut out = BufWriter::new(io::stdout());
    for file in files {
        let received = fs::read(file)?;
        let line = program_lines::acknowledged_line(&received, date, reference, message);
        out.write_all(&line)?;
        out.write_all(b"\n")?;
    }
    out.flush()?;
    Ok(ExitCode::SUCCESS)
}

fn export(files: &[&str]) -> io::Result<ExitCode> {
    let mut out = BufWriter::new(io::stdout());
    for file in files {
        out.write_all(&program_lines::exported_lines(&fs::read(file)?))?;
    }
    out.flush()?;
    Ok(ExitCode::SUCCESS)
}

fn import(service: &str, files: &[&str]) -> io::Result<ExitCode> {
    let mut out = BufWriter::new(io::stdout());
    for file in files {
        out.write_all(&program_lines::imported_line(service.as_bytes(), &fs::read(file)?))?;
        out.write_all(b"\n")?;
    }
    out.flush()?;
    Ok(ExitCode::SUCCESS)
}

fn answers(file: Option<&str>) -> io::Result<ExitCode> {
    let mut out = BufWriter::new(io::stdout());
    let answered = request_stream::answer_all(&mut source(file)?, &mut out);
    out.flush()?;
    answered.map(|()| ExitCode::SUCCESS)
}

fn generate(seed: &str, count: &str, kinds: &str) -> io::Result<ExitCode> {
    let seed = seed.parse().map_err(|_| fault("SEED is not a number"))?;
    let count = count.parse().map_err(|_| fault("COUNT is not a number"))?;
    if kinds.is_empty() || !kinds.chars().all(|kind| generator::ALL_KINDS.contains(kind)) {
        return Err(fault(&format!("KINDS are letters of {}", generator::ALL_KINDS)));
    }
    let mut out = BufWriter::new(io::stdout());
    generator::generate(seed, count, kinds.as_bytes(), &mut out)?;
    out.flush()?;
    Ok(ExitCode::SUCCESS)
}

fn write_cases(folder: &str) -> io::Result<ExitCode> {
    let disagreements = cases::check_cases();
    for line in &disagreements {
        eprintln!("second: {line}");
    }
    if !disagreements.is_empty() {
        return Ok(ExitCode::FAILURE);
    }
    cases::write_cases(Path::new(folder))?;
    Ok(ExitCode::SUCCESS)
}

fn run_selftest() -> io::Result<ExitCode> {
    match selftest::run() {
        Ok(count) => {
            writeln!(io::stdout(), "selftest {count} ok")?;
            Ok(ExitCode::SUCCESS)
        }
        Err(message) => {
            eprintln!("selftest failed: {message}");
            Ok(ExitCode::FAILURE)
        }
    }
}
