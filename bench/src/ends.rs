//! Arguments, inputs and outputs that the program cannot use, and what it says of them.

use std::ffi::OsString;
use std::fs::{self, File};
use std::io;
use std::os::unix::ffi::OsStringExt;
use std::process::Stdio;

use crate::random::Random;
use crate::run::{End, Program};
use crate::session::{escaped, why, TABLE_BYTES};

const USAGE: &str = "usage: clothoid [--stop] [FILE]";

const ROAD: &str = "road C 100 3500 1 usual\n";

/// Compares some ends that are always the same, and arguments drawn at random; what differs, if anything.
pub fn difference(program: &Program, seed: u64) -> io::Result<Option<String>> {
    fs::write("good", ROAD)?;
    fs::write("bad", format!("rows\n{ROAD}set 0 1 1\nrows x\nset 0 2 2\n"))?;
    fs::write("a\nb\u{1b}\"", ROAD)?;
    for fixed in [outputs, tables] {
        if let Some(difference) = fixed(program)? {
            return Ok(Some(difference));
        }
    }
    let mut random = Random::new(seed);
    for _ in 0..200 {
        let count = random.within(0, 4);
        let arguments: Vec<OsString> = (0..count).map(|_| argument(&mut random)).collect();
        let output = program.command(&arguments).output()?;
        let printed = (end(output.status.code(), output.stderr), output.stdout);
        let expected = by_arguments(&arguments);
        let agree = expected.0 == printed.0
            && match &expected.1 {
                Some(answers) => answers.as_bytes() == printed.1,
                None => !printed.1.is_empty(),
            };
        if !agree {
            return Ok(Some(format!(
                "arguments {arguments:?}\nexpected: {expected:?}\nprinted:  {printed:?}"
            )));
        }
    }
    Ok(None)
}

fn end(status: Option<i32>, said: Vec<u8>) -> End {
    End { status, said: String::from_utf8_lossy(&said).into_owned() }
}

fn argument(random: &mut Random) -> OsString {
    let common = ["--stop", "--stop", "good", "good", "bad"];
    let rare = [
        "--help",
        "-h",
        "-",
        "--",
        "-x",
        "--Stop",
        "--stop=1",
        "-\u{1b}\n'\"é",
        "",
        ".",
        "absent",
        "absent\u{1b}\n\t\r\"é",
        "absent\u{9b}",
        "good/x",
        "a\nb\u{1b}\"",
        "./good",
    ];
    match random.within(0, 19) {
        0 => OsString::from_vec(b"good\xff".to_vec()),
        1 => OsString::from_vec(b"-\xff".to_vec()),
        2..=8 => random.pick(&rare).into(),
        _ => random.pick(&common).into(),
    }
}

/// The end that arguments bring about, and the answers, unless those are the help.
fn by_arguments(arguments: &[OsString]) -> (End, Option<String>) {
    let failed =
        |what: String| (End { status: Some(1), said: format!("clothoid: {what}\n") }, Some(String::new()));
    let (mut stop, mut file) = (false, None);
    if arguments.iter().any(|argument| argument.to_str().is_none()) {
        return failed("invalid data".into());
    }
    for argument in arguments.iter().filter_map(|argument| argument.to_str()) {
        match argument {
            "--stop" => stop = true,
            "--help" | "-h" => return (End { status: Some(0), said: String::new() }, None),
            _ if argument.starts_with('-') => {
                return failed(format!("unknown option \"{}\"; {USAGE}", escaped(argument)))
            }
            _ if file.is_some() => return failed(format!("more than one file; {USAGE}")),
            _ => file = Some(argument),
        }
    }
    // Standard input is empty.
    let Some(file) = file else { return (End { status: Some(0), said: String::new() }, Some(String::new())) };
    let input = match File::open(file) {
        Ok(_) => fs::read_to_string(file),
        Err(error) => return failed(format!("cannot open \"{}\": {}", escaped(file), why(error))),
    };
    let input = match input {
        Ok(input) => input,
        Err(error) => return failed(format!("cannot read \"{}\": {}", escaped(file), why(error))),
    };
    let mut session = crate::session::Session::new(stop);
    let answers: String = input
        .split_inclusive('\n')
        .flat_map(|line| session.line(line.as_bytes()))
        .map(|answer| answer + "\n")
        .collect();
    let (status, said) = session.end();
    (End { status: Some(status), said }, Some(answers))
}

/// Outputs that nobody reads or that are full, and an input that is a folder.
fn outputs(program: &Program) -> io::Result<Option<String>> {
    let compared = |what: &str, expected: End, printed: End| {
        (expected != printed).then(|| format!("{what}\nexpected: {expected:?}\nprinted:  {printed:?}"))
    };
    let said = |said: &str| End { status: Some(1), said: said.into() };

    let full = File::options().write(true).open("/dev/full")?;
    let output = program.command(&["good".into()]).stdout(full).output()?;
    let expected = said("clothoid: No space left on device (os error 28)\n");
    let found = compared("a full output", expected, end(output.status.code(), output.stderr));
    if found.is_some() {
        return Ok(found);
    }

    let mut child = program.command(&[]).stdin(Stdio::piped()).spawn()?;
    drop(child.stdout.take());
    let mut pipe = child.stdin.take().ok_or(io::ErrorKind::BrokenPipe)?;
    io::Write::write_all(&mut pipe, ROAD.as_bytes())?;
    drop(pipe);
    let output = child.wait_with_output()?;
    let found = compared("an output that nobody reads", said(""), end(output.status.code(), output.stderr));
    if found.is_some() {
        return Ok(found);
    }

    let output = program.command(&[]).stdin(File::open(".")?).output()?;
    let expected = said("clothoid: cannot read \"standard input\": Is a directory (os error 21)\n");
    Ok(compared("a folder as standard input", expected, end(output.status.code(), output.stderr)))
}

/// Tables of about as many bytes as one may have.
fn tables(program: &Program) -> io::Result<Option<String>> {
    File::create("most")?.set_len(TABLE_BYTES)?;
    File::create("more")?.set_len(TABLE_BYTES + 1)?;
    let input = format!(
        "{ROAD}limit fifth table more table absent\nlimit table absent table most\nlimit table most\nreport\n"
    );
    fs::write("input", &input)?;
    let output = program.command(&["input".into()]).output()?;
    let expected = by_arguments(&["input".into()]);
    let printed = (
        end(output.status.code(), output.stderr),
        Some(String::from_utf8_lossy(&output.stdout).into_owned()),
    );
    fs::remove_file("most")?;
    fs::remove_file("more")?;
    Ok((expected != printed)
        .then(|| format!("the input\n{input}expected: {expected:#?}\nprinted:  {printed:#?}")))
}
