//! Runs the real program on series of commands drawn at random, and compares all that it prints with the library's.

use std::collections::BTreeMap;
use std::error::Error;
use std::fs;
use std::process::ExitCode;

use second::ends;
use second::random::Random;
use second::run::{first_difference, By, Difference, Program, Start};
use second::series::{Input, Writer};

const USAGE: &str = "agree [--series COUNT] [--seed SEED] [--no-fit] [--tally] [PROGRAM]";

/// The series of one input, where the program does not stop.
const BATCH: u64 = 50;

/// How many of a hundred series are run with `--stop`, each as an input of its own.
const STOP: u64 = 20;

struct Options {
    program: String,
    series: u64,
    seed: u64,
    fits: bool,
    tally: bool,
}

/// What has agreed.
#[derive(Default)]
struct Agreed {
    series: u64,
    /// Those of the series that were run with `--stop`.
    stopping: u64,
    inputs: u64,
    lines: u64,
    answers: u64,
    tally: BTreeMap<String, u64>,
}

fn main() -> Result<ExitCode, Box<dyn Error>> {
    let options = options()?;
    let program = Program::new(&options.program, "agree")?;
    if let Some(difference) = ends::difference(&program, options.seed)? {
        println!("the program's end differs: {difference}\nits folder is {}", program.folder().display());
        return Ok(ExitCode::FAILURE);
    }
    let mut random = Random::new(options.seed.wrapping_mul(1_000_003));
    let mut writers = 0;
    let mut writer = |random: &mut Random, stop: bool| {
        writers += 1;
        Writer::new(random.draw(), format!("t{writers}"), stop, options.fits)
    };
    let mut batch = writer(&mut random, false);
    let mut agreed = Agreed::default();
    for drawn in 1..=options.series {
        let mut ready = Vec::new();
        if random.chance(STOP) {
            let mut alone = writer(&mut random, true);
            alone.series()?;
            ready.push(alone);
        } else {
            batch.series()?;
        }
        if batch.count() == BATCH || drawn == options.series && batch.count() > 0 {
            ready.push(std::mem::replace(&mut batch, writer(&mut random, false)));
        }
        for writer in ready {
            if !agrees(&program, writer, &mut random, &mut agreed)? {
                println!("{} series agreed before that input", agreed.series);
                return Ok(ExitCode::FAILURE);
            }
        }
    }
    program.close()?;
    if options.tally {
        agreed.tally.iter().for_each(|(kind, count)| println!("{count:10} {kind}"));
    }
    let Agreed { series, stopping, inputs, lines, answers, .. } = agreed;
    println!(
        "{series} series agreed, {stopping} of them with --stop: {inputs} inputs, {lines} lines of input, \
         {answers} lines of answers"
    );
    Ok(ExitCode::SUCCESS)
}

fn options() -> Result<Options, Box<dyn Error>> {
    let program = "crates/clothoid/out/clothoid".into();
    let mut options = Options { program, series: 20_000, seed: 1, fits: true, tally: false };
    let mut words = std::env::args().skip(1);
    while let Some(word) = words.next() {
        match word.as_str() {
            "--series" => options.series = words.next().ok_or(USAGE)?.parse()?,
            "--seed" => options.seed = words.next().ok_or(USAGE)?.parse()?,
            "--no-fit" => options.fits = false,
            "--tally" => options.tally = true,
            _ if word.starts_with('-') => return Err(USAGE.into()),
            _ => options.program = word,
        }
    }
    Ok(options)
}

/// Runs the program on a writer's input; whether it agrees.
fn agrees(
    program: &Program,
    mut writer: Writer,
    random: &mut Random,
    agreed: &mut Agreed,
) -> Result<bool, Box<dyn Error>> {
    let start = Start { stop: writer.session.stop, by: by(random) };
    let printed = program.run(&writer.finish(), start)?;
    if let Some(difference) = first_difference(&writer.input.answers, &printed, &writer.session) {
        report(program, &writer.input, start, &difference)?;
        return Ok(false);
    }
    writer.files.iter().try_for_each(fs::remove_file)?;
    agreed.series += writer.count();
    agreed.stopping += if start.stop { writer.count() } else { 0 };
    agreed.inputs += 1;
    agreed.lines += writer.session.lines;
    agreed.answers += writer.input.answers.len() as u64;
    for answer in &writer.input.answers {
        *agreed.tally.entry(kind(answer)).or_insert(0) += 1;
    }
    Ok(true)
}

fn by(random: &mut Random) -> By {
    match random.within(0, 7) {
        0..=1 => By::Name { option_behind: false },
        2..=3 => By::Name { option_behind: true },
        4 => By::File,
        5 => By::Typed,
        _ => By::Pipe(random.spread(1_000, 200_000) as usize),
    }
}

/// The kind of an answer: a refusal's number, a finding's rule, an error's text without its words, or the first word.
fn kind(answer: &str) -> String {
    let words: Vec<&str> = answer.split_whitespace().collect();
    let ends = |kind: &str, mark: &str| {
        format!("error {kind}{}", answer.split_once(mark).map_or("", |(_, end)| end))
    };
    match words[..] {
        [] => "a blank line of a report".to_string(),
        ["refused", number, ..] => format!("refused {number}"),
        ["finding", _, rule, side, ..] => format!("finding by rule {rule:0>2} {side}"),
        ["row", _, "rule", rule, weight, ..] => format!("below a report, rule {rule:0>3} {weight}"),
        ["error", _, "word", _, "is", "missing,", ..] => ends("missing, expected", ", expected"),
        ["error", _, "after", ..] => "error: not UTF-8".to_string(),
        ["error", _, "the", ..] => "error: too long".to_string(),
        ["error", ..] if answer.contains(", a file that cannot be read: ") => ends("file", ", a file that"),
        ["error", ..] if answer.contains(", expected ") => ends("wrong, expected", ", expected"),
        ["error", ..] => ends("barred, and", "', and"),
        [number, ..] if number.bytes().all(|byte| byte.is_ascii_digit()) => {
            "a row, or the findings, of a report".to_string()
        }
        _ => words[0].to_string(),
    }
}

/// Prints a difference and the series that shows it, shortened where it shows it by itself.
fn report(program: &Program, input: &Input, start: Start, found: &Difference) -> Result<(), Box<dyn Error>> {
    println!("the program, started with {start:?},");
    show(found);
    let next = input.starts.partition_point(|start| start.1 <= found.place);
    let first = input.starts[next.saturating_sub(1)].0;
    let end = input.starts.get(next).map_or(input.lines.len(), |start| start.0);
    let series = input.lines[first..end].to_vec();
    fs::write("whole", input.lines.concat())?;
    // A program that does not answer what is typed is waited for too long to do that many times.
    let shown = if start.by == By::Typed { Vec::new() } else { vec![series, input.lines.clone()] };
    for lines in shown {
        if program.difference(&lines, start)?.is_none() {
            continue;
        }
        let short = program.shorten(lines, start)?;
        fs::write("short", short.concat())?;
        if let Some(difference) = program.difference(&short, start)? {
            println!("shortened, the series is {}/short:", program.folder().display());
            println!("{}", String::from_utf8_lossy(&short.concat()));
            show(&difference);
            return Ok(());
        }
    }
    println!("it is not shortened; the whole input is {}/whole", program.folder().display());
    Ok(())
}

fn show(difference: &Difference) {
    println!("differs in line {} of the answers", difference.place + 1);
    println!("expected: {}", difference.expected);
    println!("printed:  {}", difference.printed);
}
