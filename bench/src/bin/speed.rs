//! Times the calls of the proved library and of this one on the same long alignments, and compares what they answer.

use std::error::Error;
use std::fmt::Write;
use std::fs;
use std::hint::black_box;
use std::path::Path;
use std::process::Command;
use std::time::{Duration, Instant};

use second::alignment::{Alignment, Kind};
use second::check::Finding;
use second::limits::{compulsory, Limit};
use second::rows::{Curve, Row};
use second::sheet::{Refusal, Sheet};
use second::superelevation::tabulate;

const USAGE: &str = "speed [--repeat TIMES] [PROGRAM]";

const SIZES: [usize; 3] = [250, 1_000, 4_000];

/// The rows that the rounds of a run add in all.
const ROWS_OF_A_RUN: usize = 400_000;

/// The timed calls, in the order of a round.
const JOBS: [&str; 4] = ["add", "check of the draft", "fit", "check of the fitted"];

/// The head of the table. Times are in microseconds, and the growth is that of the proved library's from 1,000 to 4,000 rows.
const HEAD: &str = "\
| Alignment | Call | Proved / Rust, 250 rows | 1,000 rows | 4,000 rows | Growth | Rust without its table, 4,000 rows |
|---|---|---|---|---|---|---|";

/// The time of each job.
type Times = [Duration; JOBS.len()];

/// The least times of a case by the proved library, by this one, and by this one without the table of superelevations.
struct Measured {
    proved: Times,
    plain: Times,
    computed: Times,
}

fn main() -> Result<(), Box<dyn Error>> {
    let (mut repeat, mut program) = (20, "crates/timing/out/timing".to_string());
    let mut words = std::env::args().skip(1);
    while let Some(word) = words.next() {
        match word.as_str() {
            "--repeat" => repeat = words.next().ok_or(USAGE)?.parse()?,
            _ if word.starts_with('-') => return Err(USAGE.into()),
            _ => program = word,
        }
    }
    let program = fs::canonicalize(program)?;
    let mut cases: Vec<(Alignment, Measured)> =
        Kind::ALL.map(Alignment::drawn).iter().flat_map(sized).collect();
    // No table yet.
    for (alignment, measured) in &mut cases {
        lower(&mut measured.computed, &plain(alignment, rounds(alignment).div_ceil(10))?.0);
    }
    tabulate();
    for _ in 0..repeat {
        for (alignment, measured) in &mut cases {
            let (times, answers) = plain(alignment, rounds(alignment))?;
            lower(&mut measured.plain, &times);
            lower(&mut measured.proved, &proved(&program, alignment, &answers)?);
        }
    }
    println!("{HEAD}");
    cases.chunks(SIZES.len()).for_each(report);
    Ok(())
}

/// The cases of an alignment, each of some of its first rows.
fn sized(alignment: &Alignment) -> Vec<(Alignment, Measured)> {
    let case = |rows| {
        let never = [Duration::MAX; JOBS.len()];
        (alignment.first(rows), Measured { proved: never, plain: never, computed: never })
    };
    SIZES.into_iter().map(case).collect()
}

fn rounds(alignment: &Alignment) -> usize {
    ROWS_OF_A_RUN / alignment.rows.len()
}

fn lower(least: &mut Times, times: &Times) {
    for (least, time) in least.iter_mut().zip(times) {
        *least = (*least).min(*time);
    }
}

/// The least times of this library over some rounds, and what the last round answered.
fn plain(alignment: &Alignment, rounds: usize) -> Result<(Times, String), Box<dyn Error>> {
    let refused = |refusal: Refusal| format!("refused {} {}", refusal.number, refusal.row);
    let limits = compulsory();
    let mut sheet = Sheet::open(alignment.road);
    let mut least = [Duration::MAX; JOBS.len()];
    let mut answers = String::new();
    for round in 1..=rounds {
        sheet.reopen();
        sheet.rows.clear();
        let (times, draft, fitted) = time_round(&mut sheet, &alignment.rows, &limits).map_err(refused)?;
        lower(&mut least, &times);
        if round == rounds {
            answers = written(&draft, &sheet.rows, &fitted)?;
        }
    }
    Ok((least, answers))
}

/// The times of a round, and the findings of the draft and of the fitted sheet.
fn time_round(
    sheet: &mut Sheet,
    rows: &[Row],
    limits: &[Limit],
) -> Result<(Times, Vec<Finding>, Vec<Finding>), Refusal> {
    let start = Instant::now();
    add_all(sheet, black_box(rows))?;
    let add = start.elapsed();

    let start = Instant::now();
    let draft = black_box(sheet.check(black_box(limits)));
    let draft_check = start.elapsed();

    let start = Instant::now();
    sheet.fit(black_box(limits))?;
    let fit = start.elapsed();

    let start = Instant::now();
    let fitted = black_box(sheet.check(black_box(limits)));
    let fitted_check = start.elapsed();
    Ok(([add, draft_check, fit, fitted_check], draft, fitted))
}

/// Adds the rows one by one at the end.
fn add_all(sheet: &mut Sheet, rows: &[Row]) -> Result<(), Refusal> {
    rows.iter().try_for_each(|row| {
        let end = sheet.rows.len() as u64;
        match row {
            Row::Straight(length) => sheet.add_straight(end, *length),
            Row::Curve(Curve { sense, radius, turn, .. }) => sheet.add_curve(end, *sense, *radius, *turn),
        }
    })
}

/// The answers as the timing program writes them.
fn written(draft: &[Finding], rows: &[Row], fitted: &[Finding]) -> Result<String, std::fmt::Error> {
    let mut text = String::new();
    write_findings(&mut text, draft)?;
    writeln!(text, "lengths")?;
    for (place, row) in rows.iter().enumerate() {
        if let Row::Curve(Curve { entry, exit, .. }) = row {
            writeln!(text, "{place} {entry} {exit}")?;
        }
    }
    write_findings(&mut text, fitted)?;
    Ok(text)
}

fn write_findings(text: &mut String, findings: &[Finding]) -> std::fmt::Result {
    writeln!(text, "findings {}", findings.len())?;
    findings.iter().try_for_each(|finding| writeln!(text, "{finding}"))
}

/// The least times that the timing program says, whose answers have to be those.
fn proved(program: &Path, alignment: &Alignment, answers: &str) -> Result<Times, Box<dyn Error>> {
    let file = std::env::temp_dir().join(format!("speed-{}.txt", std::process::id()));
    fs::write(&file, alignment.commands())?;
    let output = Command::new(program).arg(&file).arg(rounds(alignment).to_string()).output()?;
    fs::remove_file(&file)?;
    if !output.status.success() {
        return Err(String::from_utf8_lossy(&output.stderr).into());
    }
    let mut rest = String::from_utf8(output.stdout)?;
    let mut times = [Duration::MAX; JOBS.len()];
    for (time, job) in times.iter_mut().zip(JOBS) {
        let (line, after) = rest.split_once('\n').ok_or("the times are missing")?;
        let nanoseconds = line.strip_prefix(job).ok_or("another time was expected")?;
        *time = Duration::from_nanos(nanoseconds.trim().parse()?);
        rest = after.to_string();
    }
    match answers.lines().zip(rest.lines()).find(|(plain, proved)| plain != proved) {
        Some((plain, proved)) => {
            Err(format!("expected '{plain}', and the proved library says '{proved}'").into())
        }
        None if answers.len() != rest.len() => Err("the answers are of other lengths".into()),
        None => Ok(times),
    }
}

/// Prints the times of the cases of an alignment, a row of the table for each call.
fn report(cases: &[(Alignment, Measured)]) {
    let name = cases[0].0.kind.name();
    for (job, call) in JOBS.into_iter().enumerate() {
        let micros = |times: &Times| times[job].as_secs_f64() * 1e6;
        print!("| {name} | {call} |");
        for (_, Measured { proved, plain, .. }) in cases {
            let (proved, plain) = (micros(proved), micros(plain));
            print!(" {proved:.1} / {plain:.1} = {:.2} |", proved / plain);
        }
        let [_, (_, less), (_, most)] = cases else { unreachable!("three sizes") };
        let (proved, computed) = (micros(&most.proved), micros(&most.computed));
        let growth = proved / micros(&less.proved);
        println!(" {growth:.2} | {proved:.1} / {computed:.1} = {:.2} |", proved / computed);
    }
}
