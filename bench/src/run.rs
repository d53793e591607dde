//! The real program, run on an input and compared with this library.

use std::ffi::OsString;
use std::fs::{self, File};
use std::io::{self, Read, Write};
use std::path::{Path, PathBuf};
use std::process::{Child, Command, Stdio};
use std::sync::mpsc;
use std::thread;
use std::time::{Duration, Instant};

use crate::session::Session;

/// A program and the folder that it is started in.
pub struct Program {
    path: PathBuf,
    folder: PathBuf,
}

/// How a program is started on an input.
#[derive(Clone, Copy, PartialEq, Eq, Debug)]
pub struct Start {
    pub stop: bool,
    pub by: By,
}

/// How a program gets its input.
#[derive(Clone, Copy, PartialEq, Eq, Debug)]
pub enum By {
    /// As a file that it is named, before the option or behind it.
    Name { option_behind: bool },
    /// As a file that is its standard input.
    File,
    /// Through a pipe, in pieces of so many bytes.
    Pipe(usize),
    /// Through a pipe line by line, each when the one before has been answered.
    Typed,
}

/// How long the program may be about a line that is typed.
const PATIENCE: Duration = Duration::from_secs(20);

/// What the program prints on standard output, and its end.
#[derive(Clone, PartialEq, Eq, Debug)]
pub struct Printed {
    pub answers: Vec<u8>,
    pub end: End,
}

/// The status, and what is said on standard error.
#[derive(Clone, PartialEq, Eq, Debug)]
pub struct End {
    pub status: Option<i32>,
    pub said: String,
}

/// The first line of the answers that is not as expected.
pub struct Difference {
    /// Its place among the lines.
    pub place: usize,
    pub expected: String,
    pub printed: String,
}

impl Program {
    /// The program of a path, to be started in a new folder that is this process' folder from here on.
    pub fn new(path: &str, name: &str) -> io::Result<Program> {
        let path = fs::canonicalize(path)?;
        let folder = std::env::temp_dir().join(format!("{name}-{}", std::process::id()));
        fs::create_dir_all(&folder)?;
        std::env::set_current_dir(&folder)?;
        Ok(Program { path, folder })
    }

    pub fn folder(&self) -> &Path {
        &self.folder
    }

    /// The program in its folder, to be started.
    pub fn command(&self, arguments: &[OsString]) -> Command {
        let mut command = Command::new(&self.path);
        command.current_dir(&self.folder).args(arguments);
        command.stdin(Stdio::null()).stdout(Stdio::piped()).stderr(Stdio::piped());
        command
    }

    /// Runs the program on an input.
    pub fn run(&self, input: &[u8], start: Start) -> io::Result<Printed> {
        let mut arguments: Vec<OsString> = Vec::new();
        if start.stop {
            arguments.push("--stop".into());
        }
        if let By::Name { option_behind } = start.by {
            arguments.insert(if option_behind { 0 } else { arguments.len() }, "input".into());
        }
        let mut command = self.command(&arguments);
        if start.by == By::Typed {
            return typed(command.stdin(Stdio::piped()).spawn()?, input, start.stop);
        }
        let By::Pipe(piece) = start.by else {
            fs::write("input", input)?;
            if start.by == By::File {
                command.stdin(File::open("input")?);
            }
            return Ok(printed(command.output()?));
        };
        let mut child = command.stdin(Stdio::piped()).spawn()?;
        let mut pipe = child.stdin.take().ok_or(io::ErrorKind::BrokenPipe)?;
        thread::scope(|scope| {
            // The program may end before it has read all.
            scope.spawn(move || input.chunks(piece).try_for_each(|piece| pipe.write_all(piece)));
            child.wait_with_output().map(printed)
        })
    }

    /// The first difference on an input of its own.
    pub fn difference(&self, lines: &[Vec<u8>], start: Start) -> io::Result<Option<Difference>> {
        let mut session = Session::new(start.stop);
        let expected: Vec<String> = lines.iter().flat_map(|line| session.line(line)).collect();
        let printed = self.run(&lines.concat(), start)?;
        Ok(first_difference(&expected, &printed, &session))
    }

    /// Leaves out lines while a difference stays.
    pub fn shorten(&self, mut lines: Vec<Vec<u8>>, start: Start) -> io::Result<Vec<Vec<u8>>> {
        let mut part = lines.len() / 2;
        while part > 0 {
            let mut first = 0;
            while first < lines.len() {
                let end = (first + part).min(lines.len());
                let fewer = [&lines[..first], &lines[end..]].concat();
                if self.difference(&fewer, start)?.is_some() {
                    lines = fewer;
                } else {
                    first = end;
                }
            }
            part /= 2;
        }
        Ok(lines)
    }

    /// Removes the folder.
    pub fn close(self) -> io::Result<()> {
        std::env::set_current_dir(std::env::temp_dir())?;
        fs::remove_dir_all(&self.folder)
    }
}

/// Types an input; the answers to each line have to come before the next one is typed, and at a stop the end.
fn typed(mut child: Child, input: &[u8], stop: bool) -> io::Result<Printed> {
    let mut pipe = child.stdin.take().ok_or(io::ErrorKind::BrokenPipe)?;
    let mut output = child.stdout.take().ok_or(io::ErrorKind::BrokenPipe)?;
    let (sender, receiver) = mpsc::channel();
    let reader = thread::spawn(move || {
        let mut bytes = vec![0; 65_536];
        while let Ok(count @ 1..) = output.read(&mut bytes) {
            if sender.send(bytes[..count].to_vec()).is_err() {
                return;
            }
        }
    });
    let (mut session, mut answers, mut expected) = (Session::new(stop), Vec::new(), 0);
    let (mut answered, mut whole) = (true, true);
    for line in input.split_inclusive(|&byte| byte == b'\n') {
        expected += session.line(line).iter().map(|answer| answer.len() + 1).sum::<usize>();
        answered = pipe.write_all(line).is_ok();
        whole = line.ends_with(b"\n");
        while answered && answers.len() < expected && whole {
            match receiver.recv_timeout(PATIENCE) {
                Ok(bytes) => answers.extend(bytes),
                Err(_) => answered = false,
            }
        }
        if !answered || session.ended() {
            break;
        }
    }
    // A program that has stopped ends though there may be more to read; one that has no answer is not waited for.
    let open = (answered && session.ended() && whole).then_some(pipe);
    let start = Instant::now();
    while answered && child.try_wait()?.is_none() && start.elapsed() < PATIENCE {
        answers.extend(receiver.recv_timeout(Duration::from_millis(5)).unwrap_or_default());
    }
    if child.try_wait()?.is_none() {
        child.kill()?;
    }
    drop(open);
    let mut end = printed(child.wait_with_output()?);
    answers.extend(receiver.iter().flatten());
    end.answers = answers;
    reader.join().map_err(|_| io::ErrorKind::Other)?;
    Ok(end)
}

fn printed(output: std::process::Output) -> Printed {
    let said = String::from_utf8_lossy(&output.stderr).into_owned();
    Printed { answers: output.stdout, end: End { status: output.status.code(), said } }
}

/// The first line that is not as expected, to the byte; after all lines, the end of the session.
pub fn first_difference(expected: &[String], printed: &Printed, session: &Session) -> Option<Difference> {
    let newline = |line: &String| format!("{line}\n");
    let mut lines = printed.answers.split_inclusive(|&byte| byte == b'\n');
    let mut place = 0;
    loop {
        let (line, answer) = (expected.get(place).map(newline), lines.next());
        if line.as_deref().map(str::as_bytes) != answer {
            let answer = answer.map(|answer| String::from_utf8_lossy(answer).into_owned());
            let shown = |line: Option<String>| line.map_or("the end".into(), |line| format!("{line:?}"));
            return Some(Difference { place, expected: shown(line), printed: shown(answer) });
        }
        if line.is_none() {
            break;
        }
        place += 1;
    }
    let (status, said) = session.end();
    let end = End { status: Some(status), said };
    (printed.end != end).then(|| Difference {
        place,
        expected: format!("{end:?}"),
        printed: format!("{:?}", printed.end),
    })
}

#[cfg(test)]
mod tests {
    use super::*;

    #[test]
    fn differences() {
        let mut session = Session::new(true);
        let expected = [session.line(b"rows\n"), session.line(b"rows\n")].concat();
        let answers =
            "error 1: word 1 is 'rows', and no road is open: begin with road CLASS SPEED B LANES usual|top\n";
        let said = "clothoid: 1 line is wrong (line 1)\n";
        let place = |answers: &str, status: i32, said: &str| {
            let end = End { status: Some(status), said: said.into() };
            let printed = Printed { answers: answers.into(), end };
            first_difference(&expected, &printed, &session).map(|difference| difference.place)
        };
        assert_eq!(place(answers, 1, said), None);
        assert_eq!(place(answers.trim_end(), 1, said), Some(0));
        assert_eq!(place(&answers.replace("SPEED", "Speed"), 1, said), Some(0));
        assert_eq!(place("", 1, said), Some(0));
        assert_eq!(place(&[answers, "\n"].concat(), 1, said), Some(1));
        assert_eq!(place(answers, 2, said), Some(1));
        assert_eq!(place(answers, 1, said.trim_end()), Some(1));
        assert_eq!(place(answers, 1, ""), Some(1));
    }
}
