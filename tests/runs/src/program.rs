//! The program under test, the ways in which its input comes and those in which its text is read.

use std::fs::{self, File};
use std::io::{self, ErrorKind, Read, Write};
use std::path::{Path, PathBuf};
use std::process::{Child, ChildStdout, Command, Stdio};
use std::sync::mpsc;
use std::thread;
use std::time::Duration;
use support::Checked;

/// The variable that names the program.
const VARIABLE: &str = "SHARERUN";

/// A run takes some milliseconds; one that takes longer than this has failed.
const LIMIT: Duration = Duration::from_secs(20);

/// How the input comes.
#[derive(Clone, Copy, Debug)]
pub enum Feed {
    /// Through a pipe, all at once.
    Whole,
    /// Through a pipe, so many bytes at a time.
    Pieces(usize),
    /// So many bytes at a time, with a pause before each piece and before the end.
    Paused(usize, Duration),
    /// From a file.
    File,
    /// From /dev/null: no bytes.
    Null,
    /// Standard input is closed: no bytes.
    Closed,
}

/// How the text is read.
#[derive(Clone, Copy, Debug)]
pub enum Drain {
    /// At once.
    Fast,
    /// A thousand bytes at a time, with a pause after each.
    Slow,
    /// Slowly, and the program is stopped and continued once while it waits for the reader: the
    /// write that it waits in then ends early, with only some of its bytes written.
    Stopped,
}

/// The program, by its absolute path.
pub struct Program {
    path: PathBuf,
}

impl Program {
    /// The program that SHARERUN names, else the given one.
    pub fn find(default: &Path) -> Checked<Program> {
        let named = std::env::var_os(VARIABLE).map(PathBuf::from);
        let path = named.unwrap_or_else(|| default.to_path_buf());
        match fs::canonicalize(&path) {
            Ok(path) => Ok(Program { path }),
            Err(error) => Err(format!(
                "{}: {error}\nbuild the program, or name another in {VARIABLE}",
                path.display()
            )),
        }
    }

    /// Runs the program. Gives the text on its standard output; an error where it wrote anything on
    /// standard error, did not end with 0, or did not end.
    pub fn run(&self, input: &[u8], feed: Feed, drain: Drain) -> Checked<Vec<u8>> {
        let mut child = self.start(input, feed).map_err(|error| error.to_string())?;
        give(&mut child, input, feed).map_err(|error| format!("giving the input: {error}"))?;
        let text = take_text(&mut child, drain);
        if text.is_err() {
            // Where it has ended by now there is nothing to end.
            let _ = child.kill();
        }
        let status = child.wait().map_err(|error| error.to_string())?;
        let text = text?;
        let mut said = Vec::new();
        let mut stderr = child.stderr.take().expect("standard error is piped");
        stderr
            .read_to_end(&mut said)
            .map_err(|error| error.to_string())?;
        match (status.success(), said.is_empty()) {
            (true, true) => Ok(text),
            (false, _) => Err(format!("it ended with {status}")),
            (_, false) => Err(format!(
                "it wrote on standard error: {}",
                String::from_utf8_lossy(&said)
            )),
        }
    }

    /// Starts the program, its outputs piped and its input as asked for.
    fn start(&self, input: &[u8], feed: Feed) -> io::Result<Child> {
        let mut command = Command::new(&self.path);
        match feed {
            Feed::Whole | Feed::Pieces(_) | Feed::Paused(..) => command.stdin(Stdio::piped()),
            Feed::File => command.stdin(file_of(input)?),
            Feed::Null => command.stdin(Stdio::null()),
            Feed::Closed => {
                command = Command::new("sh");
                command.args(["-c", "exec \"$0\" <&-"]).arg(&self.path)
            }
        };
        command.stdout(Stdio::piped()).stderr(Stdio::piped());
        command.spawn()
    }
}

/// An open file that holds the input. Its name is removed at once; the file goes when it is closed.
fn file_of(input: &[u8]) -> io::Result<File> {
    let name = format!("sharerun-input-{}", std::process::id());
    let path = std::env::temp_dir().join(name);
    fs::write(&path, input)?;
    let file = File::open(&path)?;
    fs::remove_file(&path)?;
    Ok(file)
}

/// Writes the input to the pipe, where there is one, and closes it. The program may end before it
/// has read all of an input that is too long.
fn give(child: &mut Child, input: &[u8], feed: Feed) -> io::Result<()> {
    let Some(mut pipe) = child.stdin.take() else {
        return Ok(());
    };
    let (size, pause) = match feed {
        Feed::Pieces(size) => (size, None),
        Feed::Paused(size, pause) => (size, Some(pause)),
        _ => (input.len().max(1), None),
    };
    for piece in input.chunks(size) {
        pause.into_iter().for_each(thread::sleep);
        match pipe.write_all(piece).and_then(|()| pipe.flush()) {
            Err(error) if error.kind() == ErrorKind::BrokenPipe => return Ok(()),
            outcome => outcome?,
        }
    }
    pause.into_iter().for_each(thread::sleep);
    Ok(())
}

/// The text up to the end of standard output. A thread reads it, so that a program that does not
/// end is noticed.
fn take_text(child: &mut Child, drain: Drain) -> Checked<Vec<u8>> {
    let pipe = child.stdout.take().expect("standard output is piped");
    let id = child.id();
    let (sender, receiver) = mpsc::channel();
    thread::spawn(move || sender.send(read_text(pipe, drain, id)));
    match receiver.recv_timeout(LIMIT) {
        Ok(text) => text.map_err(|error| format!("reading the text: {error}")),
        Err(_) => Err(format!("it did not end in {LIMIT:?}")),
    }
}

/// Reads the text to its end, at once or slowly.
fn read_text(mut pipe: ChildStdout, drain: Drain, id: u32) -> io::Result<Vec<u8>> {
    let mut text = Vec::new();
    if let Drain::Fast = drain {
        pipe.read_to_end(&mut text)?;
        return Ok(text);
    }
    let mut piece = [0; 1000];
    loop {
        let count = pipe.read(&mut piece)?;
        if count == 0 {
            return Ok(text);
        }
        let first = text.is_empty();
        text.extend_from_slice(&piece[..count]);
        thread::sleep(Duration::from_micros(200));
        if first && matches!(drain, Drain::Stopped) {
            stop_and_continue(id)?;
        }
    }
}

/// Stops the program and lets it go on, after it had time to fill the pipe and wait.
fn stop_and_continue(id: u32) -> io::Result<()> {
    thread::sleep(Duration::from_millis(30));
    let line = format!("kill -STOP {id} && kill -CONT {id}");
    let status = Command::new("sh").args(["-c", &line]).status()?;
    match status.success() {
        true => Ok(()),
        false => Err(io::Error::other("the program could not be stopped")),
    }
}
