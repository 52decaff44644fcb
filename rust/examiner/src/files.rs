//! What the program reads and writes.

use crate::Stop;
use examiner::board::Board;
use examiner::board_file::{self, Given};
use examiner::refused;
use examiner::text::shown;
use std::ffi::OsStr;
use std::fs::File;
use std::io::{self, ErrorKind, IsTerminal, Read, Write};
use std::os::fd::AsFd;
use std::path::Path;

/// Whether a file is standard input, under whichever name.
pub fn is_input(file: &OsStr) -> bool {
    ["-", "/dev/stdin", "/dev/fd/0", "/proc/self/fd/0"].iter().any(|name| file == *name)
}

/// How a file is called in what the program says.
pub fn name(file: &OsStr) -> String {
    match file.to_string_lossy() {
        _ if is_input(file) => "standard input".to_string(),
        name if name.is_empty() => "\"\"".to_string(),
        name => shown(&name),
    }
}

/// The same without the folders that it is in.
pub fn last_name(file: &OsStr) -> String {
    match Path::new(file).file_name() {
        Some(last) if !is_input(file) => shown(&last.to_string_lossy()),
        _ => name(file),
    }
}

/// The reason that the system gives, without its number.
fn reason(error: &io::Error) -> String {
    let said = error.to_string();
    said.split(" (os error").next().unwrap_or_default().to_string()
}

/// The first bytes of a file, at most so many and one more, which tells that there are more.
fn read(file: &OsStr, most: usize) -> Result<Vec<u8>, Stop> {
    // Of a standard input that is closed or can't be read, std would make an empty one.
    let opened = if is_input(file) { io::stdin().as_fd().try_clone_to_owned().map(File::from) } else { File::open(file) };
    if is_input(file) && io::stdin().is_terminal() {
        say("reading from the terminal, up to Ctrl-D");
    }
    let mut bytes = Vec::new();
    match opened.and_then(|opened| opened.take(most as u64 + 1).read_to_end(&mut bytes)) {
        Ok(_) => Ok(bytes),
        Err(error) => Err(Stop::cannot(match error.kind() {
            ErrorKind::NotFound => format!("there is no {}", name(file)),
            ErrorKind::IsADirectory => format!("{} is a directory", name(file)),
            _ => format!("{} can't be read: {}", name(file), reason(&error)),
        })),
    }
}

/// No file of sheets or moves has more bytes.
const MOST: usize = 1 << 25;

/// A file of sheets or moves, whole.
pub fn whole(file: &OsStr) -> Result<Vec<u8>, Stop> {
    let bytes = read(file, MOST)?;
    if bytes.len() > MOST {
        return Err(Stop::cannot(format!("{} is over {MOST} bytes long", name(file))));
    }
    Ok(bytes)
}

/// A board's file, in whatever form.
pub fn given(file: &OsStr) -> Result<Given, Stop> {
    board_file::read(&read(file, board_file::MOST + 1)?).map_err(|mistake| Stop::cannot(format!("{}:{mistake}", name(file))))
}

/// A board that the library accepts.
pub fn board(file: &OsStr) -> Result<Board, Stop> {
    let given = given(file)?;
    Board::accepted(&given.bytes).map_err(|refused| Stop::answered(format!("{}: {}", name(file), refused::in_words(refused, &given))))
}

/// Writes the whole output. A write that std would take for done, to an output that can't be written, is an error too.
pub fn print(output: impl AsRef<[u8]>) -> Result<(), Stop> {
    let written = io::stdout().as_fd().try_clone_to_owned().and_then(|output_to| File::from(output_to).write_all(output.as_ref()));
    written.map_err(|error| Stop::cannot(format!("the output isn't written: {}", reason(&error))))
}

/// A line on standard error. Where that can't be written, the status has to do.
pub fn say(line: &str) {
    let _ = writeln!(io::stderr(), "nizkabel: {line}");
}
