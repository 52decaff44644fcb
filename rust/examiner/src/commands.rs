//! The commands, each from its arguments to what it prints and its status.

use crate::files::{self, name, print, say};
use crate::progress::Progress;
use crate::{Stop, HELP};
use examiner::board::{standings_shown, Board};
use examiner::board_file::hexadecimal_shown;
use examiner::candidates::{candidates, Candidate};
use examiner::marks::{counts, malformed, marked, rows, shared_names, table, Marked};
use examiner::moves::{self, forbidden, move_shown, Log};
use examiner::page::page as key_page;
use examiner::paper::paper;
use examiner::picture::{Picture, Told};
use examiner::refused;
use examiner::sitting::sitting;
use nizkabel::owned;
use nizkabel::{COPY_ROOM, POSITION_ROOM};
use std::ffi::{OsStr, OsString};

/// The command's files and options.
struct Arguments<'a> {
    files: Vec<&'a OsStr>,
    options: Vec<&'a str>,
}

impl Arguments<'_> {
    fn has(&self, option: &str) -> bool {
        self.options.contains(&option)
    }
}

/// A command's arguments. An option is one that the command has; what comes after `--` are files.
fn arguments<'a>(given: &'a [OsString], options: &[&str]) -> Result<Arguments<'a>, Stop> {
    let mut found = Arguments { files: Vec::new(), options: Vec::new() };
    let mut only_files = false;
    for argument in given {
        match argument.to_str() {
            Some("--") if !only_files => only_files = true,
            Some(option) if !only_files && option.starts_with('-') && option != "-" => {
                if !options.contains(&option) {
                    return Err(usage(&format!("there is no {option} here")));
                }
                found.options.push(option);
            }
            _ => found.files.push(argument),
        }
    }
    if found.files.iter().filter(|&&file| files::is_input(file)).count() > 1 {
        return Err(usage("standard input is one file"));
    }
    if found.has("--bytes") && found.has("--hex") {
        return Err(usage("--bytes and --hex are two forms"));
    }
    Ok(found)
}

fn usage(what: &str) -> Stop {
    Stop::cannot(format!("{what}; nizkabel --help tells what there is"))
}

pub fn run(given: &[OsString]) -> Result<u8, Stop> {
    let Some((command, rest)) = given.split_first() else { return Err(usage("which command?")) };
    if given.iter().take_while(|&argument| argument != "--").any(|argument| argument == "--help" || argument == "-h") || command == "help" {
        return print(HELP).map(|()| 0);
    }
    match command.to_str() {
        Some("board") => board(arguments(rest, &["--bytes", "--hex"])?),
        Some("key") => key(arguments(rest, &[])?),
        Some("draw") => draw(arguments(rest, &["--key"])?),
        Some("mark") => mark(arguments(rest, &["--csv"])?),
        Some("page") => page(arguments(rest, &["--paper"])?),
        Some("replay") => replay(arguments(rest, &["--write", "--bytes", "--hex"])?),
        _ => Err(usage(&format!("there is no command {}", name(command)))),
    }
}

/// A board in the form that is asked for. Bytes are those of its fair copy, which the library writes.
fn form(board: &Board, arguments: &Arguments) -> Result<Vec<u8>, Stop> {
    let copy = owned::write(board.bytes(), &board.position())?;
    if arguments.has("--bytes") {
        return Ok(copy);
    }
    if arguments.has("--hex") {
        return Ok(hexadecimal_shown(&copy).into_bytes());
    }
    Ok(board.to_string().into_bytes())
}

fn board(arguments: Arguments) -> Result<u8, Stop> {
    let [file] = arguments.files[..] else { return Err(usage("board takes one board")) };
    let board = files::board(file)?;
    print(form(&board, &arguments)?)?;
    Ok(0)
}

/// The page is the one that `key` prints, also of a refused board; what is wrong with that is said beside it.
fn key(arguments: Arguments) -> Result<u8, Stop> {
    let [file] = arguments.files[..] else { return Err(usage("key takes one board")) };
    let given = files::given(file)?;
    print(key_page(&given.bytes))?;
    let too_long = if given.bytes.len() > COPY_ROOM { "too long, " } else { "" };
    match Board::accepted(&given.bytes) {
        Ok(_) => Ok(0),
        Err(refused) => Err(Stop::answered(format!("{}: {too_long}{}", name(file), refused::in_words(refused, &given)))),
    }
}

/// The picture. Who is blocked is the library's list, and the order of leaving its plan.
fn draw(arguments: Arguments) -> Result<u8, Stop> {
    let [file] = arguments.files[..] else { return Err(usage("draw takes one board")) };
    let board = files::board(file)?;
    let key = owned::key(board.bytes())?;
    let told = if arguments.has("--key") { Told::Leaving(&key) } else { Told::Blocked(&key) };
    print(Picture::new(&board, told).file())?;
    Ok(0)
}

/// The page of a sitting, or the candidate's paper, for which no key is asked.
fn page(arguments: Arguments) -> Result<u8, Stop> {
    let [file, sheets @ ..] = &arguments.files[..] else { return Err(usage("page takes a board, and sheets if there are any")) };
    if arguments.has("--paper") {
        if !sheets.is_empty() {
            return Err(usage("page --paper takes one board"));
        }
        print(paper(&files::board(file)?))?;
        return Ok(0);
    }
    let board = files::board(file)?;
    let marks = mark_all(&board, sheets)?;
    let key = owned::key(board.bytes())?;
    print(sitting(&files::last_name(file), &board, &key, &marks))?;
    all_marked(&marks)
}

fn mark(arguments: Arguments) -> Result<u8, Stop> {
    let [board, sheets @ ..] = &arguments.files[..] else { return Err(usage("mark takes a board and sheets")) };
    if sheets.is_empty() {
        return Err(usage("mark takes a board and sheets"));
    }
    let marks = mark_all(&files::board(board)?, sheets)?;
    if arguments.has("--csv") {
        print(rows(&marks))?;
        say(counts(&marks).trim_end());
    } else {
        print(table(&marks))?;
    }
    all_marked(&marks)
}

/// Every file is read before any sheet is marked, so that where one can't be read no part of the marks is taken for all of them.
fn mark_all(board: &Board, files: &[&OsStr]) -> Result<Vec<Marked>, Stop> {
    let mut progress = Progress::new();
    let mut all: Vec<(String, Candidate)> = Vec::new();
    for file in files {
        all.extend(candidates(&name(file), &files::whole(file)?).into_iter().map(|candidate| (name(file), candidate)));
    }
    let of = all.len();
    let mut marks = Vec::with_capacity(of);
    for (file, candidate) in all {
        progress.done(marks.len(), of);
        marks.push(marked(board, &file, candidate));
    }
    Ok(marks)
}

/// Says which names several sheets have, and whether every sheet is marked.
fn all_marked(marks: &[Marked]) -> Result<u8, Stop> {
    for (name, sheets) in shared_names(marks) {
        say(&format!("{sheets} sheets have the name {name}"));
    }
    match malformed(marks) {
        0 => Ok(0),
        1 => Err(Stop::answered("1 sheet is malformed and not marked".to_string())),
        several => Err(Stop::answered(format!("{several} sheets are malformed and not marked"))),
    }
}

/// Where a replay stopped and why, as the board has it that the moves before led to.
fn stopped(led_to: &Board, log: &Log, at: usize) -> String {
    let [carrier, word] = log.moves()[at];
    let line = log.lines.get(at).map(|line| format!(", line {line}")).unwrap_or_default();
    let why = forbidden(led_to, carrier, word).map_or("the rules forbid it".to_string(), |why| why.to_string());
    format!("stopped at move {}{line}, {}: {why}", at + 1, move_shown(carrier, word))
}

fn replay(arguments: Arguments) -> Result<u8, Stop> {
    let [board_file, log_file] = arguments.files[..] else { return Err(usage("replay takes a board and a log")) };
    if !arguments.has("--write") && (arguments.has("--bytes") || arguments.has("--hex")) {
        return Err(usage("--bytes and --hex go with --write"));
    }
    let board = files::board(board_file)?;
    let log = moves::read(&files::whole(log_file)?).map_err(|mistake| Stop::cannot(format!("{}:{mistake}", name(log_file))))?;
    let number = nizkabel::replay(board.bytes(), &log.words, &mut [0; POSITION_ROOM]).number;
    if number == 37 {
        return Err(Stop::answered(format!("{}: refused 37: a log with an odd number of words", name(log_file))));
    }
    let moves = log.moves();
    let replay = owned::replay(board.bytes(), &moves)?;
    let led_to = owned::write(board.bytes(), &replay.position).and_then(|copy| Board::accepted(&copy))?;
    let stopped = replay.stopped_at.map(|at| stopped(&led_to, &log, at));
    if arguments.has("--write") {
        print(form(&led_to, &arguments)?)?;
    } else {
        let done = replay.stopped_at.unwrap_or(moves.len());
        let why: String = stopped.iter().map(|stopped| format!("{stopped}\n")).collect();
        print(format!("replay {number}\nmoves {done} of {}\n{why}{}", moves.len(), standings_shown(&led_to)))?;
    }
    match stopped {
        None => Ok(0),
        Some(stopped) => Err(Stop::answered(format!("{}: {stopped}", name(log_file)))),
    }
}
