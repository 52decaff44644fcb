//! The examiner's tool: `nizkabel board`, `key`, `draw`, `mark`, `page` and `replay`. It reads files, asks the proved library and shows what it says.
//! What goes to standard output is made whole first and then written; whatever fails is said on standard error, and the status isn't 0.

mod commands;
mod files;
mod progress;

use nizkabel::owned::Refused;
use std::ffi::OsString;
use std::process::ExitCode;

/// What ends the program before its work is done: a status, and a line for standard error.
struct Stop {
    status: u8,
    said: String,
}

impl Stop {
    /// Answered, but not all is well: a refusal, a malformed sheet, a replay that stopped.
    fn answered(said: String) -> Stop {
        Stop { status: 1, said }
    }

    /// Something can't be read, understood or written.
    fn cannot(said: String) -> Stop {
        Stop { status: 2, said }
    }
}

impl From<Refused> for Stop {
    fn from(refused: Refused) -> Stop {
        Stop::answered(refused.to_string())
    }
}

const HELP: &str = "\
nizkabel board BOARD [--bytes | --hex]           a board in any form as readable text, bytes or hexadecimal; the bytes are
                                                 the library's fair copy, in version 1 where every carrier is at most 255
nizkabel key BOARD                               the key: who goes home in which order, and who is blocked
nizkabel draw BOARD [--key]                      a picture of the board (SVG), blocked carriers with eight corners; --key adds
                                                 the order of leaving
nizkabel mark BOARD SHEETS.. [--csv]             the marks of candidates' sheets, with the place of each fault
nizkabel page BOARD [SHEETS..]                   a page (HTML): the picture, the zones, the key with each route drawn, the blocked
                                                 carriers, the search count, and the marks
nizkabel page --paper BOARD                      the candidate's paper (HTML): the picture and the rules, nothing of the key
nizkabel replay BOARD LOG [--write] [--bytes | --hex]
                                                 where a log of single moves leads; --write gives that board

A file is named, or - is standard input. Every verdict, mark, move and copy is the proved library's: this program
holds no marker and no search of its own. It reads, asks and shows, and finds a fault's place by asking the
library's marker about parts of the sheet.

Board    points 9 home 0     nine points, the home point is 0
         0-1 17>             zone 0 joins points 0 and 1; carrier 17 heads from 0 to 1
         2-3 <18             zone 1; carrier 18 heads from 3 to 2
         1-2                 zone 2 is free
         or its bytes, or these in hexadecimal
Sheets   candidate Anna      a name before each sheet, where a file has several
         home 7: 0+ 1-       carrier 7 goes home through zone 0 from its first end to its second, then back through 1
         blocked 5 6         or these carriers are blocked; `blocked none` may stand with home lines, or alone
         or rows of a spreadsheet (CSV; comma, semicolon or tab): the name, then a cell for each such line, with
         home or without; a first row that starts with `name` has the columns' heads
         or what key prints, if it isn't both; or one sheet's words, two bytes each
Log      7 1-                carrier 7 goes into zone 1, heading from its second end to its first
         7 home              carrier 7 goes into home
         or its words, two bytes each
Texts are in UTF-8, and # starts a comment. Entries, words, moves and lines are counted from 1, points and zones
from 0.

Status   0  done; of mark and page: every sheet has its mark, whatever it is; of replay: every move was carried out
         1  the library refuses the board or the log, a sheet is malformed and not marked, or a replay stopped
         2  the command isn't understood, a file can't be read, a board or a log is malformed, or the output can't
            be written
";

fn main() -> ExitCode {
    let arguments: Vec<OsString> = std::env::args_os().skip(1).collect();
    let done = commands::run(&arguments);
    match done {
        Ok(status) => ExitCode::from(status),
        Err(Stop { status, said }) => {
            files::say(&said);
            ExitCode::from(status)
        }
    }
}
