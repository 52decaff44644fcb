//! Compares the proved library with the second implementation on many boards, sheets, move logs and position sheets, whole: numbers, lengths, counts,
//! every word of plan, list and position sheet, every byte of a copy, and canaries past what may be written. Ends with status 1 at the first difference.

mod blocked;
mod copies;
mod copy_tally;
mod drawn;
mod faults;
mod gate;
mod loops;
mod places;
mod readable;
mod replay_tally;
mod replays;
mod searched;
mod versions;

use blocked::BlockedTally;
use compare::boards::{self, Loops, Numbers};
use compare::random::Random;
use compare::{logs, sheets};
use copies::{compare_copies, compare_copy, compare_each_zone, compare_every_sheet, Wanted};
use copy_tally::CopyTally;
use drawn::{compare_drawn, DrawnTally};
use gate::GateTally;
use loops::LoopTally;
use places::PlaceTally;
use readable::{compare_forms, compare_page, compare_sheets};
use replay_tally::ReplayTally;
use replays::{compare_logs, compare_replay, compare_single_moves, Lent};
use searched::SearchTally;
use second::{Board, Key, Rule};
use versions::{answers, Answers, VersionTally};

const SEED: u64 = 20_261_115;
const PLAN_CANARY: u16 = 0xA5C3;
const LIST_CANARY: u16 = 0xB7D9;

#[derive(Default)]
struct Tally {
    boards: usize,
    accepted: usize,
    sheets: usize,
    passed: usize,
    exhaustive: usize,
    full: usize,
    loops: LoopTally,
    gate: GateTally,
    blocked: BlockedTally,
    versions: VersionTally,
    searched: SearchTally,
    small_searched: SearchTally,
    replays: ReplayTally,
    single_moves: usize,
    copies: CopyTally,
    drawn: DrawnTally,
    first_faults: usize,
    places: PlaceTally,
    said: usize,
    verdicts: std::collections::BTreeMap<u32, usize>,
    marks: std::collections::BTreeMap<u32, usize>,
}

fn differ(what: &str, board: &[u8], detail: String) -> ! {
    println!("difference: {what}");
    println!("board: {}", board.iter().map(|b| format!("{b:02X}")).collect::<Vec<_>>().join(" "));
    println!("{detail}");
    std::process::exit(1);
}

/// So many words more than are lent, so that a write past the end of what is lent shows.
const PAST: usize = 4;

/// What a vector full of canaries, lent but for its last words, holds once these words are written to its start.
fn whole<T: Clone>(words: impl IntoIterator<Item = T>, room: usize, canary: T) -> Vec<T> {
    let mut whole: Vec<T> = words.into_iter().collect();
    whole.resize(room + PAST, canary);
    whole
}

/// The most that a search count can be on a board in bytes: Z × C × (C + 1), and 0 where it is refused.
fn most_searched(bytes: &[u8]) -> usize {
    second::read(bytes).map_or(0, |board| {
        let out = board.carriers().len();
        board.zones.len() * out * (out + 1)
    })
}

/// The key and the collapse with this room lent. Gives the keys by the home gate's rule and by the older one: the gate changes no verdict, plan or
/// list, and lets no more words be reached.
fn compare_key(tally: &mut Tally, bytes: &[u8], plan_room: usize, list_room: usize) -> [Key; 2] {
    let expected = second::key(bytes, plan_room, list_room);
    let older = second::key_by(Rule::Older, bytes, plan_room, list_room);
    if older.answer() != expected.answer() || older.searched < expected.searched {
        differ("key by the older rule", bytes, format!("older {older:?}\nnow {expected:?}"));
    }
    let mut plan = whole([], plan_room, PLAN_CANARY);
    let mut list = whole([], list_room, LIST_CANARY);
    let got = nizkabel::key(bytes, &mut plan[..plan_room], &mut list[..list_room]);
    let whole_plan = whole(expected.plan.iter().copied(), plan_room, PLAN_CANARY);
    let whole_list = whole(expected.list.iter().map(|&c| c as u16), list_room, LIST_CANARY);
    let (planned, listed) = (expected.plan.len(), expected.list.len());
    let same = got == nizkabel::Key { verdict: expected.verdict, planned, listed, searched: expected.searched };
    if !same || plan != whole_plan || list != whole_list || most_searched(bytes) < got.searched as usize {
        differ("key", bytes, format!("expected {expected:?}\ngot {got:?}\nplan {plan:?}\nlist {list:?}"));
    }
    *tally.verdicts.entry(got.verdict).or_default() += 1;
    if ![10, 11].contains(&got.verdict) {
        compare_page(bytes, &expected);
    }

    let (number, left) = second::collapse(bytes, list_room);
    let mut list = whole([], list_room, LIST_CANARY);
    let got = nizkabel::collapse(bytes, &mut list[..list_room]);
    let whole_list = whole(left.iter().map(|&c| c as u16), list_room, LIST_CANARY);
    if got.number != number || got.listed != left.len() || list != whole_list {
        differ("collapse", bytes, format!("expected {number} {left:?}\ngot {got:?}\nlist {list:?}"));
    }
    [expected, older]
}

fn compare_mark(tally: &mut Tally, bytes: &[u8], sheet: &[u16]) {
    let expected = second::mark(bytes, sheet);
    let got = nizkabel::mark(bytes, sheet);
    if got != expected {
        differ("mark", bytes, format!("sheet {sheet:?}\nexpected {expected}\ngot {got}"));
    }
    tally.gate.add(second::mark_by(Rule::Older, bytes, sheet), got);
    tally.sheets += 1;
    tally.passed += (got == 0) as usize;
    *tally.marks.entry(got).or_default() += 1;
    tally.places.compare(bytes, sheet);
}

/// A sheet that is right by the older rule as far as it goes gets 32 exactly if it runs on through home.
fn compare_run_on(tally: &mut Tally, board: &Board, bytes: &[u8], sheet: &[u16]) {
    compare_mark(tally, bytes, sheet);
    let got = nizkabel::mark(bytes, sheet);
    if (got == 32) != sheets::runs_on(board, sheet) || ![0, 32, 34].contains(&got) {
        differ("a sheet that was right", bytes, format!("sheet {sheet:?}\ngot {got}"));
    }
}

/// The library says the same of a board in both versions, where both have room for its numbers. Gives how many times it was asked so: once, or not.
fn compare_versions(board: &Board, plan_room: usize, list_room: usize, sheets: &[Vec<u16>], logs: &[Lent], positions: &[Wanted]) -> usize {
    let said: Vec<Answers> = board.in_each_version().iter().map(|bytes| answers(bytes, plan_room, list_room, sheets, logs, positions)).collect();
    let [one, two] = &said[..] else { return 0 };
    if one != two {
        let lent = format!("sheets {sheets:?}\nlogs {logs:?}\npositions {positions:?}");
        differ("the two versions", &board.bytes(), format!("{lent}\nversion 1 {one:?}\nversion 2 {two:?}"));
    }
    1
}

/// Counts the carriers blocked on an accepted board, which are never one, and gives them.
fn count_blocked(tally: &mut Tally, board: &Board) -> Vec<u32> {
    let named = second::named(Rule::HomeGate, board);
    if !tally.blocked.add(named.len()) {
        differ("exactly one carrier is blocked", &board.bytes(), format!("{named:?}"));
    }
    named
}

/// One board more, in bytes that may be refused.
fn count_bytes(tally: &mut Tally, bytes: &[u8]) {
    tally.boards += 1;
    match second::read(bytes) {
        Ok(board) => {
            tally.accepted += 1;
            count_blocked(tally, &board);
        }
        Err(number) => {
            tally.versions.add_refused(bytes, number);
            tally.places.compare_refused(bytes);
        }
    }
}

/// On the track of an accepted board a carrier that is alone out goes home; here from a random word.
fn compare_alone(tally: &mut Tally, random: &mut Random, board: &Board) {
    let word = random.below(board.words());
    let carrier = [1, 255, 256, 65_535][random.below(4)];
    let mut alone = board.clone();
    for (z, zone) in alone.zones.iter_mut().enumerate() {
        (zone.carrier, zone.heading) = if z == word / 2 { (carrier, (word % 2) as u32) } else { (0, 0) };
    }
    let bytes = boards::written(random, &alone);
    let [key, _] = compare_key(tally, &bytes, 2 + board.words(), 1);
    if key.verdict != 0 {
        differ("a carrier alone out is blocked", &bytes, format!("{key:?}"));
    }
    let through_own = key.plan[2..].iter().filter(|&&v| v as usize / 2 == word / 2).count();
    *(if through_own == 1 { &mut tally.blocked.straight } else { &mut tally.blocked.turned }) += 1;
}

fn compare_board(tally: &mut Tally, random: &mut Random, board: &Board) {
    let bytes = boards::written(random, board);
    let (out, zones) = (board.carriers().len(), board.zones.len());
    let room = out * (2 + 2 * zones);
    tally.boards += 1;
    tally.accepted += 1;
    if second::read(&bytes).as_ref() != Ok(board) {
        differ("the generator made a board that is not accepted", &bytes, String::new());
    }
    let keys = compare_key(tally, &bytes, room + random.below(3), out + random.below(3));
    tally.searched.add(board, &keys);
    if random.once_in(8) {
        compare_key(tally, &bytes, room.saturating_sub(1), out.saturating_sub(random.below(2)));
        compare_key(tally, &bytes, room, out.saturating_sub(1));
    }
    compare_alone(tally, random, board);
    let named = count_blocked(tally, board);
    tally.loops.add(board, &named);
    tally.versions.add(board, &bytes, &named);
    let tried = sheets::by_tries(random, board, Rule::HomeGate);
    let run_on = sheets::by_tries(random, board, Rule::Older);
    let claim = sheets::claim(&named);
    compare_run_on(tally, board, &bytes, &run_on);
    let spoilt = [&run_on, &tried, &claim].map(|sheet| sheets::spoilt(random, sheet));
    let mistaken = sheets::mistaken(random, board, &tried);
    let mut marked = [vec![tried.clone(), claim, mistaken, sheets::noise(random)], spoilt.to_vec()].concat();
    for sheet in &marked {
        compare_mark(tally, &bytes, sheet);
    }
    compare_forms(random, board, &bytes);
    tally.said += compare_sheets(random, &bytes, &marked);
    let logs = compare_logs(&mut tally.replays, random, board, &bytes, &keys[0], [&tried, &run_on]);
    // The first log is a walk of allowed moves.
    let (_, led_to) = logs[0].by_library(&bytes);
    let positions = compare_copies(&mut tally.copies, random, board, &bytes, &led_to[..zones]);
    marked.push(run_on);
    tally.versions.in_both += compare_versions(board, room, out, &marked, &logs, &positions);
    if let Some((zone, sheet)) = sheets::run_again(random, board, &tried) {
        compare_mark(tally, &bytes, &sheet);
        if nizkabel::mark(&bytes, &sheet) != 32 {
            differ("a zone entered again straight after itself", &bytes, format!("sheet {sheet:?}"));
        }
        tally.loops.run_again += board.zones[zone].is_loop() as usize;
    }
}

/// Small boards against every order, every route by either rule and, where every zone is held, every position of single moves.
fn compare_exhaustive(tally: &mut Tally, board: &Board) {
    let bytes = board.bytes();
    let left = second::left(board);
    for rule in [Rule::HomeGate, Rule::Older] {
        let expected = second::key_by(rule, &bytes, 10_000, 255);
        let found = second::key_by_enumeration(rule, board);
        if found.key != expected || found.ordered != (expected.verdict == 0) || left != expected.list {
            differ("the second implementation with itself", &bytes, format!("{rule:?} {:?}\n{:?}", found.key, expected));
        }
    }
    if board.zones.iter().all(|z| z.carrier != 0) {
        tally.full += 1;
        tally.loops.full += board.zones.iter().any(|z| z.is_loop()) as usize;
        if !second::all_positions_keep(board, &left) {
            differ("a named carrier moved on a full board", &bytes, String::new());
        }
    }
    tally.exhaustive += 1;
}

/// A board that may be refused: the key, the collapse, the key's own sheet, the moves of its plan and the copy by its own position, and an accepted one
/// by exhaustion, with a sheet for every route of every carrier by the older rule, every single move, and with no carrier out position sheets.
fn compare_small(tally: &mut Tally, board: &Board) {
    let bytes = board.bytes();
    let accepted = second::read(&bytes).is_ok();
    tally.boards += 1;
    tally.accepted += accepted as usize;
    let keys = compare_key(tally, &bytes, 24, 3);
    let [Key { plan, list, .. }, _] = &keys;
    let sheet = if list.is_empty() { [&[0], &plan[..]].concat() } else { sheets::claim(list) };
    compare_mark(tally, &bytes, &sheet);
    let moves = Lent { log: logs::of_plan(plan).concat(), room: 3, canary: 0 };
    moves.by_both(&bytes);
    let own = Wanted { sheet: board.sheet(), room: bytes.len(), canary: 0 };
    own.by_both(&bytes);
    tally.versions.small_in_both += compare_versions(board, 24, 3, &[sheet], &[moves], &[own]);
    if accepted {
        tally.single_moves += compare_single_moves(board);
        if board.carriers().is_empty() {
            tally.first_faults += compare_every_sheet(board);
        }
        tally.small_searched.add(board, &keys);
        count_blocked(tally, board);
        compare_exhaustive(tally, board);
        for carrier in board.carriers() {
            for route in second::routes(Rule::Older, board, carrier) {
                compare_run_on(tally, board, &bytes, &sheets::entry(carrier, &route));
            }
        }
    } else {
        tally.places.compare_refused(&bytes);
        tally.blocked.refused_with_one += (second::named(Rule::HomeGate, board).len() == 1) as usize;
    }
}

/// An accepted board with no turning loop, some, or many, and with numbers of any kind, for half of the boards such that both versions have room.
fn any_board(random: &mut Random, points: usize, zones: usize, sparse: usize) -> Board {
    let loops = [Loops::None, Loops::OnceIn(4), Loops::OnceIn(1)][random.below(3)];
    let board = boards::accepted(random, points, zones, sparse, loops);
    let numbers = [Numbers::Narrow, Numbers::Narrow, Numbers::Wide, Numbers::Alike][random.below(4)];
    boards::renumbered(random, board, numbers)
}

/// Pictures and pages of boards of every size, and of those that are the hardest to draw.
fn compare_pictures(tally: &mut DrawnTally, random: &mut Random) {
    let mut draw = |random: &mut Random, board: &Board| {
        let bytes = boards::written(random, board);
        compare_drawn(tally, board, &bytes, &second::key(&bytes, 20_000, 96));
    };
    for round in 0..500 {
        let (points, zones) = if round % 5 == 0 { (2 + random.below(63), 2 + random.below(95)) } else { (2 + random.below(8), 2 + random.below(13)) };
        let sparse = 1 + random.below(4);
        let board = any_board(random, points, zones, sparse);
        if board.zones.len() <= 96 {
            draw(random, &board);
        }
    }
    for board in boards::hard_to_draw() {
        draw(random, &board);
    }
}

fn main() {
    let mut random = Random::new(SEED);
    let mut tally = Tally::default();
    println!("seed {SEED}");
    for (points, zones) in [(2, 2), (2, 3), (3, 2), (3, 3)] {
        for board in boards::every(points, zones) {
            compare_small(&mut tally, &board);
        }
    }
    for round in 0..80_000 {
        let points = 2 + random.below(4);
        let zones = 2 + random.below(6);
        let sparse = 1 + random.below(4);
        let board = any_board(&mut random, points, zones, sparse);
        compare_board(&mut tally, &mut random, &board);
        if round % 16 == 0 && board.zones.len() <= 6 {
            compare_exhaustive(&mut tally, &board);
        }
    }
    for _ in 0..600 {
        let points = 2 + random.below(40);
        let sparse = 1 + random.below(6);
        let zones = (2 * points).min(96).min(2 + random.below(95));
        let board = any_board(&mut random, points, zones, sparse);
        if board.zones.len() <= 96 {
            compare_board(&mut tally, &mut random, &board);
        }
    }
    for _ in 0..25_000 {
        // Once in fifty times with L over 255.
        let (most_points, zones) = if random.once_in(50) { (30, 65) } else { (5, 2 + random.below(6)) };
        let points = 2 + random.below(most_points);
        let sparse = 1 + random.below(3);
        let board = any_board(&mut random, points, zones, sparse);
        let bytes = boards::written(&mut random, &board);
        let bytes = boards::damaged(&mut random, bytes);
        count_bytes(&mut tally, &bytes);
        let (plan_room, list_room) = (random.below(300), random.below(12));
        compare_key(&mut tally, &bytes, plan_room, list_room);
        compare_mark(&mut tally, &bytes, &sheets::noise(&mut random));
        let mut log = logs::noise(&mut random, &board).concat();
        if random.once_in(2) {
            log.pop();
        }
        let room = random.below(2) * random.below(12);
        let lent = Lent::new(&mut random, log, room);
        let read = second::read(&bytes).ok();
        compare_replay(&mut tally.replays, &bytes, read.as_ref(), &lent);
        let wanted = Wanted::any(&mut random, &board);
        compare_copy(&mut tally.copies, &bytes, read.as_ref(), &wanted);
    }
    for _ in 0..5_000 {
        let length = random.below(40);
        let bytes: Vec<u8> = (0..length).map(|_| random.next() as u8).collect();
        count_bytes(&mut tally, &bytes);
        compare_key(&mut tally, &bytes, 8, 8);
        let (log, room) = (sheets::noise(&mut random), random.below(8));
        let lent = Lent::new(&mut random, log, room);
        let read = second::read(&bytes).ok();
        compare_replay(&mut tally.replays, &bytes, read.as_ref(), &lent);
        let (sheet, room) = (sheets::noise(&mut random).into_iter().map(u32::from).collect(), random.below(48));
        let wanted = Wanted::new(&mut random, sheet, room);
        compare_copy(&mut tally.copies, &bytes, read.as_ref(), &wanted);
    }
    // Long logs on large boards.
    for _ in 0..20 {
        let (board, log) = loop {
            let sparse = 1 + random.below(4);
            let board = any_board(&mut random, 40, 80, sparse);
            let log = logs::walk(&mut random, &board, 2_000, 100);
            if log.len() == 2_000 {
                break (board, log.concat());
            }
        };
        let (bytes, lent) = (boards::written(&mut random, &board), Lent::new(&mut random, log, 96));
        compare_replay(&mut tally.replays, &bytes, Some(&board), &lent);
    }
    compare_board(&mut tally, &mut random, &boards::worst());
    // Chains of every length with one free part, one for each point, and one for every two points.
    for points in 2..=64 {
        for held in [|_| false, |_| true, |z| z % 2 == 1] {
            let board = boards::headed(&mut random, boards::chain(points, held));
            compare_board(&mut tally, &mut random, &board);
        }
    }
    // Copies of boards with the most points and zones that there are, from where a log leads.
    for _ in 0..40 {
        let board = loop {
            let sparse = 1 + random.below(6);
            let board = any_board(&mut random, 64, 96, sparse);
            if board.zones.len() == 96 {
                break board;
            }
        };
        let log = logs::walk(&mut random, &board, 50, 4).concat();
        let (bytes, lent) = (boards::written(&mut random, &board), Lent::new(&mut random, log, 96));
        let replay = compare_replay(&mut tally.replays, &bytes, Some(&board), &lent);
        compare_copies(&mut tally.copies, &mut random, &board, &bytes, &replay.sheet);
    }
    compare_pictures(&mut tally.drawn, &mut random);
    tally.first_faults += compare_each_zone(&boards::accepted(&mut random, 2, 96, 1, Loops::OnceIn(4)));
    if !tally.loops.fair() {
        println!("too few boards or sheets with turning loops of some kind: {:?}", tally.loops);
        std::process::exit(1);
    }
    if !tally.gate.fair() {
        println!("too few sheets with routes that run on through home: {:?}", tally.gate);
        std::process::exit(1);
    }
    if !tally.blocked.fair() {
        println!("too few boards of some kind by their blocked carriers, or too few carriers alone out: {:?}", tally.blocked);
        std::process::exit(1);
    }
    if !tally.versions.fair() {
        println!("too few boards of some kind by their version or their carriers' numbers: {:?}", tally.versions);
        std::process::exit(1);
    }
    if !tally.searched.fair(10) || tally.searched.large == 0 || !tally.small_searched.fair(1) {
        println!("too few boards of some kind by their search count: {:?}, small ones {:?}", tally.searched, tally.small_searched);
        std::process::exit(1);
    }
    if !tally.replays.fair() || tally.single_moves < 100_000 {
        println!("too few replays of some kind: {:?}, single moves {}", tally.replays, tally.single_moves);
        std::process::exit(1);
    }
    if !tally.copies.fair() || tally.first_faults < 100_000 {
        println!("too few copies of some kind: {:?}, by their first fault {}", tally.copies, tally.first_faults);
        std::process::exit(1);
    }
    if !tally.places.fair() || tally.said < 100_000 {
        println!("too few faults of some kind, or too few sheets in lines: {:?}, {}", tally.places, tally.said);
        std::process::exit(1);
    }
    if !tally.drawn.fair() {
        println!("too few pictures of some kind, or too small a print: {:?}", tally.drawn);
        std::process::exit(1);
    }
    println!(
        "{} boards ({} accepted), {} sheets ({} passed), {} replays, {} writes ({} copies), {} boards by exhaustion, {} of them full, \
         {} single moves on small ones, {} writes by their first fault: no difference",
        tally.boards, tally.accepted, tally.sheets, tally.passed, tally.replays.replays(), tally.copies.writes(), tally.copies.copies(),
        tally.exhaustive, tally.full, tally.single_moves, tally.first_faults
    );
    println!("turning loops: {:?}", tally.loops);
    println!("sheets that the home gate turns to 32: {:?}", tally.gate);
    println!("blocked carriers: {:?}", tally.blocked);
    println!("versions: {:?}", tally.versions);
    println!("search counts: {:?}, small boards {:?}", tally.searched, tally.small_searched);
    println!("replays: {:?}", tally.replays);
    println!("copies: {:?}", tally.copies);
    println!("sheets in lines, rows and bytes: {}", tally.said);
    println!("faults by the examiner's tool: {:?}", tally.places);
    println!("pictures and pages: {:?}", tally.drawn);
    println!("verdicts {:?}", tally.verdicts);
    println!("marks {:?}", tally.marks);
}
