//! Asks the archive `libgyalvindor.a`, the Rust crate over it and the second program the same questions on the same bytes,
//! and stops at the first difference. The README says what is asked.

mod ask;
mod calls;
mod cases;
mod choose_cases;
mod choose_met;
mod choose_sweeps;
mod choosing;
mod chosen;
mod entries;
mod faults;
mod fonts;
mod lists;
mod looked;
mod looked_met;
mod looked_sweeps;
mod make;
mod met;
mod numbers;
mod pair;
mod pair_sweeps;
mod partner;
mod question;
mod raw;
mod record_sweeps;
mod records;
mod rows;
mod sequences;
mod sides;
mod sweeps;
mod tally;
mod write_cases;
mod write_met;
mod write_sweeps;
mod writing;
mod written;

use std::io::{IsTerminal, Write};
use std::ops::Range;
use std::path::{Path, PathBuf};
use std::process::ExitCode;
use std::rc::Rc;
use std::time::{Duration, Instant, SystemTime, UNIX_EPOCH};
use std::{env, fs, io, process, slice};

use ask::{caught, Amount, Asker, Difference, LEVELS};
use calls::Calls;
use entries::List;
use make::Made;
use numbers::Numbers;
use tally::Tally;

const USAGE: &str = "usage: compare [OPTION]... [FOLDER]...
Compares the archive and the Rust crate over it with the second program on the rows of document 01 and of document 02's Asks 1
to 8, in sweeps over the places that the rules look at, on tables and calls made at random, and on the fonts under the folders.
Without folders: the fonts installed on the machine.

  --rows, --sweeps, --random, --fonts
                  only these parts
  --count N       how many tables are made at random (1000000)
  --seed S        the seed (taken from the clock)
  --first K       number of the first table that is made (0)
  --bytes FOLDER  where the bytes of a difference are written (the folder for passing files)
  --name FILE     only: ask everything of the 'name' table in this file
  --os2 FILE      only: ask everything of the 'OS/2' table in this file
  --numbers FILE  only: write the 48 numbers in this file, one a line
  --entries FILE POOL
                  only: write the entries in this file, one a line, with the bytes of the other as the pool
  --compare-name LEFT RIGHT, --compare-os2 LEFT RIGHT
                  only: compare the two tables in these files
  --calls FILE    only: make the calls of the chooser in this file, one a line";

/// Prints a line. Where nobody reads it, the comparison goes on.
macro_rules! say {
    ($($words:tt)*) => {
        let _ = writeln!(io::stdout(), $($words)*);
    };
}

/// A long run at random has to meet everything.
const LONG: u64 = 100_000;
/// How often each table of a font is damaged.
const DAMAGED: u64 = 50;
/// With one of so many 'name' tables made at random, two of 5,460 records are compared, and the first of them and one of 5,459
/// are asked about.
const LARGEST: usize = 2_000;

/// What the program is told to do.
struct Task {
    rows: bool,
    sweeps: bool,
    random: bool,
    fonts: bool,
    count: u64,
    seed: u64,
    first: u64,
    bytes: PathBuf,
    folders: Vec<PathBuf>,
    single: Option<(String, Vec<PathBuf>)>,
}

/// Why the program stops before its end.
enum Stop {
    /// The sides differ, on these bytes.
    Difference(String),
    /// Something else.
    Fault(String),
}

fn main() -> ExitCode {
    let task = match parse(env::args().skip(1).collect()) {
        Ok(Some(task)) => task,
        Ok(None) => {
            say!("{USAGE}");
            return ExitCode::SUCCESS;
        }
        Err(fault) => {
            eprintln!("compare: {fault}\n{USAGE}");
            return ExitCode::from(2);
        }
    };
    match run(&task) {
        Ok(()) => ExitCode::SUCCESS,
        Err(Stop::Difference(words)) => {
            eprint!("compare: DIFFERENCE\n{words}");
            ExitCode::from(1)
        }
        Err(Stop::Fault(words)) => {
            eprintln!("compare: {words}");
            ExitCode::from(1)
        }
    }
}

/// The task, nothing where the usage is asked for, or what is wrong with the arguments.
fn parse(arguments: Vec<String>) -> Result<Option<Task>, String> {
    let clock = SystemTime::now().duration_since(UNIX_EPOCH);
    let mut task = Task {
        rows: false,
        sweeps: false,
        random: false,
        fonts: false,
        count: 1_000_000,
        seed: clock.map_or(1, |time| time.as_nanos() as u64 % 1_000_000_000_000),
        first: 0,
        bytes: env::temp_dir(),
        folders: Vec::new(),
        single: None,
    };
    let mut rest = arguments.into_iter();
    while let Some(argument) = rest.next() {
        let mut after = || {
            rest.next()
                .ok_or(format!("{argument} needs a word after it"))
        };
        let number = |word: String| {
            let parsed = word.parse::<u64>();
            parsed.map_err(|_| format!("{word} is no number"))
        };
        match argument.as_str() {
            "--help" | "-h" => return Ok(None),
            "--rows" => task.rows = true,
            "--sweeps" => task.sweeps = true,
            "--random" => task.random = true,
            "--fonts" => task.fonts = true,
            "--count" => task.count = number(after()?)?,
            "--seed" => task.seed = number(after()?)?,
            "--first" => task.first = number(after()?)?,
            "--bytes" => task.bytes = PathBuf::from(after()?),
            "--name" | "--os2" | "--numbers" | "--calls" => {
                let file = PathBuf::from(after()?);
                task.single = Some((argument, vec![file]));
            }
            "--compare-name" | "--compare-os2" | "--entries" => {
                let files = vec![PathBuf::from(after()?), PathBuf::from(after()?)];
                task.single = Some((argument, files));
            }
            _ if argument.starts_with('-') => return Err(format!("{argument} is no option")),
            _ => task.folders.push(PathBuf::from(argument)),
        }
    }
    if !(task.rows || task.sweeps || task.random || task.fonts) {
        (task.rows, task.sweeps, task.random, task.fonts) = (true, true, true, true);
    }
    Ok(Some(task))
}

fn run(task: &Task) -> Result<(), Stop> {
    let started = Instant::now();
    let mut whole = Tally::new();
    if let Some((option, files)) = &task.single {
        whole.add(&single(task, option, files)?);
    } else {
        if task.rows {
            whole.add(&document_rows(task)?);
        }
        if task.sweeps {
            whole.add(&sweeps_over(task)?);
        }
        if task.random {
            whole.add(&at_random(task)?);
        }
        if task.fonts {
            whole.add(&installed_fonts(task)?);
        }
    }
    say!("in all: {}", whole.tables());
    say!("{}", whole.report().trim_end());
    say!(
        "{} calls compared, no difference, {:.1} seconds",
        whole.calls(),
        started.elapsed().as_secs_f64()
    );
    Ok(())
}

// ---- the parts

/// The file's bytes.
fn read(file: &Path) -> Result<Vec<u8>, Stop> {
    fs::read(file).map_err(|e| Stop::Fault(format!("{}: {e}", file.display())))
}

fn single(task: &Task, option: &str, files: &[PathBuf]) -> Result<Tally, Stop> {
    let bytes = read(&files[0])?;
    let made = match option {
        "--name" => Made::Name(bytes),
        "--os2" => Made::Os2(bytes),
        "--compare-name" => Made::NamePair(bytes, read(&files[1])?),
        "--compare-os2" => Made::Os2Pair(bytes, read(&files[1])?),
        "--entries" => {
            let lines = String::from_utf8_lossy(&bytes);
            let list = List::of_lines(&lines, read(&files[1])?);
            Made::Entries(list.map_err(Stop::Fault)?)
        }
        "--calls" => {
            let calls = Calls::of_lines(&String::from_utf8_lossy(&bytes));
            Made::Calls(calls.map_err(Stop::Fault)?)
        }
        _ => {
            let text = String::from_utf8_lossy(&bytes);
            let numbers: Vec<i64> = text
                .split_whitespace()
                .map(|word| {
                    word.parse()
                        .map_err(|_| Stop::Fault(format!("{word} is no number")))
                })
                .collect::<Result<_, _>>()?;
            let numbers = <[i64; 48]>::try_from(numbers)
                .map_err(|n| Stop::Fault(format!("{} numbers, not 48", n.len())))?;
            Made::Numbers(Box::new(numbers))
        }
    };
    let mut asker = Asker::new();
    let place = match files {
        [first, other] => format!("the files {} and {}", first.display(), other.display()),
        _ => format!("the file {}", files[0].display()),
    };
    one(
        task,
        &mut asker,
        &made,
        Amount::Everything,
        &mut Numbers::new(task.seed),
        &place,
    )?;
    Ok(asker.tally)
}

fn document_rows(task: &Task) -> Result<Tally, Stop> {
    let mut asker = Asker::new();
    let rows = rows::rows();
    for row in &rows {
        caught(|| rows::ask(&mut asker, row)).map_err(|difference| {
            let place = format!("the papers' row \"{}\"", row.words);
            stopped(task, &row.made(), difference, &place)
        })?;
    }
    let cases = cases::cases();
    for case in &cases {
        caught(|| cases::ask(&mut asker, case)).map_err(|difference| {
            let place = format!("the comparison \"{}\"", case.words);
            stopped(task, &case.made(), difference, &place)
        })?;
    }
    let lists = write_cases::cases();
    for case in &lists {
        caught(|| write_cases::ask(&mut asker, case)).map_err(|difference| {
            let place = format!("the list \"{}\"", case.words);
            stopped(task, &case.made(), difference, &place)
        })?;
    }
    let sequences = choose_cases::cases();
    for case in &sequences {
        caught(|| choose_cases::ask(&mut asker, case)).map_err(|difference| {
            let place = format!("the calls \"{}\"", case.words);
            stopped(task, &case.made(), difference, &place)
        })?;
    }
    say!(
        "documents 01 and 02: {} rows, {} comparisons, {} lists of entries and {} sequences of calls of the chooser, {} calls",
        rows.len(),
        cases.len(),
        lists.len(),
        sequences.len(),
        asker.tally.calls()
    );
    Ok(asker.tally)
}

fn sweeps_over(task: &Task) -> Result<Tally, Stop> {
    let mut asker = Asker::new();
    let terminal = io::stderr().is_terminal();
    let groups = sweeps::SWEEPS
        .into_iter()
        .chain(record_sweeps::SWEEPS)
        .chain(looked_sweeps::SWEEPS)
        .chain(pair_sweeps::SWEEPS)
        .chain(write_sweeps::SWEEPS)
        .chain(choose_sweeps::SWEEPS);
    for (words, sweep) in groups {
        if terminal {
            eprint!("\r{:60}\rsweep: {words} ", "");
        }
        sweep(&mut asker).map_err(|found| {
            let place = format!("a table of the sweep \"{}\"", found.sweep);
            stopped(task, &found.made, found.difference, &place)
        })?;
    }
    if terminal {
        eprint!("\r{:60}\r", "");
    }
    say!("sweeps: {} calls", asker.tally.calls());
    Ok(asker.tally)
}

fn at_random(task: &Task) -> Result<Tally, Stop> {
    say!(
        "at random: seed {}, tables {} to {}",
        task.seed,
        task.first,
        task.first + task.count.max(1) - 1
    );
    let mut asker = Asker::new();
    let mut before = [None, None];
    let mut progress = Progress::new("tables", task.count);
    for done in 0..task.count {
        let number = task.first + done;
        let mut numbers = Numbers::of_table(task.seed, number);
        let made = make::made(number, &mut numbers);
        let place = || format!("table {number} of seed {}", task.seed);
        one_lazily(task, &mut asker, &made, Amount::Some, &mut numbers, &place)?;
        for (with, more) in beside(task, number, &made, &mut before, &mut numbers) {
            let place = || format!("table {number} of seed {}, {with}", task.seed);
            one_lazily(task, &mut asker, &more, Amount::Some, &mut numbers, &place)?;
        }
        progress.show(done);
    }
    progress.clear();
    say!("at random: {}", asker.tally.tables());
    say!("at random: {} calls", asker.tally.calls());
    let missing = asker.tally.not_met();
    if task.count >= LONG && !missing.is_empty() {
        return Err(Stop::Fault(format!(
            "the tables made at random did not meet: {}",
            missing.join("; ")
        )));
    }
    if missing.is_empty() {
        say!(
            "at random: every refusal, rule, field that does not fit, kind of answer, setting of the rights bits and thing of a comparison, of a record, of an answer, of a lookup's count, of a table to write and of the chooser was met"
        );
    } else {
        say!(
            "at random: too few tables to meet everything; {} things are missing",
            missing.len()
        );
    }
    Ok(asker.tally)
}

/// A table made at random with its number.
type Numbered = Option<(u64, Vec<u8>)>;

/// What is asked beside a table made at random. The pairs in which it is compared, and with what: the table and a partner made
/// from it, the table of its kind before it and the table, and with some tables one of 5,460 records alone, two of them, and one
/// of 5,459.
/// With 48 numbers to write, a list of entries and calls of the chooser. `before` holds the last 'name' and 'OS/2' table.
fn beside(
    task: &Task,
    number: u64,
    made: &Made,
    before: &mut [Numbered; 2],
    numbers: &mut Numbers,
) -> Vec<(&'static str, Made)> {
    let (bytes, pair, partner, before): (_, fn(_, _) -> Made, _, _) = match made {
        Made::Name(bytes) => {
            let partner = partner::name(numbers, bytes);
            (bytes, Made::NamePair, partner, &mut before[0])
        }
        Made::Os2(bytes) => {
            let partner = partner::os2(numbers, bytes);
            (bytes, Made::Os2Pair, partner, &mut before[1])
        }
        _ => {
            return vec![
                (
                    "with a list of entries",
                    Made::Entries(lists::list(numbers)),
                ),
                (
                    "with calls of the chooser",
                    Made::Calls(sequences::calls(numbers)),
                ),
            ]
        }
    };
    let mut pairs = vec![("compared with its partner", pair(bytes.clone(), partner))];
    if let Some(number_before) = make::same_kind_before(number) {
        let other = match before.take() {
            Some((kept, bytes)) if kept == number_before => bytes,
            // The first table of the run.
            _ => match make::made(
                number_before,
                &mut Numbers::of_table(task.seed, number_before),
            ) {
                Made::Name(bytes) | Made::Os2(bytes) => bytes,
                _ => Vec::new(),
            },
        };
        pairs.push(("compared with the one before", pair(other, bytes.clone())));
    }
    *before = Some((number, bytes.clone()));
    if matches!(made, Made::Name(_)) && numbers.chance(1, LARGEST) {
        let (left, right) = partner::largest(numbers);
        pairs.push(("with one of 5,460 records", Made::Name(left.clone())));
        pairs.push(("with two of 5,460 records", Made::NamePair(left, right)));
        let fewer = make::name_of(numbers, 5_459);
        pairs.push(("with one of 5,459 records", Made::Name(fewer)));
    }
    pairs
}

/// A font's words, and its 'name' and 'OS/2' tables as far as it has them.
type Face = (String, [Option<Vec<u8>>; 2]);

fn installed_fonts(task: &Task) -> Result<Tally, Stop> {
    let folders = if task.folders.is_empty() {
        fonts::installed()
    } else {
        task.folders.clone()
    };
    let files = fonts::under(&folders).map_err(Stop::Fault)?;
    let mut asker = Asker::new();
    let mut damaged = Asker::new();
    let mut progress = Progress::new("font files", files.len() as u64);
    let mut faces: Vec<Face> = Vec::new();
    let mut without = [0, 0];
    for (done, path) in files.iter().enumerate() {
        let file = read(path)?;
        for face in 0..second::sfnt::fonts(&file) {
            let name = second::sfnt::table_of(&file, face, *b"name");
            let os2 = second::sfnt::table_of(&file, face, *b"OS/2");
            without[0] += u64::from(name.is_none());
            without[1] += u64::from(os2.is_none());
            let tables = [
                name.map(|bytes| Made::Name(bytes.to_vec())),
                os2.map(|bytes| Made::Os2(bytes.to_vec())),
            ];
            let place = format!("font {face} of {}", path.display());
            faces.push((
                place.clone(),
                [name, os2].map(|table| table.map(<[u8]>::to_vec)),
            ));
            for made in tables.into_iter().flatten() {
                let mut numbers = Numbers::of_table(task.seed, done as u64);
                one(
                    task,
                    &mut asker,
                    &made,
                    Amount::Everything,
                    &mut numbers,
                    &place,
                )?;
                for _ in 0..DAMAGED {
                    let (faulty, pair) = damage(&made, &mut numbers);
                    let place = format!("a damaged table of font {face} of {}", path.display());
                    for made in [faulty, pair] {
                        one(
                            task,
                            &mut damaged,
                            &made,
                            Amount::Some,
                            &mut numbers,
                            &place,
                        )?;
                    }
                }
            }
        }
        progress.show(done as u64);
    }
    progress.clear();
    if asker.tally.names[0] + asker.tally.os2s[0] == 0 {
        let shown: Vec<String> = folders.iter().map(|f| f.display().to_string()).collect();
        let under = match shown.is_empty() {
            true => "none of the folders for installed fonts is there".to_string(),
            false => format!("there are none under {}", shown.join(", ")),
        };
        return Err(Stop::Fault(format!(
            "no fonts found: {under}. Name a folder that holds fonts"
        )));
    }
    if asker.tally.rewritings[1] == 0 {
        return Err(Stop::Fault(
            "of no font could the records of the 'name' table be written".to_string(),
        ));
    }
    // Each font with the next, the last with the first.
    for (place, (words, tables)) in faces.iter().enumerate() {
        let (next, others) = &faces[(place + 1) % faces.len()];
        let kinds: [fn(_, _) -> Made; 2] = [Made::NamePair, Made::Os2Pair];
        for (kind, pair) in kinds.into_iter().enumerate() {
            if let (Some(left), Some(right)) = (&tables[kind], &others[kind]) {
                let made = pair(left.clone(), right.clone());
                let place = format!("{words} compared with {next}");
                let mut numbers = Numbers::of_table(task.seed, kind as u64);
                one(
                    task,
                    &mut asker,
                    &made,
                    Amount::Everything,
                    &mut numbers,
                    &place,
                )?;
            }
        }
    }
    fonts_in_racks(task, &faces, &mut asker, &mut damaged)?;
    if asker.tally.sequences[1..].contains(&0) {
        return Err(Stop::Fault(
            "of the fonts none could be loaded into a rack and chosen".to_string(),
        ));
    }
    say!(
        "fonts: {} files, {} fonts, of which {} have no name table and {} no OS/2 table",
        files.len(),
        faces.len(),
        without[0],
        without[1]
    );
    say!("fonts: {}", asker.tally.tables());
    say!("fonts, damaged: {}", damaged.tally.tables());
    asker.tally.add(&damaged.tally);
    Ok(asker.tally)
}

/// Loads each font that has both tables at every level, then all of them one after another, with requests behind each load.
/// Then the same with tables that are damaged.
fn fonts_in_racks(
    task: &Task,
    faces: &[Face],
    asker: &mut Asker,
    damaged: &mut Asker,
) -> Result<(), Stop> {
    let mut fonts: Vec<[Rc<[u8]>; 2]> = Vec::new();
    for (done, (words, tables)) in faces.iter().enumerate() {
        let [Some(name), Some(os2)] = tables else {
            continue;
        };
        let mut numbers = Numbers::of_table(task.seed, done as u64);
        let font: [Rc<[u8]>; 2] = [os2.as_slice().into(), name.as_slice().into()];
        let made = Made::Calls(sequences::of_fonts(
            &mut numbers,
            slice::from_ref(&font),
            &LEVELS,
        ));
        let place = format!("{words} in a rack");
        one(task, asker, &made, Amount::Everything, &mut numbers, &place)?;
        for _ in 0..DAMAGED {
            let mut other = font.clone();
            // One of the tables, or both.
            let choice = numbers.below(3);
            for (kind, table) in other.iter_mut().enumerate() {
                if choice != kind {
                    *table = faulty(table, &mut numbers).into();
                }
            }
            let levels = [5, numbers.below(6) as u32];
            let both = [font.clone(), other];
            let made = Made::Calls(sequences::of_fonts(&mut numbers, &both, &levels));
            let place = format!("{words} and a damaged copy in a rack");
            one(task, damaged, &made, Amount::Some, &mut numbers, &place)?;
        }
        fonts.push(font);
    }
    let mut numbers = Numbers::new(task.seed);
    let made = Made::Calls(sequences::of_fonts(&mut numbers, &fonts, &[5]));
    let place = "all fonts in one rack";
    one(task, asker, &made, Amount::Everything, &mut numbers, place)
}

/// A font's table with one or two faults in its bytes.
fn faulty(bytes: &[u8], numbers: &mut Numbers) -> Vec<u8> {
    let mut bytes = bytes.to_vec();
    for _ in 0..1 + numbers.below(2) {
        make::byte_fault(numbers, &mut bytes, &[6, 18, 78, 86, 96, 100]);
    }
    bytes
}

/// A font's table with one or two faults in its bytes, and the pair of the table and that.
fn damage(made: &Made, numbers: &mut Numbers) -> (Made, Made) {
    match made {
        Made::Name(bytes) => {
            let other = faulty(bytes, numbers);
            let pair = Made::NamePair(bytes.clone(), other.clone());
            (Made::Name(other), pair)
        }
        Made::Os2(bytes) => {
            let other = faulty(bytes, numbers);
            let pair = Made::Os2Pair(bytes.clone(), other.clone());
            (Made::Os2(other), pair)
        }
        _ => unreachable!("a font's table is 'name' or 'OS/2'"),
    }
}

// ---- one table

fn one(
    task: &Task,
    asker: &mut Asker,
    made: &Made,
    amount: Amount,
    numbers: &mut Numbers,
    place: &str,
) -> Result<(), Stop> {
    one_lazily(task, asker, made, amount, numbers, &|| place.to_string())
}

/// A table in the middle of other bytes, which change with the table, so that a side that reads past an end shows it.
struct Lent {
    around: Vec<u8>,
    place: Range<usize>,
}

impl Lent {
    fn new(bytes: &[u8], numbers: &mut Numbers) -> Lent {
        let before = numbers.below(8);
        let mut around = numbers.bytes(before);
        around.extend(bytes);
        let after = 16 + numbers.below(8);
        around.extend(numbers.bytes(after));
        let place = before..before + bytes.len();
        Lent { around, place }
    }

    fn bytes(&self) -> &[u8] {
        &self.around[self.place.clone()]
    }
}

/// Asks the questions on what was made. A table is also compared with itself, and the records of a 'name' table are written.
fn one_lazily(
    task: &Task,
    asker: &mut Asker,
    made: &Made,
    amount: Amount,
    numbers: &mut Numbers,
    place: &dyn Fn() -> String,
) -> Result<(), Stop> {
    let mut lend = |bytes: &Vec<u8>| Lent::new(bytes, numbers);
    let (result, changed) = match made {
        Made::Name(bytes) => {
            let lent = lend(bytes);
            let table = lent.bytes();
            let result = caught(|| {
                asker.name(table, amount, numbers)?;
                asker.name_pair(table, table, amount, numbers)?;
                asker.rewriting(table, amount, numbers)
            });
            (result, table != bytes)
        }
        Made::Os2(bytes) => {
            let lent = lend(bytes);
            let table = lent.bytes();
            let result = caught(|| {
                asker.os2(table, amount, numbers)?;
                asker.os2_pair(table, table, amount, numbers)
            });
            (result, table != bytes)
        }
        Made::Numbers(values) => (caught(|| asker.numbers(values, amount, numbers)), false),
        Made::Entries(list) => (caught(|| asker.entries(list, amount, numbers)), false),
        Made::NamePair(left, right) => {
            let lent = [lend(left), lend(right)];
            let tables = [lent[0].bytes(), lent[1].bytes()];
            let result = caught(|| asker.name_pair(tables[0], tables[1], amount, numbers));
            (result, tables != [left, right])
        }
        Made::Os2Pair(left, right) => {
            let lent = [lend(left), lend(right)];
            let tables = [lent[0].bytes(), lent[1].bytes()];
            let result = caught(|| asker.os2_pair(tables[0], tables[1], amount, numbers));
            (result, tables != [left, right])
        }
        Made::Calls(calls) => (caught(|| asker.calls(calls, numbers)), false),
    };
    let result = match result {
        Ok(()) if changed => Err(Difference(
            "a question changed a table that was lent for reading\n".to_string(),
        )),
        result => result,
    };
    result.map_err(|difference| stopped(task, made, difference, &place()))
}

/// Writes the bytes of a difference to a file, or to two, and gives the whole message.
fn stopped(task: &Task, made: &Made, difference: Difference, place: &str) -> Stop {
    let (option, contents) = match made {
        Made::Name(bytes) => ("--name", vec![("name", bytes.clone())]),
        Made::Os2(bytes) => ("--os2", vec![("os2", bytes.clone())]),
        Made::Numbers(values) => {
            let lines: String = values.iter().map(|value| format!("{value}\n")).collect();
            ("--numbers", vec![("numbers", lines.into_bytes())])
        }
        Made::Entries(list) => (
            "--entries",
            vec![
                ("entries", list.lines().into_bytes()),
                ("pool", list.pool.clone()),
            ],
        ),
        Made::NamePair(left, right) => (
            "--compare-name",
            vec![("left", left.clone()), ("right", right.clone())],
        ),
        Made::Os2Pair(left, right) => (
            "--compare-os2",
            vec![("left", left.clone()), ("right", right.clone())],
        ),
        Made::Calls(calls) => ("--calls", vec![("calls", calls.lines().into_bytes())]),
    };
    let mut kept = String::new();
    let mut again = format!("  Ask again: compare {option}");
    for (title, bytes) in contents {
        let file = task
            .bytes
            .join(format!("compare-{title}-{}", process::id()));
        let what = match title {
            "numbers" => "48 numbers",
            "entries" => "entries",
            "calls" => "calls",
            "pool" => "pool's bytes",
            "left" | "right" => &format!("{title} table's bytes"),
            _ => "table's bytes",
        };
        match fs::write(&file, &bytes) {
            Ok(()) => kept.push_str(&format!("  The {what} are in {}\n", file.display())),
            Err(e) => {
                kept.push_str(&format!(
                    "  The {what} can't be written to {}: {e}\n  They are: {bytes:02X?}\n",
                    file.display()
                ));
                again.clear();
            }
        }
        if !again.is_empty() {
            again.push_str(&format!(" {}", file.display()));
        }
    }
    if !again.is_empty() {
        again.push('\n');
    }
    Stop::Difference(format!("on {place}\n{}{kept}{again}", difference.0))
}

// ---- progress

/// Shows on a terminal how far a long run is.
struct Progress {
    what: &'static str,
    count: u64,
    terminal: bool,
    started: Instant,
    shown: Option<Instant>,
}

impl Progress {
    fn new(what: &'static str, count: u64) -> Progress {
        Progress {
            what,
            count,
            terminal: io::stderr().is_terminal(),
            started: Instant::now(),
            shown: None,
        }
    }

    fn show(&mut self, done: u64) {
        if !self.terminal || !done.is_multiple_of(64) && self.what == "tables" {
            return;
        }
        let last = self.shown.unwrap_or(self.started);
        if last.elapsed() < Duration::from_millis(300) {
            return;
        }
        self.shown = Some(Instant::now());
        let seconds = self.started.elapsed().as_secs();
        eprint!(
            "\r{} of {} {}, {seconds} s ",
            done + 1,
            self.count,
            self.what
        );
        let _ = io::stderr().flush();
    }

    fn clear(&self) {
        if self.shown.is_some() {
            eprint!("\r{:60}\r", "");
        }
    }
}
