//! Times the proved library against safe Rust that does the same work, and prints a table of the ratios.

mod answers;
mod fonts;
mod library;
mod plain;
mod tuned;

use answers::{Answer, Entry, Request};
use fonts::Font;
use library::raw;
use std::fmt::Debug;
use std::hint::black_box;
use std::path::PathBuf;
use std::process::ExitCode;
use std::time::{Duration, Instant};

/// Rounds, of which the best counts, and the least time of a round.
const ROUNDS: usize = 15;
const ROUND: Duration = Duration::from_millis(8);

/// The keys that a box looks up: family, subfamily, full name, PostScript name, and one that is seldom there.
const KEYS: [[u16; 4]; 5] = [
    [3, 1, 0x409, 1],
    [3, 1, 0x409, 2],
    [3, 1, 0x409, 4],
    [1, 0, 0, 6],
    [3, 1, 0x40c, 1],
];

/// One piece of work, done by one implementation.
struct Runner<'a> {
    work: Box<dyn FnMut() + 'a>,
    turns: u32,
    best: f64,
}

impl<'a> Runner<'a> {
    fn new(mut work: Box<dyn FnMut() + 'a>) -> Runner<'a> {
        let mut turns = 1;
        loop {
            let start = Instant::now();
            for _ in 0..turns {
                work();
            }
            if start.elapsed() >= ROUND {
                return Runner {
                    work,
                    turns,
                    best: f64::INFINITY,
                };
            }
            turns *= 2;
        }
    }

    fn round(&mut self) {
        let start = Instant::now();
        for _ in 0..self.turns {
            (self.work)();
        }
        let each = start.elapsed().as_nanos() as f64 / self.turns as f64;
        self.best = self.best.min(each);
    }
}

/// The best time of each implementation, in nanoseconds a turn, their rounds taken in turn.
fn best<const N: usize>(works: [Box<dyn FnMut() + '_>; N]) -> [f64; N] {
    let mut runners = works.map(Runner::new);
    for _ in 0..ROUNDS {
        for runner in &mut runners {
            runner.round();
        }
    }
    runners.map(|runner| runner.best)
}

/// Work over each input in turn, the result kept from being optimised away.
fn over<'a, T: ?Sized, R>(
    inputs: &'a [impl AsRef<T>],
    f: impl Fn(&T) -> R + 'a,
) -> Box<dyn FnMut() + 'a> {
    Box::new(move || {
        for input in inputs {
            black_box(f(black_box(input.as_ref())));
        }
    })
}

/// The library's time as a multiple of plain and of tuned safe Rust's.
struct Ratios {
    plain: f64,
    tuned: f64,
}

/// Prints a line of the table: nanoseconds a call of the library, of plain and of tuned safe Rust.
fn line(what: &str, calls: usize, [ours, plain, tuned]: [f64; 3]) -> Ratios {
    let calls = calls as f64;
    let ratios = Ratios {
        plain: ours / plain,
        tuned: ours / tuned,
    };
    println!(
        "| {what} | {:.1} | {:.1} | {:.1} | {:.2} | {:.2} |",
        ours / calls,
        plain / calls,
        tuned / calls,
        ratios.plain,
        ratios.tuned
    );
    ratios
}

/// Prints a line where only plain safe Rust stands against the library.
fn line_plain(what: &str, calls: usize, [ours, plain]: [f64; 2]) -> f64 {
    let calls = calls as f64;
    println!(
        "| {what} | {:.1} | {:.1} | | {:.2} | |",
        ours / calls,
        plain / calls,
        ours / plain
    );
    ours / plain
}

/// A ratio that must not be passed.
#[derive(Clone)]
struct Bar {
    what: &'static str,
    most: f64,
    is: f64,
}

fn bar(what: &'static str, most: f64, is: f64) -> Bar {
    Bar { what, most, is }
}

fn same<R: PartialEq + Debug>(what: &str, results: [R; 3]) {
    assert!(
        results[0] == results[1] && results[1] == results[2],
        "{what} differs: {results:?}"
    );
}

/// That the three give the same answers on what is timed.
fn agree(names: &[Vec<u8>], os2s: &[Vec<u8>]) {
    for t in names {
        same(
            "check",
            [library::check(t), plain::check(t), tuned::check(t)],
        );
        same(
            "PostScript",
            [
                library::postscript(t),
                plain::postscript(t),
                tuned::postscript(t),
            ],
        );
        same(
            "version",
            [library::version(t), plain::version(t), tuned::version(t)],
        );
        for key in KEYS {
            same(
                "lookup",
                [
                    library::lookup(t, key),
                    plain::lookup(t, key),
                    tuned::lookup(t, key),
                ],
            );
        }
    }
    for t in os2s {
        for level in 0..=5 {
            for k in 0..=48 {
                same(
                    "field",
                    [
                        library::field(t, level, k),
                        plain::field(t, level, k),
                        tuned::field(t, level, k),
                    ],
                );
            }
            let questions: [fn(&[u8], u32) -> String; 2] = [
                |t, level| format!("{:?}", seven_library(t, level)),
                |t, level| format!("{:?}", seven_plain(t, level)),
            ];
            assert_eq!(
                questions[0](t, level),
                questions[1](t, level),
                "a question differs"
            );
            assert_eq!(
                library::check_os2(t, level),
                plain::check_os2(t, level),
                "the OS/2 check differs"
            );
        }
        let numbers = numbers_of(t);
        let mut rooms = [[7u8; 128]; 3];
        let [first, second, third] = &mut rooms;
        same(
            "write",
            [
                library::write(&numbers, first),
                plain::write(&numbers, second),
                tuned::write(&numbers, third),
            ],
        );
        same("the room", rooms);
    }
}

type Seven = (
    answers::Result<Answer<i64>>,
    [answers::Result<Answer<i64>>; 3],
    answers::Result<Answer<u32>>,
    answers::Result<Answer<(f32, f32)>>,
    answers::Result<Answer<answers::Optical>>,
);

fn seven_library(t: &[u8], level: u32) -> Seven {
    (
        library::field(t, level, 2),
        [
            library::selection_bit(t, level, 7),
            library::unicode_bit(t, level, 57),
            library::code_page_bit(t, level, 33),
        ],
        library::rights(t, level),
        library::style_position(t, level),
        library::optical_sizes(t, level),
    )
}

/// The seven questions in the library's own words.
fn seven_raw(t: &[u8], level: u32) -> impl Sized + use<> {
    (
        raw::field(t, level, 2),
        [
            raw::selection_bit(t, level, 7),
            raw::unicode_bit(t, level, 57),
            raw::code_page_bit(t, level, 33),
        ],
        raw::rights(t, level),
        raw::style_position(t, level),
        raw::optical_sizes(t, level),
    )
}

fn seven_plain(t: &[u8], level: u32) -> Seven {
    (
        plain::field(t, level, 2),
        [
            plain::selection_bit(t, level, 7),
            plain::unicode_bit(t, level, 57),
            plain::code_page_bit(t, level, 33),
        ],
        plain::rights(t, level),
        plain::style_position(t, level),
        plain::optical_sizes(t, level),
    )
}

/// The 48 numbers of a table, 0 for what its version lacks.
fn numbers_of(t: &[u8]) -> [i64; 48] {
    std::array::from_fn(|k| match plain::field(t, 5, k as u32) {
        Ok(Answer::Value(x)) => x,
        _ => 0,
    })
}

/// Each of the 48 fields asked for, one after the other.
fn fields<R>(ask: impl Fn(u32) -> R) {
    for k in 0..48 {
        black_box(ask(black_box(k)));
    }
}

fn time_names(names: &[Vec<u8>]) -> Vec<Bar> {
    let calls = names.len();
    line(
        "check, a font",
        calls,
        best([
            over(names, |t: &[u8]| raw::check(t)),
            over(names, |t: &[u8]| plain::check(t)),
            over(names, |t: &[u8]| tuned::check(t)),
        ]),
    );
    let lookup = line(
        "check and lookup, a font",
        calls * KEYS.len(),
        best([
            over(names, |t: &[u8]| {
                KEYS.map(|key| raw::lookup(t, black_box(key)))
            }),
            over(names, |t: &[u8]| {
                KEYS.map(|key| plain::lookup(t, black_box(key)))
            }),
            over(names, |t: &[u8]| {
                KEYS.map(|key| tuned::lookup(t, black_box(key)))
            }),
        ]),
    );
    line(
        "PostScript name, a font",
        calls,
        best([
            over(names, |t: &[u8]| raw::postscript(t)),
            over(names, |t: &[u8]| plain::postscript(t)),
            over(names, |t: &[u8]| tuned::postscript(t)),
        ]),
    );
    let longest = [fonts::postscript_name(63)];
    agree(&longest, &[]);
    let long_name = line(
        "PostScript name, 63 characters",
        1,
        best([
            over(&longest, |t: &[u8]| raw::postscript(t)),
            over(&longest, |t: &[u8]| plain::postscript(t)),
            over(&longest, |t: &[u8]| tuned::postscript(t)),
        ]),
    );
    line(
        "version number, a font",
        calls,
        best([
            over(names, |t: &[u8]| raw::version(t)),
            over(names, |t: &[u8]| plain::version(t)),
            over(names, |t: &[u8]| tuned::version(t)),
        ]),
    );
    vec![
        bar("check and lookup, a font, to plain", 0.6, lookup.plain),
        bar(
            "PostScript name, 63 characters, to plain",
            0.6,
            long_name.plain,
        ),
        bar(
            "PostScript name, 63 characters, to tuned",
            1.1,
            long_name.tuned,
        ),
    ]
}

fn time_os2s(os2s: &[Vec<u8>]) -> Vec<Bar> {
    let calls = os2s.len();
    let field = line(
        "one field of the 48",
        calls * 48,
        best([
            over(os2s, |t: &[u8]| fields(|k| raw::field(t, black_box(5), k))),
            over(os2s, |t: &[u8]| {
                fields(|k| plain::field(t, black_box(5), k))
            }),
            over(os2s, |t: &[u8]| {
                fields(|k| tuned::field(t, black_box(5), k))
            }),
        ]),
    );
    line_plain(
        "all seven questions",
        calls,
        best([
            over(os2s, |t: &[u8]| seven_raw(t, black_box(5))),
            over(os2s, |t: &[u8]| seven_plain(t, black_box(5))),
        ]),
    );
    let numbers: Vec<Numbers> = os2s.iter().map(|t| Numbers(numbers_of(t))).collect();
    let writer = line(
        "the writer, a table",
        calls,
        best([
            over(&numbers, |x: &[i64; 48]| {
                raw::write(x, black_box(&mut [0; 128]))
            }),
            over(&numbers, |x: &[i64; 48]| {
                plain::write(x, black_box(&mut [0; 128]))
            }),
            over(&numbers, |x: &[i64; 48]| {
                tuned::write(x, black_box(&mut [0; 128]))
            }),
        ]),
    );
    vec![
        bar("one field, to plain", 1.1, field.plain),
        bar("the writer, to plain", 2.0, writer.plain),
    ]
}

struct Numbers([i64; 48]);

impl AsRef<[i64; 48]> for Numbers {
    fn as_ref(&self) -> &[i64; 48] {
        &self.0
    }
}

fn time_many() -> Vec<Bar> {
    let [few, many] = [50, 5460].map(fonts::many_records).map(|t| [t]);
    for t in few.iter().chain(&many) {
        same(
            "check",
            [library::check(t), plain::check(t), tuned::check(t)],
        );
        assert_eq!(
            library::check(t),
            Ok(()),
            "a table made for the benchmark is refused"
        );
    }
    let [(_, few), (check, each)] = [(&few, 50), (&many, 5460)].map(|(t, count)| {
        let times = best([
            over(t, |t: &[u8]| raw::check(t)),
            over(t, |t: &[u8]| plain::check(t)),
            over(t, |t: &[u8]| tuned::check(t)),
        ]);
        (
            line(&format!("check, a record of {count}"), count, times),
            times[0] / count as f64,
        )
    });
    let key = [3, 1, 0x409, 5];
    line(
        "check and lookup, a record of 5460",
        5460,
        best([
            over(&many, move |t: &[u8]| raw::lookup(t, black_box(key))),
            over(&many, move |t: &[u8]| plain::lookup(t, black_box(key))),
            over(&many, move |t: &[u8]| tuned::lookup(t, black_box(key))),
        ]),
    );
    vec![
        bar("check of 5460 records, to tuned", 1.1, check.tuned),
        bar("check of 5460 records, to plain", 0.4, check.plain),
        bar("a record of 5460, to a record of 50", 1.5, each / few),
    ]
}

/// Two tables that are compared.
type Pair = [Vec<u8>; 2];

/// Each table with the next one: mostly another face of the family.
fn neighbours(tables: &[Vec<u8>]) -> Vec<Pair> {
    tables
        .windows(2)
        .map(|two| [two[0].clone(), two[1].clone()])
        .collect()
}

/// Work over each pair in turn, in room that is enough, the result kept from being optimised away.
fn over_pairs<'a, N: Copy + Default + 'a, R>(
    pairs: &'a [Pair],
    f: impl Fn(&[u8], &[u8], &mut [N]) -> R + 'a,
) -> Box<dyn FnMut() + 'a> {
    let mut room = vec![N::default(); 5 * 2 * 5460];
    Box::new(move || {
        for [left, right] in pairs {
            black_box(f(black_box(left), black_box(right), &mut room));
        }
    })
}

/// That the library and plain safe Rust compare the pairs alike, and that no room but one that is too small is refused.
fn agree_pairs<N: Copy + Default + PartialEq + Debug>(
    pairs: &[Pair],
    library: impl Fn(&[u8], &[u8], &mut [N]) -> answers::Compared,
    plain: impl Fn(&[u8], &[u8], &mut [N]) -> answers::Compared,
) {
    for [left, right] in pairs {
        let mut rooms = [0, 1].map(|_| vec![N::default(); 5 * 2 * 5460]);
        let [ours, theirs] = &mut rooms;
        let done = library(left, right, ours);
        assert_eq!(done, plain(left, right, theirs), "a comparison differs");
        assert_eq!(ours, theirs, "the rows differ");
        if let Ok(count @ 1..) = done {
            let short = 5 * count - 1;
            assert_eq!(
                library(left, right, &mut ours[..short]),
                plain(left, right, &mut theirs[..short]),
                "a comparison in too little room differs"
            );
        }
    }
}

fn time_comparisons(names: &[Vec<u8>], os2s: &[Vec<u8>]) -> Vec<Bar> {
    let fonts = neighbours(names);
    let [one, all] = [fonts::one_byte_changed(), {
        let t = fonts::many_records(5460);
        let mut changed = t.clone();
        *changed.last_mut().expect("its string has a byte") = b'y';
        [t, changed]
    }]
    .map(|pair| [pair]);
    let tables = neighbours(os2s);
    for pairs in [&fonts[..], &one, &all] {
        agree_pairs(pairs, library::compare_names, plain::compare_names);
    }
    agree_pairs(
        &tables,
        |l, r, room| library::compare_os2(l, r, 5, room),
        |l, r, room| plain::compare_os2(l, r, 5, room),
    );
    let time = |what, calls, pairs: &[Pair]| {
        line_plain(
            what,
            calls,
            best([
                over_pairs(pairs, raw::compare_names),
                over_pairs(pairs, plain::compare_names),
            ]),
        )
    };
    let of_fonts = time("compare 'name', two fonts", fonts.len(), &fonts);
    let of_one = time("compare 'name', 5460 records, one byte changed", 1, &one);
    let of_all = time("compare 'name', 5460 records, each changed", 1, &all);
    let of_os2 = line_plain(
        "compare 'OS/2', two fonts",
        tables.len(),
        best([
            over_pairs(&tables, |l, r, room| {
                raw::compare_os2(l, r, black_box(5), room)
            }),
            over_pairs(&tables, |l, r, room| {
                plain::compare_os2(l, r, black_box(5), room)
            }),
        ]),
    );
    vec![
        bar("compare 'name', two fonts, to plain", 1.2, of_fonts),
        bar("compare 'name', one byte changed, to plain", 1.2, of_one),
        bar("compare 'name', each changed, to plain", 1.2, of_all),
        bar("compare 'OS/2', two fonts, to plain", 1.2, of_os2),
    ]
}

/// Entries of a 'name' table to write, and the pool with their texts.
struct Entries(Vec<Entry>, Vec<u8>);

/// The records of a table as entries, with the table as the pool, where it can be written so.
fn entries_of(t: &[u8]) -> Option<Entries> {
    let word = |at: usize| u16::from_be_bytes([t[at], t[at + 1]]);
    if plain::check(t).is_err() || word(0) != 0 {
        return None;
    }
    let entry = |at: usize| Entry {
        platform: word(at),
        encoding: word(at + 2),
        language: word(at + 4),
        name: word(at + 6),
        start: usize::from(word(4)) + usize::from(word(at + 10)),
        length: word(at + 8),
    };
    let all = (0..usize::from(word(2)))
        .map(|i| entry(6 + 12 * i))
        .collect();
    Some(Entries(all, t.to_vec()))
}

/// So many entries with texts of so many bytes, all from the pool's start on.
fn entries_made(count: u16, length: u16) -> Entries {
    let entry = |name| Entry {
        platform: 3,
        encoding: 1,
        language: 0x409,
        name,
        start: 0,
        length,
    };
    Entries(
        (0..count).map(entry).collect(),
        (0..length).map(|x| x as u8).collect(),
    )
}

/// Work over each list of entries in turn, in room that is enough, the result kept from being optimised away.
fn over_entries<'a, R>(
    lists: &'a [Entries],
    f: impl Fn(&[Entry], &[u8], &mut [u8]) -> R + 'a,
) -> Box<dyn FnMut() + 'a> {
    let mut room = vec![0; 200_000];
    Box::new(move || {
        for Entries(entries, pool) in lists {
            black_box(f(black_box(entries), black_box(pool), black_box(&mut room)));
        }
    })
}

fn time_name_writer(names: &[Vec<u8>]) -> Vec<Bar> {
    let fonts: Vec<Entries> = names.iter().filter_map(|t| entries_of(t)).collect();
    let [many, long, one] =
        [(5460, 12), (30, 2000), (1, 65535)].map(|(count, length)| [entries_made(count, length)]);
    for Entries(entries, pool) in fonts.iter().chain(&many).chain(&long).chain(&one) {
        let mut rooms = [7, 7].map(|byte| vec![byte; 200_000]);
        let [ours, theirs] = &mut rooms;
        let done = library::write_names(entries, pool, ours);
        assert_eq!(
            done,
            plain::write_names(entries, pool, theirs),
            "writing differs"
        );
        assert!(ours == theirs, "the rooms differ");
        let size = done.expect("a list made for the benchmark is refused");
        assert_eq!(
            library::write_names(entries, pool, &mut ours[..size - 1]),
            plain::write_names(entries, pool, &mut theirs[..size - 1]),
            "writing in too little room differs"
        );
    }
    let time = |what, calls, lists: &[Entries]| {
        line_plain(
            what,
            calls,
            best([
                over_entries(lists, raw::write_names),
                over_entries(lists, plain::write_names),
            ]),
        )
    };
    vec![
        bar(
            "write 'name', a font, to plain",
            1.5,
            time("write 'name', a font", fonts.len(), &fonts),
        ),
        bar(
            "write 'name', 5460 texts of 12 bytes, to plain",
            1.5,
            time("write 'name', an entry of 5460, 12 bytes", 5460, &many),
        ),
        bar(
            "write 'name', 30 texts of 2000 bytes, to plain",
            1.5,
            time("write 'name', 30 texts of 2000 bytes", 1, &long),
        ),
        bar(
            "write 'name', one text of 65535 bytes, to plain",
            1.5,
            time("write 'name', one text of 65535 bytes", 1, &one),
        ),
    ]
}

/// The same rack twice. Each call is made on both, and both are held to the same answer and to the same faces after it.
struct Racks {
    ours: library::GvRack,
    theirs: plain::Rack,
}

impl Racks {
    fn empty() -> Racks {
        let racks = Racks {
            ours: raw::empty(),
            theirs: plain::Rack::empty(),
        };
        racks.held_alike();
        racks
    }

    fn held_alike(&self) {
        assert_eq!(
            library::faces(&self.ours),
            self.theirs.faces(),
            "the racks differ"
        );
    }

    fn load(&mut self, slot: u32, level: u32, font: &Font) -> answers::Result<()> {
        let Font { os2, name } = font;
        let done = library::load(&mut self.ours, slot, level, os2, name);
        let theirs = plain::load(&mut self.theirs, slot, level, os2, name);
        assert_eq!(done, theirs, "loading differs");
        self.held_alike();
        done
    }

    fn unload(&mut self, slot: u32) -> answers::Result<()> {
        let done = library::unload(&mut self.ours, slot);
        let theirs = plain::unload(&mut self.theirs, slot);
        assert_eq!(done, theirs, "unloading differs");
        self.held_alike();
        done
    }

    fn request(&self, wanted: &Request) -> answers::Result<u32> {
        let chosen = library::request(&self.ours, wanted);
        let theirs = plain::request(&self.theirs, wanted);
        assert_eq!(chosen, theirs, "{wanted:?} differs");
        chosen
    }

    /// Requests for a family, of weights and widths that are between those of faces, at one or far off.
    fn requests(&self, family: &[u8]) {
        for weight in (0..=1000).step_by(50).chain([65535, 65536, u32::MAX]) {
            for width in (0..=10).chain([65535, 65536, u32::MAX]) {
                for sloped in [false, true] {
                    let _ = self.request(&Request {
                        family: family.to_vec(),
                        weight,
                        width,
                        sloped,
                    });
                }
            }
        }
    }
}

/// One family; and eight, some of one length.
const ONE_FAMILY: [&str; 1] = ["DejaVu Sans"];
const EIGHT_FAMILIES: [&str; 8] = [
    "Cantarell",
    "Noto Sans",
    "Noto Mono",
    "DejaVu Sans",
    "DejaVu Mono",
    "DejaVu Serif",
    "Liberation Sans",
    "Liberation Mono",
];

/// A rack of 32 made faces, the slots taking the families in turn: weights 100 to 900, widths 1 to 9, both slopes.
fn full_rack(families: &[&str]) -> Racks {
    let mut racks = Racks::empty();
    for i in 0..32u16 {
        let family = fonts::two_bytes(families[usize::from(i) % families.len()]);
        let font = Font {
            os2: fonts::os2(100 * (1 + i % 9), 1 + i / 2 % 9, i / 8 % 2 == 1),
            name: fonts::families(&[(1, &family)]),
        };
        let done = racks.load(u32::from(i), 5, &font);
        assert_eq!(done, Ok(()), "a face made for the benchmark is refused");
    }
    racks
}

/// Requests of other weights, widths and slopes for the families in turn.
fn requests_made(families: &[&str]) -> Vec<Request> {
    (0..64u32)
        .map(|k| Request {
            family: fonts::two_bytes(families[k as usize % families.len()]),
            weight: 1 + k * 389 % 1000,
            width: 1 + k * 5 % 9,
            sloped: k / 8 % 2 == 1,
        })
        .collect()
}

/// Tables that a load refuses, each for another reason.
fn refused_fonts() -> Vec<Font> {
    let os2 = |change: fn(&mut Vec<u8>)| {
        let mut os2 = fonts::os2(400, 5, false);
        change(&mut os2);
        Font {
            os2,
            name: fonts::families(&[(1, b"x")]),
        }
    };
    let name = |name: Vec<u8>| Font {
        os2: fonts::os2(400, 5, false),
        name,
    };
    let family = fonts::families(&[(1, b"xx")]);
    vec![
        os2(|t| t.truncate(1)),
        os2(|t| t.truncate(95)),
        os2(|t| t[4..6].fill(0)),
        os2(|t| t[62] = 0x80),
        os2(|t| t[1] = 6),
        name(family[..5].to_vec()),
        name(family[..family.len() - 1].to_vec()),
        name(fonts::families(&[])),
        name(fonts::families(&[(2, b"x"), (17, b"x")])),
        name(fonts::families(&[(1, b"x"), (16, b"")])),
        name(fonts::families(&[(1, b"x"), (16, &[b'x'; 65])])),
    ]
}

/// That the library and plain safe Rust load, unload and choose alike.
fn agree_racks(fonts: &[Font]) {
    let mut racks = Racks::empty();
    let refused = refused_fonts();
    for font in &refused {
        assert!(racks.load(0, 5, font).is_err(), "a refused font is loaded");
    }
    for font in refused.iter().chain(fonts) {
        for (level, slot) in (0..=6).flat_map(|level| [0, 31, 32].map(|slot| (level, slot))) {
            // Twice each, as a slot that is taken or empty refuses.
            let _ = [(); 2].map(|_| racks.load(slot, level, font));
            let _ = [(); 2].map(|_| racks.unload(slot));
        }
    }
    for (i, font) in fonts.iter().enumerate() {
        let slot = (i % 32) as u32;
        let _ = racks.unload(slot);
        let _ = racks.load(slot, 5, font);
    }
    for face in racks.theirs.faces().into_iter().flatten() {
        for family in [&face.family[..], &face.family[1..], b""] {
            racks.requests(family);
        }
    }
    for families in [&ONE_FAMILY[..], &EIGHT_FAMILIES] {
        let mut racks = full_rack(families);
        for slot in 0..32 {
            for family in families {
                racks.requests(&fonts::two_bytes(family));
            }
            assert_eq!(racks.unload(slot), Ok(()), "a face made is not there");
        }
        racks.requests(&fonts::two_bytes(families[0]));
    }
}

/// Work that loads each font into the next slot of a rack, which is empty at first and whenever all its slots are taken.
fn over_loads<'a, R>(
    fonts: &'a [&Font],
    empty: impl Fn() -> R + 'a,
    load: impl Fn(&mut R, u32, &Font) + 'a,
) -> Box<dyn FnMut() + 'a> {
    Box::new(move || {
        for fonts in fonts.chunks(32) {
            let mut rack = empty();
            for (slot, font) in (0..).zip(fonts) {
                load(black_box(&mut rack), slot, black_box(font));
            }
            black_box(&mut rack);
        }
    })
}

/// Work that unloads each slot of a full rack.
fn over_unloads<'a, R: Copy>(
    full: &'a R,
    unload: impl Fn(&mut R, u32) + 'a,
) -> Box<dyn FnMut() + 'a> {
    Box::new(move || {
        let mut rack = *full;
        for slot in 0..32 {
            unload(black_box(&mut rack), black_box(slot));
        }
        black_box(&mut rack);
    })
}

fn time_requests(what: &str, families: &[&str]) -> f64 {
    let racks = full_rack(families);
    let requests = requests_made(families);
    for wanted in &requests {
        let chosen = racks.request(wanted);
        assert!(chosen.is_ok(), "a family made for the benchmark is refused");
    }
    line_plain(
        what,
        requests.len(),
        best([
            over(&requests, |r: &Request| {
                raw::request(black_box(&racks.ours), r)
            }),
            over(&requests, |r: &Request| {
                plain::request(black_box(&racks.theirs), r)
            }),
        ]),
    )
}

fn time_racks(fonts: &[Font]) -> Vec<Bar> {
    agree_racks(fonts);
    let one = time_requests("request, 32 faces of one family", &ONE_FAMILY);
    let eight = time_requests("request, 32 faces of eight families", &EIGHT_FAMILIES);
    let accepted: Vec<&Font> = fonts
        .iter()
        .filter(|font| Racks::empty().load(0, 5, font).is_ok())
        .collect();
    let load = line_plain(
        "load, a font",
        accepted.len(),
        best([
            over_loads(&accepted, raw::empty, |rack, slot, font| {
                raw::load(rack, slot, black_box(5), &font.os2, &font.name).keep(rack)
            }),
            over_loads(&accepted, plain::Rack::empty, |rack, slot, font| {
                let _ = black_box(plain::load(rack, slot, black_box(5), &font.os2, &font.name));
            }),
        ]),
    );
    let full = full_rack(&ONE_FAMILY);
    line_plain(
        "unload",
        32,
        best([
            over_unloads(&full.ours, |rack, slot| raw::unload(rack, slot).keep(rack)),
            over_unloads(&full.theirs, |rack, slot| {
                let _ = black_box(plain::unload(rack, slot));
            }),
        ]),
    );
    vec![
        bar("request, one family, to plain", 1.2, one),
        bar("request, eight families, to plain", 1.1, eight),
        bar("load, a font, to plain", 0.8, load),
    ]
}

/// Another reader of fonts. It does other work: it checks less and says less.
pub struct Other {
    /// Its name.
    pub name: &'static str,
    /// The length of the string that a key finds in a 'name' table.
    pub lookup: fn(&[u8], [u16; 4]) -> Option<usize>,
    /// The weight in an 'OS/2' table.
    pub weight: fn(&[u8]) -> Option<u16>,
}

fn time_other(other: &Other, names: &[Vec<u8>], os2s: &[Vec<u8>]) {
    let calls = names.len() * KEYS.len();
    let [ours, theirs] = best([
        over(names, |t: &[u8]| {
            KEYS.map(|key| raw::lookup(t, black_box(key)))
        }),
        over(names, |t: &[u8]| {
            KEYS.map(|key| (other.lookup)(t, black_box(key)))
        }),
    ]);
    let [field, weight] = best([
        over(os2s, |t: &[u8]| raw::field(t, black_box(5), black_box(2))),
        over(os2s, |t: &[u8]| (other.weight)(t)),
    ]);
    println!();
    println!(
        "| beside {} | library | {} | ratio |",
        other.name, other.name
    );
    println!("|---|---|---|---|");
    for (what, calls, ours, theirs) in [
        ("a lookup, a font", calls, ours, theirs),
        ("the weight, a font", os2s.len(), field, weight),
    ] {
        let calls = calls as f64;
        println!(
            "| {what} | {:.1} | {:.1} | {:.2} |",
            ours / calls,
            theirs / calls,
            ours / theirs
        );
    }
}

/// The library's calls whose instructions are counted, by name.
type Call = (&'static str, Box<dyn FnMut()>);

fn calls() -> [Call; 9] {
    fn on<R>(table: Vec<u8>, f: impl Fn(&[u8]) -> R + 'static) -> Box<dyn FnMut()> {
        Box::new(move || {
            black_box(f(black_box(&table)));
        })
    }
    let many = || fonts::many_records(5460);
    [
        ("check, 50 records", on(fonts::many_records(50), raw::check)),
        ("check, 5460 records", on(many(), raw::check)),
        (
            "check and lookup, 50 records",
            on(fonts::many_records(50), |t| {
                raw::lookup(t, black_box([3, 1, 0x409, 5]))
            }),
        ),
        (
            "check and lookup, 5460 records",
            on(many(), |t| raw::lookup(t, black_box([3, 1, 0x409, 5]))),
        ),
        (
            "PostScript name, 13 characters",
            on(fonts::postscript_name(13), raw::postscript),
        ),
        (
            "PostScript name, 63 characters",
            on(fonts::postscript_name(63), raw::postscript),
        ),
        ("request, 32 faces of one family", {
            let rack = full_rack(&ONE_FAMILY).ours;
            let wanted = requests_made(&ONE_FAMILY).swap_remove(0);
            Box::new(move || {
                black_box(raw::request(black_box(&rack), black_box(&wanted)));
            })
        }),
        ("load, a font of 50 records", {
            let (rack, os2) = (raw::empty(), fonts::os2(400, 5, false));
            on(fonts::many_records(50), move |name| {
                raw::load(black_box(&rack), black_box(0), black_box(5), &os2, name).refusal
            })
        }),
        ("unload", {
            let rack = full_rack(&ONE_FAMILY).ours;
            Box::new(move || {
                black_box(raw::unload(black_box(&rack), black_box(0)).refusal);
            })
        }),
    ]
}

/// Makes one of the calls so many times, for a tool that counts instructions; without words, prints what they are.
pub fn repeat() -> ExitCode {
    let words: Vec<String> = std::env::args().skip(1).collect();
    match &words[..] {
        [] => {
            for (what, _) in calls() {
                println!("{what}");
            }
            ExitCode::SUCCESS
        }
        [wanted, turns] => {
            let call = calls().into_iter().find(|(what, _)| what == wanted);
            let (Some((_, mut work)), Ok(turns)) = (call, turns.parse::<u32>()) else {
                eprintln!("calls: no such call, or no number of turns");
                return ExitCode::FAILURE;
            };
            for _ in 0..turns {
                work();
            }
            ExitCode::SUCCESS
        }
        _ => {
            eprintln!("calls: a call and a number of turns, or nothing");
            ExitCode::FAILURE
        }
    }
}

/// Times everything on the fonts under the folders named on the command line, the machine's own where none is.
pub fn run(other: Option<Other>) -> ExitCode {
    let mut folders: Vec<PathBuf> = std::env::args_os().skip(1).map(PathBuf::from).collect();
    if folders.is_empty() {
        folders.push(PathBuf::from("/usr/share/fonts"));
    }
    let found = fonts::tables(&folders);
    if found.names.is_empty() || found.os2s.is_empty() {
        eprintln!("bench: no fonts under {folders:?}; Debian's fonts-dejavu-core has some");
        return ExitCode::FAILURE;
    }
    agree(&found.names, &found.os2s);
    println!(
        "{} fonts; nanoseconds, the best of {ROUNDS} rounds.",
        found.fonts
    );
    println!();
    println!("| work | library | plain | tuned | library/plain | library/tuned |");
    println!("|---|---|---|---|---|---|");
    let bars = [
        time_names(&found.names),
        time_os2s(&found.os2s),
        time_many(),
        time_comparisons(&found.names, &found.os2s),
        time_name_writer(&found.names),
        time_racks(&found.both),
    ]
    .concat();
    println!();
    println!("| bar | at most | is | |");
    println!("|---|---|---|---|");
    for Bar { what, most, is } in bars {
        let met = if is <= most { "met" } else { "missed" };
        println!("| {what} | {most:.2} | {is:.2} | {met} |");
    }
    if let Some(other) = other {
        time_other(&other, &found.names, &found.os2s);
    }
    ExitCode::SUCCESS
}
