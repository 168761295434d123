//! Counts what was asked and answered, so that one sees what a run has met.

use std::fmt::Write;

use crate::choose_met;
use crate::chosen::Step;
use crate::looked::MOST;
use crate::looked_met::Thing as Looked;
use crate::met::{self, Edge, Met, Thing, FOUND_NUMBERS, SPOTS, USED};
use crate::question::{Function, Words, FUNCTIONS};
use crate::write_met::{self, Kind, Rewriting};

/// One more than the highest refusal number.
const NUMBERS: usize = 56;
/// The bits of the nine width percents.
const WIDTHS: [f32; 9] = [50.0, 62.5, 75.0, 87.5, 100.0, 112.5, 125.0, 150.0, 200.0];
/// The settings of fsType bits 1 to 3 with two or three of them.
const TOGETHER: [i64; 4] = [6, 10, 12, 14];
/// The calls on a rack. The crate is asked them where it can have the rack; all else is asked of it always.
const ON_RACKS: [Function; 3] = [
    Function::RackLoad,
    Function::RackUnload,
    Function::RackRequest,
];

/// The counts of one function.
#[derive(Clone, Copy)]
struct Row {
    calls: u64,
    /// By refusal number; 0 is no refusal.
    numbers: [u64; NUMBERS],
    /// As these, of calls on a rack that the crate was asked.
    crate_numbers: [u64; NUMBERS],
    /// By kind: 1 a value, 2 absent, 3 not known.
    kinds: [u64; 4],
    /// Bits that are clear and set.
    bits: [u64; 2],
    /// By version, where refusal 3 carries rule 4.
    rule_4: [u64; 6],
    /// By version, where two or three of fsType bits 1 to 3 are set: values for the rights, and tables written.
    together: [u64; 6],
}

impl Default for Row {
    fn default() -> Row {
        Row {
            calls: 0,
            numbers: [0; NUMBERS],
            crate_numbers: [0; NUMBERS],
            kinds: [0; 4],
            bits: [0; 2],
            rule_4: [0; 6],
            together: [0; 6],
        }
    }
}

/// The counts of a run or of a part of it.
#[derive(Clone, Default)]
pub struct Tally {
    rows: [Row; 21],
    /// By the rule that refusal 3 carries.
    rules: [u64; 8],
    /// By the field that refusal 8 carries.
    misfits: Vec<u64>,
    rights: [u64; 4],
    /// Values for the rights, by the number that fsType bits 1 to 3 are.
    settings: [u64; 16],
    /// By the optical sizes' word: 1 every, 2 upwards, 3 between.
    sizes: [u64; 4],
    widths: [u64; 9],
    /// 'name' tables, and those accepted.
    pub names: [u64; 2],
    /// 'OS/2' tables, those accepted at level 5, and those accepted at some level.
    pub os2s: [u64; 3],
    /// Sets of 48 numbers to write, and those written.
    pub writes: [u64; 2],
    /// Lists of entries to write, and those written.
    pub lists: [u64; 2],
    /// Tables whose records were given as entries, and those written.
    pub rewritings: [u64; 2],
    /// Sequences of calls of the chooser, faces loaded, and faces chosen.
    pub sequences: [u64; 3],
    /// Pairs of 'name' tables, and pairs of 'OS/2' tables at a level.
    pub pairs: [u64; 2],
    /// What the comparisons of two tables, the questions on 'name' tables, the writer of 'name' tables and the chooser met.
    pub met: Met,
}

impl Tally {
    /// Nothing counted.
    pub fn new() -> Tally {
        Tally {
            misfits: vec![0; 48],
            ..Tally::default()
        }
    }

    /// Counts one call that all sides answered with these words, on an OS/2 table or on 48 numbers with this version and this
    /// fsType; of two tables, the refused one's. It fails for words that the papers have no place for.
    pub fn count(
        &mut self,
        function: Function,
        words: Words,
        [version, fs_type]: [i64; 2],
    ) -> Result<(), String> {
        let row = &mut self.rows[function as usize];
        row.calls += 1;
        let number = words[0];
        if number != 0 && !function.refusals().contains(&number) {
            return Err(format!(
                "the papers know no refusal {number} for this question"
            ));
        }
        row.numbers[number as usize] += 1;
        match number {
            3 => self.rules[words[2] as usize] += 1,
            8 => self.misfits[words[2] as usize] += 1,
            _ => {}
        }
        if number == 3 && words[2] == 4 {
            if !(3..=5).contains(&version) {
                return Err(format!("the papers know no rule 4 for version {version}"));
            }
            row.rule_4[version as usize] += 1;
        }
        let setting = fs_type & 0x000E;
        let answered = match function {
            Function::Rights => number == 0 && words[3] == 1,
            Function::Write | Function::Rewrite => number == 0,
            _ => false,
        };
        if answered && TOGETHER.contains(&setting) {
            if !(0..=2).contains(&version) {
                return Err(format!(
                    "the papers know no answer for version {version} with fsType {fs_type}"
                ));
            }
            row.together[version as usize] += 1;
        }
        if number != 0 || function.kinds().is_empty() {
            return Ok(());
        }
        let kind = words[3];
        if !function.kinds().contains(&kind) {
            return Err(format!(
                "document 01 knows no answer of kind {kind} for this question"
            ));
        }
        row.kinds[kind as usize] += 1;
        if kind != 1 {
            return Ok(());
        }
        match function {
            Function::SelectionBit | Function::UnicodeBit | Function::CodePageBit => {
                row.bits[words[4] as usize] += 1;
            }
            Function::Rights => {
                self.rights[words[4] as usize] += 1;
                self.settings[setting as usize] += 1;
            }
            Function::OpticalSizes => self.sizes[words[4] as usize] += 1,
            Function::StylePosition => {
                let place = WIDTHS
                    .iter()
                    .position(|width| u64::from(width.to_bits()) == words[5]);
                match place {
                    Some(place) => self.widths[place] += 1,
                    None => return Err("document 01 knows no such width percent".to_string()),
                }
            }
            _ => {}
        }
        Ok(())
    }

    /// Counts one call on a rack that the crate answered with these words.
    pub fn count_crate(&mut self, function: Function, words: Words) {
        self.rows[function as usize].crate_numbers[words[0] as usize] += 1;
    }

    /// Adds the counts of another tally.
    pub fn add(&mut self, other: &Tally) {
        fn each(ours: &mut [u64], theirs: &[u64]) {
            for (our, their) in ours.iter_mut().zip(theirs) {
                *our += their;
            }
        }
        for (our, their) in self.rows.iter_mut().zip(&other.rows) {
            our.calls += their.calls;
            each(&mut our.numbers, &their.numbers);
            each(&mut our.crate_numbers, &their.crate_numbers);
            each(&mut our.kinds, &their.kinds);
            each(&mut our.bits, &their.bits);
            each(&mut our.rule_4, &their.rule_4);
            each(&mut our.together, &their.together);
        }
        each(&mut self.rules, &other.rules);
        each(&mut self.misfits, &other.misfits);
        each(&mut self.rights, &other.rights);
        each(&mut self.settings, &other.settings);
        each(&mut self.sizes, &other.sizes);
        each(&mut self.widths, &other.widths);
        each(&mut self.names, &other.names);
        each(&mut self.os2s, &other.os2s);
        each(&mut self.writes, &other.writes);
        each(&mut self.lists, &other.lists);
        each(&mut self.rewritings, &other.rewritings);
        each(&mut self.sequences, &other.sequences);
        each(&mut self.pairs, &other.pairs);
        self.met.add_all(&other.met);
    }

    /// How many calls were compared.
    pub fn calls(&self) -> u64 {
        self.rows.iter().map(|row| row.calls).sum()
    }

    /// One line on the tables.
    pub fn tables(&self) -> String {
        format!(
            "{} name tables ({} accepted, the records of {} given as entries, {} of them written), {} OS/2 tables ({} accepted at level 5, {} at some level), {} sets of 48 numbers ({} written), {} lists of entries ({} written), {} pairs of name tables, {} pairs of OS/2 tables at a level, {} sequences of calls of the chooser ({} faces loaded, {} chosen)",
            self.names[0],
            self.names[1],
            self.rewritings[0],
            self.rewritings[1],
            self.os2s[0],
            self.os2s[1],
            self.os2s[2],
            self.writes[0],
            self.writes[1],
            self.lists[0],
            self.lists[1],
            self.pairs[0],
            self.pairs[1],
            self.sequences[0],
            self.sequences[1],
            self.sequences[2]
        )
    }

    /// All counts, as lines.
    pub fn report(&self) -> String {
        let mut lines = String::new();
        let mut totals = [0; NUMBERS];
        for function in FUNCTIONS {
            let row = &self.rows[function as usize];
            let _ = write!(
                lines,
                "  {:16} {:>10} calls, {:>10} answered",
                function.title(),
                row.calls,
                row.numbers[0]
            );
            for (kind, word) in [(1, "value"), (2, "absent"), (3, "not known")] {
                if function.kinds().contains(&kind) {
                    let _ = write!(lines, ", {word} {}", row.kinds[kind as usize]);
                }
            }
            if ON_RACKS.contains(&function) {
                let asked: u64 = row.crate_numbers.iter().sum();
                let answered = row.crate_numbers[0];
                let _ = write!(lines, "; on the crate {asked} calls, {answered} answered");
            }
            lines.push('\n');
            for (number, count) in row.numbers.iter().enumerate().skip(1) {
                totals[number] += count;
            }
        }
        let list = |counts: &[u64], from: usize| {
            let words: Vec<String> = counts
                .iter()
                .enumerate()
                .skip(from)
                .filter(|(_, count)| **count > 0)
                .map(|(number, count)| format!("{number}: {count}"))
                .collect();
            words.join(", ")
        };
        let _ = writeln!(lines, "  refusals by number: {}", list(&totals, 1));
        let _ = writeln!(lines, "  rules carried by 3: {}", list(&self.rules, 1));
        let mut rule_4 = [0; 6];
        for row in &self.rows {
            for (version, count) in row.rule_4.iter().enumerate() {
                rule_4[version] += count;
            }
        }
        let _ = writeln!(lines, "  rule 4 by version: {}", list(&rule_4, 0));
        let _ = writeln!(lines, "  fields carried by 8: {}", list(&self.misfits, 0));
        let _ = writeln!(
            lines,
            "  rights: installable {}, restricted {}, preview {}, editable {}",
            self.rights[0], self.rights[1], self.rights[2], self.rights[3]
        );
        let _ = writeln!(
            lines,
            "  rights by fsType bits 1 to 3: {}",
            list(&self.settings, 0)
        );
        for function in [Function::Rights, Function::Write, Function::Rewrite] {
            let _ = writeln!(
                lines,
                "  {} with two or three of these bits, by version: {}",
                function.title(),
                list(&self.rows[function as usize].together, 0)
            );
        }
        let _ = writeln!(
            lines,
            "  optical sizes: every {}, upwards {}, between {}",
            self.sizes[1], self.sizes[2], self.sizes[3]
        );
        let widths: Vec<String> = WIDTHS
            .iter()
            .zip(self.widths)
            .map(|(width, count)| format!("{width}: {count}"))
            .collect();
        let _ = writeln!(lines, "  width percents: {}", widths.join(", "));
        let mut fields = [0; 48];
        for (field, count) in fields.iter_mut().enumerate() {
            *count = self.met.times(Thing::Field(field as u32));
        }
        let _ = writeln!(
            lines,
            "  fields listed by comparisons: {}",
            list(&fields, 0)
        );
        let _ = writeln!(
            lines,
            "  keys listed by comparisons: only left {}, only right {}, other bytes {}",
            self.met.times(Thing::Which(1)),
            self.met.times(Thing::Which(2)),
            self.met.times(Thing::Which(3))
        );
        let strings = |number, edge| self.met.times(Thing::RefusedString(number, edge));
        let _ = writeln!(
            lines,
            "  records' strings: 15 empty {}, with offset 65,535 {}; 27 from the end {}, from before it {}; accepted at the end and empty {}",
            strings(15, Edge::Empty),
            strings(15, Edge::LastOffset),
            strings(27, Edge::FromEnd),
            strings(27, Edge::FromBefore),
            self.met.times(Thing::Accepted(Edge::FromEnd))
        );
        let _ = writeln!(
            lines,
            "  records' keys: 17 with 19 behind it {}, 19 with 17 behind it {}; before these, at the same record, 15 {} and 27 {}",
            self.met.times(Thing::Behind(17, 19)),
            self.met.times(Thing::Behind(19, 17)),
            self.met.times(Thing::Together(15, 17)) + self.met.times(Thing::Together(15, 19)),
            self.met.times(Thing::Together(27, 17)) + self.met.times(Thing::Together(27, 19))
        );
        let both = |thing: &dyn Fn(u16) -> Thing| -> u64 {
            [0, 1]
                .map(|format| self.met.times(thing(format)))
                .iter()
                .sum()
        };
        let spots = SPOTS.map(|spot| both(&|format| Thing::FoundAt(format, spot)));
        let found = FOUND_NUMBERS.map(|number| both(&|format| Thing::FoundNumber(format, number)));
        let _ = writeln!(
            lines,
            "  records told by lookups: the only one {}, the first {}, between {}, the last {}; record 255 {}, 256 {}, 5,459 {}; with the string of a record before it {}, behind it {}",
            spots[0],
            spots[1],
            spots[2],
            spots[3],
            found[0],
            found[1],
            found[2],
            both(&|format| Thing::SameString(format, false)),
            both(&|format| Thing::SameString(format, true))
        );
        let looked =
            |found, count| both(&|format| Thing::Looked(Looked::Count(format, found, count)));
        let [missing, found] = [false, true].map(|found| {
            let counts: Vec<u64> = (0..=MOST).map(|count| looked(found, count)).collect();
            counts
        });
        let largest = (0..=MOST)
            .rev()
            .find(|&count| looked(false, count) + looked(true, count) > 0);
        let _ = writeln!(
            lines,
            "  records looked at by lookups that are found: {}; that are refused by 20: {}; the largest count {}",
            list(&found, 1),
            list(&missing, 0),
            largest.unwrap_or(0)
        );
        let used = USED.map(|used| {
            [false, true].map(|others| both(&|format| Thing::VersionFrom(format, used, others)))
        });
        let _ = writeln!(
            lines,
            "  records told by version numbers: platform 3's beside platform 1's {}, platform 3's alone {}, platform 1's alone {}; of the last two, record 0 {}",
            used[0].iter().sum::<u64>(),
            used[1].iter().sum::<u64>(),
            used[2].iter().sum::<u64>(),
            used[1][0] + used[2][0]
        );
        let written = |thing| self.met.times(Thing::Write(thing));
        let kind = |kind| written(write_met::Thing::Kind(kind));
        let _ = writeln!(
            lines,
            "  tables written from entries: without entries {}, 5,460 entries {}, texts that overlap {}, the same text twice {}, offset 65,535 {}, more than 65,536 bytes {}",
            kind(Kind::NoEntries),
            kind(Kind::MostEntries),
            kind(Kind::Overlapping),
            kind(Kind::SamePlace),
            [false, true]
                .map(|empty| written(write_met::Thing::LastOffset(empty)))
                .iter()
                .sum::<u64>(),
            kind(Kind::Long)
        );
        let records = |rewriting| written(write_met::Thing::Rewriting(rewriting));
        let _ = writeln!(
            lines,
            "  records of tables given as entries: to a shorter table {}, as long {}, longer {}; refused by 32 {}, by 33 {}",
            records(Rewriting::Shrinks),
            records(Rewriting::Keeps),
            records(Rewriting::Grows),
            records(Rewriting::TooFar),
            records(Rewriting::NoRoom)
        );
        let chosen = |thing| self.met.times(Thing::Choose(thing));
        let decided = |step| chosen(choose_met::Thing::Decided(step));
        let _ = writeln!(
            lines,
            "  faces chosen by: the family alone {}, the slope {}, the width difference {}, the weight difference {}, the lower weight {}, the lower slot {}; of the other slope {}",
            decided(Step::Family),
            decided(Step::Slope),
            decided(Step::Width),
            decided(Step::Difference),
            decided(Step::Weight),
            decided(Step::Slot),
            [false, true]
                .map(|sloped| chosen(choose_met::Thing::OtherSlope(sloped)))
                .iter()
                .sum::<u64>()
        );
        let rarest = met::all()
            .into_iter()
            .min_by_key(|&thing| self.met.times(thing));
        if let Some(thing) = rarest {
            let _ = writeln!(
                lines,
                "  of {} things of comparisons, of records, of answers, of lookups' counts, of tables to write and of the chooser that are to be met, the rarest was met {} times: {thing}",
                met::all().len(),
                self.met.times(thing)
            );
        }
        lines
    }

    /// What a long run at random must meet and this one did not.
    pub fn not_met(&self) -> Vec<String> {
        let mut missing = Vec::new();
        let mut need = |count: u64, what: String| {
            if count == 0 {
                missing.push(what);
            }
        };
        for function in FUNCTIONS {
            let row = &self.rows[function as usize];
            let title = function.title();
            need(row.numbers[0], format!("{title}: an answer"));
            for &number in function.refusals() {
                need(
                    row.numbers[number as usize],
                    format!("{title}: refusal {number}"),
                );
            }
            if ON_RACKS.contains(&function) {
                need(
                    row.crate_numbers[0],
                    format!("{title}: an answer of the crate"),
                );
                for &number in function.refusals() {
                    need(
                        row.crate_numbers[number as usize],
                        format!("{title}: refusal {number} of the crate"),
                    );
                }
            }
            for &kind in function.kinds() {
                let word = ["", "a value", "absent", "not known"][kind as usize];
                need(row.kinds[kind as usize], format!("{title}: {word}"));
            }
            if matches!(
                function,
                Function::SelectionBit | Function::UnicodeBit | Function::CodePageBit
            ) {
                need(row.bits[0], format!("{title}: a clear bit"));
                need(row.bits[1], format!("{title}: a set bit"));
            }
            if function.refusals().contains(&3) {
                for version in 3..6 {
                    need(
                        row.rule_4[version],
                        format!("{title}: rule 4 broken in version {version}"),
                    );
                }
            }
            if matches!(
                function,
                Function::Rights | Function::Write | Function::Rewrite
            ) {
                for version in 0..3 {
                    need(
                        row.together[version],
                        format!("{title}: two or three of fsType bits 1 to 3 in version {version}"),
                    );
                }
            }
        }
        for rule in 1..8 {
            need(self.rules[rule], format!("rule {rule} broken"));
        }
        // Field 0 is the version, which refusal 4 judges first.
        for field in 1..48 {
            need(self.misfits[field], format!("a misfit in field {field}"));
        }
        for (rights, word) in ["installable", "restricted", "preview", "editable"]
            .iter()
            .enumerate()
        {
            need(self.rights[rights], format!("rights {word}"));
        }
        for setting in TOGETHER {
            need(
                self.settings[setting as usize],
                format!("rights with fsType {setting}"),
            );
        }
        for (sizes, word) in [(1, "every"), (2, "upwards"), (3, "between")] {
            need(self.sizes[sizes], format!("optical sizes {word}"));
        }
        for (place, width) in WIDTHS.iter().enumerate() {
            need(self.widths[place], format!("width {width} percent"));
        }
        for thing in met::all() {
            need(self.met.times(thing), thing.to_string());
        }
        missing
    }
}
