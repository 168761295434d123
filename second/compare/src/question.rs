//! The questions on a table, and the words of an answer.

use std::fmt;

/// An answer as seven words: the refusal's number, whether it carries something, what it carries, and the members after the
/// refusal in the header's order. Members that an answer does not have are 0. A float is its 32 bits.
pub type Words = [u64; 7];

/// The place of the word that says how many records a lookup looked at. It may be above 0 beside a refusal by 20 too.
pub const LOOKED: usize = 6;

/// A question on a table, with its level and its number or key.
#[derive(Clone, Copy, Debug)]
pub enum Question {
    NameCheck,
    Lookup([u32; 4]),
    PostScript,
    Version,
    Os2Check(u32),
    Field(u32, u32),
    SelectionBit(u32, u32),
    UnicodeBit(u32, u32),
    CodePageBit(u32, u32),
    Rights(u32),
    StylePosition(u32),
    OpticalSizes(u32),
}

/// Which of the twenty-one functions a call is of.
#[derive(Clone, Copy, Debug, PartialEq, Eq, PartialOrd, Ord)]
pub enum Function {
    NameCheck,
    Lookup,
    PostScript,
    Version,
    Os2Check,
    Field,
    SelectionBit,
    UnicodeBit,
    CodePageBit,
    Rights,
    StylePosition,
    OpticalSizes,
    Write,
    Rewrite,
    NameWrite,
    Os2Compare,
    NameCompare,
    RackEmpty,
    RackLoad,
    RackUnload,
    RackRequest,
}

/// The functions in the order of the header.
pub const FUNCTIONS: [Function; 21] = [
    Function::NameCheck,
    Function::Lookup,
    Function::PostScript,
    Function::Version,
    Function::Os2Check,
    Function::Field,
    Function::SelectionBit,
    Function::UnicodeBit,
    Function::CodePageBit,
    Function::Rights,
    Function::StylePosition,
    Function::OpticalSizes,
    Function::Write,
    Function::Rewrite,
    Function::NameWrite,
    Function::Os2Compare,
    Function::NameCompare,
    Function::RackEmpty,
    Function::RackLoad,
    Function::RackUnload,
    Function::RackRequest,
];

impl Function {
    /// The function's words in messages.
    pub fn title(self) -> &'static str {
        match self {
            Function::NameCheck => "name check",
            Function::Lookup => "lookup",
            Function::PostScript => "PostScript name",
            Function::Version => "version number",
            Function::Os2Check => "OS/2 check",
            Function::Field => "field",
            Function::SelectionBit => "fsSelection bit",
            Function::UnicodeBit => "Unicode bit",
            Function::CodePageBit => "code page bit",
            Function::Rights => "rights",
            Function::StylePosition => "style position",
            Function::OpticalSizes => "optical sizes",
            Function::Write => "write",
            Function::Rewrite => "rewrite",
            Function::NameWrite => "name write",
            Function::Os2Compare => "OS/2 compare",
            Function::NameCompare => "name compare",
            Function::RackEmpty => "empty rack",
            Function::RackLoad => "load",
            Function::RackUnload => "unload",
            Function::RackRequest => "request",
        }
    }

    /// The names of the words after the refusal's three.
    pub fn members(self) -> &'static [&'static str] {
        match self {
            Function::NameCheck
            | Function::Os2Check
            | Function::RackEmpty
            | Function::RackLoad
            | Function::RackUnload => &[],
            Function::Lookup => &["start", "length", "record", "looked"],
            Function::PostScript => &["start", "length", "record"],
            Function::Version => &["major", "minor", "record"],
            Function::Field
            | Function::SelectionBit
            | Function::UnicodeBit
            | Function::CodePageBit => &["kind", "value"],
            Function::Rights => &["kind", "rights"],
            Function::StylePosition => &["kind", "weight bits", "width bits"],
            Function::OpticalSizes => &["kind", "sizes", "lower bits", "upper bits"],
            Function::Write | Function::Rewrite | Function::NameWrite => &["size"],
            Function::Os2Compare | Function::NameCompare => &["side", "rows"],
            Function::RackRequest => &["slot"],
        }
    }

    /// The refusals that the papers let the function give.
    pub fn refusals(self) -> &'static [u64] {
        match self {
            Function::NameCheck => &[10, 11, 12, 13, 14, 15, 16, 17, 18, 19, 27],
            Function::Lookup => &[10, 11, 12, 13, 14, 15, 16, 17, 18, 19, 20, 27],
            Function::PostScript => &[10, 11, 12, 13, 14, 15, 16, 17, 18, 19, 21, 22, 23, 24, 27],
            Function::Version => &[10, 11, 12, 13, 14, 15, 16, 17, 18, 19, 20, 25, 27],
            Function::Field => &[1, 2, 3, 6],
            Function::SelectionBit | Function::UnicodeBit | Function::CodePageBit => &[1, 2, 3, 7],
            Function::Os2Check
            | Function::Rights
            | Function::StylePosition
            | Function::OpticalSizes => &[1, 2, 3],
            Function::Write => &[3, 4, 5, 8],
            Function::Rewrite => &[2, 3, 4, 5],
            Function::NameWrite => &[17, 18, 19, 30, 31, 32, 33],
            Function::Os2Compare => &[1, 2, 3, 29],
            Function::NameCompare => &[10, 11, 12, 13, 14, 15, 16, 17, 18, 19, 27, 29],
            Function::RackEmpty => &[],
            Function::RackLoad => &[
                1, 2, 3, 10, 11, 12, 13, 14, 15, 16, 17, 18, 19, 20, 27, 51, 52, 53, 54,
            ],
            Function::RackUnload => &[54, 55],
            Function::RackRequest => &[50],
        }
    }

    /// The kinds of answer that document 01 lets the function give: 1 a value, 2 absent, 3 not known.
    pub fn kinds(self) -> &'static [u64] {
        match self {
            Function::Field
            | Function::SelectionBit
            | Function::CodePageBit
            | Function::OpticalSizes => &[1, 2, 3],
            Function::UnicodeBit => &[1],
            Function::Rights | Function::StylePosition => &[1, 3],
            _ => &[],
        }
    }
}

impl Question {
    /// The function that the question calls.
    pub fn function(self) -> Function {
        match self {
            Question::NameCheck => Function::NameCheck,
            Question::Lookup(_) => Function::Lookup,
            Question::PostScript => Function::PostScript,
            Question::Version => Function::Version,
            Question::Os2Check(_) => Function::Os2Check,
            Question::Field(..) => Function::Field,
            Question::SelectionBit(..) => Function::SelectionBit,
            Question::UnicodeBit(..) => Function::UnicodeBit,
            Question::CodePageBit(..) => Function::CodePageBit,
            Question::Rights(_) => Function::Rights,
            Question::StylePosition(_) => Function::StylePosition,
            Question::OpticalSizes(_) => Function::OpticalSizes,
        }
    }
}

impl fmt::Display for Question {
    fn fmt(&self, f: &mut fmt::Formatter<'_>) -> fmt::Result {
        let title = self.function().title();
        match *self {
            Question::NameCheck | Question::PostScript | Question::Version => f.write_str(title),
            Question::Lookup([p, e, l, n]) => write!(f, "{title} of ({p}, {e}, {l}, {n})"),
            Question::Os2Check(level)
            | Question::Rights(level)
            | Question::StylePosition(level)
            | Question::OpticalSizes(level) => write!(f, "{title} at level {level}"),
            Question::Field(level, n)
            | Question::SelectionBit(level, n)
            | Question::UnicodeBit(level, n)
            | Question::CodePageBit(level, n) => write!(f, "{title} {n} at level {level}"),
        }
    }
}

/// The words of an answer with their names, for a message.
pub fn shown(function: Function, words: Words) -> String {
    let mut line = format!(
        "number {}, carries {}, carried {}",
        words[0], words[1], words[2]
    );
    for (name, word) in function.members().iter().zip(&words[3..]) {
        let sign = *word as i64;
        line.push_str(&format!(", {name} {sign}"));
    }
    line
}
