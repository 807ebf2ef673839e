//! What was compared, and which rule was applied how often.

use std::collections::BTreeMap;

/// The intended differences (docs/DIFFERENCES.md), and what document 01 adds. Each is applied where its condition holds, and nowhere else.
macro_rules! rules {
    ($($name:ident: $text:literal,)*) => {
        #[derive(Debug, Clone, Copy, PartialEq, Eq, PartialOrd, Ord)]
        pub enum Rule { $($name,)* }

        pub const RULES: &[(Rule, &str)] = &[$((Rule::$name, $text),)*];
    };
}

rules! {
    RuntimeBaseTop: "62: the Rust's sum RAM base + 8 overflows",
    RuntimeShort: "a record under 64 bytes: the Rust's parser can't read it; its functions are asked with the slice",
    StringTop: "2 or 20: the Rust's next chunk address overflows after a chunk that ends at 2^32",
    HeaderTop: "2: the Rust's sum flash base + info offset overflows",
    SetsTop: "2: the Rust's sum sets pointer + offset overflows",
    TableTop: "2: the Rust's sum table pointer + 4 i overflows",
    NameTop: "a ROM's name 2 or 20: the Rust's next chunk address overflows, and its whole opening panics",
    Pins88: "pins of 88 to 255 bytes: the Rust reads 256; it is asked with zeros behind them",
    MetadataEnded: "sets 2 where metadata ended: the Rust goes on with no sets",
    MangleX: "72: the Rust asserts X1 and X2 below 16",
    MangleMapped: "73: the Rust asserts X1 and X2 on no address pin",
    MangleNoRom: "74: the Rust indexes set 0's first ROM",
    MangleControl: "76: the Rust asserts a control pin below 16 (18 for 28-pin types)",
    MangleControl28: "76: the Rust's index 16 or 17 of a 28-pin type is out of range",
    Mangle28C16: "78: the Rust's unreachable code",
    DemanglePin: "79: the Rust asserts a data pin below 8",
    DataOffsetTop: "81: the Rust's sum offset + length overflows",
    DataAddressTop: "2: the Rust's sum data pointer + offset overflows",
    WindowCheck: "1, added: the Rust has no such check",
    RowsShort: "44 or 45, added: the Rust lends no rows",
    LentRows: "4, added: the Rust lends no rows",
    CountTop: "82, added: the Rust counts nothing",
    NoJob: "83, added: the Rust has no jobs",
    SetAboveByte: "80: the Rust's set number is a byte",
    LentCount: "a lent ROM count above 255: the Rust, whose count is a byte, is asked with 255",
    SameSet: "same set, added: held to the rows by the host",
    OwnRoms: "a byte by the set's own ROMs, added: the Rust is asked with that set in set 0's place",
    OwnRomsOfSet0: "a byte of set 0 by its own ROMs, added: held to the old read too, by the host",
}

#[derive(Default)]
pub struct Tally {
    kinds: BTreeMap<&'static str, u64>,
    rules: BTreeMap<Rule, u64>,
    numbers: BTreeMap<&'static str, BTreeMap<u32, u64>>,
}

impl Tally {
    /// An input of this kind was compared.
    pub fn kind(&mut self, kind: &'static str) {
        *self.kinds.entry(kind).or_default() += 1;
    }

    pub fn rule(&mut self, rule: Rule) {
        *self.rules.entry(rule).or_default() += 1;
    }

    /// The answer that both sides agreed on, by call or item.
    pub fn number(&mut self, of: &'static str, number: u32) {
        *self.numbers.entry(of).or_default().entry(number).or_default() += 1;
    }

    pub fn numbers_seen(&self) -> BTreeMap<&'static str, BTreeMap<u32, u64>> {
        self.numbers.clone()
    }

    /// The calls and numbers counted since.
    pub fn numbers_since(&self, before: &BTreeMap<&'static str, BTreeMap<u32, u64>>) -> Vec<(&'static str, u32)> {
        let times = |of: &str, number: u32| before.get(of).and_then(|m| m.get(&number)).copied().unwrap_or(0);
        let all = self.numbers.iter().flat_map(|(of, m)| m.iter().map(move |(number, n)| (*of, *number, *n)));
        all.filter(|(of, number, n)| *n > times(of, *number)).map(|(of, number, _)| (of, number)).collect()
    }

    pub fn print(&self) {
        println!("inputs compared:");
        let mut totals: BTreeMap<&str, u64> = BTreeMap::new();
        for (kind, n) in &self.kinds {
            println!("  {n:>10}  {kind}");
            *totals.entry(kind.split(':').next().unwrap_or(kind)).or_default() += n;
        }
        let shown: Vec<String> = totals.iter().map(|(kind, n)| format!("{n} {kind}")).collect();
        println!("in all: {}", shown.join(", "));
        println!("numbers agreed on (0 accepted):");
        for (of, numbers) in &self.numbers {
            let shown: Vec<String> = numbers.iter().map(|(number, n)| format!("{number}: {n}")).collect();
            println!("  {of:<16} {}", shown.join(", "));
        }
        println!("rules applied:");
        for (rule, text) in RULES {
            println!("  {:>10}  {rule:?}: {text}", self.rules.get(rule).copied().unwrap_or(0));
        }
    }
}

/// A difference that no rule covers.
#[derive(Debug, Clone)]
pub struct Difference {
    pub what: String,
    pub ours: String,
    pub rust: String,
}

pub type Compared = Result<(), Box<Difference>>;

pub fn differ<T>(what: impl Into<String>, ours: impl std::fmt::Debug, rust: impl std::fmt::Debug) -> Result<T, Box<Difference>> {
    Err(Box::new(Difference { what: what.into(), ours: format!("{ours:?}"), rust: format!("{rust:?}") }))
}

/// Both sides of one value.
pub fn same<T: PartialEq + std::fmt::Debug>(what: &str, ours: T, rust: T) -> Compared {
    if ours == rust { Ok(()) } else { differ(what, ours, rust) }
}
