//! Nothing else holds the three writings of a C call together: the Rattle export, include/hbc.h, and the declaration
//! here. All are brought into the form of the Rust declaration and compared. So are the names that the header and this
//! crate have for the same number; and every call that may be refused says for what.

use std::collections::{BTreeMap, BTreeSet};
use std::fs;
use std::path::{Path, PathBuf};

use bisquepond::clean::{Rule, SeriesRow};
use bisquepond::function::FunctionRow;
use bisquepond::parsing::Why;
use bisquepond::{Layout, Reason, Row, debug, function, parsing, sys, table};

/// A call's name, and its parameters and answer as Rust declares them.
type Calls = BTreeMap<String, String>;

fn repository() -> PathBuf {
    Path::new(env!("CARGO_MANIFEST_DIR"))
        .ancestors()
        .nth(2)
        .unwrap()
        .to_path_buf()
}

fn one_space(text: &str) -> String {
    text.split_whitespace().collect::<Vec<_>>().join(" ")
}

fn shape(parameters: Vec<String>, answer: Option<&str>) -> String {
    let answer = answer.map_or(String::new(), |kind| format!(" -> {kind}"));
    format!("({}){answer}", parameters.join(", "))
}

/// The declarations of src/sys.rs, as they stand.
fn declared() -> Calls {
    let text = fs::read_to_string(repository().join("rust/bisquepond/src/sys.rs")).unwrap();
    let mut calls = Calls::new();
    for found in text.split("pub fn hbc_").skip(1) {
        let (name, rest) = found.split_once('(').unwrap();
        let (rest, _) = rest.split_once(';').unwrap();
        calls.insert(format!("hbc_{name}"), format!("({}", one_space(rest)));
    }
    calls
}

fn of_c(kind: &str) -> &str {
    match kind {
        "uint8_t" => "u8",
        "uint16_t" => "u16",
        "uint32_t" => "u32",
        "uint64_t" => "u64",
        "int8_t" => "i8",
        "int32_t" => "i32",
        "int64_t" => "i64",
        "size_t" => "usize",
        "double" => "f64",
        "bool" => "bool",
        _ => panic!("no Rust type for {kind}"),
    }
}

/// `const uint8_t *s` is `s: *const u8`.
fn c_parameter(text: &str) -> String {
    let (kind, name) = text.rsplit_once(' ').unwrap();
    match (kind.strip_prefix("const "), name.strip_prefix('*')) {
        (Some(kind), Some(name)) => format!("{name}: *const {}", of_c(kind)),
        (None, Some(name)) => format!("{name}: *mut {}", of_c(kind)),
        _ => format!("{name}: {}", of_c(kind)),
    }
}

/// The prototypes of include/hbc.h.
fn in_the_header() -> Calls {
    let text = fs::read_to_string(repository().join("include/hbc.h")).unwrap();
    let mut code = String::new();
    for part in text.split("/*") {
        code += part.split_once("*/").map_or(part, |(_, after)| after);
    }
    let mut calls = Calls::new();
    for prototype in code.split(';') {
        let Some((before, after)) = prototype.split_once(" hbc_") else {
            continue;
        };
        let answer = match before.split_whitespace().last().unwrap() {
            "void" => None,
            kind => Some(of_c(kind)),
        };
        let (name, rest) = after.split_once('(').unwrap();
        let (parameters, _) = rest.split_once(')').unwrap();
        let parameters = one_space(parameters);
        let parameters = parameters.split(", ").map(c_parameter).collect();
        calls.insert(format!("hbc_{name}"), shape(parameters, answer));
    }
    calls
}

/// Parameters that a caller reads by a better name than the one that they have where they are proved.
const RENAMED: [(&str, &str); 2] = [("yes", "of_keys"), ("given", "with_sources")];

/// `s: &[u8]` is `s: *const u8, s_len: usize`, and `at: &mut usize` is `at: *mut usize`.
fn rattle_parameter(text: &str) -> String {
    let (name, kind) = text.split_once(": ").unwrap();
    let renamed = RENAMED.iter().find(|(proved, _)| *proved == name);
    let name = renamed.map_or(name, |(_, read)| read);
    let slice = |kind: &str| Some(kind.strip_suffix(']')?.to_string());
    if let Some(kind) = kind.strip_prefix("&mut [").and_then(slice) {
        format!("{name}: *mut {kind}, {name}_len: usize")
    } else if let Some(kind) = kind.strip_prefix("&[").and_then(slice) {
        format!("{name}: *const {kind}, {name}_len: usize")
    } else if let Some(kind) = kind.strip_prefix("&mut ") {
        format!("{name}: *mut {kind}")
    } else {
        format!("{name}: {kind}")
    }
}

/// The exports of crates/hbc_c_c.
fn exported() -> Calls {
    let mut calls = Calls::new();
    for file in fs::read_dir(repository().join("crates/hbc_c_c/src")).unwrap() {
        let text = fs::read_to_string(file.unwrap().path()).unwrap();
        for found in text.split("pub extern \"C\" fn ").skip(1) {
            let (name, rest) = found.split_once('(').unwrap();
            let (parameters, rest) = rest.split_once(')').unwrap();
            let answer = rest.trim_start().strip_prefix("-> ");
            let answer = answer.and_then(|rest| rest.split_whitespace().next());
            let parameters = one_space(parameters);
            let parameters = parameters.trim_end_matches(',').split(", ");
            let parameters = parameters.map(rattle_parameter).collect();
            calls.insert(name.to_string(), shape(parameters, answer));
        }
    }
    calls
}

/// Every call of `here` is among `there`, in the same shape.
fn all_in(here: &Calls, there: &Calls) {
    assert!(!here.is_empty());
    for (name, shape) in here {
        assert_eq!(there.get(name), Some(shape), "{name}");
    }
}

#[test]
fn header_and_declarations_agree() {
    all_in(&in_the_header(), &declared());
    all_in(&declared(), &in_the_header());
}

#[test]
fn exports_and_declarations_agree() {
    all_in(&exported(), &declared());
    all_in(&declared(), &exported());
}

/// A caller goes from one mode of strings to the other by the call's name alone.
#[test]
fn both_modes_of_strings_take_the_same() {
    for calls in [declared(), in_the_header()] {
        let [in_order, hermes] = ["hbc_decode_strings", "hbc_decode_strings_hermes"];
        assert_eq!(calls[in_order], calls[hermes]);
    }
}

/// The header's constants: of `#define HBC_X 5` the name without HBC_, and the number.
fn constants() -> BTreeMap<String, u32> {
    let text = fs::read_to_string(repository().join("include/hbc.h")).unwrap();
    let mut constants = BTreeMap::new();
    for line in text.lines() {
        let mut words = line.split_whitespace();
        let (Some("#define"), Some(name), Some(value)) = (words.next(), words.next(), words.next())
        else {
            continue;
        };
        let value = value.trim_end_matches('u');
        let number = match value.strip_prefix("0x") {
            Some(digits) => u32::from_str_radix(digits, 16),
            None => value.parse(),
        };
        if let (Some(name), Ok(number)) = (name.strip_prefix("HBC_"), number) {
            assert_eq!(constants.insert(name.to_string(), number), None, "{name}");
        }
    }
    constants
}

/// `Leb128TooLong` is `LEB128_TOO_LONG`.
fn upper(name: &str) -> String {
    let mut out = String::new();
    for letter in name.chars() {
        if letter.is_ascii_uppercase() && !out.is_empty() {
            out.push('_');
        }
        out.push(letter.to_ascii_uppercase());
    }
    out
}

/// Every refusal of the header is a reason of the same name and number, and the other way round but for our own.
#[test]
fn refusals_have_the_same_names() {
    let in_c: BTreeMap<String, u32> = constants()
        .into_iter()
        .filter_map(|(name, number)| Some((name.strip_prefix("REFUSED_")?.to_string(), number)))
        .collect();
    let own = |reason: &&Reason| reason.number() < 100;
    let here = Reason::ALL.iter().filter(own);
    let here = here.map(|reason| (upper(&format!("{reason:?}")), reason.number()));
    assert_eq!(in_c, here.collect());
    assert_eq!(in_c.len(), 16);
}

/// Every answer of `hbc_why_no_handlers` that the header names is one of the same name and number here, and the other way
/// round.
#[test]
fn answers_why_have_the_same_names() {
    let in_c: BTreeMap<String, u32> = constants()
        .into_iter()
        .filter_map(|(name, number)| Some((name.strip_prefix("WHY_")?.to_string(), number)))
        .collect();
    let all = [
        Why::Shown(1),
        Why::FlagClear,
        Why::InfoZero,
        Why::InfoPast,
        Why::NoRoom,
        Why::CountZero,
        Why::CountHigh,
        Why::Cut,
    ];
    // `Shown(1)` is `SHOWN`.
    let name = |why: &Why| upper(format!("{why:?}").trim_end_matches("(1)"));
    let here: BTreeMap<String, u32> = all.iter().map(|why| (name(why), why.number())).collect();
    assert_eq!(in_c, here);
    assert!(all.iter().map(|why| why.number()).eq(0..8));
}

/// Every rule that the header names is one of the same name and number here, and the other way round; and no rule is 0.
#[test]
fn rules_have_the_same_names() {
    let c = constants();
    let in_c: BTreeMap<String, u32> = c
        .iter()
        .filter_map(|(name, &number)| Some((name.strip_prefix("RULE_")?.to_string(), number)))
        .collect();
    let here = Rule::ALL.iter();
    let here = here.map(|rule| (upper(&format!("{rule:?}")), rule.number()));
    assert_eq!(in_c, here.collect());
    assert!(Rule::ALL.iter().map(|rule| rule.number()).eq(1..=5));
    assert_eq!(c["CLEAN"], 0);
}

/// A row of these words, counting from 0: each is the word of its own number.
fn counting<R: Row>() -> R {
    let words: Vec<u32> = (0..R::WORDS as u32).collect();
    R::rows(&words)[0]
}

#[test]
fn words_and_numbers_have_the_same_names() {
    let c = constants();
    let version = env!("CARGO_PKG_VERSION").split('.');
    let version: Vec<u32> = version.map(|part| part.parse().unwrap()).collect();
    assert_eq!(
        version,
        ["MAJOR", "MINOR", "PATCH"].map(|part| c[&format!("VERSION_{part}")])
    );
    let header = fs::read_to_string(repository().join("include/hbc.h")).unwrap();
    let written = format!("#define HBC_VERSION \"{}\"", env!("CARGO_PKG_VERSION"));
    assert!(header.contains(&written));

    for (name, words) in [
        ("FUNCTION", FunctionRow::WORDS),
        ("STRING", table::StringRow::WORDS),
        ("HANDLER", parsing::HandlerRow::WORDS),
        ("TEXT", debug::TextRow::WORDS),
        ("SCOPE", debug::ScopeRow::WORDS),
        ("NAME", debug::NameRow::WORDS),
        ("CALLEE", debug::CalleeRow::WORDS),
        ("SERIES", SeriesRow::WORDS),
    ] {
        assert_eq!(c[&format!("{name}_WORDS")] as usize, words, "{name}");
    }
    assert_eq!(
        (c["SECTIONS"], c["SECTION_WORDS"], c["PAIR_WORDS"]),
        (5, 4, 2)
    );
    assert_eq!((c["LIMIT"] as usize, c["NONE"]), (sys::LIMIT, u32::MAX));
    assert_eq!(c["LAYOUT_LEGACY16"], u32::from(Layout::Legacy16));
    assert_eq!(c["LAYOUT_MODERN12"], u32::from(Layout::Modern12));

    // Each field's word has its number in a row that counts.
    for layout in [Layout::Legacy16, Layout::Modern12] {
        let mut words: Vec<u32> = (0..FunctionRow::WORDS as u32).collect();
        words[0] = layout.into();
        let row = FunctionRow::rows(&words)[0];
        for (name, at) in row.fields() {
            assert_eq!(c[&format!("FUNCTION_{}", name.to_uppercase())], at);
        }
        assert_eq!(row.large_place(), Some(c["FUNCTION_LARGE_PLACE"]));
        assert_eq!(row.record().len() as u32, c["FUNCTION_LARGE_PLACE"]);
    }
    assert_eq!(c["FUNCTION_LAYOUT"], 0);
    assert_eq!(c["FUNCTION_LARGE_PLACE"] + 1, c["FUNCTION_WORDS"]);
    assert_eq!(c["INLINE"], function::INLINE);
    // No place is that far.
    assert!(c["INLINE"] > c["LIMIT"]);
    let row: table::StringRow = counting();
    assert_eq!(
        (c["STRING_START"], c["STRING_LENGTH"]),
        (row.start(), row.byte_len())
    );
    let marked = |mark: u32| {
        let (mut words, at) = ([0; 4], c["STRING_MARKS"] as usize);
        words[at] = mark;
        table::StringRow::rows(&words)[0]
    };
    assert!(marked(c["MARK_UTF16"]).is_utf16() && !marked(c["MARK_UTF16"]).is_identifier());
    assert!(marked(c["MARK_IDENTIFIER"]).is_identifier() && !marked(2).is_utf16());
    let mut words = [0; 4];
    words[c["STRING_INVALID"] as usize] = 1;
    assert!(!table::StringRow::rows(&words)[0].is_valid());
    let row: parsing::HandlerRow = counting();
    assert_eq!(
        (c["HANDLER_FUNCTION"], c["HANDLER_START"]),
        (row.function(), row.start())
    );
    assert_eq!(
        (c["HANDLER_END"], c["HANDLER_TARGET"]),
        (row.end(), row.target())
    );
    let row: debug::TextRow = counting();
    assert_eq!(
        (c["TEXT_START"], c["TEXT_LENGTH"]),
        (row.start(), row.byte_len())
    );
    let row: debug::ScopeRow = counting();
    assert_eq!(
        (c["SCOPE_OFFSET"], Some(c["SCOPE_PARENT"])),
        (row.offset(), row.parent())
    );
    assert_eq!(
        (c["SCOPE_FLAGS"], c["SCOPE_FIRST_NAME"]),
        (row.flags(), row.first_name())
    );
    assert_eq!(c["SCOPE_NAME_COUNT"], row.name_count());
    let row: debug::NameRow = counting();
    assert_eq!(Some(c["NAME_STRING"]), row.string());
    let row: debug::CalleeRow = counting();
    assert_eq!(
        (c["CALLEE_ADDRESS"], c["CALLEE_STRING"]),
        (row.address(), row.string())
    );
    let row: SeriesRow = counting();
    assert_eq!(
        (c["SERIES_OFFSET"], c["SERIES_COUNT"]),
        (row.offset(), row.count())
    );
    let mut words = [0; 3];
    words[c["SERIES_OF_KEYS"] as usize] = 1;
    assert!(SeriesRow::rows(&words)[0].is_of_keys() && !row.is_of_keys());
    for (name, flag) in [
        ("STRICT", function::FLAG_STRICT),
        (
            "HAS_EXCEPTION_HANDLER",
            function::FLAG_HAS_EXCEPTION_HANDLER,
        ),
        ("PROHIBIT_CONSTRUCT", function::FLAG_PROHIBIT_CONSTRUCT),
        ("OVERFLOWED", function::FLAG_OVERFLOWED),
    ] {
        assert_eq!(c[&format!("FLAG_{name}")], flag, "{name}");
    }
}

/// The public calls of these sources that answer a `Result`, and which of them lack `# Errors`.
fn without_errors(text: &str) -> (usize, Vec<String>) {
    let (mut all, mut lacking, mut docs) = (0, Vec::new(), String::new());
    let mut lines = text.lines();
    while let Some(line) = lines.next() {
        let line = line.trim();
        if line.starts_with("///") || line.starts_with("#[doc") {
            docs += line;
        } else if line.starts_with("pub fn ") || line.starts_with("pub const fn ") {
            let mut signature = line.to_string();
            while !signature.ends_with(['{', ';']) {
                signature += lines.next().unwrap().trim();
            }
            if signature.contains("-> Result<") {
                all += 1;
                if !docs.contains("# Errors") {
                    lacking.push(line.to_string());
                }
            }
            docs.clear();
        } else if line.starts_with('}') {
            docs.clear();
        }
    }
    (all, lacking)
}

#[test]
fn every_call_says_for_what_it_is_refused() {
    let mut all = 0;
    for file in fs::read_dir(repository().join("rust/bisquepond/src")).unwrap() {
        let path = file.unwrap().path();
        let (calls, lacking) = without_errors(&fs::read_to_string(&path).unwrap());
        assert_eq!(lacking, Vec::<String>::new(), "{}", path.display());
        all += calls;
    }
    // Those of macros are counted once.
    assert!(all >= 23, "{all}");
    // And it sees one that does not.
    let silent = "/// Reads.\npub fn read(\n    s: &[u8],\n) -> Result<u8> {\n}\n";
    assert_eq!(
        without_errors(silent),
        (1, vec!["pub fn read(".to_string()])
    );
}

/// Every name that docs/FROM_HERMES_DECOMP.md gives for ours is somewhere in the sources.
#[test]
fn names_of_the_page_are_here() {
    let page = fs::read_to_string(repository().join("docs/FROM_HERMES_DECOMP.md")).unwrap();
    let mut sources = String::new();
    for file in fs::read_dir(repository().join("rust/bisquepond/src")).unwrap() {
        sources += &fs::read_to_string(file.unwrap().path()).unwrap();
    }
    let name = |text: &str| -> Vec<String> {
        let split = text.split(|c: char| !c.is_alphanumeric() && c != '_');
        split.map(str::to_string).collect()
    };
    let sources: BTreeSet<String> = name(&sources).into_iter().collect();
    let mut seen = 0;
    for row in page.lines().filter(|line| line.starts_with("| ")) {
        let ours = row.rsplit(" | ").next().unwrap();
        for code in ours.split('`').skip(1).step_by(2) {
            for word in name(code) {
                assert!(word.is_empty() || sources.contains(&word), "{word}: {row}");
                seen += 1;
            }
        }
    }
    assert!(seen > 150, "{seen}");
}
