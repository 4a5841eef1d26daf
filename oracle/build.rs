//! Takes the four Rust files from where `oracle/source` puts them, prepares the parser that also
//! records where errors were found, and links the proved static library.

use std::env;
use std::fs;
use std::path::{Path, PathBuf};
use std::process::exit;

const FILES: [&str; 4] = ["syntax", "lexer", "parser", "eval"];

/// A form of error: the function that gives it, how its message begins in `parser.rs`, and what is
/// recorded: form, expected kind, index of the token found.
struct Form {
    name: &'static str,
    message: &'static str,
    recorded: &'static str,
}

const FORMS: [Form; 6] = [
    Form {
        name: "1 (expect)",
        message: "\"expected '{:?}'",
        recorded: "1, kind as u32, self.pos",
    },
    Form {
        name: "2 (expect_ident)",
        message: "\"expected '{}'",
        recorded: "2, 0, self.pos",
    },
    Form {
        name: "3 (left over)",
        message: "\"unexpected",
        recorded: "3, 0, crate::places::next(&self.tokens, self.pos)",
    },
    Form {
        name: "4 (source)",
        message: "\"expected 'components'",
        recorded: "4, 0, crate::places::next(&self.tokens, self.pos)",
    },
    Form {
        name: "5 (method)",
        message: "\"expected method",
        recorded: "5, 0, crate::places::next(&self.tokens, self.pos)",
    },
    Form {
        name: "6 (atom)",
        message: "\"expected 'not'",
        recorded: "6, 0, crate::places::next(&self.tokens, self.pos)",
    },
];

/// `parse_expr` over tokens that are at hand, so that a reading calls `lex` once less.
const PARSE_TOKENS: &str = "
pub(crate) fn parse_tokens(tokens: Vec<(ExprSyntaxKind, String)>) -> ParseResult {
    let mut p = ExprParser::new(tokens);
    p.parse_root();
    p.finish()
}
";

fn main() {
    let manifest = PathBuf::from(env::var_os("CARGO_MANIFEST_DIR").unwrap());
    let target = manifest.parent().unwrap().join("target");
    let source = target.join("spar");
    for file in FILES {
        need(&source.join(file).with_extension("rs"), "oracle/source");
    }
    let out = PathBuf::from(env::var_os("OUT_DIR").unwrap());
    let placed = out.join("placed_parser.rs");
    let parser = read(&source.join("parser.rs"));
    write(&placed, &(record_places(&parser) + PARSE_TOKENS));
    write(&out.join("assertion.rs"), &modules(&source, &placed));

    println!("cargo::rerun-if-env-changed=PROVED_LIBRARY");
    let library = match env::var_os("PROVED_LIBRARY") {
        Some(given) => manifest.join(given),
        None => target.join("staticlib"),
    };
    link_proved(&library);
}

/// Ends the build with one sentence. Cargo fails by it, and at another status repeats all output.
fn fail(sentence: &str) -> ! {
    println!("cargo::error={sentence}");
    exit(0)
}

/// Ends the build where a file is missing, and names the script that puts it there.
fn need(file: &Path, script: &str) {
    println!("cargo::rerun-if-changed={}", file.display());
    if !file.is_file() {
        fail(&format!(
            "{} is missing: run `{script}` in the repository's root first",
            file.display()
        ));
    }
}

fn read(path: &Path) -> String {
    fs::read_to_string(path).unwrap_or_else(|error| fail(&format!("{}: {error}", path.display())))
}

fn write(path: &Path, text: &str) {
    fs::write(path, text).unwrap_or_else(|error| fail(&format!("{}: {error}", path.display())));
}

/// The module lines: the four files from where `oracle/source` puts them, and the parser that
/// records places.
fn modules(folder: &Path, placed: &Path) -> String {
    let mut text = String::new();
    for file in FILES {
        let path = folder.join(file).with_extension("rs");
        text += &format!("#[path = {path:?}]\npub(crate) mod {file};\n");
    }
    text + &format!("#[path = {placed:?}]\npub(crate) mod placed_parser;\n")
}

/// `parser.rs` with a call before each push of a message, recording where its error was found.
fn record_places(parser: &str) -> String {
    let mut text = String::new();
    let mut times = [0; FORMS.len()];
    let mut rest = parser;
    while let Some(at) = rest.find("self.errors") {
        let (before, from) = rest.split_at(at);
        text += before;
        if let Some(form) = pushed_form(from) {
            times[form] += 1;
            text += &format!("crate::places::record({});\n", FORMS[form].recorded);
        }
        let (word, after) = from.split_at("self.errors".len());
        text += word;
        rest = after;
    }
    for (form, times) in FORMS.iter().zip(times) {
        if times != 1 {
            fail(&format!(
                "parser.rs pushes an error of form {} in {times} places, not in one: its message \
                 is known by beginning {}",
                form.name, form.message
            ));
        }
    }
    text + rest
}

/// The form of the message pushed here, or none where the list of errors is only read.
fn pushed_form(from: &str) -> Option<usize> {
    let pushed = from["self.errors".len()..]
        .trim_start()
        .strip_prefix(".push(")?;
    let message = &pushed[pushed.find('"').unwrap_or(0)..];
    let form = FORMS
        .iter()
        .position(|form| message.starts_with(form.message));
    form.or_else(|| {
        let line = message.lines().next().unwrap_or("");
        fail(&format!(
            "parser.rs pushes an error of no known form: {line}"
        ))
    })
}

/// Links `libabi.a` from a folder.
fn link_proved(folder: &Path) {
    need(&folder.join("libabi.a"), "tools/staticlib");
    println!("cargo::rustc-link-search=native={}", folder.display());
    println!("cargo::rustc-link-lib=static=abi");
}
