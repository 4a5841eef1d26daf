//! The fixed cases of predicates: boards, and predicates of their members, by topic.

use spar_analysis::Severity;
use spar_hir_def::item_tree::{ComponentCategory, Direction, FeatureKind};

use crate::board::{
    Board, CATEGORIES, Component, DIRECTIONS, Diagnostic, Feature, KINDS, SEVERITIES, board_a,
    board_b,
};
use crate::example_boards::{
    component, connection, diagnostic, ends, feature, property, refused_5, refused_6, refused_7,
    rings,
};
use crate::truths::{Sort, TruthCase};
use crate::words::{CATEGORY_WORDS, DIRECTION_WORDS, KIND_WORDS, SEVERITY_WORDS};

/// All cases, each once.
pub fn cases() -> Vec<TruthCase> {
    let mut list = List::default();
    words(&mut list);
    foreign_words(&mut list);
    fields(&mut list);
    properties(&mut list);
    connections(&mut list);
    operators(&mut list);
    messages(&mut list);
    turned_away(&mut list);
    list.0
}

#[derive(Default)]
struct List(Vec<TruthCase>);

impl List {
    fn push(&mut self, case: TruthCase) {
        if !self.0.contains(&case) {
            self.0.push(case);
        }
    }

    /// A case for each predicate, of all members of a sort.
    fn add(&mut self, board: &Board, sort: Sort, predicates: &[&str]) {
        let image = board.image();
        for predicate in predicates {
            self.push(TruthCase::new(&image, sort, predicate));
        }
    }
}

/// A field, its words, and a board with a member for each of its values.
struct Words {
    board: Board<'static>,
    sort: Sort,
    field: &'static str,
    words: &'static [&'static str],
}

impl Words {
    fn all() -> [Self; 4] {
        [
            Self {
                board: of_components(CATEGORIES.map(of_category).into()),
                sort: Sort::Components,
                field: "category",
                words: &CATEGORY_WORDS,
            },
            Self {
                board: of_features(KINDS.map(|kind| feature("port", kind, None)).into()),
                sort: Sort::Features,
                field: "kind",
                words: &KIND_WORDS,
            },
            Self {
                board: of_features(DIRECTIONS.map(of_direction).into()),
                sort: Sort::Features,
                field: "direction",
                words: &DIRECTION_WORDS,
            },
            Self {
                board: of_diagnostics(SEVERITIES.map(of_severity).into()),
                sort: Sort::Diagnostics,
                field: "severity",
                words: &SEVERITY_WORDS,
            },
        ]
    }

    fn is(&self, word: &str) -> String {
        format!("{} == '{word}'", self.field)
    }

    /// True of a member whose value one of these words means.
    fn is_one_of(&self, words: &[&str]) -> String {
        let words: Vec<_> = words.iter().map(|word| self.is(word)).collect();
        words.join(" or ")
    }

    fn add(&self, predicate: &str, list: &mut List) {
        list.add(&self.board, self.sort, &[predicate]);
    }
}

fn of_components(components: Vec<Component>) -> Board {
    Board {
        components,
        ..Board::default()
    }
}

/// One device that has all the features.
fn of_features(features: Vec<Feature>) -> Board {
    of_components(vec![component(
        ComponentCategory::Device,
        None,
        features,
        false,
    )])
}

pub fn of_diagnostics(diagnostics: Vec<Diagnostic>) -> Board {
    Board {
        diagnostics,
        ..Board::default()
    }
}

fn of_category(category: ComponentCategory) -> Component<'static> {
    component(category, None, vec![], false)
}

fn of_direction(direction: Option<Direction>) -> Feature<'static> {
    feature("port", FeatureKind::DataPort, direction)
}

fn of_severity(severity: Severity) -> Diagnostic<'static> {
    diagnostic("a", severity, "a message")
}

/// Every word as it is, in upper case, and with capitals and dashes for its underscores; and all that
/// are a byte shorter or longer at either end, some in one case, none of which is a word.
fn words(list: &mut List) {
    for field in Words::all() {
        for word in field.words {
            field.add(&field.is(word), list);
            field.add(&field.is(&word.to_uppercase()), list);
            if word.contains('_') {
                field.add(&field.is(&capitals(&word.replace('_', "-"))), list);
            }
        }
        for words in field.words.chunks(3) {
            let changed: Vec<_> = words.iter().flat_map(|word| changed(word)).collect();
            let changed: Vec<_> = changed.iter().map(String::as_str).collect();
            field.add(&field.is_one_of(&changed), list);
        }
    }
}

/// A word without its first or last byte, and with either twice.
fn changed(word: &str) -> [String; 4] {
    let (first, last) = (&word[..1], &word[word.len() - 1..]);
    [
        word[1..].to_string(),
        word[..word.len() - 1].to_string(),
        format!("{first}{word}"),
        format!("{word}{last}"),
    ]
}

/// A capital for each part between dashes.
fn capitals(word: &str) -> String {
    let capital = |part: &str| part[..1].to_uppercase() + &part[1..];
    let parts: Vec<_> = word.split('-').map(capital).collect();
    parts.join("-")
}

/// Words of mixed case, and words that folding must not make: bytes next to the letters, the dash and
/// the underscore, or 32 or 64 away from them; blanks; characters beyond ASCII.
fn foreign_words(list: &mut List) {
    let [categories, kinds, directions, severities] = Words::all();
    let category_tries: &[&[&str]] = &[
        &["THREAD-GROUP"],
        &["tHREAD-gROUP"],
        &["Virtual_bus", "virtual-Processor", "SubProgramGroup"],
        &["d@ta", "d`ta", "d[ta", "d{ta"],
        &["D@TA", "D`TA", "D[TA", "D{TA"],
        &[
            "thread@group",
            "thread[group",
            "thread`group",
            "thread{group",
        ],
        &[
            "thread group",
            "thread?group",
            "thread\u{7f}group",
            "thread\rgroup",
        ],
        &[
            "thread--group",
            "thread__group",
            "thread-_group",
            "-thread_group",
        ],
        &["3ystem", "\u{13}ystem", "SYS4EM", "d!ta", "D\u{1}TA"],
        &[
            "", " ", "_", "-", " data", "data ", "data\n", "da ta", "data\0",
        ],
        &[
            "dàta", "DÀTA", "ſystem", "buſ", "BUſ", "devİce", "DEVİCE", "devıce",
        ],
        &[
            "thread\u{2010}group",
            "thread–group",
            "thread＿group",
            "Αbstract",
        ],
    ];
    let kind_tries: &[&[&str]] = &[
        &["event_data-port"],
        &["eventdata_port", "event_dataport", "event-dataport"],
        &[
            "data port",
            "data@port",
            "data[port",
            "data{port",
            "data`port",
        ],
        &["port", "access", "group", "feature", "data", "in"],
        &["pärameter", "PÄRAMETER", "ｐarameter"],
    ];
    let direction_tries: &[&[&str]] = &[
        &["IN-OUT"],
        &["In_Out"],
        &["InOut"],
        &[
            "in out",
            "in[out",
            "in@out",
            "in{out",
            "in`out",
            "in\u{ad}out",
        ],
        &["out_in", "outin", "io", "both", "None-", "Some"],
        &["İn", "ın", "ÍN", "ｉｎ", "nöne"],
    ];
    let severity_tries: &[&[&str]] = &[
        &["Error"],
        &["Warning", "Info", "eRROR"],
        &["error ", " error", "err-or", "err_or", "note", "hint", ""],
        &["érror", "warnıng", "İnfo"],
    ];
    for (field, tried) in [
        (categories, category_tries),
        (kinds, kind_tries),
        (directions, direction_tries),
        (severities, severity_tries),
    ] {
        for words in tried {
            field.add(&field.is_one_of(words), list);
        }
    }
}

/// Fields and atoms of each sort of member, asked of every sort.
fn fields(list: &mut List) {
    let board = mixed();
    let of_all = [
        "category == 'device'",
        "kind == 'data_port'",
        "direction == 'none'",
        "severity == 'error'",
        "message == 'port'",
        "message == ''",
        "message.contains('')",
        "has('port')",
        "has('set::name')",
        "connected",
        "not (kind == 'data_port' or severity == 'error')",
    ];
    for sort in [Sort::Components, Sort::Features, Sort::Diagnostics] {
        list.add(&board, sort, &of_all);
        // Boards that have no such member.
        list.add(&board_b(), sort, &["connected"]);
    }
    list.add(
        &board_a(),
        Sort::Features,
        &["connected", "has('probe')", "not kind == 'Data-Port'"],
    );
}

/// Components with features of several kinds, and diagnostics.
pub fn mixed() -> Board<'static> {
    use ComponentCategory as C;
    use Direction::{In, Out};
    use FeatureKind as F;
    Board {
        components: vec![
            component(
                C::Device,
                None,
                vec![
                    feature("port", F::DataPort, Some(In)),
                    feature("other", F::EventPort, Some(Out)),
                ],
                true,
            ),
            of_category(C::ThreadGroup),
            component(
                C::ThreadGroup,
                None,
                vec![
                    feature("port", F::Parameter, None),
                    feature("last", F::DataPort, Some(In)),
                ],
                false,
            ),
            of_category(C::Device),
        ],
        properties: vec![property(1, "set", "name"), property(2, "set", "name")],
        diagnostics: vec![
            diagnostic("a", Severity::Error, "port"),
            diagnostic("a", Severity::Warning, "error"),
            diagnostic("a", Severity::Info, ""),
        ],
        ..Board::default()
    }
}

/// What `has` finds of a component and of a feature: the text is parted by its first `::`.
fn properties(list: &mut List) {
    let board = named();
    let predicates = [
        "has('a::b::c')",
        "has('a:::b')",
        "has('::b')",
        "has('a::')",
        "has('')",
        "has('::')",
        "has(':::')",
        "has('a')",
        "has('b')",
        "has('a::b')",
        "has('::a::b')",
        "has('A::B')",
        "has('a::b::')",
        "has('Größe::€')",
        "has('Größe')",
        "has('first')",
        "has('port') and not has('last')",
    ];
    list.add(&board, Sort::Components, &predicates);
    list.add(&board, Sort::Features, &predicates);
}

/// Components with a property each, then such with features of those names, one with both, and one
/// with neither.
pub fn named() -> Board<'static> {
    let sets_and_names = [
        ("a", "b::c"),
        ("a::b", "c"),
        ("a", ":b"),
        ("a:", "b"),
        ("", "b"),
        ("a", ""),
        ("", ""),
        ("", ":"),
        ("", "::"),
        ("", "a"),
        ("a", "b"),
        ("", "a::b"),
        ("A", "B"),
        ("", "a:b"),
        ("Größe", "€"),
    ];
    let port = |name| feature(name, FeatureKind::DataPort, None);
    let device = |names: &[&'static str]| {
        let features = names.iter().map(|&name| port(name)).collect();
        component(ComponentCategory::Device, None, features, false)
    };
    let mut board = Board::default();
    for (index, (set, name)) in sets_and_names.into_iter().enumerate() {
        board.components.push(device(&["port"]));
        board.properties.push(property(index, set, name));
    }
    let with_features = [
        device(&["first", "a::b::c", "a:::b"]),
        device(&["::b", "a::", "last"]),
        device(&[]),
        device(&["", "::", "Größe"]),
        device(&["a", "b"]),
    ];
    board.components.extend(with_features);
    // The last component has a feature and a property of one name; its properties come after others'.
    let last = board.components.len() - 1;
    for (set, name) in [("b", "a"), ("a", "b::c"), ("", "a")] {
        board.properties.push(property(last, set, name));
    }
    board
}

/// Components by their own mark and their parent's, features also by the ends of connections.
fn connections(list: &mut List) {
    for board in [parents(), rings(), ends(), joined()] {
        for sort in [Sort::Components, Sort::Features] {
            list.add(&board, sort, &["connected"]);
        }
    }
    let of_sort = [
        "connected or connected and connected",
        "connected and connected or connected",
        "not connected or connected and not connected",
    ];
    list.add(&parents(), Sort::Components, &of_sort);
    list.add(&joined(), Sort::Features, &of_sort);
    list.add(&mixed(), Sort::Diagnostics, &of_sort);
}

/// Marks that reach one step down and no further, up or across; components that are their own parents;
/// rings.
pub fn parents() -> Board<'static> {
    let components = [
        // A chain.
        (None, false),
        (Some(0), true),
        (Some(1), false),
        (Some(2), false),
        // Beside it.
        (Some(0), false),
        (None, true),
        (None, false),
        // Their own parents.
        (Some(7), false),
        (Some(8), true),
        // Rings of two and three.
        (Some(10), false),
        (Some(9), true),
        (Some(12), false),
        (Some(13), false),
        (Some(11), true),
        // A parent that comes later.
        (Some(15), false),
        (None, true),
    ];
    let of_parent = |(parent, wired)| {
        let port = feature("port", FeatureKind::BusAccess, None);
        component(ComponentCategory::System, parent, vec![port], wired)
    };
    of_components(components.map(of_parent).into())
}

/// Connections at either end, both or none, owned by a component, its parent or another; no component
/// is wired.
pub fn joined() -> Board<'static> {
    let device = |parent, names: &[&'static str]| {
        let port = |&name| feature(name, FeatureKind::EventPort, Some(Direction::InOut));
        let features = names.iter().map(port).collect();
        component(ComponentCategory::Device, parent, features, false)
    };
    let names = ["source", "target", "both", "mine", "other", "", "Source"];
    Board {
        components: vec![
            device(None, &["up", "source", "mine"]),
            device(Some(0), &names),
            device(Some(1), &["source", "mine", "up", ""]),
            device(None, &["source", "other", "target"]),
            device(None, &["", "empty"]),
            // Its own parent.
            device(Some(5), &["self", "source"]),
        ],
        connections: vec![
            connection(0, Some("source"), None),
            connection(0, None, Some("target")),
            connection(0, Some("both"), Some("both")),
            connection(1, Some("nowhere"), Some("mine")),
            connection(1, None, None),
            connection(2, Some("up"), Some("target")),
            connection(3, None, Some("other")),
            connection(4, Some(""), None),
            connection(5, Some("self"), Some("nowhere")),
        ],
        ..Board::default()
    }
}

/// Predicates of three atoms `A`, `B` and `C` on eight members, for which these are true or false in
/// every way.
fn operators(list: &mut List) {
    /// Those that are asked of every sort.
    const OF_ALL: [&str; 7] = [
        "not not A",
        "A and B",
        "A or B",
        "A or B and C",
        "A and B or C",
        "not (A or B)",
        "(A or (B and (not C or (A and B))))",
    ];
    let of_atoms = [
        "A",
        "not A",
        "not not A",
        "((A))",
        "not (A)",
        "A and B",
        "A or B",
        "A and B and C",
        "A or B or C",
        "A or B and C",
        "A and B or C",
        "(A or B) and C",
        "A and (B or C)",
        "not A and B",
        "not A or B",
        "A or not B and C",
        "not (A or B)",
        "not (A and B)",
        "not (A or B) and C",
        "not (not A or not (B and not C))",
        "A and B or not A and not B",
        "A or B or C and A",
        "A and not A or B and not B",
        "(A or (B and (not C or (A and B))))",
        "((A or B) and (B or C)) and not ((A and B) and C)",
        "A and (B and (C and (A or C)) or not B) or not (A or C)",
        "\n A\tand ( not\r\n(B) or C ) \u{c}",
    ];
    let of_sorts = [
        (
            Sort::Components,
            eight_components(),
            ["has('a')", "has('b')", "has('c')"],
        ),
        (
            Sort::Features,
            eight_features(),
            [
                "category == 'device'",
                "kind == 'data_port'",
                "direction == 'in'",
            ],
        ),
        (
            Sort::Diagnostics,
            eight_diagnostics(),
            [
                "message.contains('a')",
                "message.contains('b')",
                "severity == 'info'",
            ],
        ),
    ];
    for (sort, board, [a, b, c]) in &of_sorts {
        for predicate in of_atoms {
            if *sort != Sort::Components && !OF_ALL.contains(&predicate) {
                continue;
            }
            let predicate = predicate.replace('A', a).replace('B', b).replace('C', c);
            list.add(board, *sort, &[&predicate]);
        }
    }
    // As deep as 64 tokens `(` and `not` go: three are those of calls.
    let board = eight_components();
    let deep = |opener: &str, closer: &str, depth| {
        let (openers, closers) = (opener.repeat(depth), closer.repeat(depth));
        format!("{openers}has('a'){closers} or has('b')")
    };
    for predicate in [
        deep("(", ")", 61),
        deep("not ", "", 61),
        deep("not(", ")", 30),
    ] {
        list.add(&board, Sort::Components, &[&predicate]);
    }
}

/// In every way three things may be true or false.
fn eight() -> impl Iterator<Item = [bool; 3]> {
    (0..8).map(|number: u32| [0, 1, 2].map(|bit| number & (1 << bit) != 0))
}

/// With features `a`, `b` and `c`, or without.
pub fn eight_components() -> Board<'static> {
    let with = |truths: [bool; 3]| {
        let port = |name| feature(name, FeatureKind::DataPort, None);
        let named = ["a", "b", "c"].into_iter().zip(truths);
        let features = named.filter(|(_, with)| *with).map(|(name, _)| port(name));
        component(ComponentCategory::Device, None, features.collect(), false)
    };
    of_components(eight().map(with).collect())
}

/// Data ports of devices that go in, or not.
pub fn eight_features() -> Board<'static> {
    let with = |[device, data, goes_in]: [bool; 3]| {
        let category = match device {
            true => ComponentCategory::Device,
            false => ComponentCategory::Bus,
        };
        let kind = match data {
            true => FeatureKind::DataPort,
            false => FeatureKind::EventPort,
        };
        let port = feature("port", kind, goes_in.then_some(Direction::In));
        component(category, None, vec![port], false)
    };
    of_components(eight().map(with).collect())
}

/// Infos that say `a` and `b`, or not.
pub fn eight_diagnostics() -> Board<'static> {
    let with = |[a, b, info]: [bool; 3]| {
        let message = match (a, b) {
            (true, true) => "a b",
            (true, false) => "a",
            (false, true) => "b",
            (false, false) => "",
        };
        let severity = match info {
            true => Severity::Info,
            false => Severity::Error,
        };
        diagnostic("a", severity, message)
    };
    of_diagnostics(eight().map(with).collect())
}

/// Texts searched for in messages: at the start, at the end, the whole, longer, overlapping.
fn messages(list: &mut List) {
    let long = "port ".repeat(50) + "end";
    let said = [
        "",
        "a",
        "ab",
        "aab",
        "aaab",
        "aabx",
        "xaab",
        "abcabcabd",
        "abcabcab",
        "port 'halt' is not connected",
        "Port",
        "two\nlines",
        "Größe",
        "GRÖSSE",
        "größe ≥ 2",
        "e\u{301}",
        "\u{e9}",
        "\u{e3}",
        "😀 probe 😀",
        &long,
    ];
    let board = of_diagnostics(
        said.into_iter()
            .map(|message| diagnostic("a", Severity::Info, message))
            .collect(),
    );
    let searched = [
        "",
        "a",
        "b",
        "aab",
        "aaab",
        "aaaab",
        "aabx",
        "aabxx",
        "xaab",
        "xxaab",
        "abcabd",
        "abcabcabd",
        "abcabcabdd",
        "port",
        "connected",
        "\n",
        " port end",
        "Größe",
        "öße",
        "ß",
        "e",
        "é",
        "😀",
        "😀 probe 😀",
        "😁",
        ".*",
    ];
    for text in searched {
        list.add(
            &board,
            Sort::Diagnostics,
            &[&format!("message.contains('{text}')")],
        );
    }
    let whole = format!("message.contains('{long}')");
    let longer = format!("message.contains('{long}d')");
    let others = [
        whole.as_str(),
        longer.as_str(),
        "message == 'a'",
        "message == ''",
        "not message == 'a'",
        "message . contains ( 'aab' )",
        "not message.contains('')",
    ];
    list.add(&board, Sort::Diagnostics, &others);
}

/// Rules and images that are refused, and parse errors.
fn turned_away(list: &mut List) {
    let board = board_a().image();
    let components =
        |image: &[u8], predicate: &str| TruthCase::new(image, Sort::Components, predicate);
    let around = Sort::Components.rule("has('')").len();
    for length in [500, 501] {
        let text = "a".repeat(length - around);
        list.push(components(&board, &format!("has('{text}')")));
    }
    for openers in [62, 63] {
        let nested = "(".repeat(openers) + "has('probe'" + &")".repeat(openers + 1);
        list.push(components(&board, &nested));
    }
    list.push(TruthCase {
        rule: b"components.where(has('\xff'))".to_vec(),
        ..components(&board, "")
    });
    for image in [refused_5(), refused_6(), refused_7(), Vec::new()] {
        list.push(components(&image, "connected"));
        // The image is checked before the rule's errors.
        list.push(components(&image, "conected"));
    }
    // The rule is checked before the image.
    list.push(components(&refused_5(), &"(".repeat(65)));
    for predicate in [
        "",
        "connected and",
        "connected connected",
        "not",
        "nothas('a')",
        "has(a)",
        "has('a",
        "category != 'bus'",
        "message.contains()",
        "(connected",
        "connected)",
    ] {
        list.push(components(&board, predicate));
    }
}

#[cfg(test)]
mod tests {
    use std::collections::HashSet;

    use super::*;
    use crate::truths::texts;

    /// The program reads at most 262,144 bytes.
    #[test]
    fn every_case_fits() {
        let (stdin, stdout) = texts(&cases()).unwrap();
        assert!(stdin.len() < 250_000, "{}", stdin.len());
        assert!(stdout.len() < 20_000, "{}", stdout.len());
    }

    #[test]
    fn every_answer_arises() {
        let answers: HashSet<String> = cases().iter().map(TruthCase::answer).collect();
        for refusal in [1, 2, 4, 5, 6, 7] {
            assert!(answers.contains(&format!("refused {refusal}")), "{refusal}");
        }
        assert!(answers.contains("errors 1") && answers.contains("errors 2"));
        assert!(answers.contains(""));
    }

    /// Each word is true of one member and false of the others.
    #[test]
    fn every_word_means_one_value() {
        for field in Words::all() {
            for word in field.words {
                let case = TruthCase::new(&field.board.image(), field.sort, &field.is(word));
                let answer = case.answer();
                assert_eq!(answer.matches('1').count(), 1, "{word} {answer}");
            }
        }
    }

    /// Of each atom that can be true of a sort, members for which it is and others.
    #[test]
    fn atoms_part_the_members() {
        let list = cases();
        let parted = |sort: Sort, atom| {
            let rule = sort.rule(atom).into_bytes();
            let mut of_rule = list.iter().filter(|case| case.rule == rule);
            of_rule.any(|case| {
                let answer = case.answer();
                answer.contains('0') && answer.contains('1')
            })
        };
        for atom in [
            "connected",
            "has('a::b::c')",
            "has('a:::b')",
            "has('::b')",
            "has('a::')",
            "has('')",
            "category == 'device'",
        ] {
            assert!(parted(Sort::Components, atom), "{atom}");
            assert!(parted(Sort::Features, atom), "{atom}");
        }
        assert!(parted(Sort::Diagnostics, "severity == 'error'"));
        assert!(parted(Sort::Diagnostics, "message.contains('aab')"));
    }
}
