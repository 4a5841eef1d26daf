//! Rules for a board: by document 01's grammar, with the board's own names and the words of each field
//! as literals, and with calls that mostly may follow what stands before them.

use crate::assertion::eval::{category_matches, feature_kind_matches};
use crate::board::{CATEGORIES, KINDS};
use crate::grammar::{INTEGERS, OPERATORS, STRINGS};
use crate::image::{Image, image_refusal};
use crate::pieces::Pieces;
use crate::random::Random;
use crate::words::{CATEGORY_WORDS, DIRECTION_WORDS, KIND_WORDS, SEVERITY_WORDS};

/// The longest text that is named whole, and how many of each sort are kept.
const LONGEST: usize = 60;
const MOST: usize = 40;

/// What a rule may say of a board: texts that can be quoted, and the words of its members.
#[derive(Default)]
pub struct Names {
    /// Names of features, and properties as `has` asks for them.
    has: Vec<String>,
    analyses: Vec<String>,
    messages: Vec<String>,
    categories: Vec<&'static str>,
    kinds: Vec<&'static str>,
}

impl Names {
    /// None of an image that is refused.
    pub fn of_image(bytes: &[u8]) -> Self {
        let mut names = Self::default();
        let image = match Image::read(bytes) {
            Some(image) if image_refusal(bytes, usize::MAX).is_none() => image,
            _ => return names,
        };
        let strings: Vec<_> = image.strings.iter().collect();
        let text = |string: u32| {
            let bytes = image.string(strings[string as usize]);
            String::from_utf8_lossy(bytes).into_owned()
        };
        for [name, kind, _] in image.features.iter() {
            add(&mut names.has, text(name));
            let is_word = |word: &&str| feature_kind_matches(&KINDS[kind as usize], word);
            add_words(&mut names.kinds, KIND_WORDS.into_iter().filter(is_word));
        }
        for [category, ..] in image.components.iter() {
            let is_word = |word: &&str| category_matches(&CATEGORIES[category as usize], word);
            let words = CATEGORY_WORDS.into_iter().filter(is_word);
            add_words(&mut names.categories, words);
        }
        for [_, set, name] in image.properties.iter() {
            let (set, name) = (text(set), text(name));
            match set.is_empty() {
                true => add(&mut names.has, name),
                false => add(&mut names.has, format!("{set}::{name}")),
            }
        }
        for [analysis, _, message] in image.diagnostics.iter() {
            add(&mut names.analyses, text(analysis));
            add(&mut names.messages, text(message));
        }
        names
    }
}

/// Adds a text that can be quoted, unless there are many.
fn add(texts: &mut Vec<String>, mut text: String) {
    if text.len() > LONGEST {
        let end = (0..=LONGEST).rev().find(|&at| text.is_char_boundary(at));
        text.truncate(end.unwrap_or(0));
    }
    if texts.len() < MOST && !text.contains('\'') && !texts.contains(&text) {
        texts.push(text);
    }
}

fn add_words(words: &mut Vec<&'static str>, more: impl Iterator<Item = &'static str>) {
    for word in more {
        if !words.contains(&word) {
            words.push(word);
        }
    }
}

/// What a pipeline gives so far.
#[derive(Debug, Clone, Copy, PartialEq, Eq)]
enum Kind {
    Components,
    Features,
    Diagnostics,
    Boolean,
    Count,
}

/// Every call, and those that may follow each collection, some more often than others.
const METHODS: [&str; 7] = [
    "where",
    "all",
    "any",
    "none",
    "count",
    "features",
    "diagnostics",
];
const ON_COMPONENTS: [&str; 10] = [
    "where", "where", "where", "where", "features", "features", "count", "all", "any", "none",
];
const ON_FEATURES: [&str; 6] = ["where", "where", "count", "all", "any", "none"];
const ON_DIAGNOSTICS: [&str; 7] = [
    "where",
    "where",
    "diagnostics",
    "count",
    "all",
    "any",
    "none",
];

impl Kind {
    fn calls(self) -> &'static [&'static str] {
        match self {
            Kind::Components => &ON_COMPONENTS,
            Kind::Features => &ON_FEATURES,
            Kind::Diagnostics => &ON_DIAGNOSTICS,
            Kind::Boolean | Kind::Count => &[],
        }
    }

    /// After a call; a call that is refused changes nothing.
    fn after(self, method: &str) -> Self {
        match (self, method) {
            (Kind::Boolean | Kind::Count, _) => self,
            (Kind::Components, "features") => Kind::Features,
            (_, "count") => Kind::Count,
            (_, "all" | "any" | "none") => Kind::Boolean,
            _ => self,
        }
    }
}

pub struct Rules<'a> {
    pub random: &'a mut Random,
    pub pieces: &'a mut Pieces,
    pub names: &'a Names,
}

impl Rules<'_> {
    pub fn rule(&mut self) {
        let mut kind = self.source();
        let calls = match self.random.below(8) {
            7 => self.random.between(4, 8),
            calls => calls.div_ceil(2),
        };
        for _ in 0..calls {
            let fitting = kind.calls();
            if fitting.is_empty() && !self.random.once_in(6) {
                break;
            }
            let method = match fitting.is_empty() || self.random.once_in(16) {
                true => self.random.pick(&METHODS),
                false => self.random.pick(fitting),
            };
            self.call(method, kind);
            kind = kind.after(method);
        }
        let compared = match kind {
            Kind::Boolean => self.random.once_in(12),
            _ => self.random.once_in(3),
        };
        if compared {
            self.pieces.push(self.random.pick(&OPERATORS));
            self.integer();
        }
    }

    /// So many filters one after the other, and a count.
    pub fn filters(&mut self, filters: usize) {
        let kind = self.source();
        for _ in 0..filters {
            self.call("where", kind);
        }
        self.call("count", kind);
    }

    /// The count of a filter, whose predicate is an atom inside so many brackets and `not`s.
    pub fn nest(&mut self, depth: usize) {
        let kind = self.source();
        self.push(&[".", "where", "("]);
        let mut brackets = 0;
        for _ in 0..depth {
            if self.random.once_in(2) {
                self.pieces.push("(");
                brackets += 1;
            } else {
                self.pieces.push("not");
            }
        }
        self.atom(kind, 0);
        for _ in 0..=brackets {
            self.pieces.push(")");
        }
        self.call("count", kind);
    }

    fn source(&mut self) -> Kind {
        if !self.random.once_in(3) {
            self.pieces.push("components");
            return Kind::Components;
        }
        self.push(&["analysis", "("]);
        self.text(|names| &names.analyses, 8);
        self.pieces.push(")");
        Kind::Diagnostics
    }

    fn call(&mut self, method: &str, kind: Kind) {
        self.push(&[".", method]);
        match method {
            "features" | "diagnostics" => {}
            "count" => self.push(&["(", ")"]),
            _ => self.in_brackets(kind, 3),
        }
    }

    fn in_brackets(&mut self, kind: Kind, depth: usize) {
        self.pieces.push("(");
        self.group("or", kind, depth);
        self.pieces.push(")");
    }

    /// An or group of and groups, or an and group of atoms.
    fn group(&mut self, operator: &str, kind: Kind, depth: usize) {
        loop {
            match operator {
                "or" => self.group("and", kind, depth),
                _ => self.atom(kind, depth),
            }
            if !self.random.once_in(4) {
                return;
            }
            self.pieces.push(operator);
        }
    }

    /// An atom with at most `depth` levels of brackets and `not` in it, mostly one that can be true.
    fn atom(&mut self, kind: Kind, depth: usize) {
        if depth > 0 && self.random.once_in(3) {
            if self.random.once_in(2) {
                return self.in_brackets(kind, depth - 1);
            }
            self.pieces.push("not");
            return self.atom(kind, depth - 1);
        }
        let kind = match self.random.below(18) {
            0 => Kind::Components,
            1 => Kind::Features,
            2 => Kind::Diagnostics,
            _ => kind,
        };
        let turn = self.random.below(6);
        match kind {
            Kind::Diagnostics => self.atom_of_diagnostics(turn),
            Kind::Features if turn < 2 => self.compare("kind"),
            Kind::Features if turn < 4 => self.compare("direction"),
            _ if turn < 2 => self.compare("category"),
            _ if turn < 5 => {
                self.push(&["has", "("]);
                self.text(|names| &names.has, 6);
                self.pieces.push(")");
            }
            _ => self.pieces.push("connected"),
        }
    }

    fn atom_of_diagnostics(&mut self, turn: usize) {
        match turn {
            0..=2 => self.compare("severity"),
            3 => self.compare("message"),
            _ => {
                self.push(&["message", ".", "contains", "("]);
                self.part_of_message();
                self.pieces.push(")");
            }
        }
    }

    fn compare(&mut self, field: &str) {
        self.push(&[field, "=="]);
        let own = !self.random.once_in(4);
        let word = match field {
            "category" if own && !self.names.categories.is_empty() => {
                self.random.pick(&self.names.categories)
            }
            "category" => self.random.pick(&CATEGORY_WORDS),
            "kind" if own && !self.names.kinds.is_empty() => self.random.pick(&self.names.kinds),
            "kind" => self.random.pick(&KIND_WORDS),
            "direction" => self.random.pick(&DIRECTION_WORDS),
            "severity" => self.random.pick(&SEVERITY_WORDS),
            _ => return self.part_of_message(),
        };
        match self.random.below(12) {
            0 => self.quoted(&word.to_uppercase()),
            1 => self.quoted(&word.replace('_', "-")),
            2 => self.pieces.push(self.random.pick(&STRINGS)),
            _ => self.quoted(word),
        }
    }

    /// One of the board's texts; once in so many times, or where there is none, another.
    fn text(&mut self, of: fn(&Names) -> &Vec<String>, other: usize) {
        let texts = of(self.names);
        if texts.is_empty() || self.random.once_in(other) {
            return self.pieces.push(self.random.pick(&STRINGS));
        }
        let text = self.random.below(texts.len());
        self.quoted(&texts[text]);
    }

    /// Any part of a message, at times the whole.
    fn part_of_message(&mut self) {
        let messages = &self.names.messages;
        if messages.is_empty() || self.random.once_in(6) {
            return self.pieces.push(self.random.pick(&STRINGS));
        }
        let message = &messages[self.random.below(messages.len())];
        let mut place = || {
            let at = self.random.below(message.len() + 1);
            (0..=at).rev().find(|&at| message.is_char_boundary(at))
        };
        let (one, other) = (place().unwrap_or(0), place().unwrap_or(0));
        match self.random.once_in(4) {
            true => self.quoted(message),
            false => self.quoted(&message[one.min(other)..one.max(other)]),
        }
    }

    fn integer(&mut self) {
        match self.random.below(8) {
            0 => self.pieces.push(self.random.pick(&INTEGERS)),
            1 => {
                let number = self.random.below(60).to_string();
                self.pieces.push(&number);
            }
            _ => {
                let number = self.random.below(5).to_string();
                self.pieces.push(&number);
            }
        }
    }

    fn quoted(&mut self, text: &str) {
        for text in ["'", text, "'"] {
            self.pieces.extend(text);
        }
        self.pieces.close();
    }

    fn push(&mut self, tokens: &[&str]) {
        for token in tokens {
            self.pieces.push(token);
        }
    }
}
