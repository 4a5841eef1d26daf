//! Of which members of a board a predicate is true: cases for the program that replays them without
//! Rust, and what `eval_node` answers.

use std::io::{self, Write};
use std::path::Path;

use crate::assertion::eval::{Value, eval_node};
use crate::assertion::parser::parse_expr;
use crate::case::Case;
use crate::image::image_refusal;
use crate::model::Model;
use crate::reading;
use crate::replay::write_files;
use crate::replay_predicates::cases;

/// The members that a rule's last call is asked about: all of this sort that the board has. All
/// diagnostics are of the analysis `a`.
#[derive(Debug, Clone, Copy, PartialEq, Eq)]
pub enum Sort {
    Components,
    Features,
    Diagnostics,
}

impl Sort {
    /// The rule that gives the members for which a predicate is true.
    pub fn rule(self, predicate: &str) -> String {
        let members = match self {
            Sort::Components => "components",
            Sort::Features => "components.features",
            Sort::Diagnostics => "analysis('a')",
        };
        format!("{members}.where({predicate})")
    }
}

#[derive(Debug, PartialEq, Eq)]
pub struct TruthCase {
    pub image: Vec<u8>,
    pub sort: Sort,
    pub rule: Vec<u8>,
}

impl TruthCase {
    pub fn new(image: &[u8], sort: Sort, predicate: &str) -> Self {
        Self {
            image: image.to_vec(),
            sort,
            rule: sort.rule(predicate).into_bytes(),
        }
    }

    /// `IMAGE RULE SORT:`, the image's bytes, the rule's bytes and a line feed.
    fn write(&self, out: &mut Vec<u8>) -> io::Result<()> {
        let (image, rule) = (self.image.len(), self.rule.len());
        write!(out, "{image} {rule} {}:", self.sort as u32)?;
        out.write_all(&self.image)?;
        out.write_all(&self.rule)?;
        writeln!(out)
    }

    /// A digit for each member, 1 where the predicate is true; or why there are none.
    pub fn answer(&self) -> String {
        let reading = match reading::read(&Case::new(&self.rule)) {
            Ok(reading) => reading,
            Err(number) => return format!("refused {number}"),
        };
        if let Some(number) = image_refusal(&self.image, usize::MAX) {
            return format!("refused {number}");
        }
        if !reading.errors.is_empty() {
            return format!("errors {}", reading.errors.len());
        }
        let truths = self.truths().into_iter().map(u32::from);
        truths.map(|truth| truth.to_string()).collect()
    }

    /// Which members are in the collection that `eval_node` gives.
    fn truths(&self) -> Vec<bool> {
        let model = Model::of_image(&self.image).expect("the image is not refused");
        let rule = str::from_utf8(&self.rule).expect("the rule is not refused");
        let held = eval_node(&parse_expr(rule).syntax_node(), &model.context());
        let components = model.instance.all_components();
        match (self.sort, held) {
            (Sort::Components, Ok(Value::Components(held))) => {
                components.map(|(index, _)| held.contains(&index)).collect()
            }
            (Sort::Features, Ok(Value::Features(held))) => components
                .flat_map(|(owner, component)| component.features.iter().map(move |&f| (owner, f)))
                .map(|feature| held.contains(&feature))
                .collect(),
            (Sort::Diagnostics, Ok(Value::Diagnostics(held))) => {
                let is_held = |place| held.iter().any(|diagnostic| diagnostic.place == place);
                (0..model.diagnostics.len()).map(is_held).collect()
            }
            (sort, held) => panic!("{rule:?} gives no {sort:?}: {held:?}"),
        }
    }
}

/// The cases and their answers, one after the other.
pub fn texts(cases: &[TruthCase]) -> io::Result<(Vec<u8>, Vec<u8>)> {
    let (mut stdin, mut stdout) = (Vec::new(), Vec::new());
    for (index, case) in cases.iter().enumerate() {
        case.write(&mut stdin)?;
        writeln!(stdout, "case {}", index + 1)?;
        writeln!(stdout, "{}", case.answer())?;
    }
    Ok((stdin, stdout))
}

/// Writes the fixed cases to `folder/stdin` and their answers to `folder/stdout`.
pub fn write(folder: &Path) -> io::Result<()> {
    let cases = cases();
    let (stdin, stdout) = texts(&cases)?;
    write_files(folder, cases.len(), &stdin, &stdout)
}
