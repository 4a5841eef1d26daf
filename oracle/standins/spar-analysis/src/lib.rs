//! Stands in for spar_analysis: a diagnostic, as `eval.rs` reads it.

#[derive(Debug, Clone, Copy, PartialEq, Eq)]
pub enum Severity {
    Error,
    Warning,
    Info,
}

#[derive(Debug, Clone)]
pub struct AnalysisDiagnostic {
    /// The analysis that gave it.
    pub analysis: String,
    pub severity: Severity,
    pub message: String,
    /// Its place among the model's diagnostics. Not spar's: the oracle asks which ones are held.
    pub place: usize,
}
