//! Which refusals applied together.
use qcldpc::Refusal;
use std::collections::BTreeMap;

/// Refused inputs, by all refusals that applied, the lowest first.
#[derive(Default)]
pub struct Applied(BTreeMap<Vec<u64>, usize>);

impl Applied {
    /// All refusals that apply to an input, the lowest first.
    pub fn note(&mut self, all: &[Refusal]) {
        if !all.is_empty() {
            *self.0.entry(all.iter().map(|refusal| refusal.number).collect()).or_default() += 1;
        }
    }

    // How often a refusal was given while a higher one applied too; or alone, where both are one.
    fn beside(&self, lowest: u64, other: u64) -> usize {
        let meant = |all: &[u64]| all[0] == lowest && all.contains(&other) && (lowest != other || all.len() == 1);
        self.0.iter().filter(|(all, _)| meant(all)).map(|(_, times)| times).sum()
    }

    /// Each of a call's refusals was met alone and beside every higher one.
    pub fn assert_all(&self, numbers: &[u64]) {
        for (k, &lowest) in numbers.iter().enumerate() {
            for &other in &numbers[k..] {
                let times = self.beside(lowest, other);
                assert!(times > 100, "refusal {lowest} was met {times} times beside {other}");
            }
        }
    }
}
