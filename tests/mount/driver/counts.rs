//! What was compared.
use std::collections::BTreeMap;

#[derive(Default)]
pub struct Counts {
    /// Calls that 000 answered, by name and answer.
    same: BTreeMap<(&'static str, String), u64>,
    /// Calls that a rule leaves out on 000's side, whose answer the documents give; by rule.
    ruled: BTreeMap<&'static str, u64>,
    /// Calls that are not made through the traits, or that nothing is said of; by rule.
    left: BTreeMap<String, u64>,
    /// What the sequences have no call for, asked besides.
    besides: BTreeMap<&'static str, u64>,
    pub reports: u64,
    pub differences: Vec<String>,
}

const SHOWN: usize = 10;

impl Counts {
    pub fn same(&mut self, call: &'static str, answer: String) {
        *self.same.entry((call, answer)).or_default() += 1;
    }

    pub fn ruled(&mut self, rule: &'static str) {
        *self.ruled.entry(rule).or_default() += 1;
    }

    pub fn left(&mut self, rule: &str) {
        *self.left.entry(rule.to_string()).or_default() += 1;
    }

    pub fn besides(&mut self, call: &'static str) {
        *self.besides.entry(call).or_default() += 1;
    }

    pub fn difference(&mut self, seed: u64, text: String) {
        self.differences.push(format!("seed {seed}: {text}"));
    }

    pub fn show(&self, seed: u64, sequences: u64) {
        let mut calls = BTreeMap::new();
        let mut answers = BTreeMap::new();
        for ((call, answer), n) in &self.same {
            *calls.entry(*call).or_insert(0) += n;
            *answers.entry(answer.as_str()).or_insert(0) += n;
        }
        println!("seeds {seed} to {}", seed + sequences - 1);
        println!("the same calls on both, compared {}: {}", sum(&calls), told(&calls));
        println!("  000's answers: {}", told(&answers));
        println!("asked besides, compared {}: {}", sum(&self.besides), told(&self.besides));
        println!("left out on 000's side by a rule, the documents' answer compared {}: {}", sum(&self.ruled), told(&self.ruled));
        println!("not made, or nothing said {}: {}", sum(&self.left), told(&self.left));
        println!("reports of drops {}", self.reports);
        println!("differences {}", self.differences.len());
        for text in self.differences.iter().take(SHOWN) {
            println!("  {text}");
        }
    }
}

fn sum<K>(counts: &BTreeMap<K, u64>) -> u64 {
    counts.values().sum()
}

fn told<K: std::fmt::Display>(counts: &BTreeMap<K, u64>) -> String {
    let mut all: Vec<_> = counts.iter().collect();
    all.sort_by_key(|(_, n)| std::cmp::Reverse(**n));
    let words: Vec<_> = all.iter().map(|(key, n)| format!("{key} {n}")).collect();
    words.join(", ")
}
