//! What was compared, counted: a table per code for each call, and the buffers.

use crate::callee::Call;
use crate::case::{Case, Expected, WORK_BYTES};
use driver::answer::Internal;
use driver::limits::PASSES;
use driver::passes::{passes, End};
use std::cmp::Ordering;
use std::collections::BTreeMap;
use std::fmt::Write;

#[derive(Default)]
pub struct Tally {
    parts: Vec<&'static str>,
    /// By call, code and, for the premise, its answer; a count per part.
    rows: BTreeMap<(Call, u32, u32), Vec<u64>>,
    /// By the nested mode's last pass and how it ended.
    ends: BTreeMap<(usize, End), u64>,
    works: [u64; 3],
    outs: [u64; 3],
}

const ENDS: [(End, &str); 4] = [
    (End::Settled, "no known call left"),
    (End::Grown, "6"),
    (End::LongChain, "12, a chain"),
    (End::Cycle, "12, a cycle"),
];

impl Tally {
    /// Cases counted from here on belong to this part.
    pub fn begin(&mut self, part: &'static str) {
        self.parts.push(part);
    }

    pub fn count(&mut self, case: &Case, agreed: &Expected) -> Result<(), Internal> {
        let holds = match case.call {
            Call::Premise => agreed.numbers[1],
            Call::Elaborate | Call::Nested => 0,
        };
        let row = self
            .rows
            .entry((case.call, agreed.numbers[0], holds))
            .or_default();
        row.resize(self.parts.len(), 0);
        row[self.parts.len() - 1] += 1;
        self.works[place(case.sizes.work.cmp(&WORK_BYTES))] += 1;
        if case.call != Call::Premise && [0, 11].contains(&agreed.numbers[0]) {
            let result = match agreed.numbers[0] {
                0 => agreed.out_bytes.cmp(&agreed.out.len()),
                _ => Ordering::Less,
            };
            self.outs[place(result)] += 1;
        }
        if case.call == Call::Nested && case.sizes.work >= WORK_BYTES {
            if let Some(end) = passes(&case.book)? {
                *self.ends.entry(end).or_default() += 1;
            }
        }
        Ok(())
    }

    pub fn calls(&self) -> u64 {
        self.rows.values().flatten().sum()
    }

    /// In Markdown.
    pub fn tables(&self) -> String {
        let mut text = String::new();
        for call in Call::ALL {
            if self.rows.keys().any(|key| key.0 == call) {
                self.table(call, &mut text);
            }
        }
        if !self.ends.is_empty() {
            self.passes(&mut text);
        }
        let [less, equal, more] = self.works;
        let _ = writeln!(
            text,
            "work area: {less} calls with less than {WORK_BYTES} bytes, {equal} with exactly as many, {more} with more"
        );
        let [less, equal, more] = self.outs;
        if less + equal + more > 0 {
            let _ = writeln!(
                text,
                "output: {less} calls with less than the result has, {equal} with exactly as much, {more} with more"
            );
        }
        text
    }

    fn table(&self, call: Call, text: &mut String) {
        let parts = self.parts.join(" | ");
        let _ = writeln!(text, "| {} | {parts} | all |", call.word());
        let _ = writeln!(text, "|---|{}", "---|".repeat(self.parts.len() + 1));
        for ((of, code, holds), counts) in &self.rows {
            if *of != call {
                continue;
            }
            let name = match (call, code, holds) {
                (Call::Premise, 0, 0) => "0, no".to_string(),
                (Call::Premise, 0, _) => "0, yes".to_string(),
                _ => code.to_string(),
            };
            let cells =
                (0..self.parts.len()).map(|part| counts.get(part).unwrap_or(&0).to_string());
            let cells: Vec<String> = cells.collect();
            let all: u64 = counts.iter().sum();
            let _ = writeln!(text, "| {name} | {} | {all} |", cells.join(" | "));
        }
        text.push('\n');
    }

    /// How many calls of the nested mode ended with each pass, and how.
    fn passes(&self, text: &mut String) {
        let heads = ENDS.map(|(_, head)| head);
        let _ = writeln!(text, "| passes | {} |", heads.join(" | "));
        let _ = writeln!(text, "|---|{}", "---|".repeat(ENDS.len()));
        for pass in 1..=PASSES {
            let cell = |end| self.ends.get(&(pass, end)).unwrap_or(&0).to_string();
            let cells = ENDS.map(|(end, _)| cell(end));
            let _ = writeln!(text, "| {pass} | {} |", cells.join(" | "));
        }
        text.push('\n');
    }
}

fn place(ordering: Ordering) -> usize {
    match ordering {
        Ordering::Less => 0,
        Ordering::Equal => 1,
        Ordering::Greater => 2,
    }
}
