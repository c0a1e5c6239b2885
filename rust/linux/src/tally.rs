//! Counts of what was compared, and how they are printed.

use crate::differences::CLASSES;
use crate::rights::answer_name;
use model::call::Call;
use std::collections::BTreeMap;

#[derive(Default)]
pub struct Tally {
    pub scenarios: u64,
    /// Scenarios that ended early because only one side had granted a change.
    pub stopped: u64,
    /// Whole trees compared at the end of a scenario.
    pub trees: u64,
    /// By call and answer.
    agreed: BTreeMap<(&'static str, i64), u64>,
    /// By class, call, Linux's answer and ours.
    differed: BTreeMap<(usize, &'static str, i64, i64), u64>,
}

impl Tally {
    pub fn agree(&mut self, call: &Call, answer: i64) {
        *self.agreed.entry((call.name(), answer)).or_default() += 1;
    }

    pub fn differ(&mut self, class: usize, call: &Call, linux: i64, ours: i64) {
        *self
            .differed
            .entry((class, call.name(), linux, ours))
            .or_default() += 1;
    }

    pub fn print(&self) {
        let agreed: u64 = self.agreed.values().sum();
        let differed: u64 = self.differed.values().sum();
        println!(
            "scenarios                {:>9}   of which stopped at a difference {}",
            self.scenarios, self.stopped
        );
        println!("calls compared           {:>9}", agreed + differed);
        println!("  agree                  {agreed:>9}");
        println!("  differ, known class    {differed:>9}");
        println!("whole trees compared     {:>9}", self.trees);
        self.print_agreements();
        self.print_differences();
    }

    fn print_agreements(&self) {
        println!("\nagreements by call and answer");
        let mut calls: BTreeMap<&str, Vec<String>> = BTreeMap::new();
        for (&(call, answer), count) in self.agreed.iter().rev() {
            calls
                .entry(call)
                .or_default()
                .push(format!("{} {count}", answer_name(answer)));
        }
        for (call, answers) in calls {
            println!("  {call:<17} {}", answers.join(", "));
        }
    }

    fn print_differences(&self) {
        println!("\ndifferences by class");
        for (place, class) in CLASSES.iter().enumerate() {
            let of_class = self.differed.iter().filter(|(key, _)| key.0 == place);
            let total: u64 = of_class.clone().map(|(_, count)| count).sum();
            println!("  {:<23} {total:>6}   Linux: {}", class.name, class.linux);
            println!("  {:<23} {:>6}   decided by \"{}\"", "", "", class.paper);
            for (&(_, call, linux, ours), count) in of_class {
                println!(
                    "  {:<23} {count:>6}   {call}: Linux {}, ours {}",
                    "",
                    answer_name(linux),
                    answer_name(ours)
                );
            }
        }
    }
}
