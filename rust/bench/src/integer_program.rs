//! A sheet as an exact integer program, solved by GLPK or CBC where they are installed.
//!
//! `tie_I_K` is 1 if site I has slot K. `open_J_K` is at least 1 if slot K has a label once the first J+1 sites by
//! rising x are tied, and `used_K_C` if some site of colour C has slot K. The last two are pressed down by the
//! objective and by the bounds, so only ties need be whole.

use model::sheet::{Sheet, UNBOUNDED};
use std::fmt::Write;
use std::path::{Path, PathBuf};
use std::process::Command;
use std::time::Duration;

/// The time that a solver is given.
pub const SECONDS: u32 = 20;

pub enum Outcome {
    Solved { labels: u32, length: u32, time: Duration },
    OutOfTime,
    Failed(String),
}

#[derive(Clone, Copy)]
pub enum Solver {
    Glpk,
    Cbc,
}

impl Solver {
    /// Those that are installed; says which are not.
    pub fn installed() -> Vec<Solver> {
        let is_there = |solver: &Solver| {
            let there = Command::new(solver.command()).arg("--version").output().is_ok();
            if !there {
                println!("{} is not installed; it is left out.\n", solver.name());
            }
            there
        };
        [Solver::Glpk, Solver::Cbc].into_iter().filter(is_there).collect()
    }

    pub fn name(self) -> &'static str {
        match self {
            Solver::Glpk => "GLPK",
            Solver::Cbc => "CBC",
        }
    }

    fn command(self) -> &'static str {
        match self {
            Solver::Glpk => "glpsol",
            Solver::Cbc => "cbc",
        }
    }

    pub fn solve(self, sheet: &Sheet) -> Outcome {
        let folder = std::env::temp_dir().join(format!("backbone-bench-{}", std::process::id()));
        let outcome = self.solve_in(&folder, sheet);
        let _ = std::fs::remove_dir_all(&folder);
        outcome.unwrap_or_else(|error| Outcome::Failed(error.to_string()))
    }

    fn solve_in(self, folder: &Path, sheet: &Sheet) -> std::io::Result<Outcome> {
        std::fs::create_dir_all(folder)?;
        let (program, answer) = (folder.join("sheet.lp"), folder.join("answer"));
        std::fs::write(&program, Program::new(sheet).text())?;
        let (output, time) = crate::timing::timed(|| self.run(&program, &answer));
        output?;
        let text = std::fs::read_to_string(&answer).unwrap_or_default();
        Ok(match self.objective(&text) {
            None if text.contains("nfeasible") || text.contains("INTEGER EMPTY") => {
                Outcome::Failed("the program has no solution".to_string())
            }
            None => Outcome::OutOfTime,
            Some(objective) => {
                let (labels, length) = Program::new(sheet).numbers(objective);
                Outcome::Solved { labels, length, time }
            }
        })
    }

    fn run(self, program: &PathBuf, answer: &PathBuf) -> std::io::Result<()> {
        let limit = SECONDS.to_string();
        let mut command = Command::new(self.command());
        match self {
            Solver::Glpk => command.arg("--lp").arg(program).args(["--tmlim", &limit, "--cuts", "-o"]).arg(answer),
            Solver::Cbc => command.arg(program).args(["sec", &limit, "solve", "solu"]).arg(answer),
        };
        command.output().map(drop)
    }

    /// The objective of a solved program; none if the time ran out.
    fn objective(self, text: &str) -> Option<f64> {
        match self {
            Solver::Glpk => {
                text.lines().find(|line| line.starts_with("Status:") && line.contains("INTEGER OPTIMAL"))?;
                let line = text.lines().find(|line| line.starts_with("Objective:"))?;
                line.split_whitespace().rev().nth(1)?.parse().ok()
            }
            Solver::Cbc => text.lines().next()?.strip_prefix("Optimal - objective value ")?.trim().parse().ok(),
        }
    }
}

struct Program<'a> {
    sheet: &'a Sheet,
    order: Vec<usize>,
    text: String,
}

impl<'a> Program<'a> {
    fn new(sheet: &'a Sheet) -> Program<'a> {
        Program { sheet, order: sheet.by_x(), text: String::new() }
    }

    /// What one unit of the first number weighs: more than the second number can be.
    fn weight(&self) -> u32 {
        let deepest = self.sheet.slots.iter().chain(self.sheet.sites.iter().map(|site| &site.y)).max();
        let longest_of_site = self.sheet.width + self.sheet.share(*deepest.unwrap_or(&0));
        let longest = longest_of_site * self.sheet.sites.len() as u32;
        if self.sheet.shortest {
            self.sheet.sites.len() as u32 + 1
        } else {
            longest + 1
        }
    }

    /// The count and the length in an objective.
    fn numbers(&self, objective: f64) -> (u32, u32) {
        let whole = objective.round() as u32;
        let (first, second) = (whole / self.weight(), whole % self.weight());
        if self.sheet.shortest {
            (second, first)
        } else {
            (first, second)
        }
    }

    /// What a label and what a length weigh.
    fn weights(&self) -> (u32, u32) {
        if self.sheet.shortest {
            (1, self.weight())
        } else {
            (self.weight(), 1)
        }
    }

    /// The variable that says that a label is open at a slot.
    fn open(&self, rank: usize, slot: usize) -> String {
        format!("open_{rank}_{slot}")
    }

    /// The program in CPLEX's text form.
    fn text(mut self) -> String {
        self.write_objective();
        self.text.push_str("Subject To\n");
        self.write_ties();
        self.write_labels();
        self.write_verticals();
        self.text.push_str("Binary\n");
        for site in 0..self.sheet.sites.len() {
            for slot in 0..self.sheet.slots.len() {
                let _ = writeln!(self.text, " tie_{site}_{slot}");
            }
        }
        self.text + "End\n"
    }

    fn write_objective(&mut self) {
        let (label, length) = self.weights();
        let sites = &self.sheet.sites;
        let mut terms = String::new();
        for slot in 0..self.sheet.slots.len() {
            for (rank, site) in self.order.iter().enumerate() {
                let share = self.sheet.share(sites[*site].y.abs_diff(self.sheet.slots[slot]));
                let _ = write!(terms, " + {} tie_{site}_{slot}", length * share);
                let next = self.order.get(rank + 1).map_or(self.sheet.width, |next| sites[*next].x);
                let reach = next - sites[*site].x;
                let weight = length * reach + if rank + 1 == sites.len() { label } else { 0 };
                let _ = writeln!(terms, " + {weight} {}", self.open(rank, slot));
            }
        }
        let _ = writeln!(self.text, "Minimize\n cost: {terms}");
    }

    /// Each site has one slot; a tie opens its label, which stays open.
    fn write_ties(&mut self) {
        for (rank, site) in self.order.iter().enumerate() {
            let ties: String = (0..self.sheet.slots.len()).map(|slot| format!(" + tie_{site}_{slot}")).collect();
            let _ = writeln!(self.text, " {ties} = 1");
            for slot in 0..self.sheet.slots.len() {
                let open = self.open(rank, slot);
                let _ = writeln!(self.text, " {open} - tie_{site}_{slot} >= 0");
                if rank > 0 {
                    let _ = writeln!(self.text, " {open} - {} >= 0", self.open(rank - 1, slot));
                }
            }
        }
    }

    /// Rules 1 to 3.
    fn write_labels(&mut self) {
        let (slots, colours) = (self.sheet.slots.len(), self.sheet.bounds.len());
        let used = |slot: usize| (0..colours).map(|colour| format!(" + used_{slot}_{colour}")).collect::<String>();
        for slot in 0..slots {
            let _ = writeln!(self.text, " {} <= 1", used(slot));
            for (site, own) in self.sheet.sites.iter().enumerate() {
                let _ = writeln!(self.text, " used_{slot}_{} - tie_{site}_{slot} >= 0", own.colour);
            }
            for other in slot + 1..slots {
                if self.sheet.slots[other] - self.sheet.slots[slot] < self.sheet.gap {
                    let _ = writeln!(self.text, " {}{} <= 1", used(slot), used(other));
                }
            }
        }
        for (colour, bound) in self.sheet.bounds.iter().enumerate().filter(|(_, bound)| **bound != UNBOUNDED) {
            let own: String = (0..slots).map(|slot| format!(" + used_{slot}_{colour}")).collect();
            let _ = writeln!(self.text, " {own} <= {bound}");
        }
    }

    /// The last rank whose site is right of this one's by less than the gap: a label that it opens has this one at its tip.
    fn reach(&self, rank: usize) -> usize {
        let x = |rank: usize| self.sheet.sites[self.order[rank]].x;
        (rank..self.order.len()).take_while(|other| x(*other) - x(rank) < self.sheet.gap).last().unwrap_or(rank)
    }

    /// Rules 4 and 5: each site against each label that is open at its x, and for rule 5 also those that open soon after.
    fn write_verticals(&mut self) {
        for (rank, site) in self.order.iter().enumerate() {
            let y = self.sheet.sites[*site].y;
            let reach = self.reach(rank);
            for (other, height) in self.sheet.slots.iter().enumerate() {
                if y.abs_diff(*height) < self.sheet.gap {
                    let _ = writeln!(self.text, " tie_{site}_{other} - {} >= 0", self.open(reach, other));
                    continue;
                }
                let open = self.open(rank, other);
                let beyond = |slot: &usize| {
                    let end = self.sheet.slots[*slot];
                    *slot != other && (y.min(end)..=y.max(end)).contains(height)
                };
                // At most one of these ties, so one row serves for all of them.
                let ties: String =
                    (0..self.sheet.slots.len()).filter(beyond).map(|slot| format!(" + tie_{site}_{slot}")).collect();
                if !ties.is_empty() {
                    let _ = writeln!(self.text, " {open}{ties} <= 1");
                }
            }
        }
    }
}

#[cfg(test)]
mod tests;
