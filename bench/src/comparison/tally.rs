//! How often each goal was reached.

use std::ops::RangeInclusive;

/// Of the table, from 0.
const NUMBERS: usize = 21;

/// Something that calls of a kind can reach, at each of its places: numbers of
/// vats, rows, lines. What has no place is at 0.
#[derive(Clone, Debug, PartialEq, Eq)]
pub struct Goal {
    /// Of several calls that are counted together, the one that reaches it.
    call: &'static str,
    name: &'static str,
    places: RangeInclusive<usize>,
}

#[derive(Clone, Debug, PartialEq, Eq)]
pub struct Tally {
    goals: Vec<Goal>,
    /// By goal and place.
    reached: Vec<Vec<u64>>,
    /// By the number that the call returned, or that its sheet says.
    numbers: [u64; NUMBERS],
}

impl Goal {
    pub const fn once(name: &'static str) -> Goal {
        Goal::at(name, 0..=0)
    }

    pub const fn at(name: &'static str, places: RangeInclusive<usize>) -> Goal {
        let call = "";
        Goal { call, name, places }
    }

    /// Reached by this call alone.
    pub fn by(self, call: &'static str) -> Goal {
        Goal { call, ..self }
    }

    fn full_name(&self) -> String {
        match self.call {
            "" => self.name.to_string(),
            call => format!("{call}: {}", self.name),
        }
    }

    fn has_places(&self) -> bool {
        *self.places.end() > 0
    }
}

impl Tally {
    pub fn new(goals: Vec<Goal>) -> Tally {
        let places = |goal: &Goal| vec![0; goal.places.clone().count()];
        Tally {
            reached: goals.iter().map(places).collect(),
            goals,
            numbers: [0; NUMBERS],
        }
    }

    /// Counts a call.
    pub fn count(&mut self, number: u64) {
        self.numbers[number as usize] += 1;
    }

    /// Counts what a call reached. Nothing else than the goals can be reached.
    pub fn reach(&mut self, name: &'static str, place: usize) {
        self.reach_by("", name, place);
    }

    /// The same for a goal of this call alone.
    pub fn reach_by(&mut self, call: &'static str, name: &'static str, place: usize) {
        let mut goals = self.goals.iter();
        let goal = goals.position(|goal| goal.call == call && goal.name == name);
        let goal = goal.filter(|goal| self.goals[*goal].places.contains(&place));
        let goal = goal.unwrap_or_else(|| panic!("no call reaches '{name}', place {place}"));
        self.reached[goal][place - self.goals[goal].places.start()] += 1;
    }

    pub fn calls(&self) -> u64 {
        self.numbers.iter().sum()
    }

    /// The places of goals that were never reached.
    pub fn unreached(&self) -> Vec<String> {
        let mut names = Vec::new();
        for (goal, reached) in self.goals.iter().zip(&self.reached) {
            for (place, count) in goal.places.clone().zip(reached) {
                if *count == 0 && goal.has_places() {
                    names.push(format!("{} {place}", goal.full_name()));
                } else if *count == 0 {
                    names.push(goal.full_name());
                }
            }
        }
        names
    }

    /// The counts by number in one line, then a line for each goal.
    pub fn report(&self) -> String {
        let numbers = self.numbers.iter().enumerate();
        let met = numbers.filter(|(_, count)| **count > 0);
        let met = met.map(|(number, count)| format!("{number}: {count}"));
        let mut lines = vec![met.collect::<Vec<_>>().join(", ")];
        for (goal, reached) in self.goals.iter().zip(&self.reached) {
            let counts: Vec<_> = reached.iter().map(u64::to_string).collect();
            let range = match goal.places.end() {
                0 => String::new(),
                last => format!(" {} to {last}", goal.places.start()),
            };
            let name = goal.full_name();
            lines.push(format!("  {name}{range}: {}", counts.join(", ")));
        }
        lines.join("\n")
    }
}
