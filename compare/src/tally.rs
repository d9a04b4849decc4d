//! Counts of what occurred, with the rows that must not stay at 0.

use std::collections::HashMap;

struct Row {
    name: String,
    times: u64,
    required: bool,
}

/// A table of counts, in the order in which its rows were named.
pub struct Tally {
    rows: Vec<Row>,
    places: HashMap<String, usize>,
}

impl Tally {
    /// A table with a row at 0 for each thing that must occur.
    pub fn requiring(names: Vec<String>) -> Self {
        let mut tally = Tally {
            rows: Vec::new(),
            places: HashMap::new(),
        };
        for name in names {
            tally.add_row(name, true);
        }
        tally
    }

    fn add_row(&mut self, name: String, required: bool) {
        self.places.insert(name.clone(), self.rows.len());
        self.rows.push(Row {
            name,
            times: 0,
            required,
        });
    }

    /// Counts one more of these. A name not foreseen gets a row of its own, so that the table shows it.
    pub fn count(&mut self, name: &str) {
        self.count_times(name, 1);
    }

    /// Counts so many more of these.
    pub fn count_times(&mut self, name: &str, times: u64) {
        if !self.places.contains_key(name) {
            self.add_row(name.to_string(), false);
        }
        self.rows[self.places[name]].times += times;
    }

    /// Prints the table.
    pub fn print(&self) {
        for row in &self.rows {
            println!("{:>10}  {}", row.times, row.name);
        }
    }

    /// Refuses if something that must occur never did.
    pub fn check(&self) -> Result<(), String> {
        let missing: Vec<&str> = self
            .rows
            .iter()
            .filter(|row| row.required && row.times == 0)
            .map(|row| row.name.as_str())
            .collect();
        if missing.is_empty() {
            Ok(())
        } else {
            Err(format!("never occurred: {}", missing.join("; ")))
        }
    }
}

#[cfg(test)]
mod tests {
    use super::*;

    #[test]
    fn names_what_never_occurred() {
        let mut tally = Tally::requiring(vec!["kept".to_string(), "filtered".to_string()]);
        tally.count("kept");
        tally.count("something else");
        assert_eq!(tally.check(), Err("never occurred: filtered".to_string()));
        tally.count("filtered");
        assert_eq!(tally.check(), Ok(()));
    }
}
