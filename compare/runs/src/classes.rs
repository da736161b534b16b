//! How often each size was met, by classes: the numbers of as many binary digits are one class, 0 is one by itself.

use std::collections::HashMap;

/// The class of a number: how many binary digits it has.
pub fn class_of(n: u64) -> usize {
    (64 - n.leading_zeros()) as usize
}

/// The smallest number of a class.
pub fn least_of(class: usize) -> u64 {
    if class == 0 {
        0
    } else {
        1 << (class - 1)
    }
}

/// What is counted, and from which number to which one every class must be met.
pub struct Wanted {
    pub what: &'static str,
    pub from: u64,
    pub to: u64,
}

#[derive(Clone, Debug, Default)]
pub struct Classes {
    met: HashMap<&'static str, Vec<u64>>,
}

impl Classes {
    pub fn count(&mut self, what: &'static str, n: u64) {
        self.met.entry(what).or_insert_with(|| vec![0; 65])[class_of(n)] += 1;
    }

    /// A line for each row, how often each class was met, from the first that must be met on; then the classes that were not.
    pub fn print(&self, wanted: &[Wanted]) -> (Vec<String>, Vec<String>) {
        let (mut lines, mut missing) = (Vec::new(), Vec::new());
        for Wanted { what, from, to } in wanted {
            let none = vec![0; 65];
            let met = self.met.get(what).unwrap_or(&none);
            let due = class_of(*from)..=class_of(*to);
            let last = met.iter().rposition(|count| *count > 0).unwrap_or(0).max(*due.end());
            let counts: Vec<String> = met[*due.start()..=last].iter().map(u64::to_string).collect();
            lines.push(format!("{what}, of {} to {last} binary digits: {}", due.start(), counts.join(" ")));
            missing.extend(due.filter(|class| met[*class] == 0).map(|class| format!("{what} from {}", least_of(class))));
        }
        (lines, missing)
    }
}

#[cfg(test)]
mod tests {
    use super::*;

    #[test]
    fn a_class_that_was_not_met_is_told() {
        let wanted = [Wanted { what: "a size", from: 0, to: 5 }];
        let mut classes = Classes::default();
        [0, 1, 3, 2, 9].into_iter().for_each(|n| classes.count("a size", n));
        let (lines, missing) = classes.print(&wanted);
        assert_eq!(lines, ["a size, of 0 to 4 binary digits: 1 1 2 0 1"]);
        assert_eq!(missing, ["a size from 4"]);
    }
}
