//! Counts of tests, and failing ones written out.

use reference::subject::Subject;

#[derive(Default)]
pub struct Tally {
    pub passed: usize,
    pub failed: usize,
}

impl Tally {
    /// A test about a model; a failing one is shown with the model's text.
    pub fn about(&mut self, subject: &Subject, test: &str, outcome: Result<(), String>) {
        if let Err(cause) = &outcome {
            println!("FAILED: {test}: {}: {cause}", subject.name);
            println!("{}", String::from_utf8_lossy(&subject.text));
        }
        self.count(outcome.is_ok());
    }

    /// A test that at least some number of cases had a property.
    pub fn share(&mut self, property: &str, found: usize, least: usize) {
        println!("  {property}: {found} (at least {least})");
        if found < least {
            println!("FAILED: too few cases: {property}: {found}, at least {least}");
        }
        self.count(found >= least);
    }

    fn count(&mut self, passed: bool) {
        if passed {
            self.passed += 1;
        } else {
            self.failed += 1;
        }
    }
}
