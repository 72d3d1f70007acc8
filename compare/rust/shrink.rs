//! Cases, and the smallest one that still differs.
use crate::driver::{Driver, Log};
use crate::plan::{Plan, Tally};

pub trait Case: Sized {
    /// What the Rust gives, with the script for the Rattle session.
    fn plan(&self) -> Plan;

    fn run<'a>(&self, driver: &'a mut Driver, plan: &Plan) -> Log<'a>;

    /// Cases with a little less in them, the larger steps first.
    fn smaller(&self) -> Vec<Self>;

    fn show(&self) -> String;

    fn compare(&self, driver: &mut Driver) -> Result<Tally, String> {
        let plan = self.plan();
        let log = self.run(driver, &plan);
        plan.check(log)
    }

    /// The smallest case found that differs, with the difference.
    fn shrunk(self, driver: &mut Driver, difference: String) -> (Self, String) {
        let (mut case, mut difference) = (self, difference);
        'again: loop {
            for smaller in case.smaller() {
                if let Err(found) = smaller.compare(driver) {
                    (case, difference) = (smaller, found);
                    continue 'again;
                }
            }
            return (case, difference);
        }
    }
}

/// A list without a half of it, without a quarter, and so on to without one element.
pub fn shorter<T: Clone>(list: &[T]) -> Vec<Vec<T>> {
    let mut lists = Vec::new();
    let mut size = list.len();
    while 0 < size {
        let mut from = 0;
        while from < list.len() {
            let to = list.len().min(from + size);
            lists.push([&list[..from], &list[to..]].concat());
            from = to;
        }
        size /= 2;
    }
    lists
}
