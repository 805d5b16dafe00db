//! Cases for the report program: images by topic, their text, and the expected reports.

mod budgets;
mod case;
mod images;
mod multiplies;
mod registers;
mod stops;
mod ticks;

pub use case::{Case, BUDGET, BUFFER};

/// Every case, in the order of the files.
pub fn cases() -> Vec<Case> {
    let topics = [
        images::cases(),
        stops::cases(),
        budgets::cases(),
        registers::cases(),
        multiplies::cases(),
        ticks::cases(),
    ];
    topics.into_iter().flatten().collect()
}

/// The text of cases, a line each.
pub fn input(cases: &[Case]) -> String {
    cases.iter().map(Case::line).collect()
}

/// The expected reports, each with a line that ends it.
pub fn expected(cases: &[Case]) -> String {
    cases.iter().map(|case| case.report() + "--\n").collect()
}
