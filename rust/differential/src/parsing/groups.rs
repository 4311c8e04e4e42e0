//! The groups of inputs on which the two sides of handlers and trailing sections are compared.

pub mod handlers;
pub mod sections;
pub mod why;

use super::differences;
use crate::case::Compared;
use crate::run::Run;

pub fn compare(run: &mut Run) -> Compared {
    handlers::compare(run)?;
    why::compare(run)?;
    sections::compare(run)?;
    run.group("the differences that docs list", differences::listed)?;
    run.group("random", |run| {
        let mut random = run.random(20);
        while run.more() {
            handlers::random(run, &mut random)?;
            why::table(run, &mut random)?;
            sections::random(run, &mut random)?;
        }
        Ok(())
    })
}
