//! A bridge planner for the shared tuner, written from the scope document, the requests that followed and the readings
//! of them in docs/DECISIONS.md, at first without a look at the proved one, so that the two can be held against each
//! other. Both follow the same readings, so a wrong reading would not show. The placing rule is by the same method as the
//! proved one's (masks of the tasks, by how many slots they still need); tests/definitions.rs has it by sorting.
//!
//! From the bottom up:
//! - [`bits`]: sets of small numbers as words of bits;
//! - [`text`]: lines and their forms;
//! - [`head`]: the head of a text, line by line;
//! - [`placing`]: capacity, grants, the LRTF rule, and which cells a call evicts;
//! - [`frame`]: a planned frame and the events that it takes;
//! - [`listing`]: the output's lines;
//! - [`planner`]: all of it, from a text to its listing;
//! - [`rows`]: a head's busy stretches as rows of a spreadsheet, and [`lent`], the same over lent records.
//!
//! Beside them: [`texts`] makes station texts, rows and tables by seed, [`cap`] tells what a text's supply changes and
//! [`own_slot`] what the clock's own slot would, [`proved`] calls the proved planner, [`loads`] holds the benchmark's inputs
//! and [`sides`] gives both planners one shape for it.

pub mod bits;
pub mod cap;
pub mod frame;
pub mod head;
pub mod lent;
pub mod listing;
pub mod loads;
pub mod own_slot;
pub mod placing;
pub mod planner;
pub mod proved;
pub mod refusal;
pub mod rows;
pub mod sides;
pub mod text;
pub mod texts;
