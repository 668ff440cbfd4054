//! The host test of the tick in its parts, of which the test of a box uses the tick by expansion and the ceiling.
pub mod archive;
pub mod ceiling;
pub mod examples;
pub mod expansion;
pub mod kernel;
pub mod labels;
pub mod orders;
pub mod readback;
pub mod reference;
pub mod rewriting;
pub mod runs;
pub mod small;
pub mod statement;
pub mod tally;
pub mod ticks;
pub mod vectors;
