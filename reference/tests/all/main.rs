//! Tests of the operations and programs against the specification's worked
//! values and against the definitions in `definitions.rs` and `verdict.rs`,
//! which use no dynamic programming and no code of the library.

mod buffers;
mod definitions;
mod files;
mod forms;
mod helpers;
mod large;
mod neighbours;
mod objects;
mod program_limits;
mod program_lines;
mod programs;
mod random;
mod refusals;
mod retargets;
mod seams;
mod steps;
mod tables;
mod verdict;
mod worked;
mod worked_flat;
mod worked_forward;
mod wrong;
