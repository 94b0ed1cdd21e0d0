//! The keeper of the whole record of the sharing-terms monitor.
//!
//! It keeps one graph for each moment and works every answer out from the
//! start, by the meaning of the formulas. No table is ever carried along; a
//! stored file's tables stand for the moments before it, which nobody knows.
//!
//! * `terms`: files of both forms and the lent memory, read and written
//! * `record`: the list of graphs, from where on each past-time entry is judged,
//!   and the meaning of a formula over it; new terms while it goes on
//! * `set_list`: many requests in one call
//! * `renumber`: other numbers for the members, in every graph so far
//! * `step`: calls, and new terms and other numbers among them
//! * `plan`: plans against a rival, and whether an entry holds now
//! * `banks`: two banks with a record each, their memory and their steps
//! * `expect`: what each call over lent memory must give
//! * `program`: what the program must print
//! * `cases`: what the program of cases must print
//! * `generate`: seeded cases, sound and damaged
//! * `compare`: holds another implementation against all this
//! * `shrink`: makes a failing case small

pub mod banks;
pub mod cases;
pub mod compare;
pub mod expect;
pub mod generate;
pub mod plan;
pub mod program;
pub mod record;
pub mod renumber;
pub mod set_list;
pub mod shrink;
pub mod step;
pub mod terms;
