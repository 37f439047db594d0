//! Timing sheets and the preempt sequence in plain, safe Rust, written for speed from the same paper as the verified program. It is the yardstick
//! that the verified program's speed is measured against, and a third implementation to compare it with. It proves nothing.
//!
//! - `read`, `worksheet`, `write`: refusals 1 to 12. `worksheet` is for a sheet that was accepted; `worksheet_of_values` and `write` check it
//!   again, as the paper asks of a sheet handed over as values. `convert` reads a text of an older form and writes it in today's.
//! - `tick` takes a unit in any state, and checks it and its sheet whole on each tick (refusal 20). `Running` keeps a unit that was started here
//!   with lines 3 and 51 beside it, and checks nothing again.
//! - The programs `worksheet`, `convert` and `sequence` print what the verified programs print; `sequence` makes each tick and load on both
//!   units, which must agree.
#![forbid(unsafe_code)]

pub mod factor;
pub mod far;
pub mod reader;
pub mod sheet;
pub mod unit;
pub mod worksheet;
pub mod writer;

pub use reader::{read, read_older};
pub use sheet::{check, Phase, Point, Refused, Sheet, Vehicle};
pub use unit::{tick, Light, Place, Running, Stage, Then, Unit, Walker};
pub use worksheet::{worksheet, worksheet_of_values};
pub use writer::{convert, write};
