//! Not for users: what the proved calls are compared with, and what makes the sheets and requests for it.
//!
//! `solver` answers the calls of documents 01 and 02 by another method than the proved ones, and shares no code with
//! them. `cases` are the requests that are stored for the program `calls`, many with answers by hand. `growth` and `ways`
//! say of a set of atoms what makes it hard to judge, `readings` how pairs can be read wrongly, `turns` how an allowance
//! can be shared wrongly, `table` how guesses can be judged wrongly, 64 at once. The other modules make sheets, pairs,
//! calendars, day masks and requests, run the programs and take their times.

pub mod broad;
pub mod calendars;
pub mod cases;
pub mod damage;
pub mod growth;
pub mod hard;
pub mod heads;
pub mod known;
pub mod large;
pub mod masks;
pub mod pairs;
pub mod programs;
pub mod random;
pub mod readings;
pub mod request;
pub mod sharing;
pub mod sheets;
pub mod solver;
pub mod studios;
pub mod table;
pub mod text;
pub mod timing;
pub mod turns;
pub mod ways;
pub mod write;
