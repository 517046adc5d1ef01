//! The page store of Foliomoss, written a second time from the rules alone.
//!
//! Nothing here is shared with the verified implementation: the two are run
//! on the same sessions and their outputs are compared. The modules, from
//! the rules outward to the command line:
//!
//! - `house`: the fixed numbers, names, places, classes, the quota;
//! - `answer`: the numbered answers of the calls;
//! - `regions`: payloads and buffers, where things go, the boundary;
//! - `flush`: the plan of one flush, its moves and its runs;
//! - `store`: the calls;
//! - `map`: a map written and read;
//! - `lines`: input in lines and lines in numbers;
//! - `replay`, `drill`, `mapview`: the three programs;
//! - `random`, `steering`, `sessions`, `maps`: seeded inputs;
//! - `check`: a program's output against a stored one.

pub mod answer;
pub mod check;
pub mod drill;
pub mod flush;
pub mod house;
pub mod lines;
pub mod map;
pub mod maps;
pub mod mapview;
pub mod random;
pub mod regions;
pub mod replay;
pub mod sessions;
pub mod steering;
pub mod store;
