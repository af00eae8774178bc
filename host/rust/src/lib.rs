//! Two implementations of the test selector behind the same calls, an
//! independent one and the linked library, and jobs to compare them on.

pub mod answer;
pub mod calls;
pub mod corners;
pub mod drive;
pub mod generate;
pub mod independent;
pub mod lent;
pub mod lent_calls;
pub mod records;
pub mod search;
pub mod stars;
