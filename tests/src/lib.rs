//! The second opinion: an independent rendering of the scope paper ("01"), and generated cases by which the archive is
//! held to it.
//!
//! - [`oracle`] is the paper, plainly rendered; it leans on nothing else here.
//! - [`construct`], [`damage`] and [`cases`] make the inputs from a seed; those with loops of several paths [`path_damage`]
//!   and [`path_cases`], those with settlings [`settling_cases`], those with short rankings [`short_damage`] and
//!   [`short_cases`], those with several certificates at once [`batch_cases`].
//! - [`compare`] calls the archive, and compares every number told and every entry of every list lent.
//! - [`tally`] counts what came up ([`right_sides`], [`grades`], [`path_ways`], [`settling_ways`], [`short_ways`] and
//!   [`batch_ways`] those of a case), and says which quotas are not met.

pub mod batch_cases;
pub mod batch_ways;
pub mod cases;
pub mod compare;
pub mod construct;
pub mod damage;
pub mod forms;
pub mod grades;
pub mod oracle;
pub mod path_cases;
pub mod path_damage;
pub mod path_ways;
pub mod random;
pub mod right_sides;
pub mod settling_cases;
pub mod settling_ways;
pub mod short_cases;
pub mod short_damage;
pub mod short_ways;
pub mod tally;
