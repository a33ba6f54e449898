//! Lists of requests: a second format, for what no study file reaches.

pub mod against;
mod broken;
pub mod count;
pub mod draw;
pub mod format;
mod rows;
mod study;
pub mod text;
