//! The rate at which a program hands bits to a link: the stores into a window, and which option
//! drains a buffer behind it.

pub mod arguments;
pub mod backlog;
pub mod figures;
pub mod line;
pub mod run;
pub mod summary;
pub mod window;
