//! The doors through the library.

mod cursors;
mod handles;
mod limits;
mod refusals;
mod shapes;
mod stored_cases;
mod support;
