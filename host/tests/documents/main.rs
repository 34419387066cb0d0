//! The documents held to the sources: what docs/ and the host's declarations say of crates/ is so.
//!
//! Only the repository's files are read; no call is made into the library.

mod antt;
mod crates;
mod exports;
mod files;
mod map;
mod project;
mod reading_list;
mod rust;
