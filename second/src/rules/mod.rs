//! The rules of document 01 and of requests 2026-01 to 2026-05, and the bench
//! language over them.

pub mod answer;
pub mod bench;
mod bench_scsi;
pub mod commands;
pub mod compare;
pub mod convert;
pub mod device;
pub mod layout;
pub mod listing;
pub mod page;
pub mod reader;
pub mod removal;
pub mod request;
pub mod script;
pub mod scsi;
pub mod table;
pub mod walk;
