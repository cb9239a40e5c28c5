//! The stored cases of the programs.

pub mod call_lists;
pub mod estimate;
pub mod file_builder;
pub mod hand_lists;
pub mod loaded_days;
pub mod plain_calls;
pub mod prorations;
pub mod recorder;
pub mod replay;
pub mod vector_files;
