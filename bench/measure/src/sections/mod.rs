//! The sections of the page, one module for each.

pub mod coefficient_files;
pub mod files;
pub mod growth;
pub mod program;
pub mod proposals;
pub mod real_numbers;
pub mod relaxations;
pub mod search;
