//! Calls that take no tables, through C and by the straight scan: colours, and sheets.

#![allow(dead_code)]

pub mod colour;
pub mod sheet;
