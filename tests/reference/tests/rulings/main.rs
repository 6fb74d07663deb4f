//! The rulings on document 01's open points, a module per part.

#[path = "../common/mod.rs"]
mod common;

mod answers;
mod calls;
mod limits;
mod n01;
mod n02;
mod n03;
mod n04;
mod n06;
mod names;
mod odd;
mod reader;
mod records;
mod session;
mod tables;
