//! Tests of the public interface. They are one program: of each file by itself, cargo would compile and link another one.

#[path = "../common/mod.rs"]
mod common;

mod calls;
mod endpoints;
mod ends;
mod leaks;
mod races;
mod service;
mod sources;
mod testing;
mod threads;
mod vectors;
mod words;
mod workload;
