//! The program `mtx`: the function that runs its commands.

use mtx_commands::command;
use nalgebra_sparse::io::Sink;
use std::rt::Files;

fn run<R, W, E>(rt: &R, words: &[&str], out: &mut W, err: &mut E) -> u8
where
    R: Files + AllocGlobal,
    W: Sink,
    E: Sink,
{
    command(rt, words, out, err)
}
