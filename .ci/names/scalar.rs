//! `scalar`: the rings, and the scalars that implement them.

use crate::bounds::{is_copy, is_partial_eq};
use nalgebra_sparse::scalar::{Mod, Ring, Units, W32, W64, W128, Zero};

fn zero<T: Zero>() {
    is_partial_eq::<T>();
    let _zero: fn() -> T = T::zero;
}

fn ring<T: Ring>() {
    zero::<T>();
    is_copy::<T>();
    let _one: fn() -> T = T::one;
    let _add: fn(T, T) -> T = T::add;
    let _mul: fn(T, T) -> T = T::mul;
    let _neg: fn(T) -> T = T::neg;
}

fn units<T: Units>() {
    ring::<T>();
    let _recip: fn(T) -> Option<T> = T::recip;
}

fn wrapping() {
    let _w32: (fn(i32) -> W32, fn(W32) -> i32) = (W32::new, W32::get);
    let _w64: (fn(i64) -> W64, fn(W64) -> i64) = (W64::new, W64::get);
    let _w128: (fn(i128) -> W128, fn(W128) -> i128) = (W128::new, W128::get);
    units::<W32>();
    units::<W64>();
    units::<W128>();
}

fn residues<const M: u64>() {
    let _new: fn(u64) -> Mod<M> = Mod::<M>::new;
    let _get: fn(Mod<M>) -> u64 = Mod::<M>::get;
    units::<Mod<M>>();
}

fn plain_integers() {
    zero::<i8>();
    zero::<i16>();
    zero::<i32>();
    zero::<i64>();
    zero::<i128>();
}
