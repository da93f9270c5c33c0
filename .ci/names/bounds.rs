//! Functions that compile only for types with a trait.

use std::error::Error;
use std::fmt::{Debug, Display};

pub fn is_copy<T: Copy>() {}

pub fn is_clone<T: Clone>() {}

pub fn is_partial_eq<T: PartialEq>() {}

pub fn is_eq<T: Eq>() {}

pub fn is_debug<T: Debug>() {}

pub fn is_display<T: Display>() {}

pub fn is_error<T: Error>() {}

pub fn is_iterator<I: Iterator<Item = T>, T>() {}
