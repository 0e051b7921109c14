//! Misreadings of 02, P12: comma lines in and out. Each runs in place of the conversions and differs
//! from them in one part, and the generated texts and files must tell it from them.

pub mod form;
pub mod order;

use crate::lines::{Conversion, Lines};

/// A wrong conversion.
#[derive(Clone, Copy)]
pub struct Misreading {
    pub name: &'static str,
    pub conversion: &'static dyn Conversion,
}

impl Misreading {
    const fn new(name: &'static str, conversion: &'static dyn Conversion) -> Misreading {
        Misreading { name, conversion }
    }
}

pub fn all() -> Vec<Misreading> {
    form::ALL.into_iter().chain(order::ALL).collect()
}

/// The conversion of that name: `lines`, or one of the misreadings.
pub fn conversion_named(name: &str) -> Option<&'static dyn Conversion> {
    if name == "lines" {
        return Some(&Lines);
    }
    all().into_iter().find(|misreading| misreading.name == name).map(|found| found.conversion)
}
