//! What a call of a function consists of, so that its parts are known by their names.

// Each program that calls uses its own part.
#![allow(dead_code)]

use super::interface::{Function, SHAPES};
use std::ops::Range;

pub struct Shape {
    pub name: &'static str,
    pub takes: &'static [Parameter],
    /// The fields of the answer, or `result`.
    pub gives: &'static [&'static str],
    pub image: Option<Image>,
    /// In the order of judging.
    pub refuses: &'static [u64],
}

pub struct Parameter {
    pub name: &'static str,
    pub kind: Kind,
}

pub enum Kind {
    /// Each number's name and its bytes; a struct has several.
    Numbers(&'static [(&'static str, usize)]),
    /// A slice of elements of so many bytes, and whether it is lent to be written.
    Slice(usize, bool),
}

/// What is written: so many bytes, or where that is not fixed at most so many; a parameter may tell how many.
pub struct Image {
    pub length: usize,
    pub fixed: bool,
    pub told: Option<&'static str>,
}

impl Image {
    /// Whether its length is known before the call.
    pub fn is_known(&self) -> bool {
        self.fixed || self.told.is_some()
    }
}

pub const fn numbers(name: &'static str, fields: &'static [(&'static str, usize)]) -> Parameter {
    Parameter { name, kind: Kind::Numbers(fields) }
}

pub const fn given(name: &'static str, width: usize) -> Parameter {
    Parameter { name, kind: Kind::Slice(width, false) }
}

pub const fn lent(name: &'static str, width: usize) -> Parameter {
    Parameter { name, kind: Kind::Slice(width, true) }
}

impl Shape {
    /// Where a parameter's numbers stand among the words of a call.
    pub fn words(&self, name: &str) -> Option<Range<usize>> {
        let mut at = 0;
        for parameter in self.takes {
            if let Kind::Numbers(fields) = parameter.kind {
                if parameter.name == name {
                    return Some(at..at + fields.len());
                }
                at += fields.len();
            }
        }
        None
    }

    /// The words of a call: the name of each, which in a struct is its field's, and its bytes.
    pub fn fields(&self) -> Vec<(&'static str, usize)> {
        let of = |parameter: &'static Parameter| if let Kind::Numbers(fields) = parameter.kind { fields } else { &[] };
        self.takes.iter().flat_map(of).copied().collect()
    }

    /// The bytes of each word of a call.
    pub fn widths(&self) -> Vec<usize> {
        self.fields().into_iter().map(|(_, width)| width).collect()
    }

    /// Where a field of a struct stands among the words of a call.
    pub fn field(&self, struct_name: &str, name: &str) -> Option<usize> {
        let place = self.words(struct_name)?;
        place.clone().zip(&self.fields()[place]).find(|(_, (own, _))| *own == name).map(|(at, _)| at)
    }

    /// The slices' names, the bytes of an element, and whether they are lent.
    pub fn slices(&self) -> impl Iterator<Item = (&'static str, usize, bool)> {
        self.takes.iter().filter_map(|parameter| match parameter.kind {
            Kind::Slice(width, lent) => Some((parameter.name, width, lent)),
            Kind::Numbers(_) => None,
        })
    }

    pub fn slice(&self, name: &str) -> Option<usize> {
        self.slices().position(|(own, ..)| own == name)
    }

    /// Where a field stands in an answer.
    pub fn gives(&self, name: &str) -> Option<usize> {
        self.gives.iter().position(|&own| own == name)
    }
}

impl Function {
    pub fn shape(self) -> &'static Shape {
        &SHAPES[self as usize]
    }

    pub fn name(self) -> &'static str {
        self.shape().name
    }

    /// The numbers that it can give: 0 and its refusals, or the 0 and 1 of a function that refuses nothing.
    pub fn numbers(self) -> Vec<u64> {
        match self.shape().refuses {
            [] => vec![0, 1],
            refuses => [&[0], refuses].concat(),
        }
    }
}
