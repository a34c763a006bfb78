//! What the shapes say of the small interface.
#![allow(dead_code)]

#[path = "../compare/calls/interface.rs"]
mod interface;
#[path = "../compare/calls/shape.rs"]
mod shape;

use interface::{Function, ANSWER, FUNCTIONS};

fn main() {
    let (sum, turn) = (Function::Sum.shape(), Function::Turn.shape());
    println!("{} functions, answers of {ANSWER} words", FUNCTIONS.len());
    println!("{:?} {:?} {:?}", sum.words("scale"), sum.slice("out"), Function::Sum.numbers());
    let [of_sum, of_touch] = [sum, Function::Touch.shape()].map(|shape| shape.image.as_ref().expect("it is a writer"));
    println!("{:?} {:?}", (of_sum.length, of_sum.fixed, of_sum.told), (of_touch.length, of_touch.fixed, of_touch.told));
    println!("{:?} {:?} {:?}", turn.fields(), turn.field("given", "inner.b"), turn.gives("last"));
}
