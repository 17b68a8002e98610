//! A setter that has its notes as a `Document`: it checks them, and prints the
//! faults with the nodes that they are of, or sets them and prints the marks.

#![forbid(unsafe_code)]

mod reel;

fn main() {
    for (name, document) in reel::documents() {
        println!("{name}\n{}", reel::page(&document));
    }
}
