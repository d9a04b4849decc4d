//! Prints what this crate has of the header's names: a refusal as name, number and text, any other as name and value.

use siljuvatt::{numbers, Refusal};

fn main() {
    for refusal in Refusal::ALL {
        let (name, number, says) = (refusal.name(), refusal.number(), refusal.says());
        println!("REFUSAL_{name}\t{number}\t{says}");
    }
    for (name, value) in numbers::ALL {
        println!("{name}\t{value}");
    }
}
