//! Rust's own methods and cast of f64, on lines of the oracle's text form: a name and floats, each 16 hex digits of its bits.
//! `clamp` (3), `max`, `min` (2) answer a float, with one not-a-number for all; `to_i32` (1) answers a decimal number.
//! leaves.py compiles and runs it: the oracle has no such leaves.
use std::io::{read_to_string, stdin};

fn main() {
    for line in read_to_string(stdin()).unwrap().lines() {
        let mut words = line.split(' ');
        let name = words.next().unwrap();
        let x: Vec<f64> = words.map(|w| f64::from_bits(u64::from_str_radix(w, 16).unwrap())).collect();
        let r = match name {
            "clamp" => x[0].clamp(x[1], x[2]),
            "max" => x[0].max(x[1]),
            "min" => x[0].min(x[1]),
            "to_i32" => {
                println!("{}", x[0] as i32);
                continue;
            }
            _ => panic!("{name}"),
        };
        println!("{:016x}", if r.is_nan() { 0x7ff8_0000_0000_0000 } else { r.to_bits() });
    }
}
