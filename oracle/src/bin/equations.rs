//! `equations FOLDER FIRST COUNT`: takes COUNT small sheets of the stored list, spread evenly from number FIRST on, and writes crate files with an
//! equation for each into FOLDER, some forty to a file.

use oracle::{equations, stored};
use std::{env, fs};

fn main() {
    let args: Vec<String> = env::args().collect();
    let [_, folder, first, count] = &args[..] else {
        panic!("usage: equations FOLDER FIRST COUNT");
    };
    let (first, count): (usize, usize) = (first.parse().unwrap(), count.parse().unwrap());
    let small = stored::sheets().into_iter().enumerate();
    let small: Vec<_> = small.filter(|(_, sheet)| sheet.len() <= equations::MOST_BYTES).skip(first).collect();
    let count = count.min(small.len());
    let chosen: Vec<_> = (0..count).map(|index| small[index * small.len() / count].clone()).collect();
    let mut root = String::new();
    for (number, sheets) in chosen.chunks(40).enumerate() {
        root += &format!("pub mod Batch{number}\n");
        fs::write(format!("{folder}/Batch{number}.antt"), equations::file(sheets)).unwrap();
    }
    fs::write(format!("{folder}/Lib.antt"), root).unwrap();
    println!("{} sheets", chosen.len());
}
