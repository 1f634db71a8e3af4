//! A plain reader of a whole file: what the program is measured beside.

fn main() {
    let name = std::env::args().nth(1).expect("a file name");
    let bytes = std::fs::read(name).expect("a file");
    println!("{}", bytes.len());
}
