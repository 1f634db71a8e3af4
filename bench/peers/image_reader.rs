//! A plain reader of application images: what the program is measured beside.

mod image;

/// Reads each file as an image, and prints its length and whether checksum and digest are those that it has.
fn main() {
    for name in std::env::args().skip(1) {
        let (length, sum, digest) = image::check(&std::fs::read(name).expect("a file"));
        println!("{length} {sum} {digest}");
    }
}
