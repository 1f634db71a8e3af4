//! A plain boot of a flash that has nothing to rewrite: what `boot` is measured beside. It puts the flash as the program
//! does: into a file beside the one that is named, which is synchronised with its disk and then renamed.

mod image;

use std::io::Write;

/// Reads a flash, checks the images at these addresses until one is whole, puts the flash into another file, and prints
/// the address and the length of the image.
fn main() -> std::io::Result<()> {
    let words: Vec<String> = std::env::args().skip(1).collect();
    let [flash, out, places @ ..] = words.as_slice() else { panic!("FLASH OUT ADDRESS..") };
    let bytes = std::fs::read(flash)?;
    let mut found = places.iter().filter_map(|place| {
        let (length, sum, digest) = image::check(&bytes[place.parse::<usize>().expect("an address")..]);
        (sum && digest).then_some((place, length))
    });
    let (place, length) = found.next().expect("a whole image");
    let beside = format!("{out}.new");
    let mut file = std::fs::File::create(&beside)?;
    file.write_all(&bytes)?;
    file.sync_all()?;
    std::fs::rename(beside, out)?;
    println!("{place} {length}");
    Ok(())
}
