//! What the examples do with a book.

use selfcheck::{Book, Kind};
use std::error::Error;
use std::{env, fs};

/// Prints the book and its verdict, and where that is illegal a smaller book that explains it. The picture of the book
/// goes into the file that the first word names, as in `cargo run --example torn_counter picture.svg`.
pub fn show<K: Kind>(book: &Book<K>) -> Result<(), Box<dyn Error>> {
    println!("{book}{}", book.verify()?);
    if let Some(smaller) = book.smaller()? {
        print!("\nof which this part is illegal already:\n{smaller}");
    }
    if let Some(file) = env::args_os().nth(1) {
        fs::write(file, book.picture()?)?;
    }
    Ok(())
}
