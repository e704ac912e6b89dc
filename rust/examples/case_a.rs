//! Case A, a Function with an empty body: prints its listing.

use lucia_codegen::{Answer, NONE, Tables, gen_code};

fn main() {
    let mut tables = Tables { functions: vec![NONE, 0], ..Tables::default() };
    tables.push_record([30, 0, 0, NONE, 0, 0, 1, 0]); // Function
    tables.push_record([31, 0, 0, 0, 0, 0, 0, 2]); // Params
    tables.push_record([4, 0, 0, 0, 0, 0, 0, 0]); // Block
    match gen_code(&tables) {
        Answer::Listing(listing) => print!("{}", listing.text(&tables)),
        Answer::Refused(refused) => println!("{refused}"),
    }
}
