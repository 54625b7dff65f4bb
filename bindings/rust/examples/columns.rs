// SPDX-License-Identifier: Apache-2.0
// SPDX-FileCopyrightText: Copyright the Vortex contributors; ported to Rattle and changed
//! Columns: a cast of all rows or none, and keys that sort as the rows do.

use doqallin::{Column, SortOptions, cast_column, row_keys};

fn main() -> Result<(), Box<dyn std::error::Error>> {
    let cities = Column::utf8(b"osloosloskien", &[0, 4, 8, 13]);
    // The second fare is null.
    let fares = Column::integers(&[40i64, -1, 3]).with_validity(&[0b101]);
    let small: Vec<String> = cast_column::<u8>(&fares)?
        .iter()
        .map(u8::to_string)
        .collect();
    println!("as u8: {}", small.join(" "));

    // Cities first, and then fares, the greatest first and nulls before them.
    let options = [(false, false), (true, true)].map(|(descending, nulls_first)| SortOptions {
        descending,
        nulls_first,
    });
    for (row, key) in row_keys(&[cities, fares], &options)?.iter().enumerate() {
        let digits: String = key.iter().map(|byte| format!("{byte:02x}")).collect();
        println!("key {row}: {digits}");
    }
    Ok(())
}
