// SPDX-License-Identifier: Apache-2.0
// SPDX-FileCopyrightText: Copyright the Vortex contributors; ported to Rattle and changed
//! The statistics of a column of strings, with bounds of 16 bytes, and the filters that they rule out.

use doqallin::{Column, Filter, Item, Kind, Statistics};

fn main() -> Result<(), Box<dyn std::error::Error>> {
    // The third of four is null.
    let fruits = Column::utf8(b"bananaapplecherry pie with cream", &[0, 6, 11, 11, 32]);
    let known = Statistics::of(&fruits.with_validity(&[0b1011]), 16)?;
    if let (Some(Item::Utf8(lower)), Some(Item::Utf8(upper))) = (known.lower(), known.upper()) {
        println!("{lower} to {upper}");
    }
    for literal in ["cherry", "zucchini"] {
        let wanted = Filter::parse(&format!("fruit = '{literal}'"), &[("fruit", Kind::Utf8)])?;
        let found = if wanted.outcomes(&[Some(&known)])?.may_match() {
            "maybe"
        } else {
            "no"
        };
        println!("{literal}: {found}");
    }
    Ok(())
}
