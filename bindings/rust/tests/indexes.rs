// SPDX-License-Identifier: Apache-2.0
// SPDX-FileCopyrightText: Copyright the Vortex contributors; ported to Rattle and changed
//! Indexes that `Search` makes.

use doqallin::{Indexing, Reading, Search, SearchError};
use std::fs;
use std::io::Cursor;

/// Records `N,word`, a word in quotes with a line feed in it.
fn text_of(records: u64) -> Vec<u8> {
    (0..records)
        .flat_map(|n| format!("{n},\"word {n}\nand more of it\"\n").into_bytes())
        .collect()
}

#[test]
fn of_a_file_in_several_pieces() -> Result<(), SearchError> {
    let (text, reading) = (text_of(200_000), Reading::default());
    let mut plain = Search::guessed(Cursor::new(&text), &reading)?;
    for zone_rows in [1000, 150_000] {
        let indexing = Indexing {
            zone_rows,
            ..Indexing::default()
        };
        let index = plain.index(&indexing)?;
        let mut files = Search::with_index(Cursor::new(&text), Cursor::new(&index))?;
        let zones = files.plan("$1 >= 0")?;
        assert_eq!(zones.len() as u64, 200_000_u64.div_ceil(zone_rows));
        assert!(zones[1..].iter().zip(&zones).all(|(next, zone)| {
            zone.records == zone_rows && next.offset == zone.offset + zone.length
        }));
        let last = zones.last().map(|zone| zone.offset + zone.length);
        assert_eq!(last, Some(text.len() as u64));
        for filter in ["$1 between 777 and 1001", "$2 like 'word 1999%'", "$1 < 0"] {
            assert_eq!(files.count(filter)?, plain.count(filter)?);
        }
    }
    Ok(())
}

#[test]
fn beside_a_file() -> Result<(), SearchError> {
    let folder = std::env::temp_dir().join(format!("doqallin-{}", std::process::id()));
    fs::create_dir_all(&folder)?;
    let (file, index) = (folder.join("n.csv"), folder.join("n.csv.zones"));
    fs::write(&file, text_of(30))?;
    let indexing = Indexing {
        zone_rows: 10,
        ..Indexing::default()
    };
    let mut found = Search::write_index(&file, &Reading::default(), &indexing)?;
    assert_eq!(found.plan("$1 > 3")?.len(), 3);
    let before = fs::read(&index)?;
    let reading = Reading {
        columns: &[("n", "i64"), ("word", "i64")],
        ..Reading::default()
    };
    let refused = Search::write_index(&file, &reading, &indexing).err();
    assert!(matches!(
        refused,
        Some(SearchError::BadRecord {
            offset: 0,
            column: Some(1)
        })
    ));
    assert_eq!(fs::read(&index)?, before);
    assert_eq!(fs::read_dir(&folder)?.count(), 2);
    #[cfg(unix)]
    {
        fs::rename(&index, folder.join("other"))?;
        std::os::unix::fs::symlink("other", &index)?;
        let refused = Search::open(&file).err();
        assert!(matches!(refused, Some(SearchError::BadIndex(_))));
    }
    fs::remove_dir_all(&folder)?;
    Ok(())
}

#[test]
fn records_before_one_that_is_refused() -> Result<(), SearchError> {
    let reading = Reading {
        columns: &[("n", "i64"), ("word", "utf8")],
        ..Reading::default()
    };
    let mut files = Search::guessed(Cursor::new("1,a\n2,b\nx,c\n3,d\n"), &reading)?;
    let mut found = Vec::new();
    let refused = files.each("n > 1", |record| found.push((record.offset, record.number)));
    assert_eq!(found, [(4, 2)]);
    assert!(matches!(
        refused,
        Err(SearchError::BadRecord {
            offset: 8,
            column: Some(0)
        })
    ));
    Ok(())
}
