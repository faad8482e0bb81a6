//! Soundness: each condition alone, both sides of each maximum, odd tables that are sound.

mod common;

use common::table;
use reference::generator::maxima;
use reference::generator::relabels;
use reference::generator::tables::{apply, bounds, in_edition_1, odd_and_sound, ways, with_bytes_behind, BASES};
use reference::random::Random;
use reference::sound::{decode, is_sound, REASONS};
use reference::table::{assemble, bodies, table_of};
use std::collections::BTreeSet;

#[test]
fn each_way_of_damage_is_unsound_and_each_reason_is_reached() {
    let mut random = Random::new(11);
    let mut reached = BTreeSet::new();
    for (name, way) in ways() {
        let mut applied = 0;
        for base in BASES.iter().flat_map(|base| [table(base), in_edition_1(&table(base))]) {
            for _ in 0..40 {
                if let Some(damaged) = apply(way, &base, &mut random) {
                    applied += 1;
                    match decode(&damaged) {
                        Ok(_) => panic!("{name} leaves a sound table"),
                        Err(reason) => reached.insert(reason),
                    };
                }
            }
        }
        assert!(applied > 0, "{name} finds nothing to damage");
    }
    for (name, at, past) in bounds() {
        assert!(is_sound(&at), "{name} at the maximum");
        match decode(&past) {
            Ok(_) => panic!("{name} past the maximum"),
            Err(reason) => reached.insert(reason),
        };
    }
    let all: BTreeSet<&str> = REASONS.into_iter().collect();
    assert_eq!(reached, all);
}

/// The long comparison damages any table: at the maxima too every way leaves one that is not sound, or finds nothing to damage.
#[test]
fn each_way_of_damage_at_the_maxima() {
    let mut random = Random::new(12);
    for text in [maxima::everything(), maxima::longest_full_names(), b"".to_vec()] {
        let table = table_of(&text).expect("accepted");
        let applied: Vec<&str> = ways().iter().filter_map(|(name, way)| {
            let damaged = apply(*way, &table, &mut random)?;
            assert!(!is_sound(&damaged), "{name}");
            Some(*name)
        }).collect();
        assert!(applied.len() >= 10, "{applied:?}");
    }
}

#[test]
fn odd_tables_are_sound() {
    for (name, table) in odd_and_sound() {
        assert_eq!(decode(&table).err(), None, "{name}");
    }
}

#[test]
fn reading_a_sound_table_and_writing_it_gives_the_same_bytes() {
    for base in BASES {
        for table in [table(base), in_edition_1(&table(base))] {
            let decoded = decode(&table).unwrap();
            assert_eq!(assemble(&bodies(&decoded.contents)[..decoded.offsets.len()]), table);
        }
    }
}

#[test]
fn bytes_behind_are_not_read_and_every_cut_is_unsound() {
    let mut random = Random::new(5);
    for table in BASES.iter().flat_map(|base| [table(base), in_edition_1(&table(base))]) {
        for length in 0..table.len() {
            assert!(!is_sound(&table[..length]), "{length}");
        }
        let longer = with_bytes_behind(&mut random, &table);
        assert_eq!(decode(&longer), decode(&table));
    }
}

/// Any single byte changed: whatever is still sound reads back as those very bytes.
#[test]
fn a_changed_byte_is_unsound_or_reads_back() {
    for table in BASES.iter().flat_map(|base| [table(base), in_edition_1(&table(base))]) {
        for at in 0..table.len() {
            for flip in [1, 2, 4, 128, 255] {
                let mut changed = table.clone();
                changed[at] ^= flip;
                if let Ok(decoded) = decode(&changed) {
                    assert_eq!(assemble(&bodies(&decoded.contents)[..decoded.offsets.len()]), changed);
                }
            }
        }
    }
}

#[test]
fn bytes_that_are_no_table() {
    assert!(!is_sound(b""));
    assert!(!is_sound(&[0; 68]) && !is_sound(&[0; 84]));
    assert!(!is_sound(&[255; 500]));
    let mut random = Random::new(1);
    for _ in 0..1_000 {
        let bytes: Vec<u8> = (0..random.below(200)).map(|_| random.byte()).collect();
        assert!(!is_sound(&bytes));
    }
}

/// Document 02, readings 67 to 70.
#[test]
fn every_listed_table() {
    for listed in relabels::tables() {
        assert_eq!(is_sound(&listed.bytes), listed.sound, "{}", listed.rule);
    }
}
