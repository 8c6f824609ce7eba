//! A small picture through all of it.
use coupon::coded::Coded;
use coupon::codes::{ans_book, static_book};
use coupon::layout::Tiling;
use coupon::passes::{search_all, tally_of, write_all};
use coupon::picture::Picture;
use coupon::{paint, runs, strip};
use rdoq::{Refusal, Search};

/// A part of the coupon: print, paper and a corner of the bar code.
fn small() -> Picture {
    let whole = paint::scanned();
    let mut part = Picture::new(150, 100, [0; 3]);
    for y in 0..part.height {
        for x in 0..part.width {
            part.set(x, y, whole.pixel(200 + x, 60 + y));
        }
    }
    part
}

#[test]
fn tokens_are_read_back_and_the_tally_is_a_fresh_count() {
    let coded = Coded::of(&small(), Tiling::Mixed, runs::SCALE);
    let (figures, levels, kept) = runs::two_runs(&coded).unwrap();
    // from the tokens in the store to the levels, the lowest coefficients apart
    let book = static_book().unwrap();
    let read = runs::read_back(&coded, &book, &kept).unwrap();
    for ((group, levels), read) in coded.groups.iter().zip(&levels).zip(&read) {
        for part in &group.parts {
            for &at in &coded.kind(part).scan[part.square.covered()..] {
                assert_eq!(read[part.from + at as usize], levels[part.from + at as usize]);
            }
        }
    }
    // additions and removals over two runs, and one count of the last tokens
    let written = write_all(&coded, &book, &levels).unwrap();
    assert!(kept.tally == tally_of(&book, &written).unwrap());
    assert!(figures.replaced > 0, "the second run changes something");
    // the second run searched with the book by which both are priced here
    assert!(figures.bits[1] <= figures.bits[0], "{figures:?}");
}

#[test]
fn figures_are_the_same_on_every_run() {
    let run = || {
        let coded = Coded::of(&small(), Tiling::Mixed, runs::SCALE);
        let (figures, levels, _) = runs::two_runs(&coded).unwrap();
        (figures, coded.restored(&levels).unwrap().png())
    };
    assert_eq!(run(), run());
}

#[test]
fn a_search_costs_fewer_bits_and_the_picture_stays() {
    let picture = small();
    let rows = runs::table(&picture, Tiling::Mixed, 1).unwrap();
    for row in &rows[1..] {
        assert!(row.ans_bits < rows[0].ans_bits, "{row:?}");
        assert!(row.psnr > rows[0].psnr - 0.5, "{row:?}");
    }
}

#[test]
fn a_failed_strip_is_refused_and_keeps_every_level() {
    let mut coded = Coded::of(&small(), Tiling::Mixed, runs::SCALE);
    let book = runs::trained_book(&coded).unwrap();
    strip::spoil(&mut coded);
    let group = &coded.groups[0];
    for search in [Search::Greedy, Search::Beam, Search::Trellis, Search::Unfactored] {
        let found = strip::search(&coded, &book, search);
        // the list ends at the first block that was hit
        let first = group.parts.iter().position(strip::is_hit).unwrap();
        let stopped = found.list.unwrap_err();
        assert_eq!((stopped.refusal, stopped.settled as usize), (Refusal::Ideal, first));
        // block by block, those that were hit and no others
        assert!(found.refused.iter().all(|(_, refusal)| *refusal == Refusal::Ideal));
        assert_eq!(found.refused.len(), group.parts.iter().filter(|part| strip::is_hit(part)).count());
        for (part, _) in &found.refused {
            assert_eq!(found.levels[part.from..part.from + part.size()], group.quantised[part.from..part.from + part.size()]);
        }
    }
}

#[test]
fn a_trained_book_is_cheaper_than_the_static_one() {
    let coded = Coded::of(&small(), Tiling::Eights, runs::SCALE);
    let book = static_book().unwrap();
    let levels = search_all(&coded, &book, Search::Trellis, runs::WEIGHING).unwrap();
    let written = write_all(&coded, &book, &levels).unwrap();
    let trained = ans_book(&tally_of(&book, &written).unwrap()).unwrap();
    assert!(coupon::passes::bits_of(&trained, &written).unwrap() < coupon::passes::bits_of(&book, &written).unwrap());
}

#[test]
fn a_ppm_is_read() {
    let bytes = b"P6\n# a comment\n2 1\n255\n\x01\x02\x03\xff\x00\x10";
    let picture = Picture::read_ppm(&bytes[..]).unwrap();
    assert_eq!((picture.width, picture.height, picture.pixel(1, 0)), (2, 1, [255, 0, 16]));
    for bad in [&b"P5\n2 1\n255\n"[..], b"P6\n2 1\n65535\n", b"P6\n2 1\n255\n\x01", b"P6\n0 1\n255\n", b""] {
        assert!(Picture::read_ppm(bad).is_err());
    }
}
