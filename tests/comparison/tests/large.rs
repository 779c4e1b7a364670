//! Test 11 on tables whose products D(k) x D(l) pass 32 bits, and test 12 on isolated vertices far
//! beyond 16: the answer is that of whole numbers.

use comparison::both::Both;
use comparison::call::Call;
use reference::journal::record;
use reference::numbers::Numbers;
use reference::random::Random;
use reference::refused_at as refused;
use reference::{Matrix, MAX_BLOCK_BYTES, MAX_BLOCKS, MAX_DEGREE};

const MAX_JOURNAL_RECORDS: u64 = (MAX_BLOCKS * MAX_BLOCK_BYTES / 4) as u64;
const MAX_COUNT: u64 = 65_535;
/// The largest sum of records, all in one cell.
const MAX_SUM: u64 = MAX_JOURNAL_RECORDS * MAX_COUNT;

type Cells = [(usize, usize, u64)];

/// Takes the cells in as many full records as they need, in full blocks, and lays out.
fn answer(cells: &Cells) -> Numbers {
    let mut records = Vec::new();
    for &(k, l, count) in cells {
        let mut left = count;
        while left > 0 {
            records.extend(record(k, l, left.min(MAX_COUNT)));
            left -= left.min(MAX_COUNT);
        }
    }
    let mut both = Both::new("large");
    for (number, block) in (0..).zip(records.chunks(MAX_BLOCK_BYTES)) {
        let block = block.to_vec();
        let answer = both.call(Call::TakeBlock { number, block });
        assert_eq!(answer, [0, 0, number + 1, 0, 0, 0]);
    }
    both.call(Call::LayOut)
}

/// The first cell that test 11 would refuse if its products were kept in 32 bits.
fn refused_in_32_bits(cells: &Cells) -> Option<(usize, usize)> {
    let matrix = Matrix::of(cells);
    let mut pairs = (1..=MAX_DEGREE).flat_map(|k| (k..=MAX_DEGREE).map(move |l| (k, l)));
    pairs.find(|&(k, l)| matrix.cell(k, l) > matrix.most(k, l) % (1 << 32))
}

/// The least count that rows k and l can share.
fn step(k: usize, l: usize) -> u64 {
    let fits = |count: &u64| count % k as u64 == 0 && count % l as u64 == 0 && count % 2 == 0;
    (1..).find(fits).expect("2kl fits")
}

#[test]
fn a_product_that_would_wrap_to_nothing() {
    // 2^17 x 2^16 = 2^33, and 2^17 x 2^15 = 2^32.
    for cells in [[(1, 2, 1 << 17)], [(1, 4, 1 << 17)], [(2, 4, 1 << 18)]] {
        let [(k, l, _)] = cells;
        assert_eq!(refused_in_32_bits(&cells), Some((k, l)));
        assert_eq!(answer(&cells), refused(12, 0, 0), "{cells:?}");
    }
}

#[test]
fn the_largest_cells() {
    for (k, l) in [
        (1, 1),
        (1, 40),
        (2, 2),
        (1, 2),
        (39, 40),
        (40, 40),
        (20, 40),
    ] {
        let count = MAX_SUM / step(k, l) * step(k, l);
        assert_eq!(answer(&[(k, l, count)]), refused(12, 0, 0), "{k} {l}");
    }
    assert_eq!(answer(&[(1, 1, MAX_SUM)]), refused(12, 0, 0));
    assert_eq!(answer(&[(3, 3, MAX_SUM)])[0], 12);
}

/// Cells on both sides of 2^32, and those whose product would wrap below the cell or not.
#[test]
fn around_32_bits() {
    let (mut wrapped_below, mut wrapped_above) = (0, 0);
    for (k, l) in [
        (1, 1),
        (1, 2),
        (1, 3),
        (2, 2),
        (2, 3),
        (3, 3),
        (5, 7),
        (40, 40),
    ] {
        let step = step(k, l);
        // D(k) x D(l) is 2^32 where the cell is about this.
        let at = (((k * l) as f64).sqrt() * 65_536.0) as u64 / step;
        for steps in (at - 5..at + 6).chain([2 * at, 2 * at + 1, 4 * at, 4 * at + 1]) {
            let cells = [(k, l, steps * step)];
            let product = Matrix::of(&cells).most(k, l);
            match refused_in_32_bits(&cells) {
                Some(_) => wrapped_below += 1,
                None if product >> 32 > 0 => wrapped_above += 1,
                None => {}
            }
            assert_eq!(answer(&cells), refused(12, 0, 0), "{cells:?}");
        }
    }
    println!("{wrapped_below} would wrap below the cell, {wrapped_above} not");
    assert!(wrapped_below > 10 && wrapped_above > 10);
}

/// Isolated vertices whose number would be 200 or less, alone or with others, in 8 or 16 bits.
#[test]
fn many_isolated_vertices() {
    for count in [
        201,
        256,
        256 + 200,
        65_535,
        65_536,
        65_536 + 200,
        3 * 65_536 + 1,
        1 << 24,
        MAX_SUM - 1,
        MAX_SUM,
    ] {
        assert_eq!(answer(&[(0, 0, count)]), refused(12, 0, 0), "{count}");
    }
    assert_eq!(answer(&[(0, 0, 200)]), [0, 200, 0, 0, 0, 0]);
    for count in [65_536 - 2, 65_536, 65_536 + 198, 1 << 25] {
        let cells = [(1, 1, 2), (0, 0, count)];
        assert_eq!(answer(&cells), refused(12, 0, 0), "{count}");
    }
    // The other tests come first.
    let most = MAX_SUM - MAX_COUNT;
    assert_eq!(answer(&[(0, 0, most), (2, 2, 5)]), refused(9, 2, 2));
    assert_eq!(answer(&[(0, 0, most), (1, 3, 1)]), refused(10, 3, 0));
    assert_eq!(answer(&[(0, 0, most), (2, 2, 4)]), refused(11, 2, 2));
    assert_eq!(answer(&[(0, 0, most), (2, 2, 8)]), refused(12, 0, 0));
    // Both near what a journal holds: half of the records each.
    let half = MAX_SUM / 2;
    assert_eq!(answer(&[(0, 0, half), (1, 1, half)]), refused(12, 0, 0));
}

/// A cell that is too large behind one whose product would wrap: the place tells them apart.
#[test]
fn the_cell_that_is_too_large() {
    let large = (1, 2, 1 << 17);
    assert_eq!(answer(&[large, (20, 40, 40)]), refused(11, 20, 40));
    assert_eq!(answer(&[large, (3, 9, 9)]), refused(11, 3, 9));
    assert_eq!(answer(&[large, (4, 4, 4)]), refused(11, 4, 4));
    assert_eq!(answer(&[large, (4, 4, 20)]), refused(12, 0, 0));
}

/// Some large cells together, as the reference has it; some tables would be refused in 32 bits.
#[test]
fn random_tables() {
    let mut random = Random::new(7);
    let mut told_apart = 0;
    for _ in 0..300 {
        let mut cells = Vec::new();
        let mut records = MAX_JOURNAL_RECORDS;
        for _ in 0..random.between(1, 4) {
            let (k, l) = (
                random.between(1, MAX_DEGREE),
                random.between(1, MAX_DEGREE),
            );
            let (k, l) = (k.min(l), k.max(l));
            let step = step(k, l);
            let most = random.below(records as usize + 1) as u64 * MAX_COUNT / step;
            // Powers of two wrap furthest.
            let steps = match random.below(3) {
                0 => most,
                1 => most.min(1 << random.between(10, 26)),
                _ => random.below(most as usize + 1) as u64,
            };
            let count = steps * step;
            cells.push((k, l, count));
            records -= count.div_ceil(MAX_COUNT);
        }
        let answer = answer(&cells);
        let wrapped = match refused_in_32_bits(&cells) {
            Some((k, l)) => refused(11, k as u64, l as u64),
            None => refused(12, 0, 0),
        };
        if (11..=12).contains(&answer[0]) && answer != wrapped {
            told_apart += 1;
        }
    }
    println!("{told_apart} tables tell 32 bits apart");
    assert!(told_apart > 20);
}
