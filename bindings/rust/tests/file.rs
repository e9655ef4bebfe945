//! Sheets in files: written and read back, and every refusal.

mod common;

use common::Rng;
use tevalumi::raw::{limits, FiguresMut};
use tevalumi::sheet::{BadFile, Edit, Figures, Refusal, Sheet};
use tevalumi::ComparisonOp;

/// Bytes of a block.
const BLOCK: usize = limits::BLOCK;

fn n5() -> Figures {
    Figures {
        rows: 1,
        columns: 2,
        coefs: vec![1, 1],
        costs: vec![-3, -1],
        lowers: vec![Some(0), Some(0)],
        uppers: vec![None, Some(2)],
        rhs: vec![4],
        ops: vec![ComparisonOp::Le],
        amounts: vec![4, 0],
        mults: vec![-3072],
    }
}

/// A plan of that size with numbers up to their limits.
fn large(rows: usize, columns: usize, rng: &mut Rng) -> Figures {
    let mut up_to = |most: i64, n: usize| -> Vec<i64> {
        let numbers = (0..n).map(|_| rng.between(-most, most));
        numbers.collect()
    };
    Figures {
        rows,
        columns,
        coefs: up_to(limits::SHEET_COEFFICIENT, rows * columns),
        costs: up_to(limits::SHEET_COST, columns),
        lowers: up_to(limits::SHEET_AMOUNT, columns)
            .into_iter()
            .map(|low| (low % 3 != 0).then_some(low))
            .collect(),
        uppers: vec![Some(limits::SHEET_AMOUNT); columns],
        rhs: up_to(limits::SHEET_RIGHT, rows),
        ops: up_to(1, rows)
            .into_iter()
            .map(|op| match op {
                -1 => ComparisonOp::Le,
                0 => ComparisonOp::Eq,
                _ => ComparisonOp::Ge,
            })
            .collect(),
        amounts: up_to(limits::SHEET_AMOUNT, columns),
        mults: up_to(limits::SHEET_MULTIPLIER, rows),
    }
}

/// The check of a block, as document 02 has it.
fn renew(file: &mut [u8], place: usize) {
    let block = &mut file[BLOCK * place..BLOCK * (place + 1)];
    let weighed = block[..508].iter().zip(1u32..);
    let sum: u32 = weighed
        .map(|(&byte, weight)| weight * u32::from(byte))
        .sum();
    block[508..].copy_from_slice(&sum.to_le_bytes());
}

#[test]
fn a_sheet_comes_back() {
    let mut rng = Rng(5);
    let mut sheets = vec![
        Sheet::open(&Figures::default()).unwrap(),
        Sheet::open(&n5()).unwrap(),
    ];
    for (rows, columns) in [
        (96, 128),
        (96, 0),
        (0, 128),
        (63, 1),
        (64, 1),
        (1, 63),
        (1, 64),
    ] {
        sheets.push(Sheet::open(&large(rows, columns, &mut rng)).unwrap());
    }
    for sheet in &sheets {
        let file = sheet.to_bytes();
        assert_eq!(file.len() % BLOCK, 0);
        assert_eq!(Sheet::from_bytes(&file).as_ref(), Ok(sheet));
    }
    assert_eq!(sheets[2].to_bytes().len(), limits::FILE);
    // After an edit too, kept numbers and all.
    let mut sheet = sheets.remove(1);
    sheet.edit(Edit::DropUpper { column: 1 }).unwrap();
    sheet.edit(Edit::Amount { column: 1, to: 7 }).unwrap();
    assert_eq!(Sheet::from_bytes(&sheet.to_bytes()), Ok(sheet));
}

#[test]
fn every_refusal_with_its_block() {
    let file = Sheet::open(&n5()).unwrap().to_bytes();
    type Change = fn(&mut Vec<u8>);
    let cases: [(Change, Option<usize>, Refusal, usize); 12] = [
        (|f| f[BLOCK] = 11, Some(1), Refusal::UnknownBlock, 1),
        (|f| f[2 * BLOCK + 3] ^= 1, None, Refusal::WrongCheck, 2),
        (|f| f[BLOCK] = 3, Some(1), Refusal::MisplacedBlock, 1),
        (|f| f[BLOCK + 1] = 2, Some(1), Refusal::MisplacedBlock, 1),
        (|f| f.truncate(6143), None, Refusal::MisplacedBlock, 11),
        (|f| f.truncate(0), None, Refusal::MisplacedBlock, 0),
        (|f| f.push(0), None, Refusal::MisplacedBlock, 12),
        (|f| f.extend([0; BLOCK]), None, Refusal::UnknownBlock, 12),
        (|f| f[BLOCK + 507] = 1, Some(1), Refusal::UnusedByte, 1),
        (|f| f[3] = 97, Some(0), Refusal::BadSize, 0),
        (|f| f[6 * BLOCK + 3] = 2, Some(6), Refusal::BadNumber, 11),
        (
            |f| f[3 * BLOCK + 11] = 3,
            Some(3),
            Refusal::CrossedBounds,
            11,
        ),
    ];
    for (change, renewed, refusal, block) in cases {
        let mut bad = file.clone();
        change(&mut bad);
        if let Some(place) = renewed {
            renew(&mut bad, place);
        }
        assert_eq!(Sheet::from_bytes(&bad), Err(BadFile { refusal, block }));
    }
}

/// One byte changed is 31 or 32 and its own block, every byte of a file.
#[test]
fn one_byte_changed() {
    let mut file = Sheet::open(&n5()).unwrap().to_bytes();
    let mut rng = Rng(6);
    for at in 0..file.len() {
        let was = file[at];
        file[at] = was.wrapping_add(rng.between(1, 255) as u8);
        let known = matches!(file[at], 1..=10 | 255);
        let refusal = match at % BLOCK == 0 && !known {
            true => Refusal::UnknownBlock,
            false => Refusal::WrongCheck,
        };
        let block = at / BLOCK;
        assert_eq!(Sheet::from_bytes(&file), Err(BadFile { refusal, block }));
        file[at] = was;
    }
}

/// The raw calls over lent memory: lengths, and cells that stay.
#[test]
fn lent_memory() {
    let file = Sheet::open(&n5()).unwrap().to_bytes();
    for lent_amounts in [1, 2] {
        let (mut coefs, mut costs, mut rhs) = ([7; 3], [7; 3], [7; 2]);
        let (mut lowers, mut uppers, mut amounts, mut mults) = ([7; 2], [7; 2], [7; 2], [7; 1]);
        let (mut low, mut up, mut ops) = ([7; 2], [7; 2], [7; 1]);
        let read = FiguresMut {
            coefs: &mut coefs,
            costs: &mut costs,
            lowers: &mut lowers,
            uppers: &mut uppers,
            lower_marks: &mut low,
            upper_marks: &mut up,
            rhs: &mut rhs,
            ops: &mut ops,
            amounts: &mut amounts[..lent_amounts],
            mults: &mut mults,
        }
        .read_plan(&file);
        if lent_amounts < 2 {
            let (refusal, block) = (Refusal::BadSize, 0);
            assert_eq!(read, Err(BadFile { refusal, block }));
            assert_eq!((coefs, costs, rhs), ([7; 3], [7; 3], [7; 2]));
            assert_eq!((amounts, mults), ([7; 2], [7; 1]));
            assert_eq!((lowers, uppers), ([7; 2], [7; 2]));
            assert_eq!((low, up, ops), ([7; 2], [7; 2], [7; 1]));
            continue;
        }
        assert_eq!(read, Ok((1, 2)));
        assert_eq!((coefs, costs, rhs), ([1, 1, 7], [-3, -1, 7], [4, 7]));
        assert_eq!((amounts, mults), ([4, 0], [-3072]));
        assert_eq!((lowers, uppers), ([0, 0], [0, 2]));
        assert_eq!((low, up, ops), ([1, 1], [0, 1], [0]));
    }
}
