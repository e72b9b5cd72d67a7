//! Listings as the program `listing` prints them.

use crate::format::*;
use crate::names::{ARITH, BI, CLASSES, FUSED, UNI};

fn register(byte: u8) -> String {
    match byte {
        LISTING_RET => "Ret".to_string(),
        LISTING_TEMP => "Temp".to_string(),
        general => format!("G{general}"),
    }
}

fn registers(bytes: &[u8]) -> String {
    bytes.iter().map(|b| format!(" {}", register(*b))).collect()
}

fn place(bytes: &[u8]) -> String {
    format!(" {} {}", CLASSES[bytes[0] as usize], two(bytes, 1))
}

/// One record of an accepted listing.
pub fn record(record: &[u8]) -> String {
    let f = &record[4..];
    match two(record, 2) {
        1 => format!("{}{}", UNI[f[0] as usize], registers(&f[1..])),
        2 => format!("{}{}", BI[f[0] as usize], registers(&f[1..])),
        3 => format!("Mov{}", registers(f)),
        4 => format!("Load{}{}", registers(&f[..1]), place(&f[1..])),
        5 => format!("Save{}{}", registers(&f[..1]), place(&f[1..])),
        6 => format!("LoadConst{} {}", registers(&f[..1]), two(f, 1)),
        7 => format!("{}{}", FUSED[f[0] as usize], registers(&f[1..])),
        8 => format!("IfElse{}{}", registers(&f[..3]), place(&f[3..])),
        11 => format!("LoadComplex{}{}", registers(&f[..2]), place(&f[2..])),
        12 => format!("SaveComplex{}{}", registers(&f[..2]), place(&f[2..])),
        13 => format!("{}Complex{}", ARITH[f[0] as usize], registers(&f[1..])),
        14 => format!("Label {}", f[0]),
        15 => format!("Branch {}", f[0]),
        16 => format!("Call {}", f[0]),
        17 => format!("BranchIf{} {} {}", registers(&f[..1]), f[1], f[2]),
        kind => panic!("kind {kind} in a listing"),
    }
}

/// All that the program prints for an accepted sheet.
pub fn page(listing: &[u8], constants: &[u64]) -> String {
    let found = records(listing);
    let mut text = format!("constants {}\n", constants.len());
    for (index, bits) in constants.iter().enumerate() {
        text += &format!("{index} {bits:016x}\n");
    }
    text += &format!("listing {} {}\n", found.len(), listing.len());
    for bytes in found {
        text += &record(bytes);
        text.push('\n');
    }
    text
}
