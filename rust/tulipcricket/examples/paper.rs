//! Lowers document 01's sheet on paper (Mem 4 = 2 * Mem 3), tells how many registers the listing draws on, looks at record 1 and plays the listing
//! on Mem 3 = 3 + 4i.

use tulipcricket::sheet::{Bi, Mode, Sheet};
use tulipcricket::{look, lower, play, Class, Refused, Store, LISTING_LIMIT};

fn main() -> Result<(), Refused> {
    let mut sheet = Sheet::new(Mode::Plain);
    let two = sheet.constant(2.0);
    sheet.load_const(0, two).load(1, Class::Mem, 3).bi(Bi::Times, 0, 0, 1).save(0, Class::Mem, 4);
    let lowered = lower(&sheet.bytes(), LISTING_LIMIT)?;
    println!("the listing draws on {} registers", lowered.drawn().len());
    let mut store = Store::new();
    store.set_place(Class::Mem, 3, (3.0, 4.0));
    let looked = look(&lowered.listing, &lowered.constants, &store, 1)?;
    let written: Vec<String> =
        looked.words.iter().map(|(i, bits)| format!("G{i} = {}", f64::from_bits(*bits))).collect();
    println!("record 1 writes {}; next {}", written.join(", "), looked.follows);
    let answer = play(&lowered.listing, &lowered.constants, &mut store, 0)?;
    let (real, imaginary) = store.place(Class::Mem, 4);
    println!("Mem 4 = {real} + {imaginary}i after {} records", answer.played);
    Ok(())
}
