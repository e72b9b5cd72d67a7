//! Stands in for strings.rs: a string is its length in four bytes, then its bytes.

use anyhow::{anyhow, Result};

pub fn write(out: &mut Vec<u8>, text: &str) -> Result<()> {
    out.extend((text.len() as u32).to_le_bytes());
    out.extend(text.as_bytes());
    Ok(())
}

pub fn read_slice(rest: &mut &[u8]) -> Result<String> {
    let length = take(rest, 4)?;
    let length = u32::from_le_bytes([length[0], length[1], length[2], length[3]]);
    let text = take(rest, length as usize)?;
    Ok(String::from_utf8(text.to_vec())?)
}

fn take<'a>(rest: &mut &'a [u8], count: usize) -> Result<&'a [u8]> {
    if rest.len() < count {
        return Err(anyhow!("a string runs past the end"));
    }
    let (head, tail) = rest.split_at(count);
    *rest = tail;
    Ok(head)
}
