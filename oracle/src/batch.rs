//! The batch format: 32-bit length, low byte first, then that many bytes.

pub fn split(bytes: &[u8]) -> Result<Vec<&[u8]>, String> {
    let mut sheets = Vec::new();
    let mut rest = bytes;
    while !rest.is_empty() {
        let (length, after) = rest.split_first_chunk::<4>().ok_or("a cut length")?;
        let length = u32::from_le_bytes(*length) as usize;
        if after.len() < length {
            return Err("a cut sheet".to_owned());
        }
        let (sheet, after) = after.split_at(length);
        sheets.push(sheet);
        rest = after;
    }
    Ok(sheets)
}

pub fn push(batch: &mut Vec<u8>, sheet: &[u8]) {
    batch.extend((sheet.len() as u32).to_le_bytes());
    batch.extend(sheet);
}
