//! Atoms as decimal numbers.

/// The number whose shortest signed bytes these are, in decimal; nothing where they are not the shortest, or nil.
pub fn decimal(bytes: &[u8]) -> Option<String> {
    let (&first, rest) = bytes.split_first()?;
    let spare = match rest.first() {
        Some(second) => first == 0x00 && *second < 0x80 || first == 0xff && *second >= 0x80,
        None => first == 0x00,
    };
    if spare {
        return None;
    }
    if first < 0x80 {
        return Some(digits(bytes));
    }
    // The size of a negative number: one less, and all bits turned.
    let mut size = bytes.to_vec();
    for byte in size.iter_mut().rev() {
        let borrows = *byte == 0;
        *byte = byte.wrapping_sub(1);
        if !borrows {
            break;
        }
    }
    size.iter_mut().for_each(|byte| *byte = !*byte);
    Some(format!("-{}", digits(&size)))
}

/// The decimal digits of unsigned big-endian bytes, without zeros in front.
pub fn digits(bytes: &[u8]) -> String {
    let mut groups: Vec<u32> = bytes.rchunks(4).rev().map(|four| four.iter().fold(0, |sum, b| sum << 8 | *b as u32)).collect();
    let mut nines: Vec<u32> = Vec::new();
    while groups.iter().any(|group| *group != 0) {
        let mut rest = 0u64;
        for group in groups.iter_mut() {
            let all = rest << 32 | *group as u64;
            *group = (all / 1_000_000_000) as u32;
            rest = all % 1_000_000_000;
        }
        nines.push(rest as u32);
        let empty = groups.iter().take_while(|group| **group == 0).count();
        groups.drain(..empty);
    }
    let Some(first) = nines.pop() else {
        return "0".to_string();
    };
    nines.iter().rev().fold(first.to_string(), |text, nine| text + &format!("{nine:09}"))
}
