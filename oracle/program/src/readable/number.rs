//! Decimal whole numbers, exactly, however long.

/// The shortest signed bytes of a number; nothing where the word is no number. Zero is nil.
pub fn signed_bytes(word: &[u8]) -> Option<Vec<u8>> {
    let (negative, digits) = match word.strip_prefix(b"-") {
        Some(digits) => (true, digits),
        None => (false, word),
    };
    if digits.is_empty() || !digits.iter().all(u8::is_ascii_digit) {
        return None;
    }
    let size = unsigned_bytes(digits);
    if size.is_empty() {
        return Some(size);
    }
    Some(if negative { negated(size) } else { with_sign_bit(size) })
}

/// Big-endian, without zeros in front.
fn unsigned_bytes(digits: &[u8]) -> Vec<u8> {
    // Groups of 32 bits, the lowest first.
    let mut groups: Vec<u32> = Vec::new();
    for nine in digits.chunks(9) {
        let scale = 10u64.pow(nine.len() as u32);
        let mut carry = nine.iter().fold(0, |sum, digit| sum * 10 + (digit - b'0') as u64);
        for group in groups.iter_mut() {
            let sum = *group as u64 * scale + carry;
            *group = sum as u32;
            carry = sum >> 32;
        }
        if carry > 0 {
            groups.push(carry as u32);
        }
    }
    let bytes = groups.iter().rev().flat_map(|group| group.to_be_bytes());
    bytes.skip_while(|byte| *byte == 0).collect()
}

fn with_sign_bit(mut size: Vec<u8>) -> Vec<u8> {
    if size[0] >= 0x80 {
        size.insert(0, 0);
    }
    size
}

/// All bits turned and one added, in one byte more than the size has; then the spare sign bytes go.
fn negated(mut size: Vec<u8>) -> Vec<u8> {
    size.insert(0, 0);
    let mut carry = true;
    for byte in size.iter_mut().rev() {
        (*byte, carry) = (!*byte).overflowing_add(carry as u8);
    }
    let spare = size.windows(2).take_while(|two| two[0] == 0xff && two[1] >= 0x80).count();
    size.split_off(spare)
}
