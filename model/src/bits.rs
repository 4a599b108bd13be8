//! Bits as text, one character a bit, the most significant of each byte first.

pub fn text_of(bytes: &[u8]) -> String {
    bytes.iter().map(|b| format!("{b:08b}")).collect()
}

pub fn bytes_of(text: &str) -> Vec<u8> {
    text.as_bytes().chunks(8).map(|c| u8::from_str_radix(std::str::from_utf8(c).unwrap(), 2).unwrap()).collect()
}

/// The number in the `width` bits from `at` on; a bit past the end is 0, a width over 32 is 32.
pub fn number(bytes: &[u8], at: u32, width: u32) -> u32 {
    let text = text_of(bytes);
    let bits = text.chars().chain(std::iter::repeat('0')).skip(text.len().min(at as usize)).take(width.min(32) as usize);
    u32::from_str_radix(&format!("0{}", bits.collect::<String>()), 2).unwrap()
}

/// The `width` lowest bits of the value at `at`; a bit past the end is dropped, a width over 32 is 32.
pub fn put(bytes: &mut [u8], at: u32, width: u32, value: u32) {
    let mut text: Vec<char> = text_of(bytes).chars().collect();
    let new = format!("{value:032b}");
    let new = new[32 - width.min(32) as usize..].chars();
    for (place, bit) in text.iter_mut().skip(at as usize).zip(new) {
        *place = bit;
    }
    bytes.copy_from_slice(&bytes_of(&text.into_iter().collect::<String>()));
}
