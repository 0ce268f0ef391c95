//! Adler-32 sums, as the outside pictures carry them.

/// The Adler-32 of some bytes.
pub fn adler32(bytes: &[u8]) -> u32 {
    let mut low: u32 = 1;
    let mut high: u32 = 0;
    for &byte in bytes {
        low = (low + u32::from(byte)) % 65_521;
        high = (high + low) % 65_521;
    }
    high * 65_536 + low
}

/// The Adler-32 of dots, two bytes each, the high one first.
pub fn dots_sum(dots: &[u16]) -> u32 {
    let bytes: Vec<u8> = dots.iter().flat_map(|dot| dot.to_be_bytes()).collect();
    adler32(&bytes)
}
