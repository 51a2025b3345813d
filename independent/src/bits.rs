//! One bit of a byte, by the number the rules give it: 7 is the highest.

pub fn bit(byte: u8, place: u32) -> bool {
    (byte >> place) & 1 == 1
}

pub fn flag(set: bool, place: u32) -> u8 {
    u8::from(set) << place
}
