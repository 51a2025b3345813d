//! Bytes as a reader of a difference wants them.

pub fn print(bytes: &[u8]) {
    for line in bytes.chunks(32) {
        let bytes: Vec<String> = line.iter().map(|byte| format!("{byte:02X}")).collect();
        println!("{}", bytes.join(" "));
    }
}
