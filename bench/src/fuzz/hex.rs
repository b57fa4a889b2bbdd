//! Bytes as they are printed, to be asked again: `echo HEX | xxd -r -p | ./annotate`.

pub fn hex(bytes: &[u8]) -> String {
    match bytes {
        [] => "-".into(),
        _ => bytes.iter().map(|byte| format!("{byte:02x}")).collect(),
    }
}
