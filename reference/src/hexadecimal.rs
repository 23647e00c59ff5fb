//! Bytes as they are printed: two lower-case digits each.

pub fn hexadecimal(bytes: &[u8]) -> String {
    bytes.iter().map(|byte| format!("{byte:02x}")).collect()
}

#[cfg(test)]
mod tests {
    use super::*;

    #[test]
    fn two_digits_each() {
        assert_eq!(hexadecimal(&[0, 0x0a, 0xf0, 255]), "000af0ff");
        assert_eq!(hexadecimal(&[]), "");
    }
}
