//! The text of examples: numbers in it.

/// Numbers in hexadecimal; those left out are 0.
pub fn numbers<const N: usize>(text: &str) -> Option<[u32; N]> {
    let mut numbers = [0; N];
    for (k, digits) in text.split_whitespace().enumerate() {
        *numbers.get_mut(k)? = u32::from_str_radix(digits, 16).ok()?;
    }
    Some(numbers)
}
