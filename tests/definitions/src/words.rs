//! The number that the checker prints, back into the words that `packed` of crates/facts_words/specs/Words.antt put into it.

/// The words of a decimal number written as 1 and then 64 bits for each word; none where it is no such number.
pub fn unpack(decimal: &str) -> Option<Vec<u64>> {
    let mut limbs: Vec<u64> = vec![0];
    for digit in decimal.bytes() {
        if !digit.is_ascii_digit() {
            return None;
        }
        times_ten_plus(&mut limbs, u128::from(digit - b'0'));
    }
    while limbs.len() > 1 && limbs.last() == Some(&0) {
        limbs.pop();
    }
    limbs.reverse();
    (limbs.first() == Some(&1)).then(|| limbs[1..].to_vec())
}

fn times_ten_plus(limbs: &mut Vec<u64>, digit: u128) {
    let mut carry = digit;
    for limb in limbs.iter_mut() {
        let sum = u128::from(*limb) * 10 + carry;
        *limb = sum as u64;
        carry = sum >> 64;
    }
    if carry > 0 {
        limbs.push(carry as u64);
    }
}
