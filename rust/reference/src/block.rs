//! The block interleaver: byte i of word w goes to slot i * J + w.

/// Refusals of both ways: the limits of J and n, then the two lengths.
fn checked(depth: usize, n: usize, words: usize, slots: usize) -> Result<(), u8> {
    if !(1..=16).contains(&depth) || !(3..=255).contains(&n) {
        return Err(1);
    }
    if words != depth * n || slots != depth * n {
        return Err(2);
    }
    Ok(())
}

/// Words, one after the other, to slots.
pub fn spread(depth: usize, n: usize, words: &[u8], slots: &mut [u8]) -> Result<(), u8> {
    checked(depth, n, words.len(), slots.len())?;
    for w in 0..depth {
        for i in 0..n {
            slots[i * depth + w] = words[w * n + i];
        }
    }
    Ok(())
}

/// Slots back to words.
pub fn gather(depth: usize, n: usize, slots: &[u8], words: &mut [u8]) -> Result<(), u8> {
    checked(depth, n, words.len(), slots.len())?;
    for w in 0..depth {
        for i in 0..n {
            words[w * n + i] = slots[i * depth + w];
        }
    }
    Ok(())
}
