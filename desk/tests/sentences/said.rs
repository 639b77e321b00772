//! What a sentence must say or must not say.

/// Fails unless the words are said.
pub fn needs(said: &str, words: &str) -> Result<(), String> {
    if said.contains(words) {
        return Ok(());
    }
    Err(format!("`{words}` is not said"))
}

/// Fails if the words are said.
pub fn never(said: &str, words: &str) -> Result<(), String> {
    if said.contains(words) {
        return Err(format!("`{words}` is said"));
    }
    Ok(())
}

/// `rounded down` is said exactly if the fraction n/d of the root of a square is not the whole number w, which it is
/// rounded down. The two products differ by less than 2^128, so they are equal if they are when they wrap.
pub fn rounded_part(said: &str, [n, d]: [i128; 2], squared: i128, w: i128) -> Result<(), String> {
    if (n * n).wrapping_mul(squared) == (w * w).wrapping_mul(d * d) {
        never(said, "rounded down")
    } else {
        needs(said, "rounded down")
    }
}

/// `rounded down` is said exactly if the distance t/√q is not whole.
pub fn rounding(said: &str, t: i128, q: i128, w: i128) -> Result<(), String> {
    if w * w * q > t * t || (w + 1) * (w + 1) * q <= t * t {
        return Err(format!("{w} is not {t}/√{q} rounded down"));
    }
    if w * w * q == t * t {
        never(said, "rounded down")
    } else {
        needs(said, "rounded down")
    }
}
