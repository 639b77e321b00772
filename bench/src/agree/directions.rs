//! Directions to ask for: some that are refused, and some across the edges of a list.

/// Out of the first edge and the last, back into the first, along it, and nowhere.
pub fn directions(a: &[i32]) -> [[i32; 2]; 5] {
    let corner = |i: usize| match a.get(i..i + 2) {
        Some(c) => [c[0], c[1]],
        None => [1, 1],
    };
    let step = |p: [i32; 2], q: [i32; 2]| [q[0].wrapping_sub(p[0]), q[1].wrapping_sub(p[1])];
    let [x, y] = step(corner(0), corner(2));
    let [z, w] = step(corner(a.len().saturating_sub(2)), corner(0));
    [
        [y, x.wrapping_neg()],
        [w, z.wrapping_neg()],
        [y.wrapping_neg(), x],
        [x, y],
        [0, 0],
    ]
}

/// The direction over the divisor of its parts: the one that refusal 12 lets pass.
pub fn shortest(d: [i32; 2]) -> [i32; 2] {
    let [mut common, mut rest] = d.map(i64::from);
    while rest != 0 {
        (common, rest) = (rest, common % rest);
    }
    match common.abs() {
        0 => d,
        common => d.map(|part| (i64::from(part) / common) as i32),
    }
}
