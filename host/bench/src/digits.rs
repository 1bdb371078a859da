//! A plain square root in whole numbers: 53 turns, one binary digit a turn,
//! then rounded to nearest. It is what the proved root is timed against.

pub fn root(x: f64) -> f64 {
    if x.is_nan() || x == 0.0 || x == f64::INFINITY {
        return x;
    }
    if x < 0.0 {
        return f64::NAN;
    }
    let bits = x.to_bits();
    let fraction = bits & ((1 << 52) - 1);
    let field = (bits >> 52) as i64;
    // x = m · 2^e with m of 53 digits; a subnormal is shifted into place.
    let (mut m, mut e) = if field == 0 {
        let shift = fraction.leading_zeros() - 11;
        (fraction << shift, -1074 - i64::from(shift))
    } else {
        (fraction | 1 << 52, field - 1075)
    };
    if e % 2 != 0 {
        m <<= 1;
        e -= 1;
    }
    // The root of m · 2^52, taken two digits at a time from the top.
    let (mut q, mut rest) = (0u64, 0u64);
    for turn in 0..53 {
        let pair = if turn < 27 {
            m >> (52 - 2 * turn) & 3
        } else {
            0
        };
        rest = rest << 2 | pair;
        let trial = q << 2 | 1;
        q <<= 1;
        if trial <= rest {
            rest -= trial;
            q |= 1;
        }
    }
    // Beyond q + 1/2 exactly if the rest exceeds q; no root lies on it.
    if rest > q {
        q += 1;
    }
    let field = (52 + (e - 52) / 2 + 1023) as u64;
    f64::from_bits(q & ((1 << 52) - 1) | field << 52)
}

#[cfg(test)]
mod tests {
    use super::root;

    fn check(x: f64) {
        let (ours, machine) = (root(x), x.sqrt());
        let same = ours.to_bits() == machine.to_bits() || ours.is_nan() && machine.is_nan();
        assert!(same, "root of {x:e}: {ours:e}, the machine's {machine:e}");
    }

    #[test]
    fn equals_the_machines_root() {
        for x in [0.0, -0.0, 1.0, -1.0, f64::INFINITY, f64::MAX, f64::NAN] {
            check(x);
        }
        for field in 0..2047u64 {
            for fraction in [0, 1, 2, 3, (1 << 52) - 2, (1 << 52) - 1] {
                check(f64::from_bits(field << 52 | fraction));
            }
        }
        let mut word = 1u64;
        for _ in 0..200_000 {
            word = word
                .wrapping_mul(6364136223846793005)
                .wrapping_add(1442695040888963407);
            check(f64::from_bits(word));
            check(f64::from_bits(
                (word & ((1 << 52) - 1)) >> ((word >> 58) % 52),
            ));
        }
    }
}
