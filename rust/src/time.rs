//! Times in tenths of a second, with the marks that areas hold in their place. Their width and the marks are said
//! here and nowhere else.

/// A time or a total of times. The largest least total is 40,950,000,000.
pub type Time = u64;

/// There is no chain.
pub const NONE: Time = Time::MAX;
/// An estimate that was not asked for since the last aim.
pub const UNASKED: Time = NONE - 1;
/// The live time of a closed road.
pub const CLOSED: Time = NONE;

/// A sum of two times or marks. One that passes the marks is `NONE`: no least total is as large.
pub fn add(a: Time, b: Time) -> Time {
    a.saturating_add(b)
}

/// The two words of a time in a script, the lower first.
pub fn words(time: Time) -> [u32; 2] {
    [time as u32, (time >> u32::BITS) as u32]
}

#[cfg(test)]
mod tests {
    use super::*;

    /// As document 02 has them (A7).
    #[test]
    fn marks() {
        let marks = [NONE, CLOSED, UNASKED].map(|mark| mark.to_string());
        assert_eq!(marks, ["18446744073709551615", "18446744073709551615", "18446744073709551614"]);
        assert_eq!(Time::BITS, 64);
    }

    #[test]
    fn sums() {
        assert_eq!(add(40_950_000_000, 40_950_000_000), 81_900_000_000);
        assert_eq!([add(NONE, 7), add(1, NONE), add(NONE, NONE)], [NONE; 3]);
    }

    #[test]
    fn words_of_a_time() {
        for (time, want) in [
            (0, [0, 0]),
            (10_000_000, [10_000_000, 0]),
            (1 << 32, [0, 1]),
            ((1 << 32) - 1, [u32::MAX, 0]),
            (40_950_000_000, [2_295_294_336, 9]),
            (UNASKED, [u32::MAX - 1, u32::MAX]),
            (CLOSED, [u32::MAX; 2]),
        ] {
            assert_eq!(words(time), want);
            let [low, high] = want.map(u64::from);
            assert_eq!(low + (high << 32), time);
        }
    }
}
