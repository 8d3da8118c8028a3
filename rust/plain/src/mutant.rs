//! Nineteen known errors, each behind a cargo feature. All are off in every ordinary build.

/// Whether error number `n` is built in.
pub const fn on(n: u8) -> bool {
    match n {
        1 => cfg!(feature = "m1"),
        2 => cfg!(feature = "m2"),
        3 => cfg!(feature = "m3"),
        4 => cfg!(feature = "m4"),
        5 => cfg!(feature = "m5"),
        6 => cfg!(feature = "m6"),
        7 => cfg!(feature = "m7"),
        8 => cfg!(feature = "m8"),
        9 => cfg!(feature = "m9"),
        10 => cfg!(feature = "m10"),
        11 => cfg!(feature = "m11"),
        12 => cfg!(feature = "m12"),
        13 => cfg!(feature = "m13"),
        14 => cfg!(feature = "m14"),
        15 => cfg!(feature = "m15"),
        16 => cfg!(feature = "m16"),
        17 => cfg!(feature = "m17"),
        18 => cfg!(feature = "m18"),
        19 => cfg!(feature = "m19"),
        _ => false,
    }
}
