//! Bit patterns at which the float helpers change what they do. Where no sign is given, both are
//! tried, and so are the patterns next to it.

/// Where the f32 format has its borders: zero, the least normal, one, the infinity, the least
/// quiet NaN, the last pattern.
pub const BORDERS: [u64; 6] = [
    0,
    0x0080_0000,
    0x3f80_0000,
    0x7f80_0000,
    0x7fc0_0000,
    0x7fff_ffff,
];

/// 0.5, 1.5, 2.5, 2^22 - 0.5, 2^22, 2^23, 2^24.
pub const WHOLE: [u64; 7] = [
    0x3f00_0000,
    0x3fc0_0000,
    0x4020_0000,
    0x4a7f_fffe,
    0x4a80_0000,
    0x4b00_0000,
    0x4b80_0000,
];

/// 2^63 and 2^64.
pub const INTEGER_ENDS: [u64; 2] = [0x5f00_0000, 0x5f80_0000];

/// 2^31.
pub const INTEGER_ENDS_32: [u64; 1] = [0x4f00_0000];

/// What a remainder is taken of, and by, with either sign: zero, the least subnormals, the largest, the
/// least normals, 0.01, 1, 1.5, 3, numbers far apart, the largest, infinity and a NaN.
pub const REMAINDERS: [u32; 20] = [
    0,
    1,
    3,
    0x007f_ffff,
    0x0080_0000,
    0x0080_0001,
    0x00ff_ffff,
    0x0100_0000,
    0x0b12_3456,
    0x3c23_d70a,
    0x3cf5_c28f,
    0x3f80_0000,
    0x3fc0_0000,
    0x4040_0000,
    0x4b00_0001,
    0x4b80_0000,
    0x7eff_ffff,
    0x7f7f_ffff,
    0x7f80_0000,
    0x7fc0_0000,
];

/// 2, 4 and 2^-148, a subnormal: about these are squares and values with no exact root.
pub const SQUARES: [u64; 3] = [0x4000_0000, 0x4080_0000, 0x0000_0002];

/// The same borders at f64.
pub const BORDERS_64: [u64; 6] = [
    0,
    0x0010_0000_0000_0000,
    0x3ff0_0000_0000_0000,
    0x7ff0_0000_0000_0000,
    0x7ff8_0000_0000_0000,
    0x7fff_ffff_ffff_ffff,
];

/// 0.5, 1.5, 2.5, 2^51 - 0.5, 2^51, 2^52, 2^53.
pub const WHOLE_64: [u64; 7] = [
    0x3fe0_0000_0000_0000,
    0x3ff8_0000_0000_0000,
    0x4004_0000_0000_0000,
    0x431f_ffff_ffff_fffe,
    0x4320_0000_0000_0000,
    0x4330_0000_0000_0000,
    0x4340_0000_0000_0000,
];

/// 2^63 and 2^64.
pub const INTEGER_ENDS_64: [u64; 2] = [0x43e0_0000_0000_0000, 0x43f0_0000_0000_0000];

/// Where narrowing has its borders.
pub const NARROW: [u64; 13] = [
    0x3ff0_0000_1000_0000, // 1 + 2^-24, a tie
    0x3ff0_0000_3000_0000, // 1 + 3 * 2^-24, a tie
    0x3690_0000_0000_0000, // 2^-150, a tie between 0 and the least f32
    0x36a0_0000_0000_0000, // 2^-149, the least f32
    0x36a8_0000_0000_0000, // 1.5 * 2^-149, a tie
    0x36b4_0000_0000_0000, // 2.5 * 2^-149, a tie
    0x380f_ffff_c000_0000, // the largest subnormal f32
    0x380f_ffff_e000_0000, // a tie between it and the least normal
    0x3810_0000_0000_0000, // the least normal f32
    0x3810_0000_1000_0000, // a tie between it and the next
    0x47ef_ffff_e000_0000, // the largest f32
    0x47ef_ffff_f000_0000, // the least that becomes infinite
    0x47f0_0000_0000_0000, // 2^128
];

/// For the helpers that pick one of their arguments: -infinity, -1, -0, 0, 1, infinity, a quiet NaN
/// and a signalling one.
pub const ORDER: [u32; 8] = [
    0xff80_0000,
    0xbf80_0000,
    0x8000_0000,
    0,
    0x3f80_0000,
    0x7f80_0000,
    0x7fc0_0000,
    0xff80_0001,
];

/// The same at f64.
pub const ORDER_64: [u64; 8] = [
    0xfff0_0000_0000_0000,
    0xbff0_0000_0000_0000,
    0x8000_0000_0000_0000,
    0,
    0x3ff0_0000_0000_0000,
    0x7ff0_0000_0000_0000,
    0x7ff8_0000_0000_0000,
    0xfff0_0000_0000_0001,
];

/// Low and high of a clamp: -1 and 1, both zeros, the zeros exchanged, -1 and 1 exchanged, a NaN
/// at either place.
pub const RANGES: [(u32, u32); 6] = [
    (0xbf80_0000, 0x3f80_0000),
    (0x8000_0000, 0),
    (0, 0x8000_0000),
    (0x3f80_0000, 0xbf80_0000),
    (0x7fc0_0000, 0x3f80_0000),
    (0xbf80_0000, 0x7fc0_0000),
];
