//! The sizes of the C interface and the limits of its calls, as include/gomurin.h has them: each is said here and nowhere else.

/// Sites of a group or a word, at most; also the places for the targets of one generator.
pub const MAX_SITES: usize = 2048;
/// Bytes of one plane of a word.
pub const PLANE_BYTES: usize = MAX_SITES / 8;
/// Bytes of a word: the X plane, then the Z plane.
pub const WORD_BYTES: usize = 2 * PLANE_BYTES;
/// Sites of a word in the old form, at most.
pub const OLD_SITES: usize = 256;
/// Bytes of one plane of a word in the old form; those that it lacks are 0.
pub const OLD_PLANE_BYTES: usize = OLD_SITES / 8;
/// Bytes of a word in the old form.
pub const OLD_WORD_BYTES: usize = 2 * OLD_PLANE_BYTES;
/// Generators of a group, at most.
pub const MAX_GENERATORS: usize = 4;
/// Places for the targets of a group.
pub const TARGETS: usize = MAX_GENERATORS * MAX_SITES;
/// The largest group order.
pub const MAX_ORDER: usize = 1 << 20;
/// Rows of a sum, at most.
pub const MAX_ROWS: usize = 4096;
/// The largest whole coefficient of a sum, and less its sign the least.
pub const MAX_COEFFICIENT: i64 = 1 << 20;
/// Entries of the table of phases: a turn has so many steps.
pub const PHASES: usize = 720;
/// Bytes of the file of a phase table, at most.
pub const MAX_FILE: usize = 65_536;
/// Bytes of a sheet, at most.
pub const MAX_SHEET: usize = 65_536;
/// Bytes that suffice for the table of any sheet.
pub const MAX_TABLE: usize = 262_208;
/// Numbers that every call writes beside its answer.
pub const VALUES: usize = 4;
