//! The calls of include/grades.h for Rust: each buffer is a slice, so that no call can be made wrongly. What they take,
//! write and answer is in the header. All unsafe code on this side of the library is here.

/// For each C call a function of the same name without `grades_`. In its list `In` is a slice to read, `Out` one to
/// write, `List` one of numbers to read; C takes each as a pointer and how many elements there are behind it.
macro_rules! calls {
    ($($(#[$about:meta])* $c:ident as $name:ident($($argument:ident: $kind:ident),* $(,)?);)*) => {
        $(calls!(@one [$(#[$about])* $c $name] [] [] [] $($argument: $kind,)*);)*
    };
    (@one [$(#[$about:meta])* $c:ident $name:ident] [$($declared:tt)*] [$($taken:tt)*] [$($given:tt)*]) => {
        $(#[$about])*
        #[allow(clippy::too_many_arguments)]
        #[inline]
        pub fn $name($($taken)*) -> u32 {
            unsafe extern "C" {
                fn $c($($declared)*) -> u32;
            }
            // SAFETY: each pointer and length are those of a slice that is borrowed until the call returns, for writing
            // where C may write, so that no other slice shares a byte with it; a slice has no null pointer.
            unsafe { $c($($given)*) }
        }
    };
    (@one $call:tt [$($declared:tt)*] [$($taken:tt)*] [$($given:tt)*] $argument:ident: In, $($rest:tt)*) => {
        calls!(@one $call [$($declared)* $argument: *const u8, _: usize,] [$($taken)* $argument: &[u8],]
            [$($given)* $argument.as_ptr(), $argument.len(),] $($rest)*);
    };
    (@one $call:tt [$($declared:tt)*] [$($taken:tt)*] [$($given:tt)*] $argument:ident: List, $($rest:tt)*) => {
        calls!(@one $call [$($declared)* $argument: *const u16, _: usize,] [$($taken)* $argument: &[u16],]
            [$($given)* $argument.as_ptr(), $argument.len(),] $($rest)*);
    };
    (@one $call:tt [$($declared:tt)*] [$($taken:tt)*] [$($given:tt)*] $argument:ident: Out, $($rest:tt)*) => {
        calls!(@one $call [$($declared)* $argument: *mut u8, _: usize,] [$($taken)* $argument: &mut [u8],]
            [$($given)* $argument.as_mut_ptr(), $argument.len(),] $($rest)*);
    };
    (@one $call:tt [$($declared:tt)*] [$($taken:tt)*] [$($given:tt)*] $argument:ident: $number:ident, $($rest:tt)*) => {
        calls!(@one $call [$($declared)* $argument: $number,] [$($taken)* $argument: $number,] [$($given)* $argument,]
            $($rest)*);
    };
}

calls! {
    /// Reads a table file; answers 0.
    grades_read as read(file: In, shape: Out, lower: Out, upper: Out);
    /// Writes the file of sets that a table file becomes; answers 0.
    grades_to_sets as to_sets(file: In, out: Out);
    /// Writes the table file that a file of sets becomes; answers 0.
    grades_from_sets as from_sets(file: In, out: Out);
    /// Writes the first block's limits, of a max join; answers 0.
    grades_join_max_first as join_max_first(
        shape: In, lower: In, upper: In, s: u8, t: u8, out_lower: Out, out_upper: Out,
    );
    /// Writes the first block's limits, of a min join; answers 0.
    grades_join_min_first as join_min_first(
        shape: In, lower: In, upper: In, s: u8, t: u8, out_lower: Out, out_upper: Out,
    );
    /// Writes the second block's limits, of a max join; answers 0.
    grades_join_max_second as join_max_second(
        shape: In, lower: In, upper: In, s: u8, t: u8, g: In, out_lower: Out, out_upper: Out,
    );
    /// Writes the second block's limits, of a min join; answers 0.
    grades_join_min_second as join_min_second(
        shape: In, lower: In, upper: In, s: u8, t: u8, g: In, out_lower: Out, out_upper: Out,
    );
    /// Writes the records of a table's network; answers how many.
    grades_compile as compile(shape: In, lower: In, upper: In, work: Out, network: Out);
    /// Writes the depth of a table's network in two bytes; answers how many records it will have.
    grades_forecast as forecast(shape: In, lower: In, upper: In, work: Out, depth: Out);
    /// Writes the records of a table's network under settings; answers how many.
    grades_compile_with as compile_with(shape: In, lower: In, upper: In, settings: u8, work: Out, network: Out);
    /// Writes the depth of a table's network under settings in two bytes; answers how many records it will have.
    grades_forecast_with as forecast_with(shape: In, lower: In, upper: In, settings: u8, work: Out, depth: Out);
    /// Answers 0 for within, else 1 + 16 × cell + grade of the first cell outside.
    grades_check as check(network: In, shape: In, lower: In, upper: In, work: Out);
    /// Answers the grade.
    grades_evaluate as evaluate(network: In, shape: In, work: Out, cell: u32);
    /// Writes the grade at each cell of a list, in its order; answers 0.
    grades_evaluate_each as evaluate_each(network: In, shape: In, cells: List, grades: Out, work: Out);
}

/// What is added to a refusal's number in the answer of a single evaluation, and of every other call.
pub const REFUSED_EVALUATION: u32 = 256;
pub const REFUSED: u32 = 65_536;

/// The settings, each a bit of their byte: min wins a full tie, a split takes the condition with most values, no weak
/// joins are tried.
pub const MIN_WINS_TIES: u8 = 1;
pub const SPLITS_ON_MOST: u8 = 2;
pub const NO_WEAK_JOINS: u8 = 4;
