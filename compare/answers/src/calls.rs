//! The calls of an implementation, as a trait. They stand in one table, from which
//! the trait, its implementations and the short forms are made.

/// `trait`: the trait. `functions Side "name"`: it implemented for a unit struct by
/// the free functions of the crate. `short`: the calls without the backing file's
/// bytes, which are the same for all.
#[macro_export]
macro_rules! calls {
    ($make:ident $($head:tt)*) => {
        $crate::calls! { @$make [$($head)*]
            fn geometry(image: &[u8]) -> Result<$crate::Geometry, u32>;
            /// What stands behind an offset.
            fn translate(image: &[u8], offset: u64) -> $crate::Found;
            fn read(image: &[u8], offset: u64, out: &mut [u8]) -> Result<(), u32>;
            /// The same through the L1 table of a snapshot, which is named by its number.
            fn read_snapshot(
                image: &[u8], snapshot: u64, offset: u64, out: &mut [u8]
            ) -> Result<(), u32>;
            fn lookup<'a>(image: &'a [u8], offset: u64) -> &'a [u8];
            /// Fills rows of three numbers with the runs of the range; how many.
            fn runs(image: &[u8], offset: u64, len: u64, rows: &mut [u64]) -> Result<usize, u32>;
            fn write(image: &mut [u8], offset: u64, data: &[u8], allowance: u64) -> $crate::Outcome;
            fn discard(image: &mut [u8], cluster: u64, allowance: u64) -> $crate::Outcome;
            fn repair(image: &mut [u8], scratch: &mut [u8], allowance: u64) -> $crate::Outcome;
            /// Fills rows of four numbers with the steps of a write of `len` bytes; how
            /// many.
            fn write_steps(
                image: &[u8], offset: u64, len: u64, rows: &mut [u64]
            ) -> Result<usize, u32>;
            /// The same for a discard.
            fn discard_steps(image: &[u8], cluster: u64, rows: &mut [u64]) -> Result<usize, u32>;
            /// The same for a repair.
            fn repair_steps(
                image: &[u8], scratch: &mut [u8], rows: &mut [u64]
            ) -> Result<usize, u32>;
            fn check(image: &[u8], scratch: &mut [u8]) -> $crate::Verdict;
            /// The check's next portion, of `may` L1 entries at most.
            fn check_portion(
                image: &[u8], state: &mut $crate::CheckBytes, scratch: &mut [u8], may: u64
            ) -> $crate::Portion;
        }
    };
    (@trait [] $($(#[$doc:meta])* fn $call:ident $(<$life:lifetime>)? (
        $image:ident: $kind:ty $(, $arg:ident: $type:ty)*
    ) -> $answer:ty;)*) => {
        /// The calls of one implementation. Each is lent the image and the bytes of
        /// its backing file, none of them where it has none.
        pub trait Calls {
            fn name(&self) -> &'static str;
            $($(#[$doc])* fn $call $(<$life>)? (
                &self, $image: $kind, backing: &[u8] $(, $arg: $type)*
            ) -> $answer;)*
            /// The name of the backing file, a part of the image; empty where there is
            /// no backing file.
            fn backing_name<'a>(&self, image: &'a [u8]) -> Result<&'a [u8], u32>;
            /// Takes in what was appended to an image of `old` bytes.
            fn extend(&self, image: &mut [u8], old: u64, allowance: u64) -> $crate::Outcome;
            fn difference(&self, stored: u64, figure: u16) -> i32;
        }
    };
    (@functions [$side:ident $name:literal] $($(#[$doc:meta])* fn $call:ident $(<$life:lifetime>)? (
        $image:ident: $kind:ty $(, $arg:ident: $type:ty)*
    ) -> $answer:ty;)*) => {
        impl $crate::Calls for $side {
            fn name(&self) -> &'static str {
                $name
            }
            $(fn $call $(<$life>)? (
                &self, $image: $kind, backing: &[u8] $(, $arg: $type)*
            ) -> $answer {
                $call($image, backing $(, $arg)*)
            })*
            fn backing_name<'a>(&self, image: &'a [u8]) -> Result<&'a [u8], u32> {
                backing_name(image)
            }
            fn extend(&self, image: &mut [u8], old: u64, allowance: u64) -> $crate::Outcome {
                extend(image, old, allowance)
            }
            fn difference(&self, stored: u64, figure: u16) -> i32 {
                difference(stored, figure)
            }
        }
    };
    (@short [] $($(#[$doc:meta])* fn $call:ident $(<$life:lifetime>)? (
        $image:ident: $kind:ty $(, $arg:ident: $type:ty)*
    ) -> $answer:ty;)*) => {
        impl Over<'_> {
            $($(#[$doc])* pub fn $call $(<$life>)? (
                &self, $image: $kind $(, $arg: $type)*
            ) -> $answer {
                self.calls.$call($image, self.backing $(, $arg)*)
            })*
        }
    };
}

calls!(trait);
calls!(short);

/// An implementation over a backing file: each call is lent the same bytes of it.
#[derive(Clone, Copy)]
pub struct Over<'c> {
    pub calls: &'c dyn Calls,
    pub backing: &'c [u8],
}

impl<'c> Over<'c> {
    /// No bytes of a backing file are lent.
    pub const fn none(calls: &'c dyn Calls) -> Over<'c> {
        Over { calls, backing: &[] }
    }
}
