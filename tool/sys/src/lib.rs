//! The calls that std has no safe form of: locks on single bytes of a file, where
//! it has data, and three on memory. Linux on 64 bits. The only crate of `qstore`
//! with `unsafe`.

#[cfg(not(all(target_os = "linux", target_pointer_width = "64")))]
compile_error!("the numbers and structures here are those of Linux on 64 bits");

mod extents;
mod locks;
mod memory;

pub use extents::{data_from, hole_from};
pub use locks::{holder, share, share_as_process, Holder};
pub use memory::{advise_large_pages, peak_of_children, zeroed};

/// The system's own answer to a call that failed.
fn answered(result: i64) -> std::io::Result<i64> {
    if result < 0 {
        Err(std::io::Error::last_os_error())
    } else {
        Ok(result)
    }
}
