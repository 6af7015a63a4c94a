//! Versions.

use crate::raw;

/// The version of the header that this wrapper is written for: major × 10,000 + minor × 100 + patch.
pub const VERSION: u32 = 700;

/// Returns the version of the linked archive. If it is not [`VERSION`], the archive belongs to another header.
pub fn version() -> u32 {
    unsafe { raw::gbasave_version() }
}

#[cfg(test)]
mod tests {
    use super::{version, VERSION};

    const HEADER: &str = include_str!(env!("GBASAVE_HEADER"));

    #[test]
    fn archive_header_and_wrapper_have_one_version() {
        let text = format!("{}.{}.{}", VERSION / 10000, VERSION / 100 % 100, VERSION % 100);
        assert!(HEADER.contains(&format!("#define GBASAVE_VERSION \"{text}\"\n")));
        assert!(HEADER.contains(&format!("#define GBASAVE_VERSION_NUMBER {VERSION}\n")));
        assert_eq!((version(), env!("CARGO_PKG_VERSION")), (VERSION, text.as_str()));
    }
}
