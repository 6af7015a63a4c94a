#[macro_export] macro_rules! warn { ($($words:tt)*) => { drop(format_args!($($words)*)) } }
