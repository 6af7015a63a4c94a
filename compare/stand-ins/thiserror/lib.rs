#[proc_macro_derive(Error, attributes(error))] pub fn error(_: proc_macro::TokenStream) -> proc_macro::TokenStream { Default::default() }
