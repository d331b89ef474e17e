//! Stands in for the crate of this name, of which the reference uses one derive on a plain struct:
//! there is no registry at hand when the comparison is built.

use proc_macro::{TokenStream, TokenTree};

/// `impl std::error::Error` for a type without parameters.
#[proc_macro_derive(Error)]
pub fn derive_error(item: TokenStream) -> TokenStream {
    let mut tokens = item.into_iter();
    let is_keyword = |t: &TokenTree| matches!(t, TokenTree::Ident(i) if ["struct", "enum"].contains(&i.to_string().as_str()));
    tokens.find(is_keyword).expect("a struct or an enum");
    let name = tokens.next().expect("a name");
    format!("impl ::std::error::Error for {name} {{}}").parse().expect("an impl")
}
