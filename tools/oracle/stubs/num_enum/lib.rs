//! Stand-in for the `num_enum` crate: `IntoPrimitive` for an enum with `#[repr(u8)]`.
extern crate proc_macro;
use proc_macro::{TokenStream, TokenTree};

#[proc_macro_derive(IntoPrimitive)]
pub fn into_primitive(item: TokenStream) -> TokenStream {
    let mut words = item.into_iter().filter_map(|token| match token {
        TokenTree::Ident(word) => Some(word.to_string()),
        _ => None,
    });
    while words.next().expect("IntoPrimitive: no enum found") != "enum" {}
    let name = words.next().expect("IntoPrimitive: the enum has no name");
    format!(
        "impl From<{0}> for u8 {{ fn from(value: {0}) -> u8 {{ value as u8 }} }}",
        name
    )
    .parse()
    .unwrap()
}
