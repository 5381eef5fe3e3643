//! A small stand-in for the crate of this name: the attribute that gives a function of SQL its documentation.

use proc_macro::{TokenStream, TokenTree};

/// Leaves the item as it is, and gives the struct a method `doc` that answers no documentation.
#[proc_macro_attribute]
pub fn user_doc(_documentation: TokenStream, item: TokenStream) -> TokenStream {
    let name = struct_name(item.clone()).expect("an attribute of a struct");
    let method = format!(
        "impl {name} {{
            fn doc(&self) -> Option<&datafusion_expr::Documentation> {{
                None
            }}
        }}"
    );
    let method: TokenStream = method.parse().expect("a method");
    [item, method].into_iter().collect()
}

// The word after `struct`.
fn struct_name(item: TokenStream) -> Option<String> {
    let mut words = item.into_iter().filter_map(|token| match token {
        TokenTree::Ident(word) => Some(word.to_string()),
        _ => None,
    });
    words.find(|word| word == "struct")?;
    words.next()
}
