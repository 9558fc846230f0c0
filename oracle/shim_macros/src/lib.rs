//! Stand-ins for the macros of serde, serde_with and thiserror. What they write is never run,
//! but for a `Display` that nobody reads.

use proc_macro::{Delimiter, Group, TokenStream, TokenTree};

/// Declares derives that write nothing.
macro_rules! empty_derives {
    ($($function:ident $name:ident)*) => { $(
        #[proc_macro_derive($name)]
        pub fn $function(_: TokenStream) -> TokenStream {
            TokenStream::new()
        }
    )* };
}

empty_derives! {
    serialize Serialize
    deserialize Deserialize
    serialize_display SerializeDisplay
    deserialize_from_str DeserializeFromStr
}

/// Gives the struct back, without the attributes of its fields.
#[proc_macro_attribute]
pub fn serde_as(_: TokenStream, item: TokenStream) -> TokenStream {
    item.into_iter().map(without_attributes).collect()
}

fn without_attributes(token: TokenTree) -> TokenTree {
    match token {
        TokenTree::Group(body) if body.delimiter() == Delimiter::Brace => {
            let fields = body.stream().into_iter().filter(|t| !of_attribute(t));
            Group::new(Delimiter::Brace, fields.collect()).into()
        }
        token => token,
    }
}

/// A `#`, or what stands in brackets behind it.
fn of_attribute(token: &TokenTree) -> bool {
    match token {
        TokenTree::Punct(punct) => punct.as_char() == '#',
        TokenTree::Group(group) => group.delimiter() == Delimiter::Bracket,
        _ => false,
    }
}

/// Makes an enum an error that displays as its `Debug` does.
#[proc_macro_derive(Error, attributes(error))]
pub fn error(item: TokenStream) -> TokenStream {
    let mut tokens = item.into_iter().map(|token| token.to_string());
    tokens.find(|token| token == "enum");
    let name = tokens.next().expect("an enum");
    format!(
        "impl std::fmt::Display for {name} {{
            fn fmt(&self, f: &mut std::fmt::Formatter<'_>) -> std::fmt::Result {{
                write!(f, \"{{self:?}}\")
            }}
        }}
        impl std::error::Error for {name} {{}}"
    )
    .parse()
    .expect("two implementations")
}
