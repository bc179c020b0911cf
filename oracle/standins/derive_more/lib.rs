//! Stand-in for `derive_more`: `From` and `TryInto`.

use proc_macro::TokenStream;

#[path = "../item.rs"]
mod item;

use item::{Body, Item};

/// From each field's type: to the struct around it, or to the variant that holds it.
#[proc_macro_derive(From)]
pub fn from(stream: TokenStream) -> TokenStream {
    let item = Item::read(stream);
    let one = |field: &str, maker: &str| {
        let head = item.implementation(&format!("::core::convert::From<{field}>"));
        format!("{head} {{ fn from(value: {field}) -> Self {{ {maker}(value) }} }}")
    };
    let code: String = match &item.body {
        Body::Wrapper(field) => one(field, &item.name),
        Body::Enum(variants) => variants
            .iter()
            .map(|(name, field)| one(field, &format!("{}::{name}", item.name)))
            .collect(),
        Body::Named(_) => panic!("the stand-in `From` reads no named fields"),
    };
    code.parse().unwrap()
}

/// From an enum back to the type that a variant holds; another variant comes back as the error.
#[proc_macro_derive(TryInto)]
pub fn try_into(stream: TokenStream) -> TokenStream {
    let item = Item::read(stream);
    let Body::Enum(variants) = &item.body else {
        panic!("the stand-in `TryInto` reads enums only")
    };
    let whole = format!("{}{}", item.name, item.generics);
    let code: String = variants
        .iter()
        .map(|(name, field)| {
            format!(
                "impl{g} ::core::convert::TryFrom<{whole}> for {field} {{
                    type Error = {whole};
                    fn try_from(value: {whole}) -> ::core::result::Result<Self, {whole}> {{
                        match value {{
                            {enum_name}::{name}(field) => Ok(field),
                            #[allow(unreachable_patterns)]
                            other => Err(other),
                        }}
                    }}
                }}",
                g = item.generics,
                enum_name = item.name,
            )
        })
        .collect();
    code.parse().unwrap()
}
