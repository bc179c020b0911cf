//! Stand-in for `derive_where`: `Clone` and `Debug` of structs with named fields, with bounds only
//! on the types named behind the semicolon.

use proc_macro::TokenStream;

#[path = "../item.rs"]
mod item;

use item::{Body, Item};

#[proc_macro_attribute]
pub fn derive_where(wanted: TokenStream, stream: TokenStream) -> TokenStream {
    let item = Item::read(stream.clone());
    let Body::Named(fields) = &item.body else {
        panic!("the stand-in `derive_where` reads named fields only")
    };
    let wanted = wanted.to_string();
    let (name, bound) = wanted.split_once(';').unwrap_or((&wanted, ""));
    let (path, method) = match name.trim() {
        "Clone" => ("::core::clone::Clone", clone(&item.name, fields)),
        "Debug" => ("::core::fmt::Debug", debug(&item.name, fields)),
        other => panic!("the stand-in `derive_where` can't derive `{other}`"),
    };
    let head = item.implementation(path);
    let clause = match bound.trim() {
        "" => String::new(),
        parameter => format!("where {parameter}: {path}"),
    };
    let mut code: TokenStream = format!("{head} {clause} {{ {method} }}").parse().unwrap();
    code.extend(stream);
    code
}

fn clone(name: &str, fields: &[String]) -> String {
    let copies: String = fields
        .iter()
        .map(|field| format!("{field}: ::core::clone::Clone::clone(&self.{field}),"))
        .collect();
    format!("fn clone(&self) -> Self {{ {name} {{ {copies} }} }}")
}

fn debug(name: &str, fields: &[String]) -> String {
    let shown: String = fields
        .iter()
        .map(|field| format!(".field({field:?}, &self.{field})"))
        .collect();
    format!(
        "fn fmt(&self, f: &mut ::core::fmt::Formatter<'_>) -> ::core::fmt::Result {{
            f.debug_struct({name:?}){shown}.finish()
        }}"
    )
}
