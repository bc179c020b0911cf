//! What the derives read of a struct or enum: name, generic parameters, fields or variants.
//!
//! It knows the shapes that the published files use: parameters without bounds, structs with named
//! fields, and structs and enum variants with one unnamed field.

#![allow(dead_code)] // each of the two crates uses a part of it

use proc_macro::{Delimiter, TokenStream, TokenTree};

pub struct Item {
    pub name: String,
    /// The parameters with their brackets, `<'sim, E>`, or nothing.
    pub generics: String,
    pub body: Body,
}

pub enum Body {
    /// The names of the fields.
    Named(Vec<String>),
    /// The type of the one field.
    Wrapper(String),
    /// Each variant's name and the type of its one field.
    Enum(Vec<(String, String)>),
}

impl Item {
    pub fn read(stream: TokenStream) -> Item {
        let tokens: Vec<TokenTree> = stream.into_iter().collect();
        let mut rest = without_head(&tokens);
        let is_enum = match word(&rest[0]).as_str() {
            "struct" => false,
            "enum" => true,
            other => panic!("the stand-in derive can't read `{other}`"),
        };
        let name = word(&rest[1]);
        rest = &rest[2..];
        let generics = text(&rest[..generics_length(rest)]);
        rest = &rest[generics_length(rest)..];
        let TokenTree::Group(group) = &rest[0] else {
            panic!("the stand-in derive can't read the body of `{name}`")
        };
        let fields = split_at_commas(group.stream());
        let body = match (is_enum, group.delimiter()) {
            (true, _) => Body::Enum(fields.iter().map(|v| variant(v)).collect()),
            (false, Delimiter::Brace) => {
                Body::Named(fields.iter().map(|f| word(&without_head(f)[0])).collect())
            }
            (false, _) => Body::Wrapper(text(without_head(&fields[0]))),
        };
        Item {
            name,
            generics,
            body,
        }
    }

    /// `impl<..> TRAIT for Name<..>`
    pub fn implementation(&self, of: &str) -> String {
        format!("impl{g} {of} for {n}{g}", g = self.generics, n = self.name)
    }
}

fn variant(tokens: &[TokenTree]) -> (String, String) {
    let tokens = without_head(tokens);
    match tokens {
        [name, TokenTree::Group(field)] => (word(name), field.stream().to_string()),
        _ => panic!(
            "the stand-in derive can't read the variant `{}`",
            text(tokens)
        ),
    }
}

/// The tokens behind attributes and visibility.
fn without_head(mut tokens: &[TokenTree]) -> &[TokenTree] {
    loop {
        tokens = match tokens {
            [TokenTree::Punct(p), TokenTree::Group(_), rest @ ..] if p.as_char() == '#' => rest,
            [TokenTree::Ident(i), TokenTree::Group(g), rest @ ..]
                if i.to_string() == "pub" && g.delimiter() == Delimiter::Parenthesis =>
            {
                rest
            }
            [TokenTree::Ident(i), rest @ ..] if i.to_string() == "pub" => rest,
            _ => return tokens,
        }
    }
}

fn generics_length(tokens: &[TokenTree]) -> usize {
    let mut depth = Depth::default();
    if depth.after(&tokens[0]) == 0 {
        return 0;
    }
    1 + tokens[1..]
        .iter()
        .position(|t| depth.after(t) == 0)
        .expect("a closing bracket")
        + 1
}

fn split_at_commas(stream: TokenStream) -> Vec<Vec<TokenTree>> {
    let mut depth = Depth::default();
    let mut parts = vec![Vec::new()];
    for token in stream {
        let comma = matches!(&token, TokenTree::Punct(p) if p.as_char() == ',');
        if depth.after(&token) == 0 && comma {
            parts.push(Vec::new());
        } else {
            parts.last_mut().unwrap().push(token);
        }
    }
    parts.retain(|part| !part.is_empty());
    parts
}

/// How many angle brackets are open. The `>` of an arrow closes none.
#[derive(Default)]
struct Depth {
    open: usize,
    dash: bool,
}

impl Depth {
    fn after(&mut self, token: &TokenTree) -> usize {
        let sign = match token {
            TokenTree::Punct(p) => p.as_char(),
            _ => ' ',
        };
        match sign {
            '<' => self.open += 1,
            '>' if !self.dash => self.open -= 1,
            _ => {}
        }
        self.dash = sign == '-';
        self.open
    }
}

fn word(token: &TokenTree) -> String {
    token.to_string()
}

fn text(tokens: &[TokenTree]) -> String {
    tokens.iter().cloned().collect::<TokenStream>().to_string()
}
