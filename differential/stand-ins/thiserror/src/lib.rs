//! Stand-in for thiserror: `Display` and `Error` for an enum each of whose variants carries
//! `#[error("...")]`. `#[from]` is accepted and gives nothing.

use proc_macro::{Delimiter, Spacing, TokenStream, TokenTree};

#[proc_macro_derive(Error, attributes(error, from))]
pub fn derive_error(input: TokenStream) -> TokenStream {
    let mut name = String::new();
    let mut arms = String::new();
    let mut tokens = input.into_iter();
    while let Some(token) = tokens.next() {
        match token {
            TokenTree::Ident(word) if word.to_string() == "enum" => {
                name = tokens.next().expect("a name after enum").to_string();
            }
            TokenTree::Group(group) if group.delimiter() == Delimiter::Brace => {
                arms = variants(&name, group.stream());
            }
            _ => {}
        }
    }
    let code = format!(
        "impl ::std::fmt::Display for {name} {{
            fn fmt(&self, f: &mut ::std::fmt::Formatter<'_>) -> ::std::fmt::Result {{
                match self {{ {arms} }}
            }}
        }}
        impl ::std::error::Error for {name} {{}}"
    );
    code.parse().expect("the code is Rust")
}

/// One match arm for each variant.
fn variants(name: &str, body: TokenStream) -> String {
    let mut arms = String::new();
    let mut text = String::new();
    let mut variant = String::new();
    let mut fields = (String::new(), String::new());
    for token in body {
        match token {
            TokenTree::Ident(word) => variant = word.to_string(),
            TokenTree::Group(group) => match group.delimiter() {
                Delimiter::Bracket => text = error_text(group.stream()).unwrap_or(text),
                Delimiter::Parenthesis => fields = tuple_fields(group.stream()),
                Delimiter::Brace => fields = named_fields(group.stream()),
                Delimiter::None => {}
            },
            TokenTree::Punct(sign) if sign.as_char() == ',' => {
                let (pattern, arguments) = std::mem::take(&mut fields);
                arms += &format!("{name}::{variant} {pattern} => ::std::write!(f, {text} {arguments}),\n");
            }
            _ => {}
        }
    }
    arms
}

/// The literal of `error("...")`; none for another attribute.
fn error_text(attribute: TokenStream) -> Option<String> {
    let mut tokens = attribute.into_iter();
    match (tokens.next(), tokens.next()) {
        (Some(TokenTree::Ident(word)), Some(TokenTree::Group(group))) if word.to_string() == "error" => {
            Some(group.stream().to_string())
        }
        _ => None,
    }
}

/// The pattern and the arguments of a tuple variant: `(f0, f1)` and `, f0, f1`.
fn tuple_fields(fields: TokenStream) -> (String, String) {
    let commas =
        fields.into_iter().filter(|token| matches!(token, TokenTree::Punct(sign) if sign.as_char() == ',')).count();
    let names: Vec<String> = (0..=commas).map(|i| format!("f{i}")).collect();
    let list = names.join(", ");
    (format!("({list})"), format!(", {list}"))
}

/// The pattern of a variant with named fields; the text names them itself.
fn named_fields(fields: TokenStream) -> (String, String) {
    let tokens: Vec<TokenTree> = fields.into_iter().collect();
    let mut names = String::new();
    for pair in tokens.windows(2) {
        if let [TokenTree::Ident(word), TokenTree::Punct(sign)] = pair {
            if sign.as_char() == ':' && sign.spacing() == Spacing::Alone {
                names += &format!("{word}, ");
            }
        }
    }
    (format!("{{ {names} }}"), String::new())
}
