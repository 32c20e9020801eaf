//! `#[derive_where(Debug)]` that prints the type's name; other traits are not needed by any day.

use proc_macro::{Delimiter, Group, TokenStream, TokenTree};

#[proc_macro_attribute]
pub fn derive_where(traits: TokenStream, item: TokenStream) -> TokenStream {
    let wants_debug = traits.into_iter().any(|t| t.to_string() == "Debug");
    let item = without_marks(item);
    let Some(name) = type_name(&item) else {
        return r#"compile_error!("derive_where stands only before a struct or an enum");"#
            .parse()
            .unwrap();
    };
    let mut output = item;
    if wants_debug {
        let debug: TokenStream = format!(
            "impl ::core::fmt::Debug for {name} {{
                fn fmt(&self, f: &mut ::core::fmt::Formatter<'_>) -> ::core::fmt::Result {{
                    f.write_str({name:?})
                }}
            }}"
        )
        .parse()
        .unwrap();
        output.extend(debug);
    }
    output
}

/// The item without the `#[derive_where(..)]` marks on its fields.
fn without_marks(tokens: TokenStream) -> TokenStream {
    let mut kept: Vec<TokenTree> = Vec::new();
    for token in tokens {
        match token {
            TokenTree::Group(group) if is_mark(&group, kept.last()) => {
                kept.pop();
            }
            TokenTree::Group(group) => {
                let mut inner = Group::new(group.delimiter(), without_marks(group.stream()));
                inner.set_span(group.span());
                kept.push(TokenTree::Group(inner));
            }
            other => kept.push(other),
        }
    }
    kept.into_iter().collect()
}

fn is_mark(group: &Group, before: Option<&TokenTree>) -> bool {
    let after_hash = matches!(before, Some(TokenTree::Punct(p)) if p.as_char() == '#');
    let first = group.stream().into_iter().next().map(|t| t.to_string());
    after_hash
        && group.delimiter() == Delimiter::Bracket
        && first.as_deref() == Some("derive_where")
}

fn type_name(item: &TokenStream) -> Option<String> {
    let mut words = item.clone().into_iter().map(|t| t.to_string());
    words.find(|w| w == "struct" || w == "enum")?;
    words.next()
}
