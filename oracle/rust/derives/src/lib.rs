//! The derives `TryClone` and `Spanned`, as far as the published files need them.
use proc_macro::{TokenStream, TokenTree};

/// Leaves nothing: what the evaluator clones has `Clone`, and nothing clones a tree.
#[proc_macro_derive(TryClone, attributes(try_clone))]
pub fn try_clone(_: TokenStream) -> TokenStream {
    TokenStream::new()
}

/// The span of a struct is its field marked `#[rune(span)]`, that of an enum its variant's.
#[proc_macro_derive(Spanned, attributes(rune))]
pub fn spanned(item: TokenStream) -> TokenStream {
    let tokens: Vec<TokenTree> = item.into_iter().collect();
    let keyword = tokens.iter().position(|token| is(token, "struct") || is(token, "enum")).expect("a struct or an enum");
    let name = &tokens[keyword + 1];
    let Some(TokenTree::Group(body)) = tokens.last() else { panic!("{name} has no body") };
    let body: Vec<TokenTree> = body.stream().into_iter().collect();
    let span = if is(&tokens[keyword], "struct") { format!("self.{}", marked(&body)) } else { format!("match self {{ {} }}", arms(&body)) };
    format!("impl crate::ast::Spanned for {name} {{ fn span(&self) -> crate::ast::Span {{ {span} }} }}").parse().expect("Rust")
}

fn is(token: &TokenTree, word: &str) -> bool {
    matches!(token, TokenTree::Ident(ident) if ident.to_string() == word)
}

/// The field after `#[rune(span)]`: the identifier before its colon.
fn marked(fields: &[TokenTree]) -> String {
    let mark = fields.iter().position(|token| token.to_string() == "[rune(span)]").expect("a field marked as the span");
    let colon = fields[mark..].iter().position(|token| token.to_string() == ":").expect("a field with a type");
    fields[mark + colon - 1].to_string()
}

/// An arm for each variant, all of which hold one value.
fn arms(variants: &[TokenTree]) -> String {
    let held = |pair: &&[TokenTree]| matches!(pair, [TokenTree::Ident(_), TokenTree::Group(_)]);
    variants.windows(2).filter(held).map(|pair| format!("Self::{}(held) => crate::ast::Spanned::span(held),", pair[0])).collect()
}
