//! Stands for the crate `versionize_derive`: derives `Versionize` for a struct with named fields, one after another in
//! the order of the text.

extern crate proc_macro;

use proc_macro::{Delimiter, TokenStream, TokenTree};

/// The names of the fields: what stands before each `:` that is not inside a type.
fn field_names(body: TokenStream) -> Vec<String> {
    let mut names = Vec::new();
    let mut last = String::new();
    let mut in_type = false;
    let mut depth = 0;
    for token in body {
        match token {
            TokenTree::Ident(ident) => {
                if !in_type {
                    last = ident.to_string();
                }
            }
            TokenTree::Punct(p) => match p.as_char() {
                ':' if !in_type => {
                    names.push(last.clone());
                    in_type = true;
                }
                '<' => depth += 1,
                '>' => depth -= 1,
                ',' if depth == 0 => in_type = false,
                _ => {}
            },
            _ => {}
        }
    }
    names
}

/// The name of a struct, and the names of its fields.
fn struct_of(input: TokenStream) -> (String, Vec<String>) {
    let mut tokens = input.into_iter();
    let mut name = String::new();
    let mut fields = Vec::new();
    while let Some(token) = tokens.next() {
        match token {
            TokenTree::Ident(ident) if ident.to_string() == "struct" => {
                if let Some(TokenTree::Ident(ident)) = tokens.next() {
                    name = ident.to_string();
                }
            }
            TokenTree::Group(group) if group.delimiter() == Delimiter::Brace => {
                fields = field_names(group.stream());
            }
            _ => {}
        }
    }
    (name, fields)
}

#[proc_macro_derive(Versionize)]
pub fn derive(input: TokenStream) -> TokenStream {
    let (name, fields) = struct_of(input);
    let writes: String = fields
        .iter()
        .map(|f| format!("::versionize::Versionize::serialize(&self.{}, to, map, version)?;", f))
        .collect();
    let reads: String =
        fields.iter().map(|f| format!("{}: ::versionize::Versionize::deserialize(from, map, version)?,", f)).collect();
    format!(
        "impl ::versionize::Versionize for {} {{
            fn serialize<W: ::std::io::Write>(&self, to: &mut W, map: &::versionize::VersionMap, version: u16) -> ::versionize::VersionizeResult<()> {{
                {}
                Ok(())
            }}
            fn deserialize<R: ::std::io::Read>(from: &mut R, map: &::versionize::VersionMap, version: u16) -> ::versionize::VersionizeResult<Self> {{
                Ok({} {{ {} }})
            }}
        }}",
        name, writes, name, reads
    )
    .parse()
    .unwrap()
}
