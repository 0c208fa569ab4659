// A small stand-in for num_enum, with the rule of its version 0.7: a number that no variant has is
// an error, also if one variant is marked #[default]. Version 0.5 takes that variant instead (D1 in
// docs/DIFFERENCES.md). It knows no more than dsp.rs needs: an enum with #[repr(..)] whose
// variants are `Name = number`.
use proc_macro::{Delimiter, TokenStream, TokenTree};

struct Enum {
    name: String,
    repr: String,
    variants: Vec<(String, String)>,
}

fn parse(input: TokenStream) -> Enum {
    let tokens: Vec<TokenTree> = input.into_iter().collect();
    let mut found = Enum { name: String::new(), repr: String::new(), variants: vec![] };
    for (i, token) in tokens.iter().enumerate() {
        match token {
            TokenTree::Ident(word) if word.to_string() == "enum" => {
                found.name = tokens[i + 1].to_string();
            }
            TokenTree::Group(g) if g.delimiter() == Delimiter::Bracket => {
                let text: String = g.stream().to_string().split_whitespace().collect();
                if let Some(rest) = text.strip_prefix("repr(") {
                    found.repr = rest.trim_end_matches(')').to_string();
                }
            }
            TokenTree::Group(g) if g.delimiter() == Delimiter::Brace => {
                let body: Vec<TokenTree> = g.stream().into_iter().collect();
                for three in body.windows(3) {
                    if let [TokenTree::Ident(v), TokenTree::Punct(p), TokenTree::Literal(n)] = three
                    {
                        assert_eq!(p.as_char(), '=');
                        found.variants.push((v.to_string(), n.to_string()));
                    }
                }
            }
            _ => {}
        }
    }
    assert!(!found.name.is_empty() && !found.repr.is_empty() && !found.variants.is_empty());
    found
}

#[proc_macro_derive(TryFromPrimitive)]
pub fn try_from_primitive(input: TokenStream) -> TokenStream {
    let Enum { name, repr, variants } = parse(input);
    let arms: String = variants.iter().map(|(v, n)| format!("{n} => Ok({name}::{v}),")).collect();
    format!(
        "impl ::core::convert::TryFrom<{repr}> for {name} {{
            type Error = {repr};
            fn try_from(n: {repr}) -> ::core::result::Result<Self, {repr}> {{
                match n {{ {arms} _ => Err(n) }}
            }}
        }}"
    )
    .parse()
    .unwrap()
}

#[proc_macro_derive(IntoPrimitive)]
pub fn into_primitive(input: TokenStream) -> TokenStream {
    let Enum { name, repr, .. } = parse(input);
    format!("impl From<{name}> for {repr} {{ fn from(e: {name}) -> {repr} {{ e as {repr} }} }}")
        .parse()
        .unwrap()
}
