//! Stand-ins for the derives that the originals name: thiserror::Error,
//! derive_more::Display, and some whose impls nothing here asks for.
use proc_macro::{Delimiter, Group, TokenStream, TokenTree};

struct Variant {
    name: String,
    /// The literal of `#[error("...")]`, quotes and all.
    error: Option<String>,
    fields: usize,
}

fn fields(g: &Group) -> usize {
    let (mut n, mut angle, mut any) = (0, 0i32, false);
    for t in g.stream() {
        match &t {
            TokenTree::Punct(p) if p.as_char() == '<' => angle += 1,
            TokenTree::Punct(p) if p.as_char() == '>' => angle -= 1,
            TokenTree::Punct(p) if p.as_char() == ',' && angle == 0 => {
                n += 1;
                any = false;
                continue;
            }
            _ => {}
        }
        any = true;
    }
    n + any as usize
}

fn error_text(g: &Group) -> Option<String> {
    let mut it = g.stream().into_iter();
    match (it.next(), it.next()) {
        (Some(TokenTree::Ident(i)), Some(TokenTree::Group(g))) if i.to_string() == "error" => {
            match g.stream().into_iter().next() {
                Some(TokenTree::Literal(l)) => Some(l.to_string()),
                _ => panic!("error attribute without a literal"),
            }
        }
        _ => None,
    }
}

/// Name and variants of an enum without type parameters.
fn parse(input: TokenStream) -> (String, Vec<Variant>) {
    let mut it = input.into_iter();
    let mut name = None;
    while let Some(t) = it.next() {
        match t {
            TokenTree::Ident(i) if i.to_string() == "enum" => {
                name = Some(it.next().expect("a name after enum").to_string());
            }
            TokenTree::Group(g) if g.delimiter() == Delimiter::Brace => {
                let mut out = Vec::new();
                let mut error = None;
                for t in g.stream() {
                    match t {
                        TokenTree::Group(g) if g.delimiter() == Delimiter::Bracket => {
                            error = error_text(&g).or(error)
                        }
                        TokenTree::Group(g) if g.delimiter() == Delimiter::Parenthesis => {
                            out.last_mut().map(|v: &mut Variant| v.fields = fields(&g)).unwrap();
                        }
                        TokenTree::Ident(i) => {
                            out.push(Variant { name: i.to_string(), error: error.take(), fields: 0 })
                        }
                        TokenTree::Punct(_) => {}
                        t => panic!("unexpected {t}"),
                    }
                }
                return (name.expect("an enum"), out);
            }
            _ => {}
        }
    }
    panic!("no enum body")
}

fn binder(v: &Variant) -> String {
    match v.fields {
        0 => String::new(),
        n => format!("({})", (0..n).map(|i| format!("_{i}")).collect::<Vec<_>>().join(", ")),
    }
}

fn display(name: &str, arms: &str) -> String {
    format!(
        "impl ::std::fmt::Display for {name} {{
            #[allow(unused_variables)]
            fn fmt(&self, out: &mut ::std::fmt::Formatter<'_>) -> ::std::fmt::Result {{
                match self {{ {arms} }}
            }}
        }}"
    )
}

/// thiserror::Error over enums of tuple variants: Display and std's Error.
#[proc_macro_derive(Error, attributes(error))]
pub fn error(input: TokenStream) -> TokenStream {
    let (name, variants) = parse(input);
    let mut arms = String::new();
    for v in &variants {
        let mut text = v.error.clone().expect("error text");
        // Named outright: older compilers don't catch names in a derived text.
        let mut given = String::new();
        for i in 0..v.fields {
            let said = format!("{{{i}}}");
            if text.contains(&said) {
                text = text.replace(&said, &format!("{{_{i}}}"));
                given += &format!(", _{i} = _{i}");
            }
        }
        arms += &format!("Self::{}{} => ::std::write!(out, {text}{given}),", v.name, binder(v));
    }
    format!("{} impl ::std::error::Error for {name} {{}}", display(&name, &arms)).parse().unwrap()
}

/// derive_more::Display: each variant shows its one field. (The second enum of
/// int_or_big.rs has a lifetime; it is told by the first token after its name.)
#[proc_macro_derive(Display)]
pub fn display_derive(input: TokenStream) -> TokenStream {
    let mut lifetime = false;
    let mut seen = false;
    for t in input.clone() {
        match t {
            TokenTree::Ident(i) if i.to_string() == "enum" => seen = true,
            TokenTree::Punct(p) if seen && p.as_char() == '<' => lifetime = true,
            _ => {}
        }
    }
    let (name, variants) = parse(input);
    let arms: String = variants
        .iter()
        .map(|v| format!("Self::{}(_0) => ::std::fmt::Display::fmt(_0, out),", v.name))
        .collect();
    let name = if lifetime { format!("{name}<'_>") } else { name };
    display(&name, &arms).parse().unwrap()
}

macro_rules! nothing {
    ($($name:ident $fun:ident),*) => {$(
        #[proc_macro_derive($name, attributes(serde))]
        pub fn $fun(_: TokenStream) -> TokenStream {
            TokenStream::new()
        }
    )*};
}

nothing!(
    Dupe dupe, Serialize serialize, AllocValue alloc_value, AllocFrozenValue alloc_frozen_value,
    StarlarkTypeRepr starlark_type_repr, UnpackValue unpack_value
);
