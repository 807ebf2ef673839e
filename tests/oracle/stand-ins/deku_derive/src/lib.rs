//! Stand-in for deku's derives. An attribute that it does not know is an error, never passed over.

use proc_macro::TokenStream;
use proc_macro2::{Span, TokenStream as Tokens};
use quote::quote;
use syn::{Attribute, Data, DeriveInput, Error, Expr, Field, Ident, Lit, LitByteStr, LitInt, LitStr, Meta, NestedMeta, Type};

/// The values of all `#[deku(...)]` of one struct, enum, field or variant.
#[derive(Default)]
struct Given {
    endian: Option<LitStr>,
    magic: Option<LitByteStr>,
    id_type: Option<LitStr>,
    ctx: Option<LitStr>,
    id: Option<LitStr>,
    bytes: Option<LitStr>,
    count: Option<LitStr>,
    cond: Option<LitStr>,
    pad_bytes_before: Option<LitStr>,
    pad_bytes_after: Option<LitStr>,
}

fn given(attrs: &[Attribute], known: &[&str]) -> Result<Given, Error> {
    let mut given = Given::default();
    for attr in attrs.iter().filter(|a| a.path.is_ident("deku")) {
        let Meta::List(list) = attr.parse_meta()? else {
            return Err(Error::new_spanned(attr, "a list is expected"));
        };
        for nested in list.nested {
            let NestedMeta::Meta(Meta::NameValue(pair)) = nested else {
                return Err(Error::new_spanned(nested, "name = value is expected"));
            };
            let name = pair.path.get_ident().map(Ident::to_string).unwrap_or_default();
            if !known.contains(&name.as_str()) {
                return Err(Error::new_spanned(pair, "the stand-in does not know this here"));
            }
            let slot = match (name.as_str(), pair.lit) {
                ("magic", Lit::ByteStr(magic)) => {
                    given.magic = Some(magic);
                    continue;
                }
                ("endian", Lit::Str(s)) => (&mut given.endian, s),
                ("id_type", Lit::Str(s)) => (&mut given.id_type, s),
                ("ctx", Lit::Str(s)) => (&mut given.ctx, s),
                ("id", Lit::Str(s)) => (&mut given.id, s),
                ("bytes", Lit::Str(s)) => (&mut given.bytes, s),
                ("count", Lit::Str(s)) => (&mut given.count, s),
                ("cond", Lit::Str(s)) => (&mut given.cond, s),
                ("pad_bytes_before", Lit::Str(s)) => (&mut given.pad_bytes_before, s),
                ("pad_bytes_after", Lit::Str(s)) => (&mut given.pad_bytes_after, s),
                (_, lit) => return Err(Error::new_spanned(lit, "another literal is expected")),
            };
            *slot.0 = Some(slot.1);
        }
    }
    Ok(given)
}

fn endian(of: &Option<LitStr>) -> Result<Option<Tokens>, Error> {
    match of {
        None => Ok(None),
        Some(s) if s.value() == "little" => Ok(Some(quote!(::deku::ctx::Endian::Little))),
        Some(s) => Err(Error::new_spanned(s, "the stand-in knows little alone")),
    }
}

fn number(s: &LitStr) -> Result<usize, Error> {
    s.parse::<LitInt>()?.base10_parse()
}

fn skip(by: &Option<LitStr>) -> Result<Tokens, Error> {
    match by {
        None => Ok(quote!()),
        Some(s) => {
            let n = number(s)?;
            Ok(quote!(cursor.take(#n)?;))
        }
    }
}

/// `[u8; n]`: the one type that `bytes = "n"` stands at.
fn is_byte_array(ty: &Type, n: usize) -> bool {
    quote!(#ty).to_string().replace(' ', "") == format!("[u8;{n}]")
}

fn field(f: &Field, outer: &Option<Tokens>) -> Result<Tokens, Error> {
    let known = ["endian", "bytes", "count", "cond", "pad_bytes_before", "pad_bytes_after"];
    let given = given(&f.attrs, &known)?;
    let name = f.ident.as_ref().ok_or_else(|| Error::new_spanned(f, "a name is expected"))?;
    let ty = &f.ty;
    let endian = endian(&given.endian)?.or_else(|| outer.clone()).unwrap_or(quote!(::deku::ctx::Endian::NATIVE));
    if let Some(s) = &given.bytes {
        if !is_byte_array(ty, number(s)?) {
            return Err(Error::new_spanned(ty, "the stand-in knows bytes on an array of as many bytes alone"));
        }
    }
    let label = name.to_string();
    let read = match &given.count {
        Some(s) => {
            let n = number(s)?;
            quote!(<#ty as ::deku::Counted>::counted(cursor, #n)?)
        }
        None => quote!(<#ty as ::deku::Decode>::decode(cursor, #endian).map_err(|e| e.in_field(#label))?),
    };
    let read = match &given.cond {
        Some(s) => {
            let cond: Expr = s.parse()?;
            quote!(if #cond { #read } else { None })
        }
        None => read,
    };
    let (before, after) = (skip(&given.pad_bytes_before)?, skip(&given.pad_bytes_after)?);
    let value = value_of(name);
    // a condition speaks of earlier fields by reference
    Ok(quote!(
        #before
        let #value: #ty = #read;
        #[allow(unused_variables)]
        let #name = &#value;
        #after
    ))
}

fn value_of(name: &Ident) -> Ident {
    Ident::new(&format!("value_of_{name}"), Span::call_site())
}

fn decode(input: &DeriveInput) -> Result<Tokens, Error> {
    let name = &input.ident;
    let body = match &input.data {
        Data::Struct(s) => {
            let given = given(&input.attrs, &["endian", "magic"])?;
            let outer = endian(&given.endian)?;
            let magic = given.magic.map(|m| quote!(cursor.magic(#m)?;));
            let reads = s.fields.iter().map(|f| field(f, &outer)).collect::<Result<Vec<_>, _>>()?;
            let parts = s.fields.iter().filter_map(|f| f.ident.as_ref()).map(|f| {
                let value = value_of(f);
                quote!(#f: #value)
            });
            quote!(
                let _ = endian;
                #magic
                #(#reads)*
                Ok(#name { #(#parts),* })
            )
        }
        Data::Enum(e) => {
            let given = given(&input.attrs, &["id_type", "ctx"])?;
            if let Some(s) = &given.ctx {
                if s.value() != "endian: deku::ctx::Endian" {
                    return Err(Error::new_spanned(s, "the stand-in knows the endian alone"));
                }
            }
            let id_type: Ident = given.id_type.ok_or_else(|| Error::new_spanned(name, "id_type is expected"))?.parse()?;
            let label = name.to_string();
            let arms = e
                .variants
                .iter()
                .map(|v| {
                    let id = self::given(&v.attrs, &["id"])?.id.ok_or_else(|| Error::new_spanned(v, "id is expected"))?;
                    let id: LitInt = id.parse()?;
                    let variant = &v.ident;
                    Ok(quote!(#id => Ok(#name::#variant)))
                })
                .collect::<Result<Vec<_>, Error>>()?;
            quote!(
                match <#id_type as ::deku::Decode>::decode(cursor, endian)? {
                    #(#arms,)*
                    _ => Err(::deku::DekuError::Id { kind: #label, field: "" }),
                }
            )
        }
        Data::Union(_) => return Err(Error::new_spanned(name, "no unions")),
    };
    Ok(quote!(
        impl ::deku::Decode for #name {
            #[inline]
            fn decode(cursor: &mut ::deku::Cursor<'_>, endian: ::deku::ctx::Endian) -> Result<Self, ::deku::DekuError> {
                #body
            }
        }
    ))
}

#[proc_macro_derive(DekuRead, attributes(deku))]
pub fn derive_read(input: TokenStream) -> TokenStream {
    let input = syn::parse_macro_input!(input as DeriveInput);
    decode(&input).unwrap_or_else(|e| e.to_compile_error()).into()
}

/// Nothing here writes records.
#[proc_macro_derive(DekuWrite, attributes(deku))]
pub fn derive_write(_: TokenStream) -> TokenStream {
    TokenStream::new()
}
