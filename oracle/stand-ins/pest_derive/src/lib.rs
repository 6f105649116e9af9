//! Stand-in for the crate `pest_derive`. The grammar vest.pest is not to be
//! had, so the rules are the ones that ast.rs names and the parser refuses.

use proc_macro::{TokenStream, TokenTree};

/// Every rule that ast.rs names.
const RULES: &[&str] = &[
    "add_op",
    "array_combinator",
    "ascii",
    "bit_uint_combinator",
    "bits_combinator",
    "btc_varint",
    "choice",
    "choice_combinator",
    "combinator",
    "combinator_defn",
    "combinator_invocation",
    "const_array",
    "const_bytes_combinator",
    "const_char_array",
    "const_combinator",
    "const_combinator_defn",
    "const_enum_combinator",
    "const_id",
    "const_int",
    "const_int_array",
    "const_int_combinator",
    "const_int_range",
    "constant",
    "constraint_elem",
    "constraint_elem_set",
    "constraint_enum_combinator",
    "constraint_int_combinator",
    "decimal",
    "definition",
    "depend_id",
    "div_op",
    "endianess_defn",
    "enum_combinator",
    "enum_constraint",
    "enum_constraint_elem",
    "enum_constraint_set",
    "enum_field",
    "exhaustive_enum",
    "grammar",
    "hex",
    "inline_const_combinator",
    "int_array_expr",
    "int_constraint",
    "length_atom",
    "length_expr",
    "length_term",
    "macro_defn",
    "macro_invocation",
    "mul_op",
    "never_combinator",
    "non_exhaustive_enum",
    "nothing_combinator",
    "option_combinator",
    "param_defn",
    "param_defn_list",
    "repeat_int_array_expr",
    "signed",
    "size_expr",
    "struct_combinator",
    "sub_op",
    "tail_combinator",
    "uleb128",
    "unsigned",
    "var_id",
    "variant_id",
    "vec_combinator",
    "wrap_combinator",
];

#[proc_macro_derive(Parser, attributes(grammar))]
pub fn derive_parser(input: TokenStream) -> TokenStream {
    let parser = struct_name(input);
    format!(
        "#[allow(non_camel_case_types)]
         #[derive(Debug, Clone, Copy, PartialEq, Eq, Hash)]
         pub enum Rule {{ {rules} }}
         impl ::pest::Parser<Rule> for {parser} {{
             fn parse(_: Rule, _: &str)
                 -> Result<::pest::iterators::Pairs<'_, Rule>, ::pest::error::Error<Rule>> {{
                 Err(::pest::error::Error::never_parses())
             }}
         }}",
        rules = RULES.join(", "),
    )
    .parse()
    .expect("the derived text is Rust")
}

fn struct_name(input: TokenStream) -> String {
    input
        .into_iter()
        .skip_while(
            |token| !matches!(token, TokenTree::Ident(word) if word.to_string() == "struct"),
        )
        .nth(1)
        .expect("the parser is a struct")
        .to_string()
}
