//! The Rust that is the oracle: ast.rs, elab.rs and utils.rs of vest at commit
//! d728c2392c, byte for byte (a test holds their SHA-256).
//!
//! The texts are included, not declared as modules, for two reasons: the
//! formatter then leaves them alone, and functions written behind the included
//! text of elab.rs may call its private ones.

#[allow(warnings, clippy::all)]
pub mod ast {
    include!("ast.rs");
}

#[allow(warnings, clippy::all)]
pub mod utils {
    include!("utils.rs");
}

#[allow(warnings, clippy::all)]
pub mod elab {
    include!("elab.rs");

    /// The private functions of elab.rs, each under its own name.
    pub mod reach {
        use super::*;

        pub fn expand_macros(ast: &mut Vec<Definition>) {
            super::expand_macros(ast)
        }

        pub fn substitute_in_combinator<'ast>(
            body: &mut Combinator<'ast>,
            param: &str,
            arg: CombinatorInner<'ast>,
        ) {
            super::substitute_in_combinator(body, param, arg)
        }

        pub fn contains_anonymous_format(combinator: &Combinator) -> bool {
            super::contains_anonymous_format(combinator)
        }

        pub fn sorted_params<'ast>(combinator: &Combinator<'ast>) -> Vec<Param<'ast>> {
            super::sorted_params(combinator)
        }

        pub fn build_param_defns<'ast>(
            params: &[Param<'ast>],
            dependencies: &[(String, CombinatorInner<'ast>)],
            span: Span<'ast>,
        ) -> Vec<ParamDefn<'ast>> {
            super::build_param_defns(params, dependencies, span)
        }

        pub fn generated_segment(segment: &str) -> String {
            super::generated_segment(segment)
        }

        pub fn child_generated_name(parent: &str, segment: &str) -> String {
            super::child_generated_name(parent, segment)
        }

        pub fn fresh_generated_name(base: &str, used_names: &mut HashSet<String>) -> String {
            super::fresh_generated_name(base, used_names)
        }
    }
}
