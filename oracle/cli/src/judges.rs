//! Whose word each code is.

pub const JUDGES: &str = "\
code  the Rust's word                              a second reading of document 01
0     `elaborate` returns: the whole result, its   the book's bytes; that no limit is passed
      order, names, parameters and lifted names
1     none                                         not judged here: it speaks of the work area
2     none                                         all of it
3     none                                         all of it
4     what UTF-8 is (`std::str::from_utf8`)        which names are plain
5     none                                         all of it
6     every substitution, one parameter at a time  bytes and levels; that a substitution past
      (`substitute_in_combinator`), and the list   one million bytes is past the limit is
      left (`expand_macros`)                       foretold and not carried out
7     the `unreachable!` of collection, at the     that no 9 or 10 comes earlier in the walk
      lift, and again in a run of `elaborate`
8     the panic of `build_param_defns`, at the     that no 9 or 10 comes earlier in the walk
      lift, and again in a run of `elaborate`
9     the name (`fresh_generated_name`); where     the limit; which lift comes first
      `elaborate` ends, one of its names is
      over 255 bytes
10    the parameters and their types; where        the measure; which lift comes first
      `elaborate` ends, its result is too large
11    none                                         not judged here: it speaks of the output
12    every pass is `expand_macros` (--nested)     document 02 b: how often, and when to stop
at    none                                         document 02 a: where a fault of 3, 4, 5 is
premise  the expanded list                         the test itself

Codes 7 to 10 come from a walk of our own that calls the Rust's functions for
what is anonymous, for names, for parameters and for types. On 0 its result and
its lifted names are held against those of `elaborate`, byte for byte; on 7 and 8
its panic. Any difference ends the run with a line that says DISAGREEMENT.
";
