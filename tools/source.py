#!/usr/bin/env python3
"""What port.py leaves to do in every crate's source: run once at the top, after it.

A struct or an enum that holds no `&mut` derives `Clone, Copy`, as Rattle copied it before. A cycle of functions has a name of its own, and
not one made of all its members; the folder of its proofs is called alike.
"""
import glob
import os
import re

CYCLES = {
    'argument_arguments_array_case_cases_chain_choice_collect_params_with_bound_field_fields_inner_macro_call_wrap': 'collect',
    'calm_past_inner_past_tail_past_wrap_past': 'calm',
    'arguments_array_case_cases_choice_combinator_field_fields_inner_items_macro_invocation_wrap': 'combinator',
    'argument_arguments_array_case_cases_choice_combinator_field_fields_inner_macro_call_wrap': 'calls',
    'argument_arguments_behind_choice_field_fields_measure_combinator_measure_inner_wrap': 'measure',
}
TYPE = re.compile(r'#\[derive\(Drop\)\]\n((?:pub(?:\(crate\))? )?(?:struct|enum)[^}]*)')


def rewrite(path, turn):
    with open(path, encoding='utf-8') as f:
        text = f.read()
    turned = turn(text)
    if turned != text:
        with open(path, 'w', encoding='utf-8') as f:
            f.write(turned)


def source(text):
    text = TYPE.sub(lambda m: m[0] if "'a mut" in m[1] else '#[derive(Clone, Copy)]\n' + m[1], text)
    for long, short in CYCLES.items():
        text = text.replace(f'#[cycle({long})]', f'#[cycle({short})]')
    return text


def proof(text):
    for long, short in CYCLES.items():
        text = text.replace('+' + long, '+' + short)
    return text


for path in glob.glob('crates/*/src/**/*.rt', recursive=True):
    rewrite(path, source)
for long, short in CYCLES.items():
    for folder in glob.glob(f'crates/*/proofs/**/+{long}', recursive=True):
        os.rename(folder, os.path.join(os.path.dirname(folder), '+' + short))
for path in glob.glob('crates/*/proofs/**/*.antt', recursive=True):
    rewrite(path, proof)
