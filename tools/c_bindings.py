#!/usr/bin/env python3
"""Writes what repeats include/sctpr.h: the calls of packaging/checks.c, which test for NULL before the proved calls, declarations and codes for
Rust, codes for C++ and Go, and the version, which sctpdump says too.

    python3 tools/c_bindings.py            writes
    python3 tools/c_bindings.py --check    says what is out of date, and which calls take other things here than in sctp_c; the status is 1
                                           where anything is
"""
import pathlib
import re
import sys

TOP = pathlib.Path(__file__).resolve().parent.parent
HEADER = (TOP / 'include/sctpr.h').read_text()
NOTE = 'Written by tools/c_bindings.py from include/sctpr.h.'
RUST_TYPES = {'uint8_t': 'u8', 'uint16_t': 'u16', 'uint32_t': 'u32', 'uint64_t': 'u64', 'size_t': 'usize', 'void': 'c_void'}
ITEM = re.compile(r'(?:/\*(?P<doc>(?:(?!\*/).)*)\*/\s*)?(?P<name>SCTPR_\w+)\s*=\s*(?P<value>\d+)', re.S)
STRUCT = re.compile(r'(?:/\*(?P<doc>(?:(?!\*/).)*)\*/\s*)?(?:typedef )?struct (?P<name>\w+) \{\n(?P<fields>[^}]*)\}', re.S)
CALL = re.compile(r'^(?P<result>sctpr_code|uint8_t|uint32_t|size_t|void) (?P<name>sctpr_\w+)\((?P<params>[^)]*)\);', re.M)


def text_of(doc):
    """A comment as lines without stars."""
    return [line.strip().removeprefix('*').strip() for line in (doc or '').strip().splitlines()]


def version():
    return '.'.join(re.findall(r'^#define SCTPR_VERSION_(?:MAJOR|MINOR|PATCH) (\d+)$', HEADER, re.M))


def enum_blocks():
    """Of each enum whether it is that of the codes, and its items: name, value, text."""
    for match in re.finditer(r'(typedef uint32_t sctpr_code;\n)?enum \{(.*?)\};', HEADER, re.S):
        yield bool(match[1]), [(i['name'], int(i['value']), ' '.join(text_of(i['doc']))) for i in ITEM.finditer(match[2])]


def codes():
    return next(items for is_codes, items in enum_blocks() if is_codes)


def shorts():
    """The codes with the names that wrappers give them."""
    return [(name.removeprefix('SCTPR_'), value, text) for name, value, text in codes()]


def camel(name):
    return ''.join(word.capitalize() for word in name.split('_'))


def rust_type(text):
    """The type of a C declaration without its name."""
    stars, is_const = text.count('*'), 'const' in text
    base = re.sub(r'\b(const|struct)\b|\*', '', text).strip()
    return ('*const ' if is_const else '*mut ') * stars + RUST_TYPES.get(base, base)


def rust_param(text):
    match = re.fullmatch(r'(.*?)(\w+)', text.strip(), re.S)
    name = 'type_' if match[2] == 'type' else match[2]
    return f'{name}: {rust_type(match[1])}'


def rust_docs(doc, indent=''):
    return ''.join(f'{indent}/// {line}'.rstrip() + '\n' for line in text_of(doc))


def doc_before(at):
    """The comment that ends right before a place, if it does."""
    match = re.search(r'/\*((?:(?!\*/).)*)\*/\n(?:#define [^\n]*\n)?\Z', HEADER[:at], re.S)
    return match[1] if match and '----' not in match[1] else None


def rust_struct(match):
    fields = [field.strip() for field in match['fields'].split(';') if field.strip()]
    derive = '#[derive(Debug)]' if match['name'] in ('sctpr_sender', 'sctpr_receiver') else \
        '#[derive(Clone, Copy, Debug, Default, PartialEq, Eq)]'
    lines = [f'{derive}\n#[repr(C)]\npub struct {match["name"]} {{']
    lines += [f'    pub {rust_param(field)},' for field in fields]
    return rust_docs(match['doc']) + '\n'.join(lines) + '\n}\n'


def rust_call(match):
    params = ', '.join(rust_param(p) for p in match['params'].split(',') if p.strip() != 'void')
    result = '' if match['result'] == 'void' else f' -> {RUST_TYPES.get(match["result"], match["result"])}'
    return rust_docs(doc_before(match.start()), '    ') + f'    pub fn {match["name"]}({params}){result};\n'


def rust_sys():
    numbers = []
    for is_codes, items in enum_blocks():
        kind = 'sctpr_code' if is_codes else 'u32'
        numbers += [(f'/// {text}\n' if text else '') + f'pub const {name}: {kind} = {value};\n' for name, value, text in items]
    numbers += [f'pub const {name}: usize = {value};\n' for name, value in re.findall(r'^#define (SCTPR_NAME_ROOM) (\d+)$', HEADER, re.M)]
    structs = [rust_struct(match) for match in STRUCT.finditer(HEADER)]
    calls = [rust_call(match) for match in CALL.finditer(HEADER)]
    return f'''//! The calls of `sctpr.h` as they are: SCTP's lower layer for WebRTC data channels. The crate `sctp-rattle` wraps them.
//!
//! {NOTE}
#![no_std]
#![allow(non_camel_case_types)]

use core::ffi::c_void;

pub type sctpr_code = u32;

{''.join(numbers)}
{chr(10).join(structs)}
#[rustfmt::skip]
extern "C" {{
{chr(10).join(calls)}}}
'''


HANDLES = {'sctpr_sender': 'SctpSender', 'sctpr_receiver': 'SctpReceiver'}


def params_of(match):
    """Of each parameter of a call its declaration and its name."""
    return [(text.strip(), re.search(r'\w+$', text.strip())[0]) for text in match['params'].split(',') if text.strip() != 'void']


def kinds_of(match):
    """Of each parameter of a call what it is: a handle, one value behind a pointer, items behind a pointer whose number follows it, or a number."""
    params, kinds = params_of(match), []
    for i, (text, _) in enumerate(params):
        base = re.sub(r'\bconst\b|\*|\w+$', '', text).strip()
        next_one = params[i + 1][0] if i + 1 < len(params) else ''
        if '*' not in text:
            kinds.append('number')
        elif base in HANDLES and not text.endswith(' *out'):
            kinds.append('handle')
        else:
            kinds.append('items' if re.fullmatch(r'size_t \w+', next_one) else 'value')
    return kinds


def proved_kinds():
    """Of each call of sctp_c the same: there a slice takes the place of items and their number, and memory is a parameter too."""
    kinds = {}
    for path in sorted((TOP / 'crates/sctp_c/src').rglob('*.rt')):
        for name, params in re.findall(r'#\[unsafe\(no_mangle\)\]\n(?:#\[[^\n]*\n)*pub extern "C" fn (\w+)\(([^)]*)\)', path.read_text()):
            types = [it.split(':', 1)[1].strip() for it in params.split(',') if it.strip()]
            kinds[name] = [kind for it in types if it != 'Global' for kind in
                           (['items', 'number'] if re.match(r'&(mut )?\[', it) else
                            ['handle'] if it.removeprefix('&').removeprefix('mut ') in HANDLES.values() else
                            ['value'] if it.startswith('&') else ['number'])]
    return kinds


def strays():
    """The calls that take other things in the header than in sctp_c, and those that stand in one of both."""
    declared = {match['name']: kinds_of(match) for match in CALL.finditer(HEADER)}
    proved = {name.removesuffix('_handle'): kinds for name, kinds in proved_kinds().items()}
    return sorted(name for name in declared.keys() | proved.keys() if declared.get(name) != proved.get(name))


def test_of(kind, name, following):
    """What is true where a parameter can't be handed on."""
    return {'handle': f'{name} == NULL || {name}->at == NULL', 'value': f'{name} == NULL',
            'items': f'({name} == NULL && {following} > 0)'}.get(kind)


def folded(text, indent):
    """A line, folded at 140 columns behind a comma or before an ||."""
    lines = []
    while len(text) > 140:
        at = max(text.rfind(', ', 0, 139) + 1, text.rfind(' || ', 0, 140))
        lines.append(text[:at].rstrip())
        text = indent + text[at:].lstrip()
    return '\n'.join([*lines, text])


def checked_call(match):
    name, params = match['name'], params_of(match)
    names = [it for _, it in params]
    proved = name.replace('sctpr_', 'sctpr_proved_', 1)
    tests = [test_of(kind, it, following) for kind, it, following in zip(kinds_of(match), names, [*names[1:], ''])]
    tests = [it for it in tests if it]
    if not tests:
        return None
    refusal = {'sctpr_code': 'return SCTPR_INVALID', 'void': 'return'}.get(match['result'], 'return 0')
    head = f'{match["result"]} {name}({", ".join(text for text, _ in params)})'
    if name.endswith('_free'):
        shown = f'void {proved}_handle({names[0].join(["sctpr_", " "])}{names[0]});'
        calls = [f'    {proved}_handle(*{names[0]});', f'    {names[0]}->at = NULL;']
    else:
        shown = head.replace(name, proved) + ';'
        calls = [f'    {"return " if match["result"] != "void" else ""}{proved}({", ".join(names)});']
    lines = [folded(shown, '    '), folded(head + ' {', '    '), folded(f'    if ({" || ".join(tests)}) {refusal};', '        ')]
    return '\n'.join([*lines, *(folded(it, '        ') for it in calls), '}\n'])


def checks():
    calls = [it for it in map(checked_call, CALL.finditer(HEADER)) if it]
    return f'''/* {NOTE}
 *
 * Each call of sctpr.h that takes a pointer: it tests for NULL, and then makes the proved call, whose name has `proved_` in it
 * (packaging/archive.py). Nothing else is done here. */
#include "sctpr.h"

{chr(10).join(calls)}'''


WANTED = '\n        /// How many bytes, or rows, are enough.\n        wanted: usize,\n    '


def fields(variant, text):
    """A variant with its field, if it has one."""
    return f'{variant} {{{text}}}' if variant == 'ShortBuffer' else variant


def rust_errors():
    rows = [(name, camel(name), text) for name, value, text in shorts() if value >= 16]
    return f'''//! The refusals. {NOTE}

use sctp_rattle_sys as sys;

/// Why a call was refused. What it was to change is as it was.
#[derive(Clone, Copy, Debug, PartialEq, Eq, Hash)]
#[non_exhaustive]
pub enum Error {{
{''.join(f'    /// {text}{chr(10)}    {fields(variant, WANTED)},{chr(10)}' for _, variant, text in rows)}    /// A code that this version doesn't know.
    Unknown(u32),
}}

impl Error {{
    /// The error of a code of the library, `wanted` bytes or rows being what a buffer that was too short should have had.
    pub(crate) fn of_code(code: sys::sctpr_code, wanted: usize) -> Error {{
        match code {{
{''.join(f'            sys::SCTPR_{name} => Error::{fields(variant, " wanted ")},{chr(10)}' for name, variant, _ in rows)}            other => Error::Unknown(other),
        }}
    }}

    /// The number of the error, the one that the C header gives it. Numbers never change.
    pub fn code(&self) -> u32 {{
        match *self {{
{''.join(f'            Error::{fields(variant, " .. ")} => sys::SCTPR_{name},{chr(10)}' for name, variant, _ in rows)}            Error::Unknown(code) => code,
        }}
    }}

    fn text(&self) -> &'static str {{
        match self {{
{''.join(f'            Error::{fields(variant, " .. ")} => "{text}",{chr(10)}' for _, variant, text in rows)}            Error::Unknown(_) => "A code that this version doesn't know.",
        }}
    }}
}}

impl core::fmt::Display for Error {{
    fn fmt(&self, f: &mut core::fmt::Formatter<'_>) -> core::fmt::Result {{
        match self {{
            Error::ShortBuffer {{ wanted }} => write!(f, "{{}} Wanted: {{}}", self.text(), wanted),
            Error::Unknown(code) => write!(f, "{{}} It is {{}}.", self.text(), code),
            _ => f.write_str(self.text()),
        }}
    }}
}}

#[cfg(feature = "std")]
impl std::error::Error for Error {{}}
'''


def go_codes():
    rows = ''.join(f'\t// {text}\n\tCode{camel(name)} Code = {value}\n' for name, value, text in shorts())
    texts = ''.join(f'\tcase Code{camel(name)}:\n\t\treturn "{text}"\n' for name, _, text in shorts())
    return f'''// {NOTE}

package sctprattle

// A Code is what a call answers: under 16 it was done, from 16 on it was refused, and what it was to change is as it was. Numbers never
// change. As an error it is compared by errors.Is.
type Code uint32

const (
{rows})

func (c Code) text() string {{
\tswitch c {{
{texts}\t}}
\treturn "A code that this version doesn't know."
}}
'''


def cpp_codes():
    return ''.join(f'    /** {text} */\n    {name.lower()} = SCTPR_{name},\n' for name, _, text in shorts())


def between(text, first, last, new):
    """The text with what stands between the two lines replaced."""
    before, rest = text.split(first, 1)
    return before + first + new + last + rest.split(last, 1)[1]


def files():
    yield 'packaging/checks.c', checks()
    yield 'wrappers/rust/sctp-rattle-sys/src/lib.rs', rust_sys()
    yield 'wrappers/rust/sctp-rattle/src/error.rs', rust_errors()
    yield 'wrappers/go/codes.go', go_codes()
    cpp = (TOP / 'include/sctpr.hpp').read_text()
    yield 'include/sctpr.hpp', between(cpp, 'enum class code : sctpr_code {\n', '};\n', cpp_codes())
    for name in ('sctp-rattle-sys', 'sctp-rattle'):
        path = f'wrappers/rust/{name}/Cargo.toml'
        old = (TOP / path).read_text()
        new = re.sub(r'^version = "[^"]*"$', f'version = "{version()}"', old, flags=re.M)
        yield path, re.sub(r'(sctp-rattle-sys = \{[^}]*version = ")[^"]*"', rf'\g<1>{version()}"', new)
    path = 'crates/sctpdump/src/main.rt'
    yield path, re.sub(r'^const VERSION: &str = "[^"]*";$', f'const VERSION: &str = "{version()}";', (TOP / path).read_text(), flags=re.M)


def main():
    is_check = sys.argv[1:] == ['--check']
    stale = [path for path, text in files() if not (TOP / path).exists() or (TOP / path).read_text() != text]
    for path, text in files():
        if path in stale:
            print('out of date:' if is_check else 'written:', path)
            if not is_check:
                (TOP / path).write_text(text)
    for name in strays():
        print('other parameters than in sctp_c:', name)
    return 1 if strays() or (is_check and stale) else 0


if __name__ == '__main__':
    sys.exit(main())
