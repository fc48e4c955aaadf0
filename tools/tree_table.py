#!/usr/bin/env python3
"""The tree form's tables, made from the list below, which is TREE.md's table line by line.

Run from the repository's root, then `rt fmt`. Writes crates/tree/specs/Table.antt and the three tables of
crates/tree/src/table.rt: the tables stand twice, in the definitions and in the code, and the code's proofs show them
equal. Also writes crates/tree/proofs/Steps.antt, the regular clauses that say of each tag which part of a tree its
field is: there each row stands once more, written out, and the prover compares it with the table. And, in
crates/tree/proofs/Obeyed.antt, the clauses between the lines "made" and "end of what is made", for the other way.

An item of a row is eight times the class; and 0 for one member, 1 for none or one, 2 for any number, 3 for any number
of this class or of terms; and 4 more if the row may end before it. A row ends with 4. Row 0 is that of the bytes
themselves: one tree. The last item, 0, is that of a row which cannot be gone on with.
"""
import re

# kinds of leaf
TEXT, DOLLAR, TWO, OPERATOR, SCALAR = 201, 202, 203, 204, 205
NONE, UNKNOWN = 31, 255  # the class and the content of a tag that is none

CLASSES = ('tree natives globals module main native imports includes vars definitions import definition number name '
           'parameter PATTERN patentry TERM OPERATOR pair format strpart entry part optional from upto').split()
CLASS = {c: i + 1 for i, c in enumerate(CLASSES)}

# tag, class, content: a kind of leaf, or the members in their order
FORM = [
    (0x80, 'tree', 'natives globals? module* main'),
    (0x81, 'natives', 'native*'),
    (0x82, 'globals', 'name*'),
    (0x83, 'module', 'imports includes vars definitions'),
    (0x84, 'main', 'imports includes vars TERM'),
    (0x85, 'native', 'name parameter*'),
    (0x86, 'imports', 'import*'),
    (0x87, 'includes', 'number*'),
    (0x88, 'vars', 'name*'),
    (0x89, 'definitions', 'definition*'),
    (0x8A, 'import', 'number name'),
    (0x8C, 'definition', 'name parameter* TERM'),
    (0x8D, 'number', TWO),
    (0x90, 'name', TEXT),
    (0x91, 'parameter', TEXT),
    (0x98, 'PATTERN', DOLLAR),
    (0x99, 'PATTERN', 'PATTERN*'),
    (0x9A, 'PATTERN', 'patentry*'),
    (0x9B, 'patentry', 'TERM PATTERN'),
    (0xA0, 'TERM', ''),
    (0xA1, 'TERM', ''),
    (0xA2, 'TERM', 'TERM?'),
    (0xA3, 'TERM', 'TERM'),
    (0xA4, 'TERM', 'name TERM'),
    (0xA5, 'TERM', TEXT),
    (0xA6, 'TERM', 'pair pair* TERM?'),
    (0xA7, 'TERM', DOLLAR),
    (0xA8, 'TERM', 'name TERM*'),
    (0xA9, 'TERM', 'definition* TERM'),
    (0xAA, 'TERM', TEXT),
    (0xAB, 'TERM', 'TERM TERM?'),
    (0xAC, 'TERM', 'name TERM PATTERN TERM*'),
    (0xAD, 'TERM', 'TERM OPERATOR TERM'),
    (0xAE, 'TERM', 'TERM part*'),
    (0xAF, 'TERM', 'format? strpart|TERM*'),
    (0xB0, 'TERM', 'entry*'),
    (0xB7, 'OPERATOR', 'PATTERN?'),
    (0xB8, 'pair', 'TERM TERM'),
    (0xB9, 'OPERATOR', OPERATOR),
    (0xBA, 'format', TEXT),
    (0xBB, 'strpart', TEXT),
    (0xBC, 'strpart', SCALAR),
    (0xBD, 'entry', 'TERM TERM?'),
    (0xBE, 'part', 'TERM optional?'),
    (0xBF, 'part', 'from? upto? optional?'),
    (0xC0, 'optional', ''),
    (0xC1, 'from', 'TERM'),
    (0xC2, 'upto', 'TERM'),
]

MODE = {'': 0, '?': 1, '*': 2, '|TERM*': 3}


def row(words):
    """The items of a row: from the last one back, since each says whether the row may end before it."""
    items, may_end = [4], 4
    for word in reversed(words):
        name, mode = re.fullmatch(r'(\w+)(\?|\*|\|TERM\*)?', word).groups()
        may_end = may_end if mode else 0
        items.insert(0, CLASS[name] * 8 + may_end + MODE[mode or ''])
    return items


def tables():
    classes, shapes, items = [NONE] * 256, [UNKNOWN] * 256, row(['tree'])
    for tag, name, content in FORM:
        classes[tag] = CLASS[name]
        if isinstance(content, int):
            shapes[tag] = content
        else:
            shapes[tag] = len(items)
            items += row(content.split())
    return classes, shapes, items + [0]


def listed(xs):
    return ' ∷ '.join(map(str, xs)) + ' ∷ []'


def write_spec(classes, shapes, items):
    with open('crates/tree/specs/Table.antt', 'w') as f:
        f.write(f'''-- The tables of the tree form, made by tools/tree_table.py from TREE.md's table. Assumes nothing.
use Rattle.std.specs.Prelude.{{ℕ, List, [], ◌∷◌}}

-- of each byte that is a tag its class, {NONE} for any other. The classes are, from 1 on:
-- {' '.join(CLASSES)}
unfoldable pub classes : List ℕ
classes = {listed(classes)}

-- its content: where its row of items starts, or from 200 on what leaf it is: 201 text, 202 text that starts with `$`, 203 two bytes, 204 an operator's
-- byte, 205 a scalar value in four bytes, 255 a byte that is no tag
unfoldable pub shapes : List ℕ
shapes = {listed(shapes)}

-- rows of items, each ended by 4. An item is eight times the class; and 0 for one member, 1 for none or one, 2 for any number, 3 for any number of it or of
-- terms; and 4 more if the row may end before it. Row 0 is that of the bytes themselves, one tree; the last item, 0, is where no row goes on
unfoldable pub items : List ℕ
items = {listed(items)}
''')


def write_code(classes, shapes, items):
    path = 'crates/tree/src/table.rt'
    text = open(path).read()
    for name, xs in (('classes', classes), ('shapes', shapes), ('items', items)):
        text = re.sub(rf'{name}: \[[\d\s,]*\],', f'{name}: [{", ".join(map(str, xs))}],', text)
        text = re.sub(rf'{name}: \[u8; \d+\],', f'{name}: [u8; {len(xs)}],', text)
    open(path, 'w').write(text)


# ---- the clauses for the tags

# the field of a member of each class, and the function that takes an optional member or a list of it off a row
FIELD = dict(tree='f_tree', natives='g_natives', globals='g_globals', module='f_module', main='f_main', native='f_native', imports='g_imports', includes='g_includes',
             vars='g_vars', definitions='g_defs', name='(f_name 0x90)', number='(f_number 0x8D)', PATTERN='f_pattern', TERM='f_term', OPERATOR='g_op', pair='g_pair')
FIELD['import'] = 'f_import'
TAKE = {'globals?': ('globals?', 'f_globals'), 'module*': ('modules', 'f_modules'), 'native*': ('natives', 'f_natives'), 'name*': ('names', 'f_names 0x90'),
        'parameter*': ('params', 'f_names 0x91'), 'import*': ('imports', 'f_imports'), 'number*': ('numbers', 'f_numbers'), 'definition*': ('definitions', 'f_defs'),
        'PATTERN*': ('patterns', 'f_patterns'), 'patentry*': ('pat_entries', 'f_pat_entries'), 'PATTERN?': ('pattern?', 'f_opt_pattern'), 'TERM?': ('term?', 'f_opt_term'),
        'TERM*': ('terms', 'f_terms'), 'part*': ('parts', 'f_parts'), 'format?': ('format?', 'f_format'), 'strpart|TERM*': ('str_parts', 'f_str_parts'),
        'entry*': ('entries', 'f_entries'), 'optional?': ('mark?', 'f_mark'), 'from?': ('from?', 'f_bound 0xC1'), 'upto?': ('upto?', 'f_bound 0xC2')}

USES = 'record { imports_at = a.0.0; imports = a.0.1; includes_at = b.0.0; includes = b.0.1; vars_at = c.0.0; vars = c.0.1 }'
# the part of the tree: p is the field's place, x a leaf's content, a b c d the members as they are taken off the row
PART = {
    0x80: 'record { place = p; natives_at = a.0.0; natives = a.0.1; globals = b.0; modules = c.0; main = d.0 }',
    0x81: '(p, a.0)', 0x82: '(p, a.0)', 0x86: '(p, a.0)', 0x87: '(p, a.0)', 0x88: '(p, a.0)', 0x89: '(p, a.0)',
    0x83: f'record {{ place = p; uses = {USES}; defs_at = d.0.0; defs = d.0.1 }}',
    0x84: f'record {{ place = p; uses = {USES}; body = d.0 }}',
    0x85: 'record { place = p; name = a.0; params = b.0 }',
    0x8A: 'record { place = p; number = a.0; name = b.0 }',
    0x8C: 'def p a.0 b.0 c.0',
    0x8D: 'record { place = p; bytes = x }', 0x90: 'record { place = p; text = x }', 0x91: 'record { place = p; text = x }', 0xBA: 'record { place = p; text = x }',
    0x98: 'p_var p x', 0x99: 'p_arr p a.0', 0x9A: 'p_obj p a.0', 0x9B: '(p, a.0, b.0)',
    0xA0: 't_id p', 0xA1: 't_recurse p', 0xA2: 't_arr p a.0', 0xA3: 't_neg p a.0', 0xA4: 't_label p a.0 b.0', 0xA5: 't_break p x', 0xA7: 't_var p x',
    0xA8: 't_call p a.0 b.0', 0xA9: 't_def p a.0 b.0', 0xAA: 't_num p x', 0xAB: 't_try_catch p a.0 b.0', 0xAC: 't_fold p a.0 b.0 c.0 d.0',
    0xAE: 't_path p a.0 b.0', 0xAF: 't_str p a.0 b.0', 0xB0: 't_obj p a.0', 0xB7: 'op_pipe p a.0', 0xB8: '(p, a.0, b.0)', 0xB9: 'op_byte p x',
    0xBB: 's_text (record { place = p; text = x })', 0xBC: 's_char (record { place = p; bytes = x })', 0xBD: '(p, a.0, b.0)', 0xBE: 'part_index p a.0 b.0',
    0xBF: 'part_range p a.0 b.0 c.0', 0xC0: 'p', 0xC1: '(p, a.0)', 0xC2: '(p, a.0)',
}


def rows_of(words):
    """The row as the definitions write it, before each member and after the last."""
    rows = ['end']
    for word in reversed(words):
        name, mode = re.fullmatch(r'(\w+)(\?|\*|\|TERM\*)?', word).groups()
        rest = rows[0] if rows[0] == 'end' else f'({rows[0]})'
        rows.insert(0, f"{['one', 'opt', 'many', 'mix'][MODE[mode or '']]} {CLASS[name]} {rest}")
    return rows


def paren(row):
    return row if row == 'end' else f'({row})'


def taken(words, rows, row):
    """The members taken off the row one by one, and the equation between the row and theirs."""
    lines, puts, at, having = [], [], row, 'h'
    for v, word, rest in zip('abcd', words, rows[1:]):
        if word in TAKE:
            take, put = TAKE[word]
            lines.append(f'let {v} = {take} {paren(rest)} {at} {having} in')
        else:
            put = f'rcons ({FIELD[word].strip("()")} {v}.0)' if word in FIELD else None
            lines.append(f'let {v} = member {FIELD[word]} (Match Meaning {paren(rest)}) {at} {having} in')
            puts.append((put, v))
            at, having = f'{v}.1', f'{v}.3'
            continue
        puts.append((f'{put} {v}.0', v))
        at, having = f'{v}.1', f'{v}.3'
    eq = f'sym {having}'
    for put, v in reversed(puts):
        eq = f'ap ({put}) ({eq}) ∙ {v}.2'
    return lines, eq


def step(tag, name, content):
    k, c = f'0x{tag:02X}', CLASS[name]
    if isinstance(content, int):
        return f"""step-{tag:02X} : (p : ℕ) (x : List ℕ) → Meaning {c} (leaf {k} p x)
unfolding f_term
step-{tag:02X} p x = ({PART[tag]}, refl)
"""
    words = content.split()
    rows = rows_of(words)
    head = f"""step-{tag:02X} : (p : ℕ) (rs : Roses) → Match Meaning {paren(rows[0])} rs → Meaning {c} (node {k} p rs)
unfolding f_term f_native f_import f_uses f_module f_main f_tree
step-{tag:02X} p rs h =
"""
    if tag == 0xA6:
        return head + f"""    let a = member g_pair (Match Meaning {paren(rows[1])}) rs h in
    let w = branches a.1 a.3 in
    (t_if_then_else p a.0.0 a.0.1 a.0.2 w.0, ap (node {k} p) (ap (rcons (g_pair a.0)) w.1 ∙ a.2))
"""
    lines, eq = taken(words, rows, 'rs')
    body = ''.join(f'    {line}\n' for line in lines)
    if tag == 0xAD:
        return head + body + f'    let w = binary p a.0 b.0 c.0 in\n    (w.0, w.1 ∙ ap (node {k} p) ({eq}))\n'
    return head + body + f'    ({PART[tag]}, ap (node {k} p) ({eq}))\n'


def write_steps():
    steps = '\n'.join(step(*row) for row in FORM)
    known = ' ∷ '.join(f'0x{tag:02X}' for tag, _, _ in FORM)
    tuple_ = ''.join(f'(step-{tag:02X}, ' for tag, _, _ in FORM) + 'tt' + ')' * len(FORM)
    with open('crates/tree/proofs/Steps.antt', 'w') as f:
        f.write(f"""-- Of each tag: its field, with the content that the table allows, is that of a part of a tree. Made by tools/tree_table.py from TREE.md's table; each row of
-- members stands here written out, and `all-steps` compares it with the table. Assumes nothing.
use Rattle.std.specs.Prelude.{{ℕ, ◌≡◌, refl, List, [], ◌∷◌}}
use Rattle.std.proofs.Common.{{sym, ap, ◌∙◌}}
use Rattle.tree.specs.Rose.{{Roses, leaf, node, rnil, rcons}}
use Rattle.tree.specs.Table.{{classes, shapes, items}}
use Rattle.tree.specs.Leaf.{{class, shape}}
use Rattle.tree.specs.Grammar.{{end, one, opt, many, mix, decode, row_at}}
use Rattle.tree.specs.Tree.{{Term, t_id, t_recurse, t_arr, t_neg, t_label, t_break, t_if_then_else, t_var, t_call, t_def, t_num, t_try_catch, t_fold, t_pipe, t_bin_op, t_path, t_str, t_obj}}
use Rattle.tree.specs.Tree.{{def, p_var, p_arr, p_obj, part_index, part_range, s_text, s_char}}
use Rattle.tree.specs.Form.{{f_name, f_number, f_names, f_numbers, f_mark, f_format, f_term, f_opt_term, f_terms, f_defs, f_pattern, f_opt_pattern, f_patterns, f_pat_entries, f_parts, f_bound, f_str_parts, f_entries}}
use Rattle.tree.specs.Form.{{f_native, f_natives, f_globals, f_import, f_imports, f_uses, f_module, f_modules, f_main, f_tree}}
use Rattle.tree.proofs.Match.{{Match, Step}}
use Rattle.tree.proofs.Meaning.{{Meaning, Op, op_pipe, op_byte, g_op, g_natives, g_imports, g_includes, g_vars, g_defs, g_pair, member, branches}}
use Rattle.tree.proofs.Meaning.{{term?, pattern?, mark?, format?, from?, upto?, globals?, terms, definitions, patterns, pat_entries, entries, parts, names, params, numbers, imports, natives, modules, str_parts}}

-- a BinOp, of either kind of operator
binary : (p : ℕ) (t : Term) (o : Op) (u : Term) → (v : Term) × (f_term v ≡ node 0xAD p (rcons (f_term t) (rcons (g_op o) (rcons (f_term u) rnil))))
unfolding f_term
binary p t (op_pipe q x) u = (t_pipe p t q x u, refl)
binary p t (op_byte q x) u = (t_bin_op p t q x u, refl)

{steps}
-- ---- all tags

unfoldable pub known : List ℕ
known = {known} ∷ []

abbrev pub Steps : List ℕ → Type 0
Steps [] = Unit {{0}}
Steps (k ∷ ks) = Step Meaning k × Steps ks

-- the rows above are those of the table
pub all-steps : Steps known
unfolding known class shape classes shapes items decode row_at
all-steps = {tuple_}
""")


# ---- the other way: the fields of a tree obey the table

# of each constructor the pattern, and its members in the order of the row; p is the place
MEMBERS = {
    0x8C: ('def p f xs t', 'f xs t'), 0x98: ('p_var p x', ''), 0x99: ('p_arr p xs', 'xs'), 0x9A: ('p_obj p es', 'es'),
    0xA0: ('t_id p', ''), 0xA1: ('t_recurse p', ''), 0xA2: ('t_arr p o', 'o'), 0xA3: ('t_neg p t', 't'), 0xA4: ('t_label p x t', 'x t'), 0xA5: ('t_break p x', ''),
    0xA7: ('t_var p x', ''), 0xA8: ('t_call p f ts', 'f ts'), 0xA9: ('t_def p ds t', 'ds t'), 0xAA: ('t_num p x', ''), 0xAB: ('t_try_catch p t o', 't o'),
    0xAC: ('t_fold p f t x ts', 'f t x ts'), 0xAE: ('t_path p t ps', 't ps'), 0xB0: ('t_obj p es', 'es'),
    0xBE: ('part_index p t m', 't m'), 0xBF: ('part_range p a z m', 'a z m'),
}
# a member's class and field, that it is of its class, that it obeys
ONE = {'TERM': ('f_term {}', 'class-term {}', 'o-term {}'), 'PATTERN': ('f_pattern {}', 'class-pattern {}', 'o-pattern {}'), 'name': ('f_name 0x90 {}', 'refl', 'refl')}
# the function of an optional member or a list, and the lemma on it
SOME = {'TERM?': ('f_opt_term', 'o-opt-term'), 'TERM*': ('f_terms', 'o-terms'), 'definition*': ('f_defs', 'o-defs'), 'parameter*': ('f_names 0x91', 'o-names 0x91 15 refl refl'),
        'PATTERN?': ('f_opt_pattern', 'o-opt-pattern'), 'PATTERN*': ('f_patterns', 'o-patterns'), 'patentry*': ('f_pat_entries', 'o-pat-entries'), 'part*': ('f_parts', 'o-parts'),
        'entry*': ('f_entries', 'o-entries'), 'optional?': ('f_mark', 'o-mark'),
        'from?': ('f_bound 0xC1', 'o-bound 0xC1 26 good-from refl'), 'upto?': ('f_bound 0xC2', 'o-bound 0xC2 27 good-upto refl')}


def parse(word):
    name, mode = re.fullmatch(r'(\w+)(\?|\*|\|TERM\*)?', word).groups()
    return CLASS[name], MODE[mode or '']


def shown(items):
    text = 'end'
    for c, m in reversed(items):
        text = f"{['one', 'opt', 'many', 'mix'][m]} {c} {paren(text)}"
    return paren(text)


def after(items, c):
    for i, (k, m) in enumerate(items):
        if k == c:
            return items[i:] if m >= 2 else items[i + 1:]
        assert m
    assert False


def roses(words, names):
    if not words:
        return 'rnil'
    rest = roses(words[1:], names[1:])
    if words[0] in ONE:
        return f'(rcons ({ONE[words[0]][0].format(names[0])}) {rest})'
    return f'({SOME[words[0]][0]} {names[0]} {rest})'


def good(items, words, names):
    """That the members fit what the row may still be, and obey."""
    if not words:
        return '(refl, tt)'
    c, mode = parse(words[0])
    rest = roses(words[1:], names[1:])
    if words[0] in ONE:
        field, of_class, obeys = (x.format(names[0]) for x in ONE[words[0]])
        return f'(good-one {shown(items)} ({field}) {rest} {c} ({of_class}) ({obeys}) {good(after(items, c), words[1:], names[1:])})'
    lemma = SOME[words[0]][1]
    if mode >= 2:
        return f'({lemma} {shown(items)} refl {names[0]} {rest} {good(items, words[1:], names[1:])})'
    return f'({lemma} {shown(items)} {names[0]} {rest} {good(items, words[1:], names[1:])} {good(after(items, c), words[1:], names[1:])})'


def clause(function, tag):
    content = dict((t, c) for t, _, c in FORM)[tag]
    pattern, names = MEMBERS[tag]
    if isinstance(content, int):
        return f'  {function} ({pattern}) = refl\n'
    words, names = content.split(), names.split()
    return f'  {function} ({pattern}) = good-node 0x{tag:02X} p {roses(words, names)} refl {good([parse(w) for w in words], words, names)}\n'


def write_obeyed():
    path = 'crates/tree/proofs/Obeyed.antt'
    text = open(path).read()
    for function, tags in (('o-term', [t for t, c, _ in FORM if c == 'TERM' and t not in (0xA6, 0xAD, 0xAF)]), ('o-def', [0x8C]), ('o-pattern', [0x98, 0x99, 0x9A]), ('o-part', [0xBE, 0xBF])):
        clauses = ''.join(clause(function, t) for t in tags)
        begin, end = f'  -- made: {function}\n', '  -- end of what is made\n'
        i = text.index(begin) + len(begin)
        text = text[:i] + clauses + text[text.index(end, i):]
    open(path, 'w').write(text)


if __name__ == '__main__':
    t = tables()
    write_spec(*t)
    write_code(*t)
    write_steps()
    write_obeyed()
    print('classes and shapes', len(t[0]), 'items', len(t[2]))
