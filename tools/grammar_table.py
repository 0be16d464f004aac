#!/usr/bin/env python3
"""Writes crates/asn/src/table.rt and crates/asn/proofs/Laws/Tables.antt.

The grammar stands here once more, in the shape of specs/Module.antt, and nothing rests on it: the proofs compare the rows with
specs/Workings/Table.antt, by computation. To add a type: define it in specs/Module.antt, append it to `types` of specs/Workings/Table.antt (and
to `judged` of specs/Module.antt, if a rule asks for it), do the same here, run this, and `rt check asn`."""
import os

ROOT = os.path.join(os.path.dirname(os.path.abspath(__file__)), '..', 'crates', 'asn')

# ASN.1's own words. A type is a tuple of alternatives (identifier, contents); contents are a test's name, or a tuple of fields.
TESTS = {t: i for i, t in enumerate('- free integer natural version yes oid bits named nothing utc generalized positive'.split())}
def leaf(i, t): return ((i, t),)
def seq(*fields): return ((0x30, fields),)
def one(f): return (1, f)
def opt(f): return (2, f)
def many(f): return (3, f)
def seq_of(f): return seq(one(f), many(f))
def set_of(f): return ((0x31, ('set', one(f), many(f))),)
def implicit(n, f): return (((0x80 if isinstance(f[0][1], str) else 0xA0) + n, f[0][1]),)
def explicit(n, f): return ((0xA0 + n, (one(f),)),)
def choice(*fs): return sum(fs, ())

any_ = leaf(0, 'free'); true = leaf(1, 'yes'); integer = leaf(2, 'integer'); natural = leaf(2, 'natural')
positive = leaf(2, 'positive')
bits = leaf(3, 'bits'); named = leaf(3, 'named'); octets = leaf(4, 'free'); null = leaf(5, 'nothing')
oid = leaf(6, 'oid'); ia5 = leaf(0x16, 'free'); free1 = leaf(0x81, 'free'); free2 = leaf(0x82, 'free')

# RFC 5280's types
algorithm = seq(one(oid), opt(any_))
attribute = seq(one(oid), one(any_))
rdn = set_of(attribute)
name = seq(many(rdn))
time = choice(leaf(0x17, 'utc'), leaf(0x18, 'generalized'))
validity = seq(one(time), one(time))
spki = seq(one(algorithm), one(bits))
extension = seq(one(oid), opt(true), one(octets))
extensions = seq_of(extension)
version = leaf(2, 'version')
tbs = seq(opt(explicit(0, version)), one(integer), one(algorithm), one(name), one(validity), one(name), one(spki),
          opt(free1), opt(free2), opt(explicit(3, extensions)))
certificate = seq(one(tbs), one(algorithm), one(bits))
other_name = seq(one(oid), one(explicit(0, any_)))
general_name = choice(implicit(0, other_name), implicit(1, ia5), implicit(2, ia5), leaf(0xA3, 'free'), explicit(4, name),
                      leaf(0xA5, 'free'), implicit(6, ia5), implicit(7, octets), implicit(8, oid))
general_names = seq_of(general_name)
aki = seq(opt(implicit(0, octets)), opt(implicit(1, general_names)), opt(implicit(2, integer)))
basic_constraints = seq(opt(true), opt(natural))
eku = seq_of(oid)
qualifier = seq(one(oid), one(any_))
policy = seq(one(oid), opt(seq_of(qualifier)))
policies = seq_of(policy)
access = seq(one(oid), one(general_name))
aia = seq_of(access)
point_name = choice(implicit(0, general_names), implicit(1, rdn))
point = seq(opt(explicit(0, point_name)), opt(implicit(1, named)), opt(implicit(2, general_names)))
points = seq_of(point)
subtree = seq(one(general_name), opt(implicit(0, positive)), opt(implicit(1, natural)))
subtrees = seq_of(subtree)
name_constraints = seq(opt(implicit(0, subtrees)), opt(implicit(1, subtrees)))

judged = [certificate, aki, basic_constraints, octets, named, eku, policies, general_names, aia, points, null, name_constraints]
types = [()] + judged + [
    tbs, algorithm, bits, oid, any_, explicit(0, version), integer, name, validity, spki, free1, free2, explicit(3, extensions),
    version, rdn, attribute, time, extensions, extension, true, octets, general_name, explicit(0, any_), implicit(0, octets),
    implicit(1, general_names), implicit(2, integer), natural, policy, seq_of(qualifier), qualifier, access, point,
    explicit(0, point_name), implicit(1, named), implicit(2, general_names), point_name,
    implicit(0, subtrees), implicit(1, subtrees), subtree, implicit(0, positive), implicit(1, natural)]

# The rows. The first run of fields stands for no type, and the last ones for a list that holds one judged element.
alternatives, fields, form_row, field_row = [], [one(()), None], {}, {}
for f in types:
    form_row.setdefault(f, len(alternatives))
    alternatives += list(f) + [None]
for f in types:
    for (_, x) in f:
        if not isinstance(x, str):
            field_row.setdefault(x, len(fields))
            fields += list(x[1:] if x[0] == 'set' else x) + [None]
ROOTS = []
for f in judged:
    ROOTS.append(len(fields))
    fields += [one(f), None]


def row(a):
    if a is None:
        return 0
    i, x = a
    if isinstance(x, str):
        return i * 256 + TESTS[x]
    return i * 256 + (128 if x[0] == 'set' else 0) + len(TESTS) + field_row[x]


ROWS = [row(a) for a in alternatives]
FIELDS = [0 if a is None else a[0] * 256 + form_row[a[1]] for a in fields]
assert len(TESTS) + max(field_row.values()) < 128 and len(ROWS) <= 256


def const(name, xs):
    """A constant in the layout of `rt fmt`: twelve numbers a line."""
    cells = ['0x%04X,' % x for x in xs]
    lines = ['    ' + ' '.join(cells[k:k + 12]) + '\n' for k in range(0, len(cells), 12)]
    return 'pub const %s: [u16; %d] = [\n' % (name, len(xs)) + ''.join(lines) + '];\n'


open(ROOT + '/src/table.rt', 'w').write('''// RFC 5280's types as tables of rows, written by tools/grammar_table.py. The proofs compare them with specs/Workings/Table.antt.

// A row for each alternative of each type: 256 times its identifier octet, 0 for any, and what is inside: the number
// of a test, or as much more than the row of its first field as there are tests, with 128 for a SET. 0 ends the type.
''' + const('ROWS', ROWS) + '''
// A row for each field: 256 for one that must be there, 512 for one that may, 768 for one that may any number of
// times, and the row of its type. 0 ends the fields.
''' + const('FIELDS', FIELDS) + '''
// The row of the fields of a list that holds a Certificate alone, and of one that holds alone the value of the
// extension that rule 340+s judges, for s from 1 to 11.
''' + const('ROOTS', ROOTS))

NAMES = '''algorithm_identifier attribute_type_and_value relative_distinguished_name name time validity subject_public_key_info extension
extensions version tbs_certificate certificate other_name general_name general_names authority_key_identifier basic_constraints
subject_key_identifier key_usage ext_key_usage policy_qualifier_info policy_information certificate_policies access_description
authority_info_access distribution_point_name distribution_point crl_distribution_points ocsp_no_check general_subtree general_subtrees
name_constraints'''.split()


def antt(name, xs):
    lines, line = [], '   '
    for x in xs:
        cell = ' 0x%X ∷' % x
        if len(line) + len(cell) > 118:
            lines.append(line)
            line = '   '
        line += cell
    return 'unfoldable pub %s : List ℕ\n%s =\n%s\n' % (name, name, '\n'.join(lines + [line + ' []']))


def wrapped(names, start, gap, end, again, width):
    """Names behind `start`, in lines of at most so many characters; the next line starts with `again`."""
    lines, line = [], start
    for name in names:
        if len(line + name + end) > width:
            lines.append(line[:-len(gap)].rstrip() + end)
            line = again
        line += name + gap
    return '\n'.join(lines + [line[:-len(gap)] + end]) + '\n'


def using(module, names):
    start = 'use Rattle.asn.specs.%s.{' % module
    return wrapped(names, start, ', ', '}', start, 140)


def unfolding(names):
    return wrapped(names, 'unfolding ', ' ', '', '    ', 150)


open(ROOT + '/proofs/Laws/Tables.antt', 'w').write('''-- The rows of src/table.rt say what specs/Workings/Table.antt has: antt reads the whole tables. Written by tools/grammar_table.py.
--     tables_right, roots_right      the rows of the types and of their fields; the rows where the judged types begin
-- Assumes nothing.
use mathlib.Core.Path.{◌≡◌, refl}
use mathlib.Core.List.{List, [], ◌∷◌, map}
use Prim.Native.Nat.{ℕ}
use Rattle.asn.specs.Grammar.{Form, Slots}
''' + using('Module', ['judged'] + NAMES) + '''use Rattle.asn.specs.Workings.Table.{Tables, types, alone, all_forms, slot_rows, form_of, fields_of, rows_say, form_at, slots_at}

''' + antt('rows', ROWS) + '\n' + antt('slots', FIELDS) + '\n' + antt('roots', ROOTS) + '''
forms_right : rows_say form_of Form.none rows ≡ all_forms types
''' + unfolding('rows types judged slots_at slot_rows'.split() + NAMES) + '''forms_right = refl

fields_right : rows_say fields_of Slots.done slots ≡ slot_rows
''' + unfolding('slots slot_rows types judged form_at'.split() + NAMES) + '''fields_right = refl

pub tables_right : Tables rows slots
tables_right = record { forms = forms_right; fields = fields_right }

pub roots_right : map slots_at roots ≡ map alone judged
''' + unfolding('roots slots_at slot_rows types judged'.split() + NAMES) + '''roots_right = refl

pub none_right : slots_at 0 ≡ alone Form.none
unfolding slots_at slot_rows types
none_right = refl
''')
