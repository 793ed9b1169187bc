"""Compares docs/claims.md with the contracts. What stands between the page's marks is printed by this script: for each public call its
clauses, and the wrong bodies. And each clause, law and field that the page's table of promises names has to be there.

    python3 checks/lib/claims.py          tells the first difference
    python3 checks/lib/claims.py write    writes those parts of the page anew
"""
import os
import re
import sys

import contracts

PAGE = 'docs/claims.md'
TOP = os.path.dirname(os.path.dirname(os.path.dirname(os.path.abspath(__file__))))
TABLE = '## Which clause carries which promise'

# By a call, the crates, modules, types and calls that serve it. It promises what they come to, so they are only counted.
SERVES = {
    'c_check::check': 'c_typed::calls c_typed::expression c_typed::folding c_typed::sameness c_typed::types c_tables c_terms c_operate '
    'c_outline check_expr',
    'c_ints::apply': 'c_ints::Value',
    'c_parse::parse': 'c_nodes parse_expr c_parse::over',
    'c_pre::tokens': 'c_pre::word_of',
    'c_token::raw': 'c_token::longest_token',
    'c_tree::spell': 'c_token::Keyword c_token::Punct',
    'call_graph::copies': 'call_depth call_graph::graph call_graph::reach',
    'code_place::assemble': 'code_place::address_of code_place::real_words',
    'bank_page::selects_plain': 'bank_page::kinds bank_page::known bank_page::put_made',
    'headline_trace::lean_blocks_follow': 'lean_code lean_pass::ByteSet bank_trace::lean_prices bank_trace::select_prices',
    'headline_trace::translations_are_linked': 'program_code program_laws headline_trace::selects_are_had headline_trace::bodies_are_had '
    'headline_trace::start_is_had headline_trace::layout_is_had headline_trace::lean_is_had headline_trace::calls_are_had '
    'headline_trace::selection_is_had headline_trace::assembly_is_had headline_trace::beginning_is_had '
    'headline_trace::operands_have_addresses headline_trace::maps_are_written',
    'lower_stmt::lower': 'core_puts lower_expr::lower_address lower_expr::structures lower_expr::places',
    'lower_trace::lowering_keeps': 'src_rules',
    'narrow_code::narrowing_keeps': 'narrow_code::leads_only narrow_code::test_is_right',
    'pic_map::read_map': 'text_lines',
    'pic_sim::simulate': 'pic_world::Trace pic_world::input_at pic_sim::ScriptBoard',
    'picc_cli::picc': 'host_io::RealHost host_io::MemoryHost host_lines',
    'ram_place::place': 'live_frames ram_place::variable_bytes',
    'select_wide::select': 'sym_code select_code::select_with select_code::select_body select_code::Wide select_code::pieces '
    'select_code::loops select_wide::handler_at',
    'src_machine::Source::new': 'source_room typed_numbers',
    'src_machine::Source::step': 'src_values src_memory',
}
SERVED = {server: call for call, servers in SERVES.items() for server in servers.split()}
LONGEST_TEXT, LONGEST_ALONE = 40, 80
LONGEST_SENTENCE = 120
WIDTH = 140
SOURCE = re.compile(r' ?\((?:ISO/IEC|Microchip|DS39582|Intel)[^()]*\)')
WRAPPER = re.compile(r'(?:If|On|For)(?:Ok|Err|Some|None) [\w.]+ \((?:λ \w+\. )?|(?:All|AllZip) \(?')
UNCHANGED = re.compile(r'(?:OnErr result \()?((?:[\w.]+ )?\w+)\.new((?:\.\w+)*) ≡ \1\.old\2\)?')


def first_sentence(text):
    return re.split(r'(?<=\.) +(?=[A-Z`0-9])', text)[0].strip()


def in_short(text):
    """The first sentence of a comment without its source, and up to a colon or a semicolon where it is long."""
    sentence = SOURCE.sub('', first_sentence(text))
    front = re.split(r'[:;] ', sentence)[0]
    return f'{front}.' if len(sentence) > LONGEST_SENTENCE and len(front) > 30 and front != sentence else sentence


def is_law(call):
    """A function of nothing, whose clauses are definitions: its comment says what they come to."""
    return all(re.fullmatch(r'[\w.]+( [A-Z])*', clause.text) for clause in call.clauses)


def definition_words(top, call, text):
    """The first sentence over the definition that a clause is, if it is one of the project's."""
    while WRAPPER.match(text):
        text = WRAPPER.sub('', text, count=1)
    name = re.match(r'[\w.]*', text)[0]
    front, _, last = name.rpartition('.')
    module = contracts.imports(top, call.crate, call.module).get(front or name, '')
    is_statement = last[:1].isupper() or text.endswith('≡ true')
    return first_sentence(contracts.definitions(top, module).get(last, '')) if is_statement else ''


def sentence_of(top, call, clause):
    """What a clause says in words: the comment over it, or the first sentence over the definition that it is; or nothing."""
    if clause.comment or is_law(call) or UNCHANGED.fullmatch(clause.text):
        return clause.comment
    return definition_words(top, call, clause.text)


def formula_of(call, clause):
    """What is said of a clause without words: that nothing changes, or its text where that is short; or nothing."""
    if UNCHANGED.fullmatch(clause.text):
        return 'unchanged' + ' after an error' * clause.text.startswith('OnErr')
    longest = LONGEST_TEXT if clause.name and clause.kind == 'ensures' else LONGEST_ALONE
    return f'`{clause.text}`' if len(clause.text) <= longest and not is_law(call) else ''


def clause_lines(top, call, front, clauses, said):
    """Clauses of a call: a line each for those in words that weren't said before, and one for the others."""
    others = {}
    for clause in clauses:
        name = f'{front} `{clause.name}`'.strip() if clause.name else front
        sentence = sentence_of(top, call, clause)
        formula = '' if sentence else formula_of(call, clause)
        if sentence and (name, sentence) not in said:
            yield f'  - {name}: {sentence}' if name else f'  - {sentence}'
            said.add((name, sentence))
        elif name or formula:
            others.setdefault(formula, []).append(name)
    pieces = [': '.join(part for part in (', '.join(names), formula) if part) for formula, names in others.items()]
    if pieces:
        yield '  - ' + '; '.join(pieces)


def call_lines(top, call, said):
    asked = [clause for clause in call.clauses if clause.kind == 'requires']
    kept = [clause for clause in call.clauses if clause.kind == 'keeps']
    promised = [clause for clause in call.clauses if clause.kind == 'ensures']
    yield f'- **`{call.name}`** {first_sentence(call.doc) if is_law(call) else in_short(call.doc)}'
    yield from clause_lines(top, call, 'asks', asked, said)
    yield from clause_lines(top, call, 'keeps', kept, said)
    yield from clause_lines(top, call, '', promised, said)


def promises(call):
    return any(clause.kind != 'requires' for clause in call.clauses)


def is_getter(call):
    """A method that answers a part of what it is called on, or what that is: clauses that say so in a few words."""
    texts = [clause.text for clause in call.clauses]
    return '::' in call.name and all(re.fullmatch(r'(\w+ )*result [≡<≤] [^→]{,44}', text) and '.new' not in text for text in texts)


def served_by(call):
    """The call that this one serves, if it is listed with that."""
    parts = [call.crate, f'{call.crate}::{call.module.split("::")[0]}', f'{call.crate}::{call.name.split("::")[0]}']
    return next((SERVED[part] for part in parts if part in SERVED), None)


def crate_lines(top, crate):
    """What the page says of a crate, or nothing where it promises nothing by itself."""
    shown = [call for call in contracts.calls(top, crate) if promises(call) and not served_by(call) and not is_getter(call)]
    if shown:
        yield from (f'### {crate}', '')
    said = set()
    for call in shown:
        yield from call_lines(top, call, said)
    if shown:
        yield ''


def is_listed(crate):
    return not crate.endswith(('_tests', '_cases')) or crate == 'spec_tests'


def unlisted(top):
    """What the list leaves out, counted, and the calls without a clause."""
    served, getters, bare = {}, 0, []
    for crate in filter(is_listed, contracts.crates(top)):
        for call in contracts.calls(top, crate):
            if not promises(call):
                bare += [] if served_by(call) else [f'`{crate}::{call.name}`']
            elif served_by(call):
                served.setdefault(served_by(call), []).append(call)
            elif is_getter(call):
                getters += 1
    counts = ', '.join(f'{len(calls)} of `{end}`' for end, calls in served.items())
    yield f'Not listed are {getters} methods that answer a part of a value, and calls that serve another one, which has what they come to:'
    yield f'{counts}. Without a clause are {", ".join(bare)}.'


def clauses(top):
    for crate in filter(is_listed, contracts.crates(top)):
        yield from crate_lines(top, crate)
    yield from unlisted(top)


def wrong_bodies(top):
    """A row for each crate that has edits which the prover has to refuse, and how many there are in all."""
    rows, count = [], 0
    for crate in contracts.crates(top):
        folder = f'{top}/crates/{crate}/must-fail'
        names = sorted(os.listdir(folder)) if os.path.isdir(folder) else []
        edits = [name[:-5].replace('_', ' ') for name in names if name.endswith('.edit')]
        if edits:
            rows.append(f'| {crate} | {", ".join(edits)} |')
            count += len(edits)
    return [f'They are {count}:', '', '| Crate | Wrong bodies |', '|---|---|', *rows]


def wrapped(line):
    """A line of a list as lines of the page's width; none begins with what Markdown takes for a list of its own."""
    lines, margin = [], ' ' * (line.index('-') + 2) if line.lstrip().startswith('- ') else ''
    for word in line.split(' '):
        if lines and (len(lines[-1]) + len(word) < WIDTH or word[:1] in '-+*#>' or not lines[-1].strip()):
            lines[-1] += ' ' + word
        else:
            lines.append(margin * bool(lines) + word)
    return lines


def marks(part):
    return f'<!-- {part}: printed by checks/lib/claims.py -->', f'<!-- end of {part} -->'


def anew(top, page):
    """The page with the parts between its marks printed anew."""
    listed = [short for line in clauses(top) for short in wrapped(line)]
    for part, lines in (('clauses', listed), ('wrong bodies', wrong_bodies(top))):
        begin, end = marks(part)
        if page.count(begin) != 1 or page.count(end) != 1:
            raise SystemExit(f'claims: {PAGE}: the marks of {part} have to stand there once: {begin} and {end}')
        front, rest = page.split(begin)
        page = '\n'.join([front + begin, '', *lines, '']).rstrip('\n') + '\n\n' + end + rest.split(end)[1]
    return page


def first_difference(page, right):
    old, new = page.splitlines() + ['(nothing)'], right.splitlines() + ['(nothing)']
    for number, (has, wanted) in enumerate(zip(old, new), 1):
        if has != wanted:
            yield f'line {number} is {has!r}, by the contracts it is {wanted!r}; `sh checks/claims.sh write` writes it'
            return


def has_field(top, crate, record, field):
    """Whether a definition of a crate's specs/ has this field."""
    folder = f'{top}/crates/{crate}/specs'
    for name in os.listdir(folder) if os.path.isdir(folder) else []:
        text = '\n'.join(contracts.lines_of(f'{folder}/{name}')) if name.endswith('.antt') else ''
        block = re.search(rf'^( *)pub record {record}\b.*\n((?:\1  .*\n|\n)*)', text + '\n', re.MULTILINE)
        if block and re.search(rf'^ +pub {field} :', block[2], re.MULTILINE):
            return True
    return False


def clause_names(top, crate, name):
    """The names of a call's clauses, or none where there is no such call."""
    if crate not in contracts.crates(top):
        return None
    for call in contracts.calls(top, crate):
        if call.name == name and promises(call):
            return {clause.name for clause in call.clauses if clause.kind != 'requires'}
    return None


def row_errors(top, row):
    """What a row of the table names and isn't there. A call is `crate::call`, with names of clauses behind it; a field of a definition
    is `crate::Record.field`, or `Record.field` behind another name of that crate."""
    names, last, crate = None, '', ''
    for word in re.findall(r'`([^`]+)`', row):
        front, _, name = word.rpartition('::') if '.' in word else word.partition('::')
        crate = front if '::' in word else crate
        if '.' in word:
            if not has_field(top, crate, *name.split('.')):
                yield f'no definition of {crate} has the field {name}'
        elif name:
            names, last = clause_names(top, crate, name), word
            if names is None:
                yield f'there is no public call {word} with clauses'
        elif names is not None and word not in names:
            yield f'{last} has no clause {word}'


def table_errors(top, page):
    table = page.split(TABLE)[1].split('\n## ')[0] if TABLE in page else ''
    rows = [line for line in table.splitlines() if re.match(r'\| (?!---|Promise)', line)]
    if not rows:
        yield f'the table under {TABLE!r} is missing'
    for row in rows:
        promise, _, carried = row.strip('| ').partition(' | ')
        if '::' not in carried and 'owed' not in carried and 'tested' not in carried:
            yield f'the promise {promise!r} names no clause'
        yield from row_errors(top, carried)


def server_errors(top):
    """Calls that others are to serve, and that aren't there."""
    for server in SERVES:
        crate, name = server.split('::', 1)
        if clause_names(top, crate, name) is None:
            yield f'SERVES of checks/lib/claims.py has {server}, and there is no such public call with clauses'


def main():
    path = f'{TOP}/{PAGE}'
    with open(path, encoding='utf-8') as file:
        page = file.read()
    right = anew(TOP, page)
    if sys.argv[1:] == ['write']:
        with open(path, 'w', encoding='utf-8') as file:
            file.write(right)
        page = right
    found = [*first_difference(page, right), *table_errors(TOP, page), *server_errors(TOP)]
    for difference in found:
        print(f'claims: {PAGE}: {difference}')
    return 1 if found else 0


if __name__ == '__main__':
    sys.exit(main())
