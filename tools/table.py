#!/usr/bin/env python3
"""Writes the table of the language from its grammar, tools/cspb.grammar.

    python3 tools/table.py            writes the files into crates/cb_grammar
    python3 tools/table.py --check    names each file there that is not what the grammar gives; status 1 if there is one

Nothing rests on this tool: the proof of cb_grammar computes over what it wrote that one token decides, that reading
ends, that no alternative is dead and that the actions fit.
"""
import functools
import itertools
import os
import re
import sys

TOP = os.path.dirname(os.path.dirname(os.path.abspath(__file__)))
GRAMMAR = os.path.join(TOP, 'tools', 'cspb.grammar')
CRATE = os.path.join('crates', 'cb_grammar')

# Classes of tokens: names, numbers, the end, the keywords and the signs; opened names where none may stand, which no
# part takes; and from FIRST_WORD on the names that are words with a meaning of their own in some places.
NAME, NUMBER, FINISH, FIRST_KEYWORD, OPENED, FIRST_WORD = 1, 2, 3, 4, 119, 128


def refuse(*problems):
    for problem in problems:
        print(problem)
    sys.exit(1)


class Grammar:
    """The grammar file, entry by entry."""

    def __init__(self, path):
        self.keywords, self.signs, self.reads, self.words, self.kinds = [], [], [], [], []
        self.actions, self.parts = {}, {}
        entry = ''
        for line in open(path).read().split('\n') + ['']:
            if line.startswith('#'):
                continue
            if line.startswith(' '):
                entry += ' ' + line.strip()
            else:
                if entry:
                    self.add(entry)
                entry = line.strip()
        if entry:
            self.add(entry)

    def add(self, entry):
        words = entry.split()
        if words[0] in ('keywords', 'signs', 'reads', 'words'):
            getattr(self, words[0]).extend(zip(words[1::2], words[2::2]))
            if words[0] == 'words':
                self.kinds += [kind for kind in dict.fromkeys(words[2::2]) if kind not in self.kinds]
        elif words[0] == 'kinds':
            self.kinds += words[1:]
        elif words[0] == 'action':
            takes, leaves = entry.split(':', 1)[1].split('->')
            self.actions[words[1]] = (takes.split(), leaves.split())
            for kind in takes.split() + leaves.split():
                if kind not in self.kinds:
                    refuse(f'{words[1]}: {kind} is no kind')
        else:
            name, body = entry.split('=', 1)
            if name.strip() in self.parts:
                refuse(f'{name.strip()} stands twice')
            self.parts[name.strip()] = body


class Parser:
    """The alternatives of every part, as lists of symbols.

    ('Take', class), ('Keep', class), ('Act', number), ('Part', name), ('Gives', sort), ('Then', name, name).
    """
    TOKENS = re.compile(r'\^?"[^"]*"|then\(|[a-z_0-9]+|\^|@[a-z_0-9]+|[\[\]()|*,]')

    def __init__(self, grammar):
        self.grammar = grammar
        self.words = []
        self.classes = {'name': NAME, 'number': NUMBER, 'finish': FINISH}
        for number, (spelling, _) in enumerate(grammar.keywords + grammar.signs, FIRST_KEYWORD):
            self.classes[spelling] = number
        if max(self.classes.values()) >= OPENED:
            refuse('too many keywords and signs')
        self.actions = {name: number for number, name in enumerate(grammar.actions)}
        self.made = {}
        self.alternatives = {name: [] for name in grammar.parts}
        for name, text in grammar.parts.items():
            self.part, self.count, self.at = name, 0, 0
            self.tokens = self.TOKENS.findall(text)
            self.alternatives[name] = self.choice()
            if self.at != len(self.tokens):
                refuse(f'{name}: {self.tokens[self.at]} is out of place')
            self.spare(name)

    def spare(self, name):
        """A part that is but one [ ] or ( )* needs no other part for it."""
        found = self.alternatives[name]
        if len(found) == 1 and len(found[0]) == 1 and found[0][0][1] in self.made.values():
            inner = found[0][0][1]
            self.alternatives[name] = [[('Part', name) if s == ('Part', inner) else s for s in a]
                                       for a in self.alternatives[inner]]

    def class_of(self, spelling):
        if spelling not in self.classes:
            if not re.match(r'^[A-Z][A-Z0-9]+$', spelling):
                refuse(f'{self.part}: {spelling} is no token')
            self.words.append(spelling)
            self.classes[spelling] = FIRST_WORD + len(self.words) - 1
        return self.classes[spelling]

    def next(self):
        self.at += 1
        return self.tokens[self.at - 1]

    def peek(self):
        return self.tokens[self.at] if self.at < len(self.tokens) else ''

    def choice(self):
        found = [self.sequence()]
        while self.peek() == '|':
            self.next()
            found.append(self.sequence())
        return found

    def sequence(self):
        found = []
        while self.peek() not in ('', '|', ')', ']'):
            found.append(self.symbol(self.next()))
        return found

    def symbol(self, token):
        if token == '^':
            return ('Keep', self.classes[self.next()])
        if token[0] == '^':
            return ('Keep', self.class_of(token[2:-1]))
        if token[0] == '"':
            return ('Take', self.class_of(token[1:-1]))
        if token[0] == '@':
            return ('Act', self.actions[token[1:]])
        if token == 'gives':
            return ('Gives', int(self.next()))
        if token == 'then(':
            first, _, second, _ = (self.next() for _ in range(4))
            return ('Then', first, second)
        if token in ('(', '['):
            return self.group(token)
        if token in ('name', 'number', 'finish'):
            return ('Take', self.classes[token])
        if token not in self.grammar.parts:
            refuse(f'{self.part}: {token} is no part')
        return ('Part', token)

    def group(self, opening):
        inner = self.choice()
        self.next()
        if opening == '[':
            return ('Part', self.new(inner + [[]]))
        if self.peek() == '*':
            self.next()
            return ('Part', self.new(inner, again=True))
        return ('Part', self.new(inner))

    def new(self, inner, again=False):
        """A part without a name of its own; the same one for the same alternatives."""
        key = (again, repr(inner))
        if key not in self.made:
            self.count += 1
            name = f'{self.part}_{self.count}'
            self.made[key] = name
            self.alternatives[name] = [i + [('Part', name)] for i in inner] + [[]] if again else inner
        return self.made[key]


def is_keyed(alternative):
    return bool(alternative) and alternative[0][0] in ('Take', 'Keep')


def actions_before(alternative):
    """How many actions stand in front."""
    return next((i for i, s in enumerate(alternative) if s[0] != 'Act'), len(alternative))


def move_actions(alternatives):
    """Puts actions behind a token that leaves no trace, so that the alternative begins with a key."""
    for found in alternatives.values():
        for i, alternative in enumerate(found):
            front = actions_before(alternative)
            if front and front < len(alternative) and alternative[front][0] == 'Take':
                found[i] = [alternative[front]] + alternative[:front] + alternative[front + 1:]


def unfold(alternatives):
    """Where more than one alternative of a part begins with no token, puts the alternatives of a first part in."""
    changed = True
    while changed:
        changed = False
        for found in alternatives.values():
            without_key = [a for a in found if not is_keyed(a)]
            if len(without_key) < 2:
                continue
            candidates = []
            for a in without_key:
                front = actions_before(a)
                if front < len(a) and a[front][0] == 'Part':
                    inner = alternatives[a[front][1]]
                    if all(is_keyed(x) and (front == 0 or x[0][0] == 'Take') for x in inner):
                        candidates.append((len(inner), front, a))
            if not candidates:
                candidates = [(len(alternatives[a[0][1]]), 0, a) for a in without_key if a and a[0][0] == 'Part']
            if candidates:
                _, front, a = min(candidates, key=lambda c: c[0])
                at = found.index(a)
                found[at:at + 1] = [x[:1] + a[:front] + x[1:] + a[front + 1:] if front else x + a[1:]
                                    for x in alternatives[a[front][1]]]
                changed = True


def group_of(number):
    return NAME if number >= FIRST_WORD else NUMBER if number >= 120 else 0


def overlap(one, other):
    """Whether some token is admitted by both classes."""
    return one == other or group_of(one) == other or group_of(other) == one


class Table:
    """The lines of the grammar with numbers, and what shows that they are in order."""

    def __init__(self, grammar):
        self.grammar = grammar
        parser = Parser(grammar)
        self.classes, self.words, self.alternatives = parser.classes, parser.words, parser.alternatives
        move_actions(self.alternatives)
        unfold(self.alternatives)
        self.names = self.reached([part for _, part in grammar.reads])
        self.number = {name: i for i, name in enumerate(self.names, 1)}
        self.spelling = {number: spelling for spelling, number in self.classes.items()}
        self.problems = []
        self.lines = [line for name in self.names for line in self.lines_of(name)]
        self.others = {part: body for part, key, _, body in self.lines if not key}
        self.find_hints()
        self.find_weights()
        if self.problems:
            refuse(*self.problems)
        self.rows = list(grammar.actions.values())
        self.kind_of_class = {self.classes[spelling]: kind for spelling, kind in grammar.words}
        self.kind_of_class[OPENED] = self.kind_of_class[NAME]
        self.find_kinds()
        if self.problems:
            refuse(*self.problems)

    def reached(self, starts):
        seen, todo = set(), list(starts)
        while todo:
            name = todo.pop()
            if name not in seen:
                seen.add(name)
                for symbol in itertools.chain(*self.alternatives[name]):
                    if symbol[0] in ('Part', 'Then'):
                        todo += symbol[1:]
        return [name for name in self.alternatives if name in seen]

    def lowered(self, symbol):
        if symbol[0] in ('Part', 'Then'):
            return (symbol[0],) + tuple(self.number[name] for name in symbol[1:])
        return symbol

    def lines_of(self, name):
        keys, others = set(), 0
        for alternative in self.alternatives[name]:
            body = [self.lowered(s) for s in alternative]
            if is_keyed(alternative):
                key = alternative[0][1]
                if key in keys:
                    self.problems.append(f'{name}: two alternatives begin with {self.spelling[key]}')
                keys.add(key)
                yield (self.number[name], key, alternative[0][0] == 'Keep', body[1:])
            else:
                others += 1
                if others > 1:
                    self.problems.append(f'{name}: a second alternative that begins with no token: {alternative}')
                yield (self.number[name], 0, False, body)
        if any(group_of(key) in keys for key in keys):
            self.problems.append(f'{name}: a word and every name begin alternatives')

    # which tokens may begin a part where it stands, and which may come after it

    def find_hints(self):
        count = len(self.names) + 1
        self.may = [set() for _ in range(count)]
        self.after = [set() for _ in range(count)]
        self.sorts = [set(), set()]
        before = None
        while before != (before := sum(map(len, self.may + self.after + self.sorts))):
            for part, key, _, body in self.lines:
                self.may[part] |= {key} if key else self.firsts(self.after[part], body)
                for i, symbol in enumerate(body):
                    follow = self.firsts(self.after[part], body[i + 1:])
                    if symbol[0] == 'Part':
                        self.after[symbol[1]] |= follow
                    if symbol[0] == 'Then':
                        for sort in (0, 1):
                            self.after[symbol[1 + sort]] |= follow
                            self.sorts[sort] |= self.may[symbol[1 + sort]]
        for part, key, _, _ in self.lines:
            if key and part in self.others:
                first = self.firsts(self.after[part], self.others[part])
                if any(overlap(key, other) for other in first):
                    self.problems.append(f'{self.names[part - 1]}: {self.spelling[key]} begins an alternative, and'
                                         ' may stand where the one that begins with no token is taken')

    def firsts(self, tail, body):
        for symbol in body:
            if symbol[0] in ('Take', 'Keep'):
                return {symbol[1]}
            if symbol[0] == 'Part':
                return self.may[symbol[1]]
            if symbol[0] == 'Gives':
                return self.sorts[symbol[1]]
            if symbol[0] == 'Then':
                return set()
        return tail

    # how many steps a part may take without a token

    def find_weights(self):
        @functools.lru_cache(None)
        def weight(part):
            return 1 + total(self.others[part]) if part in self.others else 1

        def total(body):
            return sum(1 if s[0] == 'Act' else
                       weight(s[1]) if s[0] == 'Part' else
                       1 + weight(s[1]) + weight(s[2]) if s[0] == 'Then' else 0 for s in body)
        try:
            self.weights = [0] + [weight(part) for part in range(1, len(self.names) + 1)]
        except RecursionError:
            refuse('a part begins with itself')
        if max(self.weights) > 255 or max(total(body) for *_, body in self.lines) >= 1000:
            self.problems.append('a part is too heavy')

    def word_kind(self, number):
        return self.kind_of_class[group_of(number) or number]

    # which kinds of values each part takes and leaves, by the sort in which it ends

    def find_kinds(self):
        self.takes, self.leaves = {}, {}
        changed = True
        while changed and not self.problems:
            changed = False
            for part, key, keep, body in self.lines:
                try:
                    ends = self.walk([self.word_kind(key)] if keep else [], [], tuple(body))
                except (TypeError, KeyError):
                    self.problems.append(f'{self.names[part - 1]} {self.spelling.get(key, "")}: the kinds do not fit')
                    continue
                for end in ends or []:
                    changed |= self.learn(part, key, *end)
        if not self.problems:
            self.problems = [f'{name}: no kinds' for name in self.names if self.number[name] not in self.takes]
        if not self.problems:
            self.pick_missing()

    def learn(self, part, key, sort, need, stack):
        changed = False
        takes, leaves = self.takes.get(part, []), self.leaves.get(part, {})
        if len(need) > len(takes):
            more = need[:len(need) - len(takes)]
            takes, leaves, changed = need, {s: more + kinds for s, kinds in leaves.items()}, True
        stack = takes[:len(takes) - len(need)] + stack
        if takes[len(takes) - len(need):] != need or leaves.get(sort, stack) != stack:
            self.problems.append(f'{self.names[part - 1]} {self.spelling.get(key, "")}: takes {need}, leaves {stack}')
        changed |= sort not in leaves
        self.takes[part], self.leaves[part] = takes, {**leaves, sort: stack}
        return changed

    def walk(self, stack, need, body):
        """The ends of a body: the sort, what it took from below, what it leaves. None where a part isn't known yet."""
        stack, need = list(stack), list(need)

        def pop(kinds):
            for kind in reversed(kinds):
                if not stack:
                    need.insert(0, kind)
                elif stack.pop() != kind:
                    raise TypeError
        for i, symbol in enumerate(body):
            if symbol[0] == 'Keep':
                stack.append(self.word_kind(symbol[1]))
            elif symbol[0] == 'Act':
                pop(self.rows[symbol[1]][0])
                stack += self.rows[symbol[1]][1]
            elif symbol[0] == 'Gives':
                return [(symbol[1], need, stack)]
            elif symbol[0] == 'Part':
                if symbol[1] not in self.takes:
                    return None
                pop(self.takes[symbol[1]])
                leaves = self.leaves[symbol[1]]
                if None not in leaves:
                    return self.walk_sorts(leaves, need, stack, body[i + 1:])
                stack += leaves[None]
        return [(None, need, stack)]

    def walk_sorts(self, leaves, need, stack, rest):
        ends = []
        for sort, kinds in leaves.items():
            if not rest:
                ends.append((sort, need, stack + kinds))
                continue
            more = self.walk(stack + kinds, need, (('Part', rest[0][1 + sort]),) + tuple(rest[1:]))
            if more is None:
                return None
            ends += more
        return ends

    def pick_missing(self):
        """A part that always ends in one sort still says what it would leave with the other: any kind that goes on."""
        lone = {p: next(iter(l)) for p, l in self.leaves.items() if None not in l and len(l) == 1}
        for kinds in itertools.product(self.grammar.kinds, repeat=len(lone)):
            for (part, sort), kind in zip(lone.items(), kinds):
                self.leaves[part][1 - sort] = [kind]
            if all(self.leads(part, tuple(body), None, tuple(self.takes[part] + ([self.word_kind(key)] if keep else [])))
                   for part, key, keep, body in self.lines):
                return
        self.problems.append('the actions do not fit')

    def leads(self, own, body, sort, stack):
        """The engine's test of a line, over stacks with the top last."""
        if not body:
            return sort in self.leaves[own] and stack == tuple(self.leaves[own][sort])
        symbol, rest = body[0], body[1:]
        if sort is not None:
            return symbol[0] == 'Then' and self.through(own, symbol[1 + sort], stack, rest)
        if symbol[0] == 'Keep':
            return self.leads(own, rest, None, stack + (self.word_kind(symbol[1]),))
        if symbol[0] == 'Act':
            takes, leaves = self.rows[symbol[1]]
            below = below_of(takes, stack)
            return below is not None and self.leads(own, rest, None, below + tuple(leaves))
        if symbol[0] == 'Part':
            return self.through(own, symbol[1], stack, rest)
        if symbol[0] == 'Gives':
            return self.leads(own, rest, symbol[1], stack)
        return symbol[0] == 'Take' and self.leads(own, rest, None, stack)

    def through(self, own, part, stack, rest):
        below = below_of(self.takes[part], stack)
        return below is not None and all(self.leads(own, rest, sort, below + tuple(leaves))
                                         for sort, leaves in self.leaves[part].items())


def below_of(takes, stack):
    """What lies below these kinds, or None where they are not on top."""
    cut = len(stack) - len(takes)
    return stack[:cut] if cut >= 0 and stack[cut:] == tuple(takes) else None


class Writer:
    """The files of the crate."""
    NOTE = 'Written by tools/table.py from tools/cspb.grammar.'

    def __init__(self, table):
        self.table, self.grammar = table, table.grammar
        self.kind = {kind: number for number, kind in enumerate(self.grammar.kinds, 1)}

    def files(self):
        return {
            'src/table.rt': self.table_file(),
            'src/actions.rt': self.actions_file(),
            'src/classes.rt': self.classes_file(),
            'src/parts.rt': self.parts_file(),
            'specs/Classes.antt': self.class_definitions(),
            'specs/Numbers.antt': self.part_numbers(),
            'specs/Parts.antt': self.part_definitions(),
            'specs/Signatures.antt': self.signatures(),
            'proofs/Hinted.antt': self.hints(),
            'proofs/PartsFit.antt': self.parts_fit(),
        }

    @staticmethod
    def numbers(found):
        return ' ∷ '.join([str(n) for n in found] + ['[]'])

    def top_first(self, kinds):
        return self.numbers(self.kind[kind] for kind in reversed(kinds))

    def table_file(self):
        table = self.table
        out = [f'//! The grammar as data. {self.NOTE}', '', 'use cb_engine::Symbol;', '',
               '/// The alternatives of the grammar, part by part.',
               f'pub static GRAMMAR: [Symbol; {sum(1 + len(body) for *_, body in table.lines)}] = [']
        for part, key, keep, body in table.lines:
            line = table.names[part - 1] + (f' at {table.spelling[key]}' if key else '')
            out.append(f'    Symbol::Line({part}, {key}, {"true" if keep else "false"}), // {line}')
            out += [f'    Symbol::{s[0]}({", ".join(map(str, s[1:]))}), // {line}: {self.shown(s)}' for s in body]
        out += ['];', '', '/// How many steps each part may take without a token.',
                f'pub static WEIGHTS: [u8; {len(table.weights)}] = [']
        out += self.wrapped([f'{w},' for w in table.weights]) + ['];', '']
        return '\n'.join(out)

    def shown(self, symbol):
        """A symbol as the grammar file has it."""
        table, numbers = self.table, symbol[1:]
        if symbol[0] in ('Take', 'Keep'):
            return ('^' if symbol[0] == 'Keep' else '') + table.spelling[numbers[0]]
        if symbol[0] == 'Act':
            return '@' + list(self.grammar.actions)[numbers[0]]
        if symbol[0] == 'Gives':
            return f'gives {numbers[0]}'
        names = [table.names[number - 1] for number in numbers]
        return names[0] if symbol[0] == 'Part' else f'then({", ".join(names)})'

    @staticmethod
    def wrapped(words):
        lines, line = [], ''
        for word in words:
            if line and len(line) + 1 + len(word) > 95:
                lines.append('    ' + line)
                line = ''
            line += (' ' if line else '') + word
        return lines + ['    ' + line]

    def actions_file(self):
        out = [f'//! The actions of the grammar. {self.NOTE}', '']
        for number, (name, (takes, leaves)) in enumerate(self.grammar.actions.items()):
            out += [f'/// {" ".join(takes) + " " if takes else ""}-> {" ".join(leaves)}',
                    f'pub const {name.upper()}: u8 = {number};']
        return '\n'.join(out + [''])

    def by_enum(self, pairs, first):
        return [(variant, first + i) for i, (_, variant) in enumerate(pairs)]

    def classes_file(self):
        out = [f'//! The classes of tokens. {self.NOTE}', '',
               'ghost use Rattle.std.specs.Prelude.{◌≡◌, ◌<◌, slice_get, Some};',
               'ghost use Rattle.cb_grammar.specs.Classes.{keyword_class, sign_class, words};', '',
               'use cb_lex::token::{Keyword, Sign};']
        for name, enum, pairs, first in self.enums():
            out += ['', f'// the class of a {name}', f'pub(crate) fn class_of_{name}({name}: {enum}) -> u8',
                    f'    ensures {{ result ≡ {name}_class {name} }}', '{', f'    match {name} {{']
            out += [f'        {enum}::{variant} => {number},' for variant, number in self.by_enum(pairs, first)]
            out += ['    }', '}']
        out += self.word_functions()
        return '\n'.join(out + [''])

    def word_functions(self):
        words = self.table.words
        out = ['', '/// How many words have a class of their own.', f'pub const WORD_COUNT: usize = {len(words)};', '',
               '// the word with this number', '#[tactic(auto, unfolding(crate::specs::Classes::words))]',
               "pub(crate) fn word_at(number: usize) -> &'static [u8]",
               '    requires { number < WORD_COUNT }', '    ensures { slice_get words number ≡ Some result.now }', '{',
               '    match number {']
        out += [f'        {i} => b"{word}",' for i, word in enumerate(words[:-1])]
        return out + [f'        _ => b"{words[-1]}",', '    }', '}']

    def class_definitions(self):
        out = [f'-- The classes of tokens. {self.NOTE}',
               'use Rattle.std.specs.Prelude.{ℕ, List, [], ◌∷◌, codes}']
        for enum in ('Keyword', 'Sign'):
            out += [f'use Rattle.cb_lex.specs.declared.token.{enum}.{{{enum}}}',
                    f'use Rattle.cb_lex.specs.declared.token.{enum}.TheVariants as {enum.lower()}']
        for name, enum, pairs, first in self.enums():
            out += ['', f'-- the class of a {name}', f'abbrev pub {name}_class : {enum} → ℕ']
            out += [f'{name}_class {name}.{variant} = {number}' for variant, number in self.by_enum(pairs, first)]
        out += ['', '-- The names that are words with a meaning of their own in some places, in the order of their classes.',
                'unfoldable pub words : List (List ℕ)', 'words =']
        out += [f'    codes "{word}" ∷' for word in self.table.words] + ['    []', '']
        return '\n'.join(out)

    def enums(self):
        return (('keyword', 'Keyword', self.grammar.keywords, FIRST_KEYWORD),
                ('sign', 'Sign', self.grammar.signs, FIRST_KEYWORD + len(self.grammar.keywords)))

    def parts_file(self):
        table = self.table
        out = [f'//! The parts that can be read by themselves. {self.NOTE}', '',
               'ghost use Rattle.std.specs.Prelude.{◌≡◌};', 'ghost use Rattle.cb_grammar.specs.Parts.{number_of};', '',
               '/// A part of the language that can be read by itself.', '#[derive(Clone, Copy, Debug, PartialEq, Eq)]',
               'pub enum Part {']
        for variant, part in self.grammar.reads:
            out += [f'    /// `{part}` in the grammar; leaves {" ".join(table.leaves[table.number[part]][None])}.',
                    f'    {variant},']
        out += ['}', '', '// its number in the table', 'pub(crate) fn number_of_part(part: Part) -> u8',
                '    ensures { result ≡ number_of part }', '{', '    match part {']
        out += [f'        Part::{variant} => {table.number[part]},' for variant, part in self.grammar.reads]
        return '\n'.join(out + ['    }', '}', ''])

    def part_numbers(self):
        out = [f'-- The numbers of the parts in the table. {self.NOTE}', 'use Rattle.std.specs.Prelude.{ℕ}']
        for number, name in enumerate(self.table.names, 1):
            out += ['', f'abbrev pub {name} : ℕ', f'{name} = {number}']
        return '\n'.join(out + [''])

    def part_definitions(self):
        table = self.table
        out = [f'-- The parts that can be read by themselves. {self.NOTE}',
               'use Rattle.std.specs.Prelude.{ℕ, List, [], ◌∷◌}',
               'use Rattle.cb_grammar.specs.declared.parts.Part.{Part}',
               'use Rattle.cb_grammar.specs.declared.parts.Part.TheVariants as part', '',
               '-- the number of a part in the table', 'abbrev pub number_of : Part → ℕ']
        out += [f'number_of part.{variant} = {table.number[part]}' for variant, part in self.grammar.reads]
        out += ['', '-- the kinds of the values that it leaves, the last one first', 'abbrev pub kinds_left : Part → List ℕ']
        out += [f'kinds_left part.{variant} = {self.top_first(table.leaves[table.number[part]][None])}'
                for variant, part in self.grammar.reads]
        return '\n'.join(out + [''])

    def signatures(self):
        table = self.table
        out = [f'-- What each action and each part takes and leaves, by kinds of values, the last one first. {self.NOTE}',
               'use Rattle.std.specs.Prelude.{ℕ, List, [], ◌∷◌, true, false, slice_get, slice_index}',
               'use Rattle.cb_engine.specs.Kinds.{Effect, Signature, Signatures, signature, effect_or, signature_or}', '',
               '-- the kinds']
        for kind, number in self.kind.items():
            out += [f'abbrev pub {kind}_kind : ℕ', f'{kind}_kind = {number}', '']
        out += ['-- the kind of a word, by its class; 0 where no part keeps it', 'abbrev pub word_kinds : List ℕ', 'word_kinds =']
        out += self.wrapped([f'{self.kind.get(table.kind_of_class.get(number), 0)} ∷'
                             for number in range(max(table.kind_of_class) + 1)] + ['[]'])
        out += ['', 'abbrev pub word_kind : ℕ → ℕ', 'word_kind c = slice_index word_kinds c', '']
        out += ['abbrev pub actions : List Effect', 'actions =']
        for name, (takes, leaves) in self.grammar.actions.items():
            out.append(f'    -- {name}')
            out.append(f'    record {{ takes = {self.top_first(takes)}; leaves = {self.top_first(leaves)} }} ∷')
        out += ['    []', '', 'abbrev pub parts : List Signature', 'parts =', '    signature false [] [] [] ∷']
        for part, name in enumerate(table.names, 1):
            takes, leaves = self.top_first(table.takes[part]), table.leaves[part]
            out.append(f'    -- {name}')
            if None in leaves:
                out.append(f'    signature false ({takes}) ({self.top_first(leaves[None])}) [] ∷')
            else:
                out.append(f'    signature true ({takes}) ({self.top_first(leaves[0])}) ({self.top_first(leaves[1])}) ∷')
        out += ['    []', '', 'abbrev pub signatures : Signatures',
                'signatures = record { word = word_kind; action = λ n. effect_or (slice_get actions n); part = λ n. signature_or (slice_get parts n) }', '']
        return '\n'.join(out)

    def hints(self):
        table = self.table
        out = [f'-- With which tokens a part may begin where it stands, and which may come after it. {self.NOTE}',
               'use Rattle.std.specs.Prelude.{ℕ, List, [], ◌∷◌, slice_get, Option, Some, None}',
               'use Rattle.cb_engine.specs.Rules.{Hints}', '',
               'abbrev at_or_none : Option (List ℕ) → List ℕ', 'at_or_none None = []', 'at_or_none (Some l) = l', '']
        for name, found in (('may_table', table.may), ('after_table', table.after)):
            out += [f'abbrev {name} : List (List ℕ)', f'{name} =']
            out += [f'    ({self.numbers(sorted(classes))}) ∷' for classes in found] + ['    []', '']
        out += ['abbrev pub hints : Hints', 'hints = record {',
                '  may = λ n. at_or_none (slice_get may_table n);', '  after = λ n. at_or_none (slice_get after_table n);',
                f'  first_sort = {self.numbers(sorted(table.sorts[0]))};',
                f'  second_sort = {self.numbers(sorted(table.sorts[1]))};', '}', '']
        return '\n'.join(out)

    def parts_fit(self):
        out = [f'-- What is written for each part that can be read by itself leaves its kinds. {self.NOTE}',
               'use Rattle.std.specs.Prelude.{◌≡◌, true, false, refl, [], ◌∷◌, None}',
               'use Rattle.cb_engine.specs.declared.Symbol.TheVariants as symbol',
               'use Rattle.cb_engine.specs.Kinds.{leads, signature}',
               'use Rattle.cb_grammar.specs.declared.parts.Part.{Part}',
               'use Rattle.cb_grammar.specs.declared.parts.Part.TheVariants as part',
               'use Rattle.cb_grammar.specs.Parts.{number_of, kinds_left}',
               'use Rattle.cb_grammar.specs.Signatures.{signatures}', '',
               'pub part_fits : (p : Part) → leads signatures (signature false [] (kinds_left p) []) (symbol.Part (number_of p) ∷ []) None [] ≡ true']
        out += [f'part_fits part.{variant} = refl' for variant, _ in self.grammar.reads]
        return '\n'.join(out + [''])


def main():
    files = Writer(Table(Grammar(GRAMMAR))).files()
    stale = False
    for path, text in files.items():
        full = os.path.join(TOP, CRATE, path)
        if '--check' in sys.argv[1:]:
            if not os.path.exists(full) or open(full).read() != text:
                print(f'{CRATE}/{path} is not what tools/table.py writes')
                stale = True
        else:
            os.makedirs(os.path.dirname(full), exist_ok=True)
            open(full, 'w').write(text)
    sys.exit(1 if stale else 0)


if __name__ == '__main__':
    main()
