"""The text of the proved program's module for another target.

The code of no function changes: only how it is compiled. Changed are the two lines of the target, attributes that name a processor of x86 or a way to probe
the stack, the name of main, and those of the functions that the module calls and does not define, which get `port_` before
them, so that they meet none of a C library. In a browser a function that calls itself has little of the stack (see `outlined`).
The heap's three calls are defined by glue/heap.ll, which is added, since the
pair that they give back is returned otherwise on Windows.

No page of the kit says what the text is. So each thing that is changed is known here line by line, and counted: a text
with anything else is refused with its line, and is never changed in part."""
import re
from typing import NamedTuple

from doomview_tools.trouble import Trouble

SOURCE_TRIPLE = 'x86_64-unknown-linux-gnu'
SOURCE_LAYOUT = 'e-m:e-p270:32:32-p271:32:32-p272:64:64-i64:64-i128:128-f80:128-n8:16:32:64-S128'
HEAP = ('rattle_alloc', 'rattle_realloc', 'rattle_dealloc')
MEMORY = ('memcpy', 'memmove', 'memset', 'memcmp', 'bcmp')  # which LLVM itself may call by these names
PREFIX = 'port_'


class Target(NamedTuple):
    """A target of LLVM: its name, the layout of its data, the attributes of functions that it has not, and whether its stack is
    small."""

    triple: str
    layout: str
    without: tuple[str, ...]
    is_small: bool = False


PROBES = ('probe-stack', 'stack-probe-size')
TARGETS = {
    'windows': Target('x86_64-w64-windows-gnu',
                      'e-m:w-p270:32:32-p271:32:32-p272:64:64-i64:64-i128:128-f80:128-n8:16:32:64-S128', PROBES),
    'wasm64': Target('wasm64-unknown-unknown', 'e-m:e-p:64:64-p10:8:8-p20:8:8-i64:64-i128:128-n32:64-S128-ni:1:10:20',
                     PROBES + ('target-cpu',), True),
}
# The functions that the module calls and does not define, with their types; the words of an attribute may stand between.
CALLED = {
    '__sysv_signal': 'i64 (i32, i64)', '__write': 'i64 (i32, ptr, i64)', '__x86_get_cpuid_feature_leaf': 'ptr (i32)',
    '__xpg_strerror_r': 'i32 (i32, ptr, i64)', 'close': 'i32 (i32)', 'lseek': 'i64 (i32, i64, i32)',
    'open': 'i32 (ptr, i32, ...)', 'read': 'i64 (i32, ptr, i64)', 'statx': 'i32 (i32, ptr, i32, i32, ptr)',
    'write': 'i64 (i32, ptr, i64)', 'rattle_alloc': '{ i64, i64 } (i64, i64)', 'rattle_arg': 'i64 (i64, ptr, i64)',
    'rattle_arg_count': 'i64 ()', 'rattle_dealloc': 'void (ptr)', 'rattle_env': 'i64 (ptr, ptr, i64)',
    'rattle_env_at': 'i64 (i64, ptr, i64)', 'rattle_errno': 'i32 ()', 'rattle_set_errno': 'void (i32)',
    'rattle_realloc': '{ i64, i64 } (ptr, i64, i64, i64)', 'memcmp': 'i32 (ptr, ptr, i64)', 'bcmp': 'i32 (ptr, ptr, i64)',
}
# What the text may not have, since it is of one processor or one system; words that a long text is searched for at once.
FOREIGN = (' asm ', '@llvm.x86.', ' addrspace(', 'x86_fp80', 'thread_local', ' section "', ' ifunc ')
KNOWN_LINES = re.compile(r'^(?:target |declare |attributes |define [^\n]*@main\()[^\n]*\n', re.M)
ATTRIBUTE = re.compile(r'"([a-z0-9-]+)"="([^"]*)"')
# The attributes by name that a group may have, with their values where they matter here.
ATTRIBUTES = {'probe-stack': {'inline-asm'}, 'stack-probe-size': None, 'target-cpu': {'x86-64-v2', 'x86-64'}, 'frame-pointer': None}
SIGNATURE = re.compile(r'^declare (?P<returned>.*?) ?@(?P<name>[\w.]+)\((?P<taken>[^#\n]*)\)', re.M)
FUNCTION = re.compile(r'^define [^\n]*?@("[^"\n]*"|[\w.$-]+)\([^\n]*\n(.*?)^\}$', re.M | re.S)
CALL = re.compile(r'\bcall [^\n]*?@("[^"\n]*"|[\w.$-]+)\(')
WORDS = re.compile(r'\b(?:noundef|nonnull|noalias|nocapture|readonly|writeonly|signext|zeroext|dso_local|noinline|nounwind|'
                   r'dereferenceable\(\d+\)|align \d+|captures\(\w+\)|range\([^)]*\))\s*')


def refuse(number: int, line: str, why: str) -> Trouble:
    """What is said of a line that is not known."""
    return Trouble(f'this kit is not one that tools/portable knows: {why}, in line {number} of the module\'s text: {line[:200]}')


def type_of(found: re.Match[str]) -> str:
    """The type of a declared function, without the words of attributes."""
    plain = [WORDS.sub('', part).strip() for part in (found['returned'], found['taken'])]
    return f'{plain[0]} ({", ".join(re.sub(" %.*", "", part.strip()) for part in plain[1].split(",")) if plain[1] else ""})'


class Rewriting:
    """One text for one target; `counts` says how often each kind of line was changed."""

    def __init__(self, target: str, text: str) -> None:
        self.target, self.text = TARGETS[target], text
        self.counts = dict.fromkeys(('triple', 'layout', 'attributes', 'heap', 'called', 'main'), 0)
        self.names: list[str] = []  # of the functions that get another name

    def whole(self) -> str:
        """The whole text for the target."""
        for word in FOREIGN:
            for found in re.finditer(re.escape(word), self.text):
                if not self.is_quoted(found.start()):
                    raise self.refused(found.start(), 'it has what only one processor or system has')
        return self.renamed(KNOWN_LINES.sub(lambda found: self.line(found.start(), found[0]), self.text))

    def is_quoted(self, place: int, text: str = '') -> bool:
        """Whether a place of the text is between quotes, which end in their line."""
        text = text or self.text
        return text.count('"', text.rfind('\n', 0, place) + 1, place) % 2 == 1

    def refused(self, place: int, why: str) -> Trouble:
        """What is said of the line of a place."""
        start, end = self.text.rfind('\n', 0, place) + 1, self.text.find('\n', place)
        return refuse(self.text.count('\n', 0, place) + 1, self.text[start:end], why)

    def line(self, number: int, line: str) -> str:
        """A line for the target, but for names; an empty one for one that goes. `number` is its place in the text."""
        if line.startswith('target '):
            return self.target_line(number, line)
        if line.startswith('declare '):
            return self.declared(number, line)
        if line.startswith('attributes '):
            return self.attributes(number, line)
        self.counts['main'] += 1
        if not re.match(r'define (dso_local )?(noundef )?i32 @main\(', line):
            raise self.refused(number, 'main has another type')
        return line

    def target_line(self, number: int, line: str) -> str:
        for kind, was, becomes in (('triple', SOURCE_TRIPLE, self.target.triple), ('layout', SOURCE_LAYOUT, self.target.layout)):
            word = 'datalayout' if kind == 'layout' else kind
            if line == f'target {word} = "{was}"\n':
                self.counts[kind] += 1
                return f'target {word} = "{becomes}"\n'
        raise self.refused(number, 'another target')

    def declared(self, number: int, line: str) -> str:
        found = SIGNATURE.match(line)
        if not found:
            raise self.refused(number, 'a declaration of another form')
        name = found['name']
        if name.startswith('llvm.'):
            return line
        if CALLED.get(name) != type_of(found):
            raise self.refused(number, f'a function that is called and not known as {type_of(found)}')
        if name in HEAP:
            self.counts['heap'] += 1
            return ''
        if name not in MEMORY:
            self.counts['called'] += 1
            self.names.append(name)
        return line

    def attributes(self, number: int, line: str) -> str:
        for name, value in ATTRIBUTE.findall(line):
            if name not in ATTRIBUTES or ((known := ATTRIBUTES[name]) and value not in known):
                raise self.refused(number, f'the attribute {name} is {value}')

        def kept(found: re.Match[str]) -> str:
            is_out = found[2] in self.target.without
            self.counts['attributes'] += is_out
            return '' if is_out else found[0]
        return re.sub(r'( "([a-z0-9-]+)"="[^"]*")', kept, line)

    def renamed(self, text: str) -> str:
        """The text with the names of the functions that the module calls, and that of main."""
        names = '|'.join(map(re.escape, [*self.names, 'main']))
        others = {'main': 'proved_main'}

        def name(found: re.Match[str]) -> str:
            is_name = not self.is_quoted(found.start(), text)  # what is in quotes is no name of a function
            return f'@{others.get(found[1], PREFIX + found[1])}' if is_name else found[0]
        return re.sub(rf'@({names})\b(?![.\w])', name, text)


def end_of(text: str, at: int) -> int:
    """The place behind the parenthesis that closes the one before a place."""
    depth = 1
    while depth:
        depth += {'(': 1, ')': -1}.get(text[at], 0)
        at += 1
    return at


def outlined(text: str) -> tuple[str, int]:
    """The text in which a function that calls itself has its own frame alone: what it calls beside itself is not put into it,
    where that calls others. The walk of a level's nodes is such, 1,024 calls deep at the most, and the stack of a browser's
    worker has some 500 bytes for each. Also how many calls were marked so."""
    called = {found[1]: {name for name in CALL.findall(found[2]) if not name.startswith('llvm.')} for found in FUNCTION.finditer(text)}
    count = 0

    def marked(found: re.Match[str]) -> str:
        nonlocal count
        if found[1] not in called[found[1]]:
            return found[0]
        whole, parts, last = found[0], [], 0
        for call in CALL.finditer(whole):
            if call[1] != found[1] and called.get(call[1]):
                end = end_of(whole, call.end())
                parts += [whole[last:end], ' noinline']
                last, count = end, count + 1
        return ''.join([*parts, whole[last:]])
    return FUNCTION.sub(marked, text), count


def check_counts(counts: dict[str, int]) -> None:
    """A Trouble where what has to be there once is not."""
    for name, least, most in (('triple', 1, 1), ('layout', 1, 1), ('main', 1, 1), ('heap', 3, 3), ('called', 1, len(CALLED)),
                              ('attributes', 1, None)):
        if counts[name] < least or (most is not None and counts[name] > most):
            raise Trouble(f'this kit is not one that tools/portable knows: the module\'s text has {counts[name]} lines of {name}, and '
                          f'{least} are known')


def rewritten(target: str, text: str, heap: str) -> tuple[str, dict[str, int]]:
    """The text for a target with that of the heap's calls, and how often each kind of line was changed."""
    work = Rewriting(target, text)
    found = work.whole()
    check_counts(work.counts)
    if work.target.is_small:
        found, work.counts['outlined'] = outlined(found)
    return found + heap, work.counts


def called(text: str) -> list[str]:
    """The names that a glue has to give, in the order of the text."""
    found = [match['name'] for match in SIGNATURE.finditer(text)]
    return [f'{PREFIX}{name}' for name in found if name in CALLED and name not in HEAP + MEMORY]
