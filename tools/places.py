#!/usr/bin/env python3
"""Counts, in crates/*/src, the places that docs/DESIGN-PASS.md speaks of, by point.

Use: tools/places.py [--list] [POINT ..]      at the top of the repository

It goes by text: a name or a form that is gone is not counted, and what it finds is read by hand.
"""
import glob
import re
import sys

LIST = '--list' in sys.argv
ONLY = [a for a in sys.argv[1:] if not a.startswith('-')]


def files():
    for path in sorted(glob.glob('crates/*/src/*.rt')):
        with open(path, encoding='utf-8') as file:
            yield path, file.read()


def line_of(text, at):
    return text.count('\n', 0, at) + 1


FILES = list(files())


def search(pattern, flags=re.M):
    return [(path, line_of(text, m.start()), ' '.join(m.group(0).split()))
            for path, text in FILES for m in re.finditer(pattern, text, flags)]


def items(word):
    """The enums or structs, with their fields or variants, without comments."""
    for path, text in FILES:
        for m in re.finditer(r'^(?:pub(?:\(crate\))? )?%s (\w+)[^;{]*\{\n(.*?)^\}' % word, text, re.M | re.S):
            yield path, line_of(text, m.start()), m.group(1), re.sub(r'//[^\n]*', '', m.group(2))


def functions():
    """Each function's path, line, name and parameters."""
    for path, text in FILES:
        for m in re.finditer(r'^ *(?:pub(?:\(crate\))? )?(?:extern "C" )?fn (\w+)[^(\n]*\(([^{]*?)\)(?: ->|\s*(?:where|requires|ensures|\{|;))', text, re.M | re.S):
            yield path, line_of(text, m.start()), m.group(1), ' '.join(m.group(2).split())


def shaped():
    """1: enums of the shape of Option or Result: a case for what is found or taken, and others for why not."""
    found = r'^\s*(?:Is|Kind|Count|Whole|Id|Gives|Taken|To|OfStep)\b'
    missing = r'^\s*(?:Bad\w*|NoCall|NoRow|Refused|Unknown\w*|Unended|Cut|NoRoom|Impossible\w*|SmallCarry|TimerUnknown|Nowhere|PlaceOver)\b'
    # a case that holds nothing and says that there is nothing
    empty = r'^\s*(?:NoRow|Open|Nowhere|Full),'
    for path, line, name, body in items('enum'):
        if (re.search(found, body, re.M) and re.search(missing, body, re.M)) or (re.search(empty, body, re.M) and re.search(r'[({]', body)):
            yield path, line, 'enum ' + name


def flagged():
    """1: structs with a flag or an answer beside values that count only where it says so."""
    for path, line, name, body in items('struct'):
        if re.search(r'^\s*(?:pub )?(?:answer|ok|failed|complete|unread|stopped|lies): ', body, re.M):
            yield path, line, 'struct ' + name


def numbered():
    """1: numbers for kinds, refusals and for nothing: functions that turn an answer into its number, constants for refusals, and results that say none by a number."""
    yield from search(r'^ *(?:pub )?fn (?!put_|lay_|has_)\w+_(?:number|word)\(.*')
    yield from search(r'^pub const (?:NO_SET|LENGTH_OUT_OF_RANGE|READING_EARLIER|TIMER_DUE|EXPIRY_HANDED_IN): u8.*')
    yield from search(r'//.*(?:\b[0478] (?:where (?:there is no\w*|none|it is (?:not|out)|it does)|for (?:none|a number)|is none)|or 0\.$).*')


# Functions that stand in several files and differ in a type, a size or a constant alone.
TWINS = ('word_at long_at put_word put_long put_head put_byte flag byte_in word_in long_in event_word message_word written_word read_event '
         'write_event read_message write_message read_kind event_fits message_fits lay_event lay_message put_event put_message unread '
         'place_in refuse state_is path_is wait_is state_number path_number wait_number answer_number callcontrol_check_event '
         'callcontrol_check_message callcontrol_copy_event callcontrol_copy_message lay_stop_if lay_start_if lay_cancel_if').split()


def twins():
    """2: functions that differ in a type, a size or a constant alone; lines by widths; the rows' constructors."""
    for path, line, name, _ in functions():
        if name in TWINS and not path.startswith('crates/host_c/'):
            yield path, line, 'fn ' + name
    yield from search(r'^pub fn lay_(?:bare|byte|two_bytes|word|word_byte|word_two_bytes|word_three_bytes|word_four_bytes|word_long_byte|long_two_bytes|long_three_bytes)\(.*')
    yield from search(r'^ *(?:pub\(crate\) )?fn (?:of|asking|naming)\(.*')
    yield from search(r'^fn (?:mode_by|address_by|id_by)\(.*')


def loops():
    """3: loops that count by hand, and lines that stand once for each index."""
    yield from search(r'^ *while .*')
    for path, text in FILES:
        # a run of lines that differ only in an index
        for m in re.finditer(r'(?:^.*\[(?:\d+|T3\d\d)\].*\n){4,}', text, re.M):
            yield path, line_of(text, m.start()), 'a line for each index: ' + ' '.join(m.group(0).split('\n')[0].split())


def by_hand():
    """4: equality, conversion and printing by hand."""
    yield from search(r'.*\b(?:state|path|wait)_number\(.*\) == .*')
    yield from search(r'^ *(?:pub )?fn (?:state_number|path_number|wait_number|state_is|path_is|wait_is|where_is|where_number|same_flags|flag|put_number|put_name|put_digit|signed|greater|lesser)\(.*')
    yield from search(r'^.* / 256 % 256\) as u8.*')


def together():
    """5: parameters that travel together in three functions or more."""
    pairs = [
        ('a buffer and a position', r'&(?:\'a )?mut \[u8\], at: usize|at: usize, \w+: &mut \[u8\]'),
        ('the four rooms', r'\[Room; 4\]'),
        ('the eight keys', r'\[u16; 8\]'),
        ('the eight calls', r'calls: \[Call; 8\]'),
        ('the lines and how many are laid', r'lines: &(?:mut )?\[u8\],(?: \w+: \w+,)* (?:laid|filled): usize'),
        ('what is read and written', r'read: usize, written: usize'),
        ('a row, code, value and plane', r'n: u64, code: u8'),
        ('a bank and the lengths', r'bank: Bank, lengths: &\[u32\]'),
        ('carried bytes and their carry', r'carried: usize, carry: &'),
    ]
    for what, pattern in pairs:
        found = [(p, l, '%s: fn %s' % (what, n)) for p, l, n, parameters in functions() if re.search(pattern, parameters)]
        if len(found) > 2:
            yield from found
    # a fact required in three functions or more
    facts = {}
    for path, line, text in search(r'^ *requires (?:\w+ )?\{.*'):
        fact = re.sub(r'^requires (?:\w+ )?\{ *(.*?) *\}$', r'\1', text)
        for part in re.split(r' × ', fact):
            facts.setdefault(part.strip('() '), []).append((path, line, 'required: ' + part.strip('() ')))
    for fact, places in sorted(facts.items()):
        if len(places) > 2:
            yield from places


def buffers():
    """6: a buffer with a length beside it, parallel arrays, lists searched by hand."""
    yield from ((p, l, 'fn %s(%s)' % (n, a)) for p, l, n, a in functions()
                if re.search(r'(?:carried|held|laid|filled|upto|n|size): usize', a) and '[u8]' in a
                and re.search(r'carried|held: usize|laid: usize|filled|piece: &\[u8\], n', a))
    for path, line, name, body in items('struct'):
        if len(re.findall(r': \[\w+; 7\]', body)) > 1:
            yield path, line, 'struct %s: arrays side by side' % name
    yield from search(r'^ *(?:\d+ => (?:ROWS|MESSAGES)\[\d+\],\n *)+.*', re.M)
    yield from search(r'^(?:pub )?fn (?:first_free|first_waiting|held_by|idle_by|found)\(.*')


def patterns():
    """7: entries that do one thing round another, copied: test the bytes, take them apart, call, put them back."""
    yield from search(r'^ *if !is_(?:bank|rooms|record|reader)\(.*')


POINTS = [
    ('1 enums of the shape of Option or Result', shaped),
    ('1 a flag or an answer with values beside it', flagged),
    ('1 numbers for kinds, refusals and nothing', numbered),
    ('2 twins', twins),
    ('3 loops by hand', loops),
    ('4 equality, conversion and printing by hand', by_hand),
    ('5 parameters and facts that travel together', together),
    ('6 buffers with lengths, arrays side by side, searches', buffers),
    ('7 one thing round another, copied', patterns),
]

for title, count in POINTS:
    if ONLY and title.split()[0] not in ONLY:
        continue
    places = sorted(set(count()))
    print('%4d  %s' % (len(places), title))
    if LIST:
        for path, line, text in places:
            print('        %s:%d: %s' % (path.replace('crates/', '').replace('/src/', '/'), line, text[:140]))
