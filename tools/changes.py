#!/usr/bin/env python3
"""Writes the measured part of a change's note (docs/CHANGES.md).

    tools/changes.py measure [FILE] [--anew]
        In a clean checkout: runs the gate, `rt ci`, and adds up the processor seconds of each crate's proof, its tests' proof,
        its must-fail edits and its runs, by looking at the processes below it twice a second. Writes them to FILE
        (docs/costs/gate.json). A crate that the gate does not prove again, since an earlier run on this machine did, keeps
        the seconds of docs/costs/gate.json and stands under "kept"; likewise "edits_kept", where some of its edits were
        tried before. With --anew all is proved, and nothing is kept. Exits with the status of the gate.

    tools/changes.py note OLD NEW [--before FILE] [--after FILE]
        Prints Markdown tables for the change from the commit OLD to the commit NEW, crate by crate: the lines of code (src/),
        definitions (specs/) and proofs (proofs/) that were added, removed and left alone; the public contracts that changed
        and those that did not; and the gate's processor seconds before and after, from two files that `measure` wrote (with
        no FILE: docs/costs/gate.json as it stands in that commit; no seconds where there is none).

A line that stands in another place after the change, in a file that was renamed or in a block that was moved, is left alone,
and counts for the crate in which it stands now. A public contract is that of a `pub fn`, or of a method of a `pub trait` or
`pub impl .. for ..`, outside tests: its signature, its clauses, and the ghost members of its impl. It is followed by its
name, so it may move to another file or crate and be the same.
"""
import argparse
import collections
import json
import os
import pathlib
import re
import resource
import subprocess
import sys
import tempfile
import time

LAST = 'docs/costs/gate.json'
PHASES = ('proof', 'tests', 'edits', 'run')
KINDS = ('src', 'specs', 'proofs')
PLACE = re.compile(r'crates/(\w+)/(src|specs|proofs)/.*\.(?:rt|antt)$')


def git(*words):
    return subprocess.run(['git', *words], capture_output=True, text=True, check=True).stdout


# ---- Seconds

def told(how, path, otherwise):
    """What is read of a process, if it has not ended."""
    try:
        return how(path)
    except OSError:
        return otherwise


def processes_below(top):
    """The number, start, parent and ticks of each process that a process started, or one of these."""
    stats, children = {}, collections.defaultdict(list)
    for pid in map(int, filter(str.isdigit, os.listdir('/proc'))):
        stat = told(pathlib.Path.read_bytes, pathlib.Path(f'/proc/{pid}/stat'), b'')
        if stat:
            fields = stat[stat.rindex(b')') + 2:].split()
            stats[pid] = int(fields[19]), int(fields[1]), int(fields[11]) + int(fields[12])
            children[int(fields[1])].append(pid)
    todo = [top]
    while todo:
        for pid in children[todo.pop()]:
            todo.append(pid)
            yield pid, *stats[pid]


def task_of(pid):
    """The crate, if it can be told, and the phase that a process works for."""
    words = told(pathlib.Path.read_bytes, pathlib.Path(f'/proc/{pid}/cmdline'), b'').decode(errors='replace').split('\0')
    folder = told(os.readlink, f'/proc/{pid}/cwd', '')
    if '/rt-run-' in folder:
        program = re.search(r'/bin/(\w+?)(?:_tests)?$', words[0])
        return program and program[1], 'run'
    place = re.search(r'/crates/(\w+)', folder)
    name = words[words.index('--crate-name') + 1] if '--crate-name' in words else place and place[1]
    return name, 'edits' if '/rt-edit-' in folder else 'tests' if '--test' in words else 'proof'


def sampled(command, log):
    """Runs a command: its status, and the seconds of what it starts by crate and phase."""
    seen = {}
    running = subprocess.Popen(command, stdout=log, stderr=subprocess.STDOUT, stdin=subprocess.DEVNULL)
    while running.poll() is None:
        tasks = {}
        for pid, began, parent, ticks in processes_below(running.pid):
            task = seen[pid, began][0] if (pid, began) in seen else (None, 'proof')
            task = task if task[0] else task_of(pid)
            tasks[pid] = task if task[0] else tasks.get(parent, task)
            seen[pid, began] = tasks[pid], ticks
        time.sleep(0.5)
    crates = collections.defaultdict(collections.Counter)
    for (name, phase), ticks in seen.values():
        crates[name or 'rt'][phase] += ticks / os.sysconf('SC_CLK_TCK')
    return running.returncode, crates


def measure(args):
    if git('status', '--porcelain').strip():
        sys.exit('the checkout is not clean: commit first, so that the figures are those of a commit')
    last = json.loads(pathlib.Path(LAST).read_text())['crates'] if pathlib.Path(LAST).exists() else {}
    start = time.time()
    with tempfile.NamedTemporaryFile('w+', prefix='gate-', suffix='.log', delete=False) as log:
        status, crates = sampled(['rt', 'ci', *(['--anew'] if args.anew else [])], log)
        log.seek(0)
        said = log.read()
    kept = re.findall(r'^rt: (\w+) is kept:', said, re.M)
    tried = re.findall(r'^rt: (\w+): \d+ of its \d+ must-fail edits were tried by an earlier run', said, re.M)
    edits_kept = [name for name in tried if name not in kept]
    for name, phases in [(it, PHASES[:3]) for it in kept] + [(it, PHASES[2:3]) for it in edits_kept]:
        for phase in phases:
            crates[name][phase] = last.get(name, {}).get(phase, crates[name][phase])
    used = resource.getrusage(resource.RUSAGE_CHILDREN)
    seconds = {name: {phase: round(it[phase], 1) for phase in PHASES if it[phase]} for name, it in sorted(crates.items()) if it.total()}
    head = {'commit': git('rev-parse', '--short', 'HEAD').strip(), 'status': status, 'cores': os.cpu_count(),
            'minutes': round((time.time() - start) / 60, 1), 'cpu': round(used.ru_utime + used.ru_stime),
            'kept': sorted(kept), 'edits_kept': sorted(edits_kept),
            'totals': {phase: round(sum(it.get(phase, 0) for it in seconds.values()), 1) for phase in PHASES}}
    rows = ',\n'.join(f'  {json.dumps(name)}: {json.dumps(it)}' for name, it in seconds.items())
    file = pathlib.Path(args.file)
    file.parent.mkdir(parents=True, exist_ok=True)
    file.write_text(''.join(f'{" " if at else "{"}{json.dumps(key)}: {json.dumps(it)},\n' for at, (key, it) in enumerate(head.items()))
                    + f' "crates": {{\n{rows}\n }}}}\n')
    print(f'{said.splitlines()[-1] if said else ""}\n{head["minutes"]} minutes, {len(kept)} crates kept: {args.file}; the log is {log.name}')
    return status


def figures_of(file, commit):
    found = subprocess.run(['cat', file] if file else ['git', 'show', f'{commit}:{LAST}'], capture_output=True, text=True)
    return json.loads(found.stdout) if not found.returncode else None


def change(old, new, mark=''):
    both = ['-' if it is None else f'{it:.0f}' for it in (old, new)]
    return (both[0] if both[0] == both[1] else ' → '.join(both)) + mark


def print_seconds(before, after):
    print('| Crate | Proof | Tests | Edits | Runs | All |\n|---|---|---|---|---|---|')
    sums = []
    for name in sorted({*before['crates'], *after['crates']}):
        old, new = before['crates'].get(name), after['crates'].get(name)
        cells = []
        for phase in PHASES:
            both = [it and it.get(phase, 0) for it in (old, new)]
            is_kept = phase != 'run' and name in after.get('kept', ()) or phase == 'edits' and name in after.get('edits_kept', ())
            cells.append(change(*both, ' =' if is_kept else '') if any(both) else '')
        sums.append([None if it is None else sum(it.get(phase, 0) for phase in PHASES) for it in (old, new)])
        print(f'| {name} | {" | ".join(cells)} | {change(*sums[-1])} |')
    print(f'| all | | | | | {change(*(sum(it or 0 for it in column) for column in zip(*sums)))} |\n')
    print('Processor seconds of the gate, before → after. A figure with = is the last one: the change does not make it prove again.')
    for when, it in (('Before', before), ('After', after)):
        print(f'{when}: {it["minutes"]:.0f} minutes on {it.get("cores", "?")} cores, {len(it.get("kept", ()))} crates kept.')


# ---- Lines

def lines_of(old, new):
    """By crate: the lines of each kind that were added, and removed, and all that there are now."""
    counts = collections.defaultdict(collections.Counter)
    colors = [word for it in ('old=red', 'new=green', 'oldMoved=blue', 'newMoved=cyan') for word in ('-c', f'color.diff.{it}')]
    diff = git(*colors, '-c', 'diff.renameLimit=5000', 'diff', '-M40%', '-U0', '--no-prefix', '--color=always',
               '--color-moved=blocks', '--color-moved-ws=ignore-all-space', old, new, '--', 'crates')
    was = now = None
    for line in diff.splitlines():
        plain = re.sub(r'\x1b\[[0-9;]*m', '', line)
        if line.startswith('\x1b[1m--- '):
            was = PLACE.match(plain[4:])
        elif line.startswith('\x1b[1m+++ '):
            now = PLACE.match(plain[4:]) or was
        elif now and line.startswith(('\x1b[31m-', '\x1b[32m+')):
            # what was removed counts where its file stands now; what moved has another color
            counts[now[1]][now[2], 'added' if plain[0] == '+' else 'removed'] += 1
    for line in git('grep', '-c', '', new, '--', 'crates').splitlines():
        path, count = line.split(':', 1)[1].rsplit(':', 1)
        if place := PLACE.match(path):
            counts[place[1]][place[2], 'all'] += int(count)
    return counts


def print_lines(counts):
    print('| Crate | Code: added, removed, left alone | Definitions | Proofs |\n|---|---|---|---|')
    same = [name for name, count in sorted(counts.items()) if all(what == 'all' for _, what in count)]
    rows = [(name, count) for name, count in sorted(counts.items()) if name not in same]
    for name, count in [*rows, ('all', sum(counts.values(), collections.Counter()))]:
        cells = (f'+{count[it, "added"]} -{count[it, "removed"]} ={count[it, "all"] - count[it, "added"]}' for it in KINDS)
        print(f'| {name} | {" | ".join(cells)} |')
    print(f'\nNo line changed in: {", ".join(same) or "none"}.')


# ---- Contracts

def blanked(text):
    """The text with comments, and what stands between quotes, blanked out."""
    quoted = r'//[^\n]*|"(?:\\.|[^"\\])*"|\'(?:\\.[^\']*|[^\'\\])\''
    return re.sub(quoted, lambda it: re.sub(r'[^\n]', ' ', it[0]), text)


def end_of(text, start):
    """Where the brace that opens at a place closes."""
    depth = 0
    for brace in re.compile(r'[{}]').finditer(text, start):
        depth += 1 if brace[0] == '{' else -1
        if depth == 0:
            return brace.end()
    return len(text)


def contract_at(text, start):
    """The signature and clauses of the function that begins at a place, and whether it has a body."""
    at = start
    while stop := re.compile(r'[;{]').search(text, at):
        before = text[start:stop.start()]
        if stop[0] == ';' and before.count('[') > before.count(']'):
            at = stop.end()
        elif stop[0] == '{' and re.search(r'\b(?:requires|ensures|ghost)\*?(?:\s+\w+)?\s*:?\s*$', before):
            at = end_of(text, stop.start())
        else:
            return before, stop[0] == '{'
    return text[start:], False


def contracts_of(commit):
    """The public contracts of a commit, by crate and name."""
    found = collections.defaultdict(list)
    for path in git('ls-tree', '-r', '--name-only', commit, '--', 'crates').splitlines():
        place = PLACE.match(path)
        if not place or place[2] != 'src' or path.endswith('/tests.rt'):
            continue
        text = blanked(git('show', f'{commit}:{path}'))
        for test in reversed([*re.finditer(r'#\[cfg\(test\)\]\s*mod\s+\w+\s*\{', text)]):
            text = text[:test.start()] + text[end_of(text, test.end() - 1):]
        blocks = [(it.end(), end_of(text, it.end() - 1), it) for it in re.finditer(r'^ *(pub\s+)?(impl|trait)\b([^{;]*)\{', text, re.M)]
        for fn in re.finditer(r'\b(pub\s+)?(?:final\s+|const\s+|unsafe\s+)*fn\s+(\w+)', text):
            begin, end, block = next((it for it in blocks if it[0] < fn.start() < it[1]), (0, 0, None))
            of_trait = block and block[1] and (block[2] == 'trait' or ' for ' in block[3])
            words, has_body = contract_at(text, fn.start())
            if fn[2] == 'main' or not (of_trait or fn[1] and has_body):
                continue
            if of_trait:
                words += ' '.join(re.findall(r'\bghost\s+\w+\s*=[^;]*;', text[begin:end]))
            owner = ' '.join(re.sub(r"^<[^>]*>|<'\w+>", '', block[3]).split()) if block else ''
            found[place[1], f'{owner}::{fn[2]}' if owner else fn[2]].append(' '.join(words.split()))
    return {key: sorted(it) for key, it in found.items()}


def print_contracts(old, new):
    moved = {}
    for key in sorted({*new} - {*old}):
        homes = [it for it in sorted({*old} - {*new} - {*moved.values()}) if it[1] == key[1]]
        moved.update({key: homes[0]} if homes else {})
    names, rows = collections.defaultdict(list), collections.defaultdict(collections.Counter)
    for key in sorted({*new, *old} - {*moved.values()}):
        was = old.get(moved.get(key, key))
        what = 'new' if was is None else 'gone' if key not in new else 'unchanged' if was == new[key] else 'changed'
        rows[key[0]].update([what, 'moved'] if what == 'unchanged' and key in moved else [what])
        names[what].append(f'`{key[0]}: {key[1]}`' + (f' (from `{moved[key][0]}`)' if key in moved else ''))
    kinds = ('unchanged', 'moved', 'changed', 'new', 'gone')
    print('| Crate | Public contracts unchanged | of these moved from another crate | changed | new | gone |\n|---|---|---|---|---|---|')
    shown = [(name, row) for name, row in sorted(rows.items()) if any(row[it] for it in kinds[1:])]
    for name, row in [*shown, ('all', sum(rows.values(), collections.Counter()))]:
        print(f'| {name} | {" | ".join(str(row[it]) for it in kinds)} |')
    for what in kinds[2:]:
        print(f'\n{what.capitalize()}: {", ".join(names[what]) or "none"}.')


def note(args):
    print('### Lines\n')
    print_lines(lines_of(args.old, args.new))
    print('\n### Public contracts\n')
    print_contracts(contracts_of(args.old), contracts_of(args.new))
    before, after = figures_of(args.before, args.old), figures_of(args.after, args.new)
    if before and after:
        print('\n### The gate\n')
        print_seconds(before, after)


def main():
    parser = argparse.ArgumentParser(description=__doc__, formatter_class=argparse.RawDescriptionHelpFormatter)
    commands = parser.add_subparsers(required=True)
    one = commands.add_parser('measure')
    one.add_argument('file', nargs='?', default=LAST)
    one.add_argument('--anew', action='store_true')
    one.set_defaults(run=measure)
    two = commands.add_parser('note')
    for word in ('old', 'new', '--before', '--after'):
        two.add_argument(word)
    two.set_defaults(run=note)
    args = parser.parse_args()
    os.chdir(git('rev-parse', '--show-toplevel').strip())
    sys.exit(args.run(args))


if __name__ == '__main__':
    main()
