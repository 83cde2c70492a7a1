"""What tools/slips and tools/mutate share: the edits, the crates, and the prover on a copy of crate rules."""
import os
import shutil
import subprocess
import sys

ROOT = os.path.dirname(os.path.dirname(os.path.abspath(__file__)))
CRATES = os.path.join(ROOT, 'crates')


def read(path):
    with open(path, encoding='utf-8') as f:
        return f.read()


def write(path, text):
    with open(path, 'w', encoding='utf-8') as f:
        f.write(text)


def jobs():
    """How many checks at a time, as rt has it."""
    return int(os.environ.get('RT_JOBS') or min(os.cpu_count() or 1, 4))


def rt():
    return shutil.which('rt') or sys.exit('There is no rt in PATH: this needs the Rattle toolchain.')


def lines_of_crates():
    """The lines of crates.txt, and of each the libraries that it names, by crate."""
    out = {}
    for line in read(os.path.join(ROOT, 'crates.txt')).split('\n'):
        name, colon, deps = line.partition('#')[0].partition(':')
        if colon:
            out[name.split()[0]] = (line, deps.split())
    return out


def edits_of(path):
    return edits_in(read(path))


def edits_in(text):
    """The replacements of an edit, (file, old, new): a 'file:' line holds for the 'old:' and 'new:' pairs after it."""
    out, file, old = [], None, None
    for line in text.split('\n'):
        if line.startswith('file: '):
            file = line[6:]
        elif line.startswith('old: '):
            old = line[5:]
        elif line.startswith('new:'):
            out.append((file, old, line[4:].removeprefix(' ')))
    return out


def check_rules(where):
    """The prover's status on the copy of crate rules at `where`, and what it said. What it finds it keeps in the folder `found` there:
    a later check of that copy, or of a copy of it, looks again at nothing but what has changed and what stands on that."""
    home = os.path.dirname(os.path.dirname(os.path.realpath(rt())))
    words = [os.path.join(home, 'bin', 'rattle'), 'check', '--crate-name', 'rules', 'src/lib.rt',
             '--extern', 'std=' + os.path.join(home, 'rlibs', 'std.rlib'), '-L', 'dependency=' + os.path.join(home, 'rlibs'),
             '--antt-project', os.path.join(home, 'rattle', 'logic', 'antt-project.json'), '--logic-built', os.path.join(home, 'logic_built'),
             '--jobs', '1', '--incremental', 'found']
    run = subprocess.run(words, cwd=where, stdout=subprocess.PIPE, stderr=subprocess.STDOUT, text=True, errors='replace', stdin=subprocess.DEVNULL)
    write(os.path.join(where, 'log'), run.stdout)
    return run.returncode, run.stdout
