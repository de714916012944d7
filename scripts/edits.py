"""The must-fail edits of a crate: their files, the wrong programs in them, and a crate with an edit made."""
import os
import re

PROGRAM_LINE = re.compile(r'# (\w+) \(([^\s()]+)\): (\S.*)')


class Complaint(Exception):
    pass


class WrongProgram:
    def __init__(self, label, target=None):
        self.label, self.target = label, target
        self.replacements = []  # (file, old, new)
        self.changes = set()
        self.reshaped = False  # whether it changes the shape of code that has a proof

    def functions(self):
        return {c.name for c in self.changes if c.kind in ('body', 'contract')}


def read(path):
    with open(path, encoding='utf-8') as f:
        return f.read()


def crates_below():
    """The crates, each with those that it builds on, of this repository."""
    lines = [line.split('#')[0].partition(':') for line in read('crates.txt').split('\n') if ':' in line.split('#')[0]]
    listed = {name.split()[0]: below.split() for name, _, below in lines}
    return {name: [b for b in below if b in listed] for name, below in listed.items()}


def listed_crates():
    return list(crates_below())


def edit_files(name):
    """The edit files of a crate, by their labels."""
    where = 'crates/%s/must-fail' % name
    files = sorted(os.listdir(where)) if os.path.isdir(where) else []
    return {file[:-len('.edit')]: '%s/%s' % (where, file) for file in files if file.endswith('.edit')}


def source_files(name):
    """The texts of a crate's src/, specs/ and proofs/, by their paths within it."""
    folder, files = 'crates/' + name, {}
    for top in ('src', 'specs', 'proofs'):
        for where, folders, names in os.walk(os.path.join(folder, top)):
            folders.sort()
            for n in sorted(names):
                path = os.path.join(where, n)
                files[os.path.relpath(path, folder)] = read(path)
    return files


def programs_of(path):
    """The wrong programs of an edit file."""
    programs, file, old = [WrongProgram(os.path.basename(path)[:-len('.edit')])], None, None
    for line in read(path).split('\n'):
        begins = PROGRAM_LINE.fullmatch(line)
        if begins:
            programs.append(WrongProgram(begins[1], begins[2]))
        elif line.startswith('file: '):
            file = line[len('file: '):]
        elif line.startswith('old: '):
            old = line[len('old: '):]
        elif line.startswith('new:'):
            programs[-1].replacements.append((file, old, line[len('new:'):].removeprefix(' ')))
    return [p for p in programs if p.replacements or p.target]


def place_of(files, file, old):
    """Where the old text of a replacement stands."""
    if not old or files.get(file, '').count(old) != 1:
        raise Complaint('its old text is not in %s, once' % file)
    return files[file].index(old)
