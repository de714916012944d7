"""Checks of a crate with wrong programs in it, over the proved libraries in crates/*/out/rlib: each in a folder of its own, and no file of the crate is touched."""
import hashlib
import json
import os
import pathlib
import shutil
import signal
import subprocess
import tempfile
import threading

import rattle
from edits import Complaint, source_files

TOP = rattle.TOP = pathlib.Path.cwd()
TARGET = pathlib.Path('target/must-fail')
# logs by the sum of all that the prover read, for another checkout on this machine, as rt keeps what `rt ci` proved
KEPT = pathlib.Path(os.environ.get('XDG_CACHE_HOME') or pathlib.Path.home() / '.cache') / 'wrong-programs'


def write(top, texts):
    for path, text in texts.items():
        (top / path).parent.mkdir(parents=True, exist_ok=True)
        (top / path).write_text(text, encoding='utf-8')


def read(path):
    try:
        return path.read_text(encoding='utf-8')
    except OSError:
        return ''


def keep(path, text):
    """Writes a file whole or not at all; where it can't be written, nothing is kept."""
    try:
        path.parent.mkdir(parents=True, exist_ok=True)
        part = path.with_name('%s.%d' % (path.name, threading.get_ident()))
        part.write_text(text, encoding='utf-8')
        part.replace(path)
    except OSError:
        pass


def linked(one, other):
    """Gives a file that rt replaces and never changes a second name."""
    try:
        os.link(one, other)
    except OSError:
        shutil.copy2(one, other)


def linked_modules(one, other):
    return (linked if one.endswith('.oantt') else shutil.copy2)(one, other)


class Tries:
    """What the prover says of crates as they would stand. Each log stays in target/must-fail/ and in the user's cache, and is read again where
    nothing that the prover reads has changed."""

    def __init__(self):
        self.lock, self.locks, self.seeds, self.sums = threading.Lock(), {}, {}, {}
        self.room = tempfile.TemporaryDirectory(prefix='tries-')
        self.top = pathlib.Path(self.room.name).resolve()
        self.count, self.modules, self.stopped, self.running = 0, None, False, set()
        self.kit = subprocess.run(['rt', 'version'], capture_output=True, text=True, check=True).stdout

    def __enter__(self):
        return self

    def __exit__(self, *_):
        self.stop()
        self.room.cleanup()

    def stop(self):
        """Ends the checks that run, and begins no other."""
        self.stopped = True
        for ran in [*self.running]:
            os.killpg(ran.pid, signal.SIGTERM)

    def lock_of(self, key):
        with self.lock:
            return self.locks.setdefault(key, threading.Lock())

    def sum_below(self, name):
        """A sum of the prover and of the crates below, whose libraries are proved."""
        with self.lock_of(('below', name)):
            if name not in self.sums:
                lacking = [below for below in rattle.below(name) if not (rattle.rlib(below, TOP) / 'format').is_file()]
                if lacking:
                    raise Complaint('there is no proved library of %s: run rt ci, or rt check in the folder of a crate above it' % ' '.join(lacking))
                texts = [(below, rattle.listed()[below], sorted(source_files(below).items())) for below in rattle.below(name)]
                self.sums[name] = hashlib.sha256(repr((self.kit, rattle.listed()[name], texts)).encode()).hexdigest()
        return self.sums[name]

    def check(self, name, folder):
        """What the prover says of the crate in this folder, beginning with the modules that stand in its out/, and its status."""
        if self.stopped:
            raise Complaint('it was not tried')
        command = [rattle.kit() / 'bin/rattle', 'check', *rattle.words(name, TOP), '--jobs', '1', '--incremental', 'out']
        ran = subprocess.Popen(command, cwd=folder, stdout=subprocess.PIPE, stderr=subprocess.STDOUT, stdin=subprocess.DEVNULL, start_new_session=True)
        self.running.add(ran)
        said = ran.communicate()[0].decode(errors='replace')
        self.running.discard(ran)
        return ran.returncode, said

    def new_room(self):
        with self.lock:
            self.count += 1
            return self.top / str(self.count)

    def folder_of_modules(self):
        """The name of the folder in which the prover keeps the modules that it has checked; each build of it has its own."""
        with self.lock_of('modules'):
            if not self.modules:
                small = next(name for name in rattle.listed() if not rattle.below(name))
                room = self.new_room()
                write(room, {'src/lib.rt': '#![tactic(auto)]\n\npub fn nothing() {}\n'})
                said = self.check(small, room)[1]
                kept = [p.name for p in (room / 'out').glob('*') if p.is_dir()]
                if len(kept) != 1:
                    raise Complaint('the prover keeps no modules: ' + said[:200])
                self.modules = kept[0]
            return self.modules

    def seed_of(self, name):
        """A folder with the checked modules of the crate as it is: what `rt check` kept, or else those of the proved library."""
        with self.lock_of(('seed', name)):
            if name not in self.seeds:
                kept, rlib, seed = pathlib.Path('crates', name, 'out/incremental'), rattle.rlib(name, TOP) / 'toolchain', self.top / ('seed-' + name)
                if kept.is_dir():
                    shutil.copytree(kept, seed, symlinks=True, copy_function=linked_modules)
                elif (rlib / 'checked.a').is_file():
                    into, archive = seed / self.folder_of_modules(), (rlib / 'checked.a').read_bytes()
                    into.mkdir(parents=True)
                    for line in (rlib / 'checked.json').read_text().splitlines():
                        module, at, size = json.loads(line)
                        if '/' not in module:
                            (into / (module + '.oantt')).write_bytes(archive[at:at + size])
                else:
                    seed.mkdir()
                self.seeds[name] = seed
            return self.seeds[name]

    def log_of(self, name, label, files):
        """What the prover says of the crate with these files, under this label."""
        where = TARGET / name / label
        tried = hashlib.sha256(repr((self.sum_below(name), sorted(files.items()))).encode()).hexdigest()
        kept = KEPT / tried
        for place in (where,) if os.environ.get('EDITS_ANEW') else (where, kept):
            before, _, log = read(place).partition('\n')
            if before == tried:
                break
        else:
            log = self.checked(name, files)
            if not [*TOP.glob('crates/*/out/rlib/stamp')]:  # libraries that rt ci left
                keep(kept, tried + '\n' + log)
        where.parent.mkdir(parents=True, exist_ok=True)
        where.write_text(tried + '\n' + log, encoding='utf-8')
        return log

    def checked(self, name, files):
        """What the prover says now."""
        room = self.new_room()
        write(room, files)
        shutil.copytree(self.seed_of(name), room / 'out', symlinks=True, copy_function=linked_modules)
        status, log = self.check(name, room)
        shutil.rmtree(room, ignore_errors=True)
        if status not in (0, 1):
            raise Complaint('the prover gave no verdict (status %d): %s' % (status, log[-300:]))
        return log
