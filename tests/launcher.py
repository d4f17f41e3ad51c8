#!/usr/bin/env python3
"""Calls the launcher `mpc` over a small repository of made-up crates, with a fake `rt` on the PATH or none: launcher.py LAUNCHER

It must answer words that are refused before it builds anything, build what the program stands on and no more, tell how far it is, go on
where a stopped build was, and build anew where a source is newer than the program, and not else. Ends with status 1, and tells why, where
it does otherwise.
"""

import concurrent.futures
import os
import pathlib
import shutil
import signal
import subprocess
import sys
import tempfile
import time

from other_words import USAGE
from rows import GROUPS
from waits import ended, told

# What the launcher calls beside rt.
TOOLS = ['awk', 'cp', 'cut', 'date', 'dirname', 'find', 'grep', 'head', 'mkdir', 'mktemp', 'mv', 'readlink', 'rm', 'sed', 'sh', 'sleep',
         'stty', 'touch', 'tr', 'wc']

CRATES = ('# What the program stands on, and what it does not\n'
          'low_one:\n'
          'low_two:\n'
          'upper: low_one low_two\n'
          'only_tests: upper\n'
          'mpc_main: low_two upper\n')
BUILT = ['low_one', 'low_two', 'mpc_main', 'upper']

# So many calls run at once.
AT_ONCE = 8

# A program that tells the words that it got, each between brackets, and ends with a status of its own.
PROGRAM = '#!/bin/sh\nprintf "[%s]" "$@"\nexit 7\n'

# An rt that acts as `rt ci` does: it is at work on both low crates at once, keeps in $FAKE what it proved, and leaves the program. The file
# $FAKE/way tells it to hold at the low crates until there is $FAKE/go, or behind them to fail or to go on without end.
RT = r'''#!/bin/sh
PATH=$PATH:/usr/bin:/bin
[ "$*" = ci ] || exit 9
[ -d .git ] || exit 9
echo $$ >>"$FAKE/calls"
ls crates >"$FAKE/crates"
ls -A crates/low_one >"$FAKE/parts"
mkdir crates/low_one/out crates/low_two/out
while [ "$(cat "$FAKE/way")" = hold ] && [ ! -e "$FAKE/go" ]; do sleep 0.1; done
if [ -e "$FAKE/kept" ]; then
    echo 'rt: low_one is kept: an earlier run proved it'
    echo 'rt: low_two is kept: an earlier run proved it'
else
    printf 'rt: low_one proved\nrt: low_two proved\n'
fi
echo low >>"$FAKE/kept"
mkdir crates/upper/out
case $(cat "$FAKE/way") in
    fail) printf 'fn upper::sum: no proof\nrt: upper NOT PROVED\n'; exit 1 ;;
    wait) touch "$FAKE/waits"; sleep 60 & echo $! >>"$FAKE/calls"; wait ;;
esac
echo 'rt: upper proved'
mkdir crates/mpc_main/out
cp "$FAKE/program" crates/mpc_main/out/mpc_main
echo 'rt: mpc_main proved'
'''


def heed_interrupts():
    """Has an interrupt end what is started, also where a script in the background started this one, and so let it ignore them."""
    signal.signal(signal.SIGINT, signal.SIG_DFL)


class Repository:
    """A folder with the launcher and made-up crates, and the answers of its calls."""

    def __init__(self, top, launcher):
        self.top, self.fake, self.bin = top / 'repository', top / 'fake', top / 'bin'
        self.room = top / 'room'
        for folder in (self.top, self.fake, self.bin, self.room):
            folder.mkdir()
        shutil.copy(launcher, self.top / 'mpc')
        (self.top / 'crates.txt').write_text(CRATES)
        (self.top / 'HANDLES').write_text('Handles allowed: none.\n')
        for name in [*BUILT, 'only_tests']:
            for part in ('src', 'specs', 'proofs', 'must-fail', 'more-edits'):
                (self.top / 'crates' / name / part).mkdir(parents=True)
            (self.top / 'crates' / name / 'src' / 'lib.rt').write_text('// nothing\n')
            (self.top / 'crates' / name / 'specs' / 'Lib.antt').write_text('-- nothing\n')
        for tool in TOOLS:
            (self.bin / tool).symlink_to(shutil.which(tool))
        (self.fake / 'program').write_text(PROGRAM)
        (self.fake / 'program').chmod(0o755)
        self.program = self.top / 'crates' / 'mpc_main' / 'out' / 'mpc_main'
        self.environment = {'PATH': str(self.bin), 'FAKE': str(self.fake), 'TMPDIR': str(self.room)}

    def put_rt(self, way='well'):
        """Puts the fake rt onto the PATH, which goes this way."""
        (self.fake / 'way').write_text(way)
        (self.bin / 'rt').write_text(RT)
        (self.bin / 'rt').chmod(0o755)

    def start(self, words):
        return subprocess.Popen([self.top / 'mpc', *words], cwd=self.room, env=self.environment, stdin=subprocess.DEVNULL, stdout=subprocess.PIPE,
                                stderr=subprocess.PIPE, text=True, start_new_session=True, preexec_fn=heed_interrupts)

    def call(self, *words):
        """The status of a call, and what it wrote on both outputs."""
        return ended(self.start(words))

    def await_file(self, name):
        """Waits until rt has left this file."""
        for _ in range(600):
            if (self.fake / name).exists():
                return
            time.sleep(0.05)
        raise AssertionError(f'rt never left the file {name}')

    def calls(self):
        """How often rt was called."""
        file = self.fake / 'calls'
        return len(file.read_text().split()) if file.exists() else 0

    def expect(self, holds, what):
        if not holds:
            raise AssertionError(what)

    def expect_clean(self):
        """That no copy of the crates is left."""
        self.expect(not list(self.room.iterdir()), f'it left {list(self.room.iterdir())}')


def check_words(repository):
    """Where nothing is built and there is no rt, exactly the words that the program refuses are answered with the usage."""
    more = f'more: {repository.top}/README.md\n'
    rows = {tuple(row.words): row.status == 2 for group in GROUPS.values() for row in group}
    with concurrent.futures.ThreadPoolExecutor(AT_ONCE) as pool:
        answers = list(pool.map(lambda words: repository.call(*words), rows))
    for (words, is_refused), found in zip(rows.items(), answers):
        wanted = (2, '', USAGE + more) if is_refused else (127, '', found[2])
        repository.expect(found == wanted, f'the words {words} gave {found}')
    for words in (['-h'], ['--help']):
        found = repository.call(*words)
        repository.expect(found == (0, USAGE.partition('\n')[2] + more, ''), f'the words {words} gave {found}')
    repository.expect(not repository.program.parent.exists(), 'it built something')
    return f'{len(rows)} rows of words'


def check_no_rt(repository):
    found = repository.call('check', 'd')
    repository.expect(found[0] == 127 and found[1] == '' and found[2].count('\n') == 1 and ' rt ' in found[2], f'without rt: {found}')
    repository.expect_clean()
    return 'without rt'


def check_failure(repository):
    repository.put_rt('fail')
    status, out, err = repository.call('check', 'd')
    log = repository.program.parent / 'mpc_main.log'
    repository.expect(status == 70 and out == '', f'a build that fails gave {status}')
    for line in ('fn upper::sum: no proof\n', 'rt: upper NOT PROVED\n', f'{log}\n'):
        repository.expect(line in err, f'a build that failed does not tell {line!r}: {err}')
    repository.expect('NOT PROVED' in log.read_text() and not repository.program.exists(), 'a build that failed left other files')
    repository.expect_clean()
    return 'a build that fails'


def check_build(repository):
    """What is built, what is told meanwhile, and that the words come to the program as they are."""
    repository.put_rt('hold')
    words = ['run', 'a  "b" $HOME `x` *\n\\', '--view', "it's"]
    started = repository.start(words)
    line = 'mpc:'
    while line.startswith('mpc:') and 'at work: low_one low_two\n' not in line:
        line = started.stderr.readline()
    (repository.fake / 'go').touch()
    status, out, err = ended(started)
    repository.expect(line == 'mpc: 0 of 4 crates are built, 0 minutes, at work: low_one low_two\n', f'it does not tell two crates at work: {line}{err}')
    repository.expect('mpc: 4 of 4 crates are built, 0 minutes\n' in err, f'it does not tell the end: {err}')
    repository.expect((status, out) == (7, ''.join(f'[{word}]' for word in words)), f'the program got {out!r} and gave {status}')
    built = (repository.fake / 'crates').read_text().split()
    repository.expect(built == BUILT, f'it built {built}')
    parts = (repository.fake / 'parts').read_text().split()
    repository.expect(parts == ['proofs', 'specs', 'src'], f'it copied {parts}')
    repository.expect_clean()
    return 'a build'


def check_stale(repository):
    """A newer source of what the program stands on has it built anew, and nothing else does."""
    repository.put_rt()
    repository.call('check', 'd')
    crates = repository.top / 'crates'
    out = crates / 'low_one' / 'out'
    out.mkdir()
    others = ['README.md', 'mpc', 'crates/only_tests/src/lib.rt', 'crates/low_one/must-fail/a.edit', 'crates/low_one/out/made.rt']
    sources = ['crates.txt', 'crates/low_one/src/lib.rt', 'crates/upper/specs/Lib.antt', 'crates/mpc_main/proofs/New.antt']
    for number, name in enumerate([*others, *sources]):
        before, file = repository.calls(), repository.top / name
        file.touch()
        later = time.time() + 10
        os.utime(file, (later, later))
        repository.call('check', 'd')
        repository.expect(repository.calls() - before == (name in sources), f'after {name} was changed rt was called {repository.calls() - before} times')
        os.utime(file, (0, 0))
    return f'{len(others)} files that are no source, {len(sources)} that are'


def check_stop(repository):
    """A build that is stopped ends with what it started, and the next one goes on."""
    repository.put_rt('wait')
    started = repository.start(['check', 'd'])
    repository.await_file('waits')
    time.sleep(0.2)
    os.killpg(started.pid, signal.SIGINT)
    status, _, err = ended(started)
    repository.expect(status == 130 and err.endswith('goes on where this one was\n'), f'stopped, it gave {status}: {err}')
    repository.expect_clean()
    # (the real rt ends what it started)
    rt, sleeper = map(int, (repository.fake / 'calls').read_text().split())
    os.kill(sleeper, signal.SIGKILL)
    repository.expect(not pathlib.Path(f'/proc/{rt}').exists(), 'rt goes on')
    repository.put_rt()
    status, _, err = repository.call('check', 'd')
    repository.expect(status == 7 and (repository.fake / 'kept').read_text() == 'low\nlow\n', f'the build after it gave {status}: {err}')
    return 'a build that is stopped'


def check_change(repository):
    """A source that changes while it is built has it built once more."""
    repository.put_rt('hold')
    started = repository.start(['check', 'd'])
    repository.await_file('calls')
    (repository.top / 'crates' / 'upper' / 'src' / 'lib.rt').touch()
    (repository.fake / 'go').touch()
    ended(started)
    repository.call('check', 'd')
    repository.call('check', 'd')
    repository.expect(repository.calls() == 2, f'rt was called {repository.calls()} times')
    return 'a source that changes meanwhile'


CHECKS = [check_words, check_no_rt, check_failure, check_build, check_stale, check_stop, check_change]


def main(words):
    if len(words) != 2:
        sys.exit('usage: launcher.py LAUNCHER')
    lacking = [tool for tool in TOOLS if not shutil.which(tool)]
    if lacking:
        sys.exit(f'launcher: there is no {lacking[0]}')
    status = 0
    for check in CHECKS:
        with tempfile.TemporaryDirectory() as top:
            try:
                print(f'launcher: {check(Repository(pathlib.Path(top), words[1]))}: as expected')
            except AssertionError as why:
                print(f'launcher: {why}')
                status = 1
    return status


if __name__ == '__main__':
    sys.exit(told(main))
