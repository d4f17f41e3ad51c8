"""Waits for programs that have a limit. One that isn't kept is told in one line."""

import os
import signal
import subprocess
import sys

# So long that a machine at other work does not pass it either.
MOST_SECONDS = 300


def ended(process, seconds=MOST_SECONDS):
    """The status of a process that was started, and what it wrote on both outputs. Past the limit it is killed, with all of its group where it leads one."""
    try:
        out, err = process.communicate(timeout=seconds)
    except subprocess.TimeoutExpired:
        if os.getpgid(process.pid) == process.pid:
            os.killpg(process.pid, signal.SIGKILL)
        process.kill()
        process.communicate()
        raise
    return process.returncode, out, err


def tell(text):
    print(f'{os.path.basename(sys.argv[0])}: {text}', file=sys.stderr)


def told(main):
    """The status of a script, whose words are those of the call. Where a program that it called hadn't ended in time, or isn't there, it is 1, and a line
    says which; where nobody reads its output any more, it is 1 too, and nothing more is said."""
    try:
        status = main(sys.argv)
        sys.stdout.flush()
        return status
    except subprocess.TimeoutExpired as late:
        words = late.cmd if isinstance(late.cmd, str) else ' '.join(map(str, late.cmd))
        tell(f'{words[:200]} had not ended after {late.timeout:.0f} seconds')
    except BrokenPipeError:
        os.dup2(os.open(os.devnull, os.O_WRONLY), sys.stdout.fileno())
    except OSError as error:
        tell(f'{error.filename}: {error.strerror}' if error.filename else error)
    return 1
