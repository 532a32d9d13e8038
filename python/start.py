"""What ./pertxogai runs: its commands, by the first of some Pythons of 3.11 or later that has ezdxf, which writes DXF, else
by the first of 3.11 or later.

start.py THIS OTHERS FITTING WORD ..: THIS is what this Python was called as, OTHERS are those to look at after it, with blanks
between, FITTING is one that is new enough, '' where none is known yet. Older Pythons have to read this file too.
"""
import gc
import os
import sys

OLDEST = (3, 11)


def main(this, others, fitting, words):
    """Runs the commands, or hands on to another Python."""
    is_new = sys.version_info >= OLDEST
    fitting = fitting or (this if is_new else "")
    if is_new and (has_ezdxf() or (fitting == this and not others)):
        return run(words)
    if others:
        hand_on(others[0], others[1:], fitting, words)
    if fitting:
        hand_on(fitting, [], fitting, words)
    return "pertxogai: no Python of 3.11 or later is found: install python3, or name one by PERTXOGAI_PYTHON"


def has_ezdxf():
    """Whether a folder that this Python imports from has ezdxf."""
    return any(os.path.isdir(os.path.join(folder, "ezdxf")) for folder in sys.path)


def hand_on(python, others, fitting, words):
    """Has another Python do this, in this one's place."""
    os.execvp(python, [python, os.path.abspath(__file__), python, " ".join(others), fitting, *words])


def run(words):
    """The commands, and their exit status."""
    gc.disable()  # What is imported stays, so garbage collection would only take time.
    from pertxogai.commands import main as do

    gc.freeze()  # So no later collection, nor that at the end, looks through what was imported.
    gc.enable()
    return do(words)


if __name__ == "__main__":
    ended = main(sys.argv[1], sys.argv[2].split(), sys.argv[3], sys.argv[4:])
    if isinstance(ended, str):
        sys.stderr.write(ended + "\n")
        ended = 2
    sys.exit(ended)
