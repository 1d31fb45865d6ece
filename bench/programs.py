"""The built programs that the scripts in this folder run."""
import os
import sys

TOP = os.path.dirname(os.path.dirname(os.path.abspath(__file__)))


def built(crate, top=TOP):
    """The program of the crate, as it was last proved and built. Where there is none, says what to type, and ends."""
    folder = f"{top}/crates/{crate}"
    program = f"{folder}/out/{crate}"
    if not os.access(program, os.X_OK):
        sys.exit(f"{program} isn't built. To prove and build it: (cd {folder} && rt run)")
    return program
