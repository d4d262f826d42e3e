"""What the Python scripts beside this file share: the folder of the repository, and their words. A
script's --help writes the text at its head, and words that it doesn't take end it with status 2."""
import argparse, os, sys

TOP = os.path.dirname(os.path.dirname(os.path.abspath(__file__)))


def parser(text):
    return argparse.ArgumentParser(
        description=text, formatter_class=argparse.RawDescriptionHelpFormatter)


def take_program(words, name):
    """For scripts that try a built program: --program names it, else it is what `rt ci` built."""
    words.add_argument('--program', default=os.path.join(TOP, 'crates', name, 'out', name))


def parse(words, runs_program=lambda given: True):
    """The words of the script. It ends here where it runs its program and that isn't built."""
    given = words.parse_args()
    program = getattr(given, 'program', None)
    if program and runs_program(given) and (not os.access(program, os.X_OK) or os.path.isdir(program)):
        sys.exit("%s: %s isn't built: 'rt run' in its crate, or 'rt ci', proves and builds it"
                 % (words.prog, program))
    if program:
        given.program = os.path.abspath(program)
    return given
