"""Runs a command of the package: `python3 -m cradlekeel COMMAND ..`, which is `bin/cradlekeel COMMAND ..` once the library is built, and
for save the program too."""

import importlib
import signal
import sys
import traceback

from .commands import ANSWERED, FAILED, NOT_RUN, BadFile, Failed, HelpAsked, WrongUsage, say, write_out

COMMANDS = {  # a module of cradlekeel.commands for each
    "board": "a board of the lots in one or two record files, run by commands",
    "compare": "the differences of two record files, one to a line",
    "salvage": "what can be kept of a broken record file, in a new one",
    "save": "the answers to lines, kept in a record file too",
    "show": "the records of record files, one to a line",
    "spectrum": "the temperature, Duv and class of spectra in a meter's files",
}

FAILED_AS = {"compare": NOT_RUN}  # the exit status of a failure where it is not FAILED, which there says that the files differ

USAGE = """usage: cradlekeel COMMAND ..

{commands}

cradlekeel COMMAND --help tells more of each.
"""


def main(words):
    """Runs the command that the first word names and returns the exit status."""
    for stopped in (signal.SIGINT, signal.SIGPIPE):
        signal.signal(stopped, signal.SIG_DFL)  # ends without a word, as filters do
    name = words[0] if words else ""
    try:
        if name in ("-h", "--help"):
            write_out(usage())
            return ANSWERED
        if name not in COMMANDS:
            fault = f"'{name}' is not a command" if words else "no command is named"
            raise WrongUsage(f"{fault}: there are {', '.join(COMMANDS)}")
        return run_command(importlib.import_module(f".commands.{name}", __package__), words[1:])
    except WrongUsage as error:
        say(f"{error}; see cradlekeel {name + ' ' if name in COMMANDS else ''}--help")
        return NOT_RUN
    except (BadFile, Failed) as error:
        say(error)
        return FAILED_AS.get(name, FAILED)
    except OSError as error:  # the library, the program or a table of data/ is not there
        say(error)
        return NOT_RUN
    except Exception:  # a fault of ours, or no memory; Python's own status for it would be FAILED
        traceback.print_exc()
        return FAILED_AS.get(name, FAILED)


def run_command(command, words):
    try:
        return command.run(words)
    except HelpAsked:
        write_out(command.__doc__)
        return ANSWERED


def usage():
    return USAGE.format(commands="\n".join(f"  {name:10}  {purpose}" for name, purpose in COMMANDS.items()))


if __name__ == "__main__":
    sys.exit(main(sys.argv[1:]))
