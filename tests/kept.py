"""What is kept of readings and of lines, by the second program."""

import record_files
import reference as ref


def kept(u, v, steps):
    """The record of a reading in millionths, in a list; an empty one where the reading is refused."""
    refusal, *numbers = ref.answer("whole", (u, v), ref.TEXT_EDGES, steps)
    return [] if refusal else [(u, v, *numbers)]


def kept_of(text):
    """The records of the accepted lines of an input, in their order."""
    matches = (ref.LINE.fullmatch(line) for line in ref.lines_of(text) if len(line) <= ref.LONGEST_LINE)
    return [record for match in matches if match for record in kept(*map(int, match.groups(ref.DEFAULT_STEPS)))]


def file_of(text):
    """The record file of an input."""
    return record_files.file_of(kept_of(text))


def shown(record):
    """A record as `cradlekeel show` prints it."""
    *numbers, cls = record
    return " ".join(map(str, (*numbers, shown_class(cls))))


def shown_class(cls):
    return "-" if cls == ref.NO_CLASS else str(cls)
