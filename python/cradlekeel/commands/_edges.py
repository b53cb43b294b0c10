"""The option --edges, as the commands take it that name classes."""

from .. import EDGES, Refusal, read_micro
from . import WrongUsage, whole_number

BAD_EDGES = 1  # the number of the refusal that is about the options and not about a file


def edges_of(options):
    """The class edges among the options, or else the program's own; edges that the library does not take are wrong usage."""
    edges = [whole_number("--edges", edge.strip()) for edge in options["--edges"].split(",")] if "--edges" in options else EDGES
    try:
        read_micro(0, 0, edges)  # a reading that would be refused for another reason
    except Refusal as refusal:
        if refusal.number == BAD_EDGES:
            raise WrongUsage(f"--edges: {refusal.reason}") from None
    return edges
