"""Tasks done by as many processes as there are cores, each a copy of this one as it is when the first result is asked for."""

import os
from multiprocessing import get_context
from multiprocessing.connection import wait


class Ended(Exception):
    """A process that ended before it was done with its task; where the task raised an error, the process has shown its traceback."""

    def __init__(self, number):
        super().__init__("the process of task %d has ended" % number)
        self.number = number


def serve(tasks, pipe):
    """Does each task whose number comes in, and sends back what it gives, until None comes in."""
    for number in iter(pipe.recv, None):
        pipe.send(tasks[number]())


def started(tasks):
    """This end of the pipe to a new process that does tasks; the other end is open in that process alone."""
    context = get_context("fork")
    here, there = context.Pipe()
    context.Process(target=serve, args=(tasks, there), daemon=True).start()
    there.close()
    return here


def received(pipe, number):
    """What a process sends back of the task of a number."""
    try:
        return pipe.recv()
    except EOFError:
        raise Ended(number) from None


def results(tasks):
    """What each task, a function of nothing, gives, in the order of the tasks; whichever process is done is handed the next task."""
    pipes = [started(tasks) for _ in range(min(os.cpu_count() or 1, len(tasks)))]
    numbers, idle, busy, done = iter(range(len(tasks))), pipes, {}, {}
    for wanted in range(len(tasks)):
        while wanted not in done:
            for pipe, number in zip(idle, numbers):
                pipe.send(number)
                busy[pipe] = number
            idle = wait(list(busy))
            for pipe in idle:
                number = busy.pop(pipe)
                done[number] = received(pipe, number)
        yield done.pop(wanted)
    for pipe in pipes:
        pipe.send(None)
