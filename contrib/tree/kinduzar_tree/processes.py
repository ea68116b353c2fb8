"""Runs programs, so many at once, and ends them when a signal ends the run."""
import contextlib
import os
import queue
import resource
import signal
import subprocess
import sys
import threading
import time

from .files import PAUSE, SCARCE, TRIES

# the signals that stop a run
SIGNALS = (signal.SIGINT, signal.SIGTERM, signal.SIGHUP)
# how many seconds the processes have, after the first such signal, to finish the files that they have begun
GRACE = 2.0
# the status of a process that could not be started
NOT_RUN = 256
# a batch has at most so many files, and so many bytes of names
MOST_FILES, MOST_BYTES = 32, 96_000
# how many files a process takes of those that this one may have open, and how many it keeps for itself
FILES, OWN_FILES = 9, 12
# the disk gives more than the processors: while one process waits for a flush, others go on
PROCESSES = min(8 * (os.cpu_count() or 1), 64)


class Stopped(BaseException):
    """A signal came where nothing was running; the argument is its number."""


class Scarce(Exception):
    """The system has no room for one more process, beside those that run."""


class Ended:
    """How a process ended: its status, less than zero for a signal, and what it wrote."""

    def __init__(self, status, out, err):
        self.status, self.out, self.err = status, out, err

    def how(self):
        """How a process ended that had no status to end with."""
        if self.status == NOT_RUN:
            return f"could not be started: {os.fsdecode(self.err)}"
        return f"ended by {signal.Signals(-self.status).name}" if self.status < 0 else f"ended with {self.status}"


def program(name):
    """The path of a program: the one beside this command, else the one on the PATH; None where there is none."""
    for command in (os.path.abspath(sys.argv[0]), os.path.realpath(sys.argv[0])):
        beside = os.path.join(os.path.dirname(command), name)
        if os.path.isfile(beside) and os.access(beside, os.X_OK):
            return beside
    import shutil  # here, as reading it would slow every run

    return shutil.which(name)


def room_beside(words):
    """How many bytes of names a process may be given beside some words: a half of what the system has left for them."""
    taken = sum(len(os.fsencode(word)) + 9 for word in [*words, *os.environ, *os.environ.values()])
    return min(MOST_BYTES, (os.sysconf("SC_ARG_MAX") - taken) // 2)


def batches(things, processes, name, room=MOST_BYTES):
    """Cuts a list into runs of neighbours, each for one process: so many that all processes have some, none too long. A thing of which
    the name (a function of it) has a sign that the lines of the programs use too is alone, so that its lines cannot be another's."""
    most = max(1, min(MOST_FILES, -(-len(things) // (4 * processes))))
    batch, size = [], 0
    for thing in things:
        text = name(thing)
        odd = not text.isprintable() or ":" in text or "#" in text or text != text.strip()
        if batch and (odd or len(batch) >= most or size + len(text) > room):
            yield batch
            batch, size = [], 0
        batch.append(thing)
        size += len(os.fsencode(text)) + 1
        if odd:
            yield batch
            batch, size = [], 0
    if batch:
        yield batch


class Pool:
    """Some processes at once: as many as the system has room for, of those that are wanted. Each is waited for by a thread of its own."""

    def __init__(self, processes):
        files = resource.getrlimit(resource.RLIMIT_NOFILE)[0]
        self.processes = processes if files == resource.RLIM_INFINITY else max(1, min(processes, (files - OWN_FILES) // FILES))
        self.signal = None
        self.is_closed = self.is_ending = False
        self.running = set()
        self.handlers = {}
        # the threads, how many take tasks, and of each whether it has started a process; and what they work at
        self.threads, self.taking, self.own, self.lock = [], 0, threading.local(), threading.Lock()
        self.shared = None

    def __enter__(self):
        """From here on a signal lets the processes finish, and a second one ends them; one that is ignored stays so."""
        for number in SIGNALS:
            if signal.getsignal(number) != signal.SIG_IGN:
                self.handlers[number] = signal.signal(number, self.on_signal)
        return self

    def __exit__(self, *_):
        self.end()
        for number, handler in self.handlers.items():
            signal.signal(number, handler)

    def on_signal(self, number, _):
        self.close()
        if self.signal is not None:
            self.end()
            return
        self.signal = number
        timer = threading.Timer(GRACE, self.end)
        timer.daemon = True
        try:
            timer.start()
        except RuntimeError:  # the system has no thread for it
            self.end()

    def close(self):
        """No further task is begun."""
        self.is_closed = True

    def end(self):
        """No further task is begun, and the processes that run are ended."""
        self.is_closed = self.is_ending = True
        for process in list(self.running):
            end_group(process)

    def call(self, words, text=b"", folder=None):
        """Runs a program with this on its standard input, and gives how it ended. It has a session of its own, so that a signal
        of the terminal reaches this process alone."""
        pipes = {"stdin": subprocess.PIPE if text else subprocess.DEVNULL, "stdout": subprocess.PIPE, "stderr": subprocess.PIPE, "env": {**os.environ, "LC_ALL": "C"}}
        try:
            process = self.started(words, cwd=folder, start_new_session=True, **pipes)
        except OSError as error:
            return Ended(NOT_RUN, b"", error.strerror.encode())
        if self.is_ending:
            end_group(process)
        out, err = process.communicate(text or None)
        self.running.discard(process)
        return Ended(process.returncode, out, err)

    def difference(self, name, file, new):
        """The lines of a unified difference between a file and a text, under the name that is shown: by diff, whose time grows with the lines."""
        # a name with a space is ended by a tab, as patch reads it, and one with a newline must not end the line
        label = name.replace("\n", "\\n") + "\t" * any(sign.isspace() for sign in name)
        *lines, last = self.call(["diff", "-a", "-u", "-L", label, "-L", label, "--", os.path.abspath(file), "-"], new).out.split(b"\n")
        return [line + b"\n" for line in lines] + [last] * bool(last)

    def started(self, words, **how):
        """Starts a process, and then one more thread. Where the system has no room for it this waits as long as others run, and then a while;
        a thread that has started none yet gives its task back (Scarce)."""
        left = TRIES
        while True:
            try:
                process = subprocess.Popen(words, **how)
                break
            except OSError as error:
                left = TRIES if self.running else left - 1
                if error.errno not in SCARCE or not left or self.is_ending:
                    raise
                if self.taking > 1 and not getattr(self.own, "has_started", False):
                    raise Scarce from error
            time.sleep(PAUSE)
        self.running.add(process)
        self.own.has_started = True
        self.grow()
        return process

    def grow(self):
        """Has one more thread take tasks, where there are some, and the system has it."""
        with self.lock:
            if self.shared and self.taking < self.processes and not self.shared[1].empty():
                self.threads.append(threading.Thread(target=self.take))
                self.taking += 1
                try:
                    self.threads[-1].start()
                except RuntimeError:
                    self.threads.pop()
                    self.taking -= 1

    def each(self, work, tasks):
        """Calls `work` with each task, some at once, and yields each task with what came of it, as soon as it is there, by the number of
        the task. After `close` those that were not begun are missing."""
        pending, results = queue.SimpleQueue(), queue.SimpleQueue()
        for task in enumerate(tasks):
            pending.put(task)
        self.shared, self.threads, ended = (work, pending, results), [], 0
        self.grow()
        try:
            while ended < len(self.threads) or not (pending.empty() or self.is_closed):
                if ended == len(self.threads):  # none could be started, or the last one gave its task back
                    self.threads.append(None)
                    self.taking += 1
                    self.take()
                try:
                    result = results.get(timeout=GRACE)
                except queue.Empty:  # a signal that came right before this waited is seen now
                    continue
                if result is None:
                    ended += 1
                elif isinstance(result, BaseException):
                    raise result
                else:
                    yield result
        finally:
            self.close()
            for thread in filter(None, self.threads):
                thread.join()
            self.shared, self.is_closed = None, self.signal is not None

    def take(self):
        """What a thread does: it takes tasks until there are none."""
        work, pending, results = self.shared
        try:
            while not self.is_closed:
                number, task = pending.get_nowait()
                results.put((number, task, work(task)))
        except queue.Empty:
            pass
        except Scarce:
            pending.put((number, task))
        except BaseException as error:  # it is raised again where the results are read
            results.put(error)
        finally:
            with self.lock:
                self.taking -= 1
            results.put(None)


def end_group(process):
    """Ends a process, and those that it has started."""
    with contextlib.suppress(OSError):
        os.killpg(process.pid, signal.SIGTERM)


def worked(pool, work, tasks, screen, thing):
    """Yields each task, a list of things, with what came of it as soon as all before it are there, and None where it was not begun; moves the bar."""
    kept, wanted, done, total = {}, 0, 0, sum(map(len, tasks))
    for number, task, result in pool.each(work, tasks):
        done += len(task)
        screen.progress(done, total, thing)
        kept[number] = result
        while wanted in kept:
            yield tasks[wanted], kept.pop(wanted)
            wanted += 1
    screen.clear()
    yield from ((tasks[number], kept.get(number)) for number in range(wanted, len(tasks)))


@contextlib.contextmanager
def stops():
    """A block that a signal ends with Stopped."""

    def stop(number, _):
        raise Stopped(number)

    before = {number: signal.signal(number, stop) for number in SIGNALS if signal.getsignal(number) != signal.SIG_IGN}
    try:
        yield
    finally:
        for number, handler in before.items():
            signal.signal(number, handler)


def end_by(number):
    """Ends this process by a signal, so that its shell sees which."""
    signal.signal(number, signal.SIG_DFL)
    os.kill(os.getpid(), number)
