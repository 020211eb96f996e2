"""What tools/plan and tools/save share: a proved program that is built where that has to be done, and run on a drawing."""
import os
import shlex
import signal
import subprocess
import sys
import time

from . import planner, refusals

CALLED = os.path.join(os.path.dirname(sys.argv[0]), "")  # so that a command that is named can be pasted


def newest_source():
    """When the sources were last changed. A folder changes when a file of it goes; that of a crate changes with its out/ too, which is
    no source, so neither is asked."""
    crates = os.path.join(planner.ROOT, "crates")
    paths = [os.path.join(planner.ROOT, "crates.txt")]
    for folder, folders, names in os.walk(crates):
        if os.path.dirname(folder) == crates:
            folders[:] = [inside for inside in folders if inside != "out"]
        else:
            paths.append(folder)
        paths += [os.path.join(folder, name) for name in names]
    return max(os.lstat(path).st_mtime_ns for path in paths)


class Program:
    """The program `name` (what is said of it: `called`), for the command tools/NAME."""

    def __init__(self, name, called):
        self.name, self.called = name, called

    def say(self, words):
        print(f"tools/{self.name}: {words}", file=sys.stderr, flush=True)

    def option(self, parser):
        parser.add_argument(f"--{self.name}", metavar="PATH", help=f"the program `{self.name}`, which is then not built")

    def path(self, given=None):
        """What was given, or the variable of its name in the environment, or where `rt run` puts it."""
        return planner.program(given, self.name)

    def built(self, given):
        """Its path. It is built if it is missing or old and no other was named. Its time is then that of the newest source it
        was built from, since `rt` leaves the program as it is where a file changed and nothing that counts did."""
        path = self.path(given)
        if given or os.environ.get(self.name.upper()):
            return path
        newest = newest_source()
        there = os.access(path, os.X_OK)
        if there and os.stat(path).st_mtime_ns >= newest:
            return path
        command, folder = f"`rt run` in crates/{self.name}", os.path.join(planner.ROOT, "crates", self.name)
        self.say(f"crates/ has changed since {self.called} was built; {command} proves again what changed, in up to the time of the first run"
                 if there else f"{self.called} is not built yet; {command} proves and builds it with all below it, many minutes, this once")
        began = time.monotonic()
        try:
            # it runs the program too, on what its crate has for that, and only what the program prints goes to standard output
            with open(os.path.join(folder, "stdin"), "rb") as source:
                status = subprocess.run(["rt", "run"], cwd=folder, stdin=source, stdout=subprocess.DEVNULL).returncode
        except OSError as wrong:
            raise planner.Wrong(f"`rt`, the Rattle toolchain, can't be run: {wrong.strerror}") from None
        took = f"after {time.monotonic() - began:.0f} s"
        if status != 0:
            raise planner.Wrong(f"{command} failed {took}; its last lines say why")
        if not os.access(path, os.X_OK):
            raise planner.Wrong(f"{command} ended {took}, and there is no {path}")
        os.utime(path, ns=(newest, newest))
        self.say(f"{self.called} is ready {took}")
        return path

    def drawing(self, path):
        """The bytes of a drawing file, of the file that a text says, or of standard input (-)."""
        if path != "-":
            return planner.loaded(path)
        if os.isatty(0):
            self.say("the drawing file is read from standard input (--help says more)")
        try:
            with open(0, "rb", closefd=False) as source:
                return source.read()
        except OSError as wrong:
            raise planner.Wrong(f"standard input: {wrong.strerror}") from None

    def refused(self, file, number, path):
        """Says a refusal in one line."""
        refusal = refusals.first_refusal(file)
        if refusal is None or refusal.number != number:
            refusal = refusals.by_the_planner(file, number)
        words = [refusal.condition, *(finding.words for finding in refusal.findings[:1])]
        named = "FILE" if path == "-" else shlex.quote(path)
        self.say(f"refused {number}: {': '.join(words)} ({shlex.quote(CALLED + 'explain')} {named} says more)")

    def put(self, data):
        """Writes bytes to standard output; whoever reads them may stop reading. Python's own stream is passed by, since what it
        could not write it would try again at the end, and complain in its own words."""
        if sys.stdout is None:
            raise planner.Wrong("standard output is closed")
        signal.signal(signal.SIGPIPE, signal.SIG_DFL)
        try:
            with open(1, "wb", closefd=False) as target:
                target.write(data)
        except OSError as wrong:
            raise planner.Wrong(f"standard output: {wrong.strerror}") from None

    def run(self, main):
        """Ends this command with the status that main answers: 2 where something stopped it."""
        try:
            sys.exit(main())
        except planner.Wrong as wrong:
            self.say(wrong)
            sys.exit(2)
        except KeyboardInterrupt:
            self.say("stopped; what was proved is kept")
            sys.exit(130)
