"""Runs the classes of a suite side by side, each in its own process, at most one for each processor at a
time."""

import collections
import concurrent.futures
import dataclasses
import io
import multiprocessing
import os
import time
import unittest
import warnings

# The modules that take the longest. They start first, so that none of them runs alone at the end.
LONGEST = ["test_csid_peers", "test_histories", "test_recipes", "test_recipes_etcd", "test_csid_change_store"]


@dataclasses.dataclass
class Report:
    """A test that ran in another process, as an entry of the lists of a result. The name is None for a
    failure in a class's setup."""

    description: str
    name: str

    def __str__(self):
        return self.description

    def shortDescription(self):
        return None


@dataclasses.dataclass
class Outcome:
    """The result of the tests of a class: the number of tests, the seconds of all, the text that unittest
    wrote, and the failures, errors and skipped tests, each as a Report and a text."""

    count: int
    seconds: float
    text: str
    failures: list
    errors: list
    skipped: list

    def passed(self):
        return not self.errors and not self.failures


class Text(io.StringIO):
    """A text in memory, with the method `writeln` that a result calls."""

    def writeln(self, line=""):
        self.write(line + "\n")


def reports(result, found):
    """Yields a Report and the text for each entry of a list of a result. An entry is a test and a text."""
    for test, text in found:
        case = getattr(test, "test_case", test)
        name = case.id() if isinstance(case, unittest.TestCase) else None
        yield Report(result.getDescription(test), name), text


def run_suite(suite, verbosity, settings):
    """Runs a suite in this process. Returns its outcome. `settings` are attributes of the result."""
    result, begin = unittest.TextTestResult(Text(), True, verbosity), time.monotonic()
    vars(result).update(settings)
    suite.run(result)
    lists = [list(reports(result, it)) for it in (result.failures, result.errors, result.skipped)]
    return Outcome(result.testsRun, time.monotonic() - begin, result.stream.getvalue(), *lists)


def send_outcome(sender, names, filters, *how):
    """Runs the tests with these names, and sends their outcome to the process that started this one."""
    if filters:
        warnings.simplefilter(filters)
    sender.send(run_suite(unittest.defaultTestLoader.loadTestsFromNames(names), *how))


def run_apart(name, tests, *how):
    """Runs the tests of a class in another process. Returns their outcome, or an outcome with one error if
    the process ends without an outcome."""
    context = multiprocessing.get_context("spawn")
    receiver, sender = context.Pipe(duplex=False)
    process = context.Process(target=send_outcome, args=(sender, [test.id() for test in tests], *how))
    process.start()
    sender.close()
    try:
        return receiver.recv()
    except EOFError:
        process.join()
        ended = "its process ended with status %d\n" % process.exitcode
        return Outcome(0, 0, "", [], [(Report(name, None), ended)], [])
    finally:
        process.join()


def by_class(suite, classes):
    """Adds each test of nested suites to `classes`, which has a list for each class, and returns `classes`.
    """
    for test in suite:
        if isinstance(test, unittest.TestSuite):
            by_class(test, classes)
        else:
            classes["%s.%s" % (type(test).__module__, type(test).__qualname__)].append(test)
    return classes


def place(name):
    """Returns the rank of a class in the order of starts: the place of its module in LONGEST. All other
    classes share the last rank."""
    module = name.split(".")[1]
    return LONGEST.index(module) if module in LONGEST else len(LONGEST)


class Runner(unittest.TextTestRunner):
    """Runs the classes of a suite side by side, and prints a line when a class has ended."""

    def run(self, suite):
        classes = by_class(suite, collections.defaultdict(list))
        # unittest makes tests for modules that cannot be imported.
        missing = [it for name in list(classes) if name.startswith("unittest.") for it in classes.pop(name)]

        def run(result):
            unittest.TestSuite(missing).run(result)
            self.run_classes(classes, result)

        return super().run(run)

    def run_classes(self, classes, result):
        """Adds the outcomes of the classes to a result, in the order of the suite. With `failfast`, no class
        is started after a failed one."""
        settings = {it: getattr(result, it) for it in ("buffer", "failfast", "tb_locals")}
        pool, runs, outcomes = concurrent.futures.ThreadPoolExecutor(len(os.sched_getaffinity(0))), {}, {}
        for name in sorted(classes, key=place):
            run = pool.submit(run_apart, name, classes[name], self.warnings, self.verbosity, settings)
            runs[run] = name
        try:
            for run in concurrent.futures.as_completed(runs):
                outcomes[runs[run]] = run.result()
                self.show(runs[run], run.result())
                if self.failfast and not run.result().passed():
                    break
        finally:
            pool.shutdown(cancel_futures=True)
        for outcome in (outcomes[name] for name in classes if name in outcomes):
            result.testsRun += outcome.count
            for kind in ("failures", "errors", "skipped"):
                getattr(result, kind).extend(getattr(outcome, kind))

    def show(self, name, outcome):
        if self.verbosity > 1:
            self.stream.write(outcome.text)
        if self.verbosity > 0:
            ended = "ok" if outcome.passed() else "FAILED"
            self.stream.writeln("%-6s %s: %d in %.1f s" % (ended, name, outcome.count, outcome.seconds))
            self.stream.flush()
