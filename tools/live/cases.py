"""What tools/serve-cases and tools/site-cases share. A case is a function whose name says what it shows; it runs in a folder of its own,
and takes as long as what it runs. The modules of a package have the cases of one subject each."""
import os
import sys
from tempfile import TemporaryDirectory

from .peers import ROOT

# The processes that the running case has started.
started = []


def case(function):
    function.kind = "plain"
    return function


def waiting(function):
    """A case that mostly waits."""
    function.kind = "waiting"
    return function


def with_yaml(function):
    """A case that reads YAML."""
    function.kind = "yaml"
    return function


def with_jq(function):
    """A case that runs jq."""
    function.kind = "jq"
    return function


def cases_of(modules, names, *kinds):
    """The cases of these kinds in these modules, in their order: those with these names, or all where no name is given."""
    functions = [it for module in modules for it in vars(module).values() if getattr(it, "kind", None) in kinds]
    return [it for it in functions if not names or it.__name__ in names]


def same(found, wanted):
    if found != wanted:
        raise AssertionError(f"wanted {wanted!r}\n    found  {found!r}")


def passes(function):
    """Whether a case passes; else it prints why."""
    with TemporaryDirectory() as folder:
        os.chdir(folder)
        try:
            function()
            return True
        except Exception as error:
            print(f"{function.__name__}:\n    {type(error).__name__}: {error}", flush=True)
            return False
        finally:
            for process in started:
                if process.poll() is None:
                    process.kill()
                    process.wait()
            started.clear()
            os.chdir(ROOT)


def tell(subject, results):
    """Prints how many cases of a subject passed and failed, and ends with the status that says so."""
    failed = results.count(False)
    print(f"{subject}: {len(results) - failed} passed, {failed} failed")
    sys.exit(0 if results and not failed else 1)
