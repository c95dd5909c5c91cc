"""What a bench makes of its readings, tried on readings that were made by hand; then one text of the bench after the other is another
one, and each has to be noticed."""
import contextlib
import io
import pathlib
import sys
import types

HERE = pathlib.Path(__file__).resolve().parent


def bench_of(name, old=None, new=""):
    """The bench of that name, maybe with one text in place of another, which has to stand there once."""
    path = HERE / f"{name}.py"
    text = path.read_text()
    if old is not None:
        if text.count(old) != 1:
            raise RuntimeError(f"{name}.py: {old!r} does not stand there once")
        text = text.replace(old, new)
    module = types.ModuleType(f"{name} on readings by hand")
    module.__file__ = str(path)
    sys.modules[module.__name__] = module
    exec(compile(text, path, "exec"), module.__dict__)
    return module


def found_in(check, bench):
    """What a check finds, which may end by an error too. What the bench prints is dropped."""
    with contextlib.redirect_stdout(io.StringIO()):
        try:
            return [line for line in check(bench) if line]
        except Exception as fault:  # a bench that is broken may end by any
            return [f"{type(fault).__name__}: {fault}"]


def faults(name, check, breaches):
    """What a check finds in a bench as it is, and which of these breaches (a text, and another one in its place) it does not notice."""
    found = found_in(check, bench_of(name))
    found += [f"{new!r} in place of {old!r} is not noticed" for old, new in breaches if not found_in(check, bench_of(name, old, new))]
    return found


def unless(what, figure, wanted):
    """A line where a figure is another one."""
    return "" if figure == wanted else f"{what}: {figure!r}, and not {wanted!r}"
