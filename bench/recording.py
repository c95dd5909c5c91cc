"""Lines of bench/results: the date, the commit that recorded it, the form of the code, the case, what was measured, value, unit, note."""
import csv
import datetime
import io
import pathlib
import subprocess

ROOT = pathlib.Path(__file__).resolve().parent.parent
HEAD = ["date", "commit", "form", "case", "measure", "value", "unit", "note"]


def lines(form, figures, date, commit):
    """The lines of figures, each of which is a case, a measure, a value, a unit and a note."""
    out = io.StringIO()
    csv.writer(out, lineterminator="\n").writerows([date, commit, form, *figure] for figure in figures)
    return out.getvalue()


def added(text, form, figures, date, commit):
    """A file's text with lines more; one that has none begins with the names of its columns."""
    return (text or ",".join(HEAD) + "\n") + lines(form, figures, date, commit)


def record(name, form, figures):
    """Puts figures of a form of the code behind those of a file of bench/results."""
    path = ROOT / "bench" / "results" / name
    words = ["git", "rev-parse", "--short=8", "HEAD"]
    commit = subprocess.run(words, cwd=ROOT, stdout=subprocess.PIPE, text=True, check=True).stdout.strip()
    text = path.read_text() if path.exists() else ""
    path.write_text(added(text, form, figures, datetime.date.today().isoformat(), commit))


def faults():
    """What is otherwise than it has to be of the lines of two figures."""
    figures = [("3 sites, 2 seeds", "seeds", 2, "seeds", "all alike, in time"), ("3 sites, 2 seeds", "longest", 0.5, "s", "")]
    wanted = ('2026-01-02,abc,a form,"3 sites, 2 seeds",seeds,2,seeds,"all alike, in time"\n'
              '2026-01-02,abc,a form,"3 sites, 2 seeds",longest,0.5,s,\n')
    head, found = ",".join(HEAD) + "\n", []
    if added("", "a form", figures, "2026-01-02", "abc") != head + wanted:
        found.append("a new file has other lines")
    if added(head + wanted, "a form", figures[:1], "2026-01-02", "abc") != head + wanted + wanted.splitlines(True)[0]:
        found.append("a file with lines has other ones then")
    return found
