"""What the scripts of hostile/ share: the runs of the program, how they are made, and how what they leave is judged."""
import argparse
import concurrent.futures
import os
import shutil
import signal
import subprocess
import sys
import tempfile
import threading
from collections import namedtuple
from pathlib import Path

TOP = Path(__file__).resolve().parent.parent
EXAMPLES = TOP / "examples"
BASE = "http://example.org/"
HEADING = b"kind,code,table,row,column\n"

# A run: its name, its words, and the file that is its standard input, if there is one.
Run = namedtuple("Run", "name words stdin", defaults=(None,))

# What a run left: its status (below 0: the signal that ended it, None: it did not end), and the bytes of its two streams.
Left = namedtuple("Left", "status out err")

KEYS = """{"@context":"http://www.w3.org/ns/csvw","tables":[
{"url":"a.csv","tableSchema":{"columns":[{"name":"ref","datatype":"integer"}],
"foreignKeys":[{"columnReference":"ref","reference":{"resource":"b.csv","columnReference":"k"}}]}},
{"url":"b.csv","tableSchema":{"columns":[{"name":"k","datatype":"integer"}],"primaryKey":"k"}}]}"""

LINKS = """{"@context":"http://www.w3.org/ns/csvw","url":"p.csv","tableSchema":{"aboutUrl":"#{id}","columns":[
{"name":"id"},
{"name":"u","propertyUrl":"schema:name","valueUrl":"http://x.org/{+u}"},
{"name":"v","separator":";","ordered":true,"required":true},
{"name":"t","virtual":true,"propertyUrl":"rdf:type","valueUrl":"schema:Person"}]}}"""

NOTES = """{"@context":["http://www.w3.org/ns/csvw",{"@language":"en"}],"url":"p.csv","dc:title":"T",
"notes":[{"@type":"oa:Annotation","oa:hasBody":{"@value":"ok"},"dc:creator":{"@id":"http://x.org/me","foaf:name":"Me"}}]}"""

EXPRESSIONS = r"""{"@context":"http://www.w3.org/ns/csvw","url":"e.csv","tableSchema":{"columns":[
{"name":"code","datatype":{"base":"string","format":"[A-Z]{2}([0-9]+|x)"}},
{"name":"word","datatype":{"base":"token","format":"\\w{1,60}","maxLength":50}},
{"name":"tags","separator":";","datatype":{"base":"language","format":"(?i)en(-.*)?|de"}}]}}"""

MOMENTS = """{"@context":"http://www.w3.org/ns/csvw","url":"m.csv","tableSchema":{"primaryKey":"at","columns":[
{"name":"at","datatype":"dateTime"},
{"name":"stamp","separator":";","datatype":"dateTimeStamp"}]}}"""

SPACED = """{"@context":"http://www.w3.org/ns/csvw","url":"s.csv","tableSchema":{"primaryKey":"at","columns":[
{"name":"at","datatype":{"base":"dateTime","format":"M/d/yyyy HH:mm","minimum":"2020-01-01T00:00:00"}},
{"name":"seen","separator":";","datatype":{"base":"dateTime","format":"dd.MM.yyyy HHmmss"}}]}}"""

FORMATTED = """{"@context":"http://www.w3.org/ns/csvw","url":"f.csv","tableSchema":{"columns":[
{"name":"share","datatype":{"base":"number","format":"#,##0.0#"}},
{"name":"logs","separator":";","datatype":{"base":"double","format":{"decimalChar":",","groupChar":"."}}}]}}"""

BOUNDS = """{"@context":"http://www.w3.org/ns/csvw","url":"b.csv","tableSchema":{"columns":[
{"name":"share","datatype":{"base":"number","minimum":0,"maxExclusive":"1.5E3"}},
{"name":"logs","separator":";","datatype":{"base":"double","minExclusive":"-INF","maxInclusive":"0.00000012"}}]}}"""

RANGES = """{"@context":"http://www.w3.org/ns/csvw","url":"r.csv","tableSchema":{"columns":[
{"name":"at","separator":";","datatype":{"base":"dateTime","minimum":"2020-01-31T08:30:00.25+01:00","maxExclusive":"2021-01-01T00:00:00Z"}},
{"name":"years","separator":";","datatype":{"base":"gYear","minInclusive":"-0044","maxInclusive":"2015+01:00"}},
{"name":"took","datatype":{"base":"duration","minExclusive":"PT36H","maximum":"P1M"}},
{"name":"clock","datatype":{"base":"time","maximum":"17:00:00"}}]}}"""

LINKED = """{"@context":"http://www.w3.org/ns/csvw","url":"l.csv","tableSchema":"s.json","dialect":"d.json"}"""

RESOURCES = "--profile w3c --resource http://example.org/s.json=linked/s.json --resource http://example.org/d.json=linked/d.json"

SCHEMA = """{"@context":["http://www.w3.org/ns/csvw",{"@base":"http://example.org/x/"}],"@id":"s","rowTitles":["name"],"primaryKey":"id","columns":[
{"name":"id","datatype":{"base":"integer","@id":"d"}},
{"name":"name","lang":"en","separator":";"}]}"""

OCTETS = """{"@context":"http://www.w3.org/ns/csvw","url":"o.csv","tableSchema":{"primaryKey":"took","columns":[
{"name":"took","datatype":{"base":"duration","format":"P.*"}},
{"name":"sums","separator":";","datatype":{"base":"hexBinary","minLength":2}},
{"name":"data","datatype":"base64Binary"},
{"name":"name","datatype":"QName"},
{"name":"note","datatype":"normalizedString"}]}}"""

SPOILED = """{"@context":"http://www.w3.org/ns/csvw","url":"d.csv","notes":5,"lang":7,"dialect":[],"tableSchema":{"primaryKey":{},"columns":[5,
{"name":"id","ordered":"yes","titles":["id",6],"datatype":{"base":"integer","minimum":true,"format":{"groupChar":5}}},
{"name":"name","required":0,"titles":{"en":"name","x y":7},"null":["-",8],"default":null}]}}"""

# The small files of the groups that are not in examples/.
FILES = {
    "keys/meta.json": KEYS,
    "keys/a.csv": "ref\n9\n1\n2\n\n",
    "keys/b.csv": "k\n1\n01\n2\n",
    "links/meta.json": LINKS,
    "links/p.csv": "id,u,v\n7,a b%20|,b;a;b\n8,,\n",
    "notes/meta.json": NOTES,
    "notes/p.csv": "id\n1\n",
    "expressions/meta.json": EXPRESSIONS,
    "expressions/e.csv": f"code,word,tags\nAB12,é{'ab' * 25},en-GB;de\nABx,a b,EN;fr\na,,\n",
    "moments/meta.json": MOMENTS,
    "moments/m.csv": f"at,stamp\n2020-01-31T08:30:00.{'12' * 30}+01:00,2020-01-31T08:30:00Z;2020-02-29T23:59:59.5-14:00\n"
                     "2020-01-31T08:30:00,2020-01-31T08:30:00\n2020-01-31T08:30:00.0,\n",
    "spaced/meta.json": SPACED,
    "spaced/s.csv": "at,seen\n1/31/2020 08:30,31.01.2020 083000;29.02.2020 235959\n12/31/2019 23:59,29.02.2019 000000\n01/31/2020  08:30,\n",
    "formatted/meta.json": FORMATTED,
    "formatted/f.csv": 'share,logs\n"12,345,678.5","1.234.567,000000000000000001E-300;INF;5%"\n1234.5,"1,5E"\n"100,000,000,000,000,000,000.5",\n',
    "bounds/meta.json": BOUNDS,
    "bounds/b.csv": f"share,logs\n1.{'12' * 30}E2,-1e300;-INF;1.2E-7\n-0.5,1\n1500,NaN\nINF,\n",
    "ranges/meta.json": RANGES,
    "ranges/r.csv": f"at,years,took,clock\n2020-01-31T07:30:00.25Z;2020-06-01T00:00:00.{'10' * 20};2021-01-01T00:00:00Z,-0044;{'9' * 40};2015Z,P30D,17:00:00\n"
                    "2020-01-31T20:00:00,2015,P1DT13H,17:00:01\n2020-02-30T00:00:00,,P1W,\n",
    "linked/meta.json": LINKED,
    "linked/s.json": SCHEMA,
    "linked/d.json": '{"delimiter":"|","trim":true}',
    "linked/l.csv": "id|name\n1|a;b\n2|\n01| c \nx|d\n",
    "octets/meta.json": OCTETS,
    "octets/o.csv": f"took,sums,data,name,note\nP1Y14M2DT3H61M5.{'10' * 4}S,{'0fb7' * 20};0f,{'T W F u ' * 16},{'iso' * 20}:code,\"a\t{'b  ' * 20}\nc\"\n"
                    "5 days,0fb,TR==,a:b:c,\n",
    "spoiled/meta.json": SPOILED,
    "spoiled/d.csv": "id,name\n1,a\n2,-\n1,\nx,b\n",
    "ragged.csv": "id\n1\n2\n3,4\n",
    "empty.csv": "",
}


def group(command, folder, *tables, base=BASE):
    """The words of a run over the group in a folder."""
    return [*command.split(), "--base", base, f"{folder}/meta.json", *(f"{folder}/{table}" for table in tables)]


# Each way of running the program, on small files. `lines` runs write each line at once.
RUNS = [
    Run("plain", ["plain", BASE + "p.csv", "p.csv"]),
    Run("plain, lines", ["plain", "--line-buffered", BASE + "p.csv", "p.csv"]),
    Run("plain, standard input", ["plain", BASE + "p.csv", "-"], "p.csv"),
    Run("plain, a ragged row", ["plain", BASE + "p.csv", "ragged.csv"]),
    Run("plain, no rows", ["plain", BASE + "p.csv", "empty.csv"]),
    Run("rivers", group("convert", "rivers", "stations.csv", "levels.csv")),
    Run("rivers, minimal, lines", group("convert --minimal --line-buffered", "rivers", "stations.csv", "levels.csv")),
    Run("rivers, turns, lines", group("convert --turns --line-buffered", "rivers", "stations.csv", "levels.csv")),
    Run("rivers, document on standard input",
        ["convert", "--base", BASE, "-", "rivers/stations.csv", "rivers/levels.csv"], "rivers/meta.json"),
    Run("libraries", group("convert --minimal", "libraries", "libraries.csv")),
    Run("libraries, validate", group("validate", "libraries", "libraries.csv")),
    Run("keys, turns", group("convert --minimal --turns", "keys", "a.csv", "b.csv")),
    Run("keys, validate", group("validate", "keys", "a.csv", "b.csv")),
    Run("templates and lists", group("convert", "links", "p.csv")),
    Run("notes", group("convert", "notes", "p.csv")),
    Run("regular expressions", group("convert --minimal --profile w3c", "expressions", "e.csv")),
    Run("regular expressions, validate", group("validate --profile w3c", "expressions", "e.csv")),
    Run("moments with zones", group("convert --minimal --profile w3c", "moments", "m.csv")),
    Run("moments with a space", group("convert --minimal --profile w3c", "spaced", "s.csv")),
    Run("bounds of numbers with an exponent", group("convert --minimal --profile w3c", "bounds", "b.csv")),
    Run("bounds of moments, years, durations and times", group("convert --minimal --profile w3c", "ranges", "r.csv")),
    Run("formats of numbers with an exponent", group("convert --minimal --profile w3c", "formatted", "f.csv")),
    Run("durations and octets", group("convert --minimal --profile w3c", "octets", "o.csv")),
    Run("resources", group(f"convert {RESOURCES}", "linked", "l.csv")),
    Run("resources, validate", group(f"validate {RESOURCES}", "linked", "l.csv")),
    Run("a resource that can't be used", group("validate --profile w3c --resource http://example.org/s.json=linked/l.csv", "linked", "l.csv")),
    Run("values that aren't permitted", group("convert --profile w3c", "spoiled", "d.csv")),
    Run("values that aren't permitted, validate", group("validate --profile w3c", "spoiled", "d.csv")),
    Run("a document that is refused", group("convert", "twice", "prices.csv", "prices.csv")),
    Run("too few files", group("convert", "rivers", "stations.csv")),
    Run("help", ["--help"]),
    Run("a mistake", ["plain"]),
]


def lay_out(folder):
    """Writes the files of all runs below a folder."""
    for name, text in FILES.items():
        path = Path(folder, name)
        path.parent.mkdir(exist_ok=True)
        path.write_bytes(text.encode())
    shutil.copy(EXAMPLES / "p.csv", folder)
    for name in ("libraries", "rivers", "twice"):
        shutil.copytree(EXAMPLES / name, Path(folder, name))
        os.rename(Path(folder, name, "metadata.json"), Path(folder, name, "meta.json"))


def ran(command, folder, stdin=None, env=None, seconds=20, **streams):
    """Runs a command in a folder, and returns what it left. `stdin` is a file there. `streams` are those of Popen."""
    source = open(Path(folder, stdin), "rb") if stdin else subprocess.DEVNULL
    kept = {"stdin": source, "stdout": subprocess.PIPE, "stderr": subprocess.PIPE, **streams}
    try:
        with subprocess.Popen(command, cwd=folder, env={**os.environ, **(env or {})}, **kept) as process:
            try:
                out, err = process.communicate(timeout=seconds)
            except subprocess.TimeoutExpired:
                process.kill()
                out, err = process.communicate()
                return Left(None, out or b"", err or b"")
            return Left(process.returncode, out or b"", err or b"")
    finally:
        if stdin:
            source.close()


def are_lines_of(part, full):
    """Whether bytes are whole lines that begin the full bytes."""
    return full.startswith(part) and (not part or part.endswith(b"\n"))


def is_front(part, full):
    """Whether bytes are whole lines that begin the full bytes, and at most a proper front of one more line."""
    return full.startswith(part)


def told(left):
    """How a run ended, in words."""
    if left.status is None:
        return "no end within the seconds that it has"
    if left.status < 0:
        return f"the signal {signal.Signals(-left.status).name}"
    return f"status {left.status}"


def short(data, most=160):
    """Bytes as a text of one line."""
    text = repr(data)[1:]
    return text if len(text) <= most else f"{text[:most]}.. ({len(data)} bytes)"


class Tally:
    """Counts what was tried and what was wrong, and prints a line for each that is wrong."""

    def __init__(self):
        self.tried = self.wrong = 0
        self.lock = threading.Lock()

    def add(self, name, complaint):
        """Counts a try. `complaint` says what is wrong with it, or is empty."""
        with self.lock:
            self.tried += 1
            if complaint:
                self.wrong += 1
                print(f"WRONG {name}: {complaint}", flush=True)

    def end(self):
        """Prints the last line, and ends the script."""
        print(f"{self.tried} tried, {self.wrong} wrong")
        sys.exit(1 if self.wrong else 0)


def each(function, items):
    """The results of a function on all items, in their order, by as many threads as there are processors."""
    with concurrent.futures.ThreadPoolExecutor(os.cpu_count()) as pool:
        return list(pool.map(function, items))


def compiled(source, folder):
    """Compiles a preload shim of this folder, and returns its path, or None if there is no compiler."""
    compiler = os.environ.get("CC") or shutil.which("cc")
    if not compiler:
        return None
    made = Path(folder, Path(source).stem + ".so")
    subprocess.run([compiler, "-O2", "-shared", "-fPIC", "-o", made, TOP / "hostile" / source, "-ldl"], check=True)
    return str(made)


def words_of(text):
    """Reads the words of a script whose usage is this text: --csvw PROGRAM names the program."""
    parser = argparse.ArgumentParser(description=text, formatter_class=argparse.RawDescriptionHelpFormatter)
    parser.add_argument("--csvw", default=os.environ.get("CSVW", TOP / "crates/csvw/out/csvw"), help="the program, if not crates/csvw/out/csvw")
    return parser


def built(path):
    """The absolute path of a built program, or None, and then a line says that it is skipped."""
    path = Path(path).resolve()
    if path.is_file() and os.access(path, os.X_OK):
        return str(path)
    print(f"SKIPPED: no program at {path}")
    return None


def folder():
    """A new temporary folder."""
    return tempfile.TemporaryDirectory(prefix="hostile-")
