"""The programs that compare.py measures spq against. Those that are not installed are left out.

Loading: serdi (parses and prints), serd_parse.c over serd's library, rapper and riot (parse and count), rdflib and
Oxigraph (load into their stores), plain_reader.rs, and the lower bound of lower_bound.rs.
Queries: Oxigraph, arq of Apache Jena, and rdflib.
Python 3 standard library only.
"""
import os
import re
import shutil
import subprocess
import sys
import zipfile

from measure import HERE, Command

OXIGRAPH_LOAD = "Oxigraph, load into its store"
# The tools that evaluate queries.
ENGINES = ("Oxigraph", "arq", "rdflib")
JARS = "/usr/share/java"
JAR_NAMES = (
    "jena-arq jena-base jena-cmds jena-core jena-iri jena-rdfconnection jena-shacl jena-shex commons-cli commons-codec "
    "commons-compress commons-csv commons-io commons-lang3 dexx.collection gson guava httpclient httpcore "
    "jackson-annotations jackson-core jackson-databind jakarta.json-api jsonld-java protobuf slf4j-api slf4j-nop "
    "thrift titanium-json-ld").split()


def find_tools(folder, oxigraph):
    """Returns for each tool the start of its command line, or None if it is not installed.

    The helper programs are compiled into `folder`. `oxigraph` is a path or the name of a program on the PATH.
    """
    python = python_with("rdflib")
    return {
        "lower_bound.rs": compiled_rust("lower_bound", folder),
        "serdi": on_path("serdi"),
        "serd's library": compiled_serd(folder),
        "rapper": on_path("rapper"),
        "riot": jena("riot", "riotcmd.riot", folder),
        "arq": jena("arq", "arq.sparql", folder),
        "plain_reader.rs": compiled_rust("plain_reader", folder),
        "rdflib": python and [python, os.path.join(HERE, "rdflib_peer.py")],
        "Oxigraph": on_path(oxigraph),
    }


def loaders(tools, path, folder):
    """Returns the commands that parse or load the document at `path`. Some of them read it from standard input."""
    store = oxigraph_store(folder)
    rows = [
        ("lower_bound.rs", "lower bound: read, find line ends, check UTF-8", []),
        ("serdi", "serdi, parse and print", ["-b", "-i", "nquads", "-o", "nquads", path]),
        ("serd's library", "serd's library, parse", []),
        ("rapper", "rapper, parse", ["-q", "-c", "-i", "nquads", path, "http://base.example/"]),
        ("riot", "riot, parse", ["--count", path]),
        ("plain_reader.rs", "plain Rust reader, terms and quads", ["read"]),
        ("plain_reader.rs", "plain Rust loader, numbered and sorted", ["load"]),
        ("rdflib", "rdflib, load into its store", [path]),
        # (its bulk loader reads parts of the file in parallel, and a blank node label of two parts is two nodes)
        ("Oxigraph", OXIGRAPH_LOAD, ["load", "--location", store, "--format", "nq", "--file", path]),
    ]
    return [Command(name, tools[tool] + arguments, store if tool == "Oxigraph" else None)
            for tool, name, arguments in rows if tools[tool]]


def engines(tools, path, folder, query):
    """Returns the commands that evaluate a query over the document at `path`.

    Oxigraph reads the store that its load command has filled; the others load the document first.
    """
    rows = [
        ("Oxigraph", ["query", "--location", oxigraph_store(folder), "--query", query, "--results-format", "json"]),
        ("arq", [f"--data={path}", "--results=JSON", query]),
        ("rdflib", [path, query]),
    ]
    return [Command(tool, tools[tool] + arguments) for tool, arguments in rows if tools[tool]]


def versions(tools):
    """Returns a list of the tools that print a version, each with its version."""
    flags = {"serdi": "-v", "rapper": "--version", "riot": "--version", "rdflib": "--version", "Oxigraph": "--version"}
    printed = {tool: subprocess.run([*tools[tool], flag], capture_output=True, text=True).stdout
               for tool, flag in flags.items() if tools[tool]}
    found = {tool: re.search(r"\d+\.\d[-.\w]*", text) for tool, text in printed.items()}
    return ", ".join(f"{tool} {number[0]}" for tool, number in found.items() if number)


def oxigraph_store(folder):
    return os.path.join(folder, "oxigraph")


def on_path(program):
    found = shutil.which(program)
    return found and [found]


def compiled_rust(name, folder):
    """Compiles one of the Rust programs of this folder; None if there is no Rust compiler."""
    if not shutil.which("rustc"):
        return None
    binary = os.path.join(folder, name)
    source = os.path.join(HERE, f"{name}.rs")
    subprocess.run(["rustc", "-C", "opt-level=3", "--edition", "2021", "-o", binary, source], check=True)
    return [binary]


def compiled_serd(folder):
    """Compiles serd_parse.c; None if there is no C compiler or no serd library."""
    if not shutil.which("cc") or not shutil.which("pkg-config"):
        return None
    flags = subprocess.run(["pkg-config", "--cflags", "--libs", "serd-0"], capture_output=True, text=True)
    if flags.returncode:
        return None
    binary = os.path.join(folder, "serd_parse")
    subprocess.run(["cc", "-O2", "-o", binary, os.path.join(HERE, "serd_parse.c"), *flags.stdout.split()], check=True)
    return [binary]


def jena(command, main, folder):
    """Returns Jena's command, or its class over the jars of Debian's libapache-jena-java; None if there is neither."""
    if shutil.which(command):
        return [command]
    jars = [os.path.join(JARS, f"{name}.jar") for name in JAR_NAMES]
    if not shutil.which("java") or not all(map(os.path.exists, jars)):
        return None
    return ["java", "-cp", ":".join([jena_messages(folder), *jars]), main]


def jena_messages(folder):
    """Copies the messages of Jena's schema types from where Debian's package has them to where the classes look."""
    inside = "org/apache/jena/ext/xerces"
    with zipfile.ZipFile(os.path.join(JARS, "jena-core.jar")) as jar:
        jar.extractall(folder, [name for name in jar.namelist() if name.startswith(inside)])
    shutil.copytree(os.path.join(folder, inside), os.path.join(folder, "xerces"), dirs_exist_ok=True)
    return folder


def python_with(module):
    """Returns this Python or the system's, whichever has a module; None if neither has it."""
    for python in filter(os.path.exists, (sys.executable, "/usr/bin/python3")):
        if subprocess.run([python, "-c", f"import {module}"], capture_output=True).returncode == 0:
            return python
    return None
