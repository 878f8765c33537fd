"""Copies the programs, the library and the manual pages into a folder as make install does, from what make
test built, and checks README.md, docs/ and man/ against them:

- Each command of README's sessions runs, and prints what the page shows below it.
- Each quoted line is in the file that the page names. Each link and each named file exists.
- Each manual page has each command and option that --help prints, and each status. Its examples run.
- If --help prints a range or a default of an option, the page has the same. A case of tests/ tries both ends of
  the range; the program takes them, and refuses the numbers next to them.
- Each other number of a page is that of a constant.
- The shells complete each option.
- What make copy installs has the right modes, names and links.

tests/run calls it. With the programs of another folder (BIN) there is no library, and the session in C and make
copy are left out.
"""
import json
import os
import re
import shutil
import signal
import subprocess
import tempfile
import time

ROOT = os.path.dirname(os.path.dirname(os.path.abspath(__file__)))
MAX_LINES = 100  # two screens
ENDINGS = "antt|rt|c|h|py|sh|json|bpf|edit|case|md"
PATHS = rf"`((?!src/|specs/|proofs/|asm/)[a-z_]+/[A-Za-z0-9_./-]+\.(?:{ENDINGS}))`"
COUNTS = {"passed": 0, "failed": 0}


def check(what, found, want=True):
    if found == want:
        COUNTS["passed"] += 1
    else:
        COUNTS["failed"] += 1
        print(f"    {what}: {found!r} is not {want!r}", flush=True)


def text_of(path):
    with open(f"{ROOT}/{path}", encoding="utf-8") as it:
        return it.read()


def installed(folder, programs):
    """Whether the programs are there to be checked."""
    if os.environ.get("BIN"):
        os.makedirs(f"{folder}/share/man")
        os.symlink(programs, f"{folder}/bin")
        os.symlink(f"{ROOT}/man", f"{folder}/share/man/man1")
        return True
    words = ["make", "--no-print-directory", "-C", ROOT, "copy", f"PREFIX={folder}"]
    ran = subprocess.run(words, capture_output=True, text=True, errors="replace", umask=0o022)
    check("make copy", ran.returncode, 0)
    if ran.returncode:
        print((ran.stdout + ran.stderr)[-2000:], flush=True)
    return ran.returncode == 0


def modes_below(prefix):
    """The mode of each file that was installed, and where each link leads."""
    found = {}
    for at, _, names in os.walk(prefix):
        for path in (os.path.join(at, name) for name in names):
            is_link = os.path.islink(path)
            found[os.path.relpath(path, prefix)] = os.readlink(path) if is_link else os.stat(path).st_mode & 0o7777
    return found


def wanted_modes():
    wanted = {"lib/libmotchidu.a": 0o644, "lib/libmotchidu.so.0": 0o755, "lib/libmotchidu.so": "libmotchidu.so.0",
              "lib/pkgconfig/motchidu.pc": 0o644, "include/motchidu.h": 0o644, "share/man/man3/motchidu.3": 0o644}
    for program in STATUSES:
        wanted |= {f"bin/{program}": 0o755, f"share/man/man1/{program}.1": 0o644,
                   f"share/bash-completion/completions/{program}": 0o644,
                   f"share/zsh/site-functions/_{program}": 0o644,
                   f"share/fish/vendor_completions.d/{program}.fish": 0o644}
    return wanted


def check_copy(prefix, room):
    """Which files make copy installs, their modes, which page is which, and what the shared library is. With DESTDIR
    the same files lie below it."""
    if os.environ.get("BIN"):
        return
    check("what make copy installs", modes_below(prefix), wanted_modes())
    for path in (f"{prefix}/share/man/{name}" for name in ("man3/motchidu.3", *(f"man1/{it}.1" for it in STATUSES))):
        name, _, section = os.path.basename(path).partition(".")
        with open(path, encoding="utf-8") as it:
            title = re.search(r"^\.TH (\w+) (\d)", it.read(), re.M)
        check(f"the title of {name}({section})", (title[1].lower(), title[2]), (name, section))
    library = f"{prefix}/lib/libmotchidu.so.0"
    said = subprocess.run(["readelf", "-hdlW", library], capture_output=True, text=True, env={"LC_ALL": "C"}).stdout
    check("libmotchidu.so.0 is a shared object", bool(re.search(r"Type: +DYN", said)))
    check("its name", re.findall(r"\(SONAME\).*\[(.*)\]", said), ["libmotchidu.so.0"])
    check("the libraries that it needs", re.findall(r"\(NEEDED\).*\[(.*)\]", said), ["libc.so.6"])
    check("its relocations are read-only", "GNU_RELRO" in said and bool(re.search(r"BIND_NOW|FLAGS.* NOW", said)))
    check("its stack is not executable", bool(re.search(r"GNU_STACK.* RW +0", said)))
    words = ["make", "--no-print-directory", "-C", ROOT, "copy", "PREFIX=/usr", f"DESTDIR={room}/stage"]
    check("make copy with DESTDIR", subprocess.run(words, capture_output=True, umask=0o022).returncode, 0)
    check("what lies below DESTDIR", sorted(os.listdir(f"{room}/stage")), ["usr"])
    check("what DESTDIR has", modes_below(f"{room}/stage/usr"), wanted_modes())


def check_uninstall(prefix):
    """make uninstall removes what make copy installed, and no other file."""
    if os.environ.get("BIN"):
        return
    other = f"{prefix}/bin/other"
    with open(other, "w", encoding="utf-8"):
        pass
    words = ["make", "--no-print-directory", "-C", ROOT, "uninstall", f"PREFIX={prefix}"]
    ran = subprocess.run(words, capture_output=True, text=True, errors="replace")
    check("make uninstall", ran.returncode, 0)
    left = [os.path.join(at, it) for at, _, names in os.walk(prefix) for it in names]
    check("what make uninstall leaves", left, [other])


def environment(prefix):
    """What a new shell has, and what README's lines of `export` set where make install's PREFIX is this
    one."""
    new = {"HOME": os.path.dirname(prefix), "PATH": "/usr/local/bin:/usr/bin:/bin", "LC_ALL": "C.UTF-8"}
    lines = "\n".join(line for line in text_of("README.md").splitlines() if line.startswith("export "))
    set_by = ["sh", "-c", f"{lines}\nexec env -0"]
    ran = subprocess.run(set_by, env=new, stdout=subprocess.PIPE, text=True, check=True)
    return dict(it.split("=", 1) for it in ran.stdout.split("\0") if it)


def blocks(text, kind):
    return re.findall(rf"^```{kind}\n(.*?)^```$", text, re.M | re.S)


def commands(block):
    """Each command, and what stands below it."""
    parts = re.split(r"^\$ (.*)\n", block, flags=re.M)
    return list(zip(parts[1::2], parts[2::2]))


def without_moments(printed):
    """What is printed, less the seconds in front of what --watch tells: a slow machine takes more of them."""
    return re.sub(r"^\d+ (?=default\.)", "", printed, flags=re.M)


def check_command(command, below, how, page="README"):
    ran = subprocess.run(command, stderr=subprocess.STDOUT, timeout=300, **how)
    check(f"{page}: {command}", without_moments(ran.stdout), without_moments(below))


def runtimes_of(session):
    """The processes of a session that run scriptd."""
    found = []
    for pid in filter(str.isdigit, os.listdir("/proc")):
        try:
            with open(f"/proc/{pid}/stat", encoding="utf-8", errors="replace") as it:
                name, _, rest = it.read().partition("(")[2].rpartition(")")
        except OSError:
            continue
        if name == "scriptd" and rest.split()[3] == str(session):
            found.append(int(pid))
    return found


class Terminal:
    """Another terminal, in which a runtime stays until what comes next has ended."""

    def __init__(self, command, below, how):
        self.command, self.below, self.how = command, below, how
        # A shell that starts the tests in the background has interrupts ignored, and so would the runtime.
        signal.signal(signal.SIGINT, signal.default_int_handler)
        self.ran = subprocess.Popen(command, stderr=subprocess.STDOUT, start_new_session=True, **how)
        self.room = how["cwd"]
        while not os.path.exists(f"{self.room}/node.sock") and self.ran.poll() is None:
            time.sleep(0.05)

    def end(self):
        # Only the runtime is ended. The reader of its output then ends by itself.
        for pid in runtimes_of(self.ran.pid):
            os.kill(pid, signal.SIGINT)
        check(f"README: {self.command}", self.ran.communicate(timeout=60)[0], self.below)


def check_completions(prefix):
    """What the shells complete: each option of --help, and on a line of bash what fits what was typed."""
    if os.environ.get("BIN"):
        subprocess.run([f"{ROOT}/tools/completions.py", prefix], check=True)
    places = ("bash-completion/completions/{}", "zsh/site-functions/_{}", "fish/vendor_completions.d/{}.fish")
    for program in STATUSES:
        options = set(re.findall(r"^ +(?:-\w, )?(--[a-z-]+)", help_of(prefix, program), re.M))
        for place in places:
            with open(f"{prefix}/share/{place.format(program)}", encoding="utf-8") as it:
                words = set(re.findall(r"[a-z-]+", it.read().replace("-l ", "--")))
            check(f"{place.format(program)} has each option", sorted(options - words), [])
    for typed, wanted in (("seccheck com", "compile compare"), ("seccheck lint --", "--all --allow --calls --json --help"),
                          ("nodeagent --w", "--with-runtime --workers --watch"), ("scriptd --scripts bi", "bin")):
        name, last = typed.split()[0], len(typed.split()) - 1
        script = (f". share/bash-completion/completions/{name}; COMP_WORDS=({typed}); COMP_CWORD={last}; _{name}; "
                  'echo "${COMPREPLY[*]}"')
        ran = subprocess.run(["bash", "-c", script], cwd=prefix, capture_output=True, text=True)
        check(f"bash completes {typed}", ran.stdout + ran.stderr, f"{wanted}\n")


def check_version(prefix):
    """Header, programs and pkg-config file have one version."""
    version = re.search(r'^#define MOTCHIDU_VERSION "(.*)"$', text_of("include/motchidu.h"), re.M)[1]
    for program in STATUSES:
        ran = subprocess.run([f"{prefix}/bin/{program}", "--version"], capture_output=True, text=True)
        check(f"{program} --version", (ran.stdout + ran.stderr).split()[:2], [program, version])
    if os.path.isdir(f"{prefix}/lib"):
        with open(f"{prefix}/lib/pkgconfig/motchidu.pc", encoding="utf-8") as it:
            check("motchidu.pc has the version", f"Version: {version}" in it.read().splitlines())


def check_sessions(readme, prefix, room):
    shutil.copytree(f"{ROOT}/examples", f"{room}/examples")
    how = {"shell": True, "cwd": f"{room}/examples", "env": environment(prefix)}
    how |= {"stdout": subprocess.PIPE, "text": True}
    other = None
    for block in blocks(readme, "console"):
        if "pkg-config" in block and not os.path.isdir(f"{prefix}/lib"):
            continue
        if block.startswith("$ scriptd "):
            other = Terminal(*commands(block)[0], how)
            continue
        for command, below in commands(block):
            check_command(command, below, how)
        if other:
            other.end()
            other = None


def check_tutorial(prefix, room):
    """Each command of docs/TUTORIAL.md prints what is shown, in a folder with the files that the page says to
    write: each is in the block below its name."""
    folder = f"{room}/tutorial"
    os.mkdir(folder)
    how = {"shell": True, "cwd": folder, "env": environment(prefix), "stdout": subprocess.PIPE, "text": True}
    page = text_of("docs/TUTORIAL.md")
    parts = re.findall(r"`([a-z]+\.json)`:\n\n```json\n(.*?)^```$|^```console\n(.*?)^```$", page, re.M | re.S)
    check("the tutorial writes four files", sum(1 for name, _, _ in parts if name), 4)
    for name, text, session in parts:
        if name:
            with open(f"{folder}/{name}", "w", encoding="utf-8") as it:
                it.write(text)
        for command, below in commands(session):
            check_command(command, below, how, "TUTORIAL")


def check_files(readme):
    """The files that README shows are those that it names in front of them."""
    shown = re.findall(r"`(examples/[a-z_]+\.json)`(?:(?!```).)*?\n```json\n(.*?)^```$", readme, re.M | re.S)
    check("README shows a profile, a script and a manifest", len(shown), 3)
    for path, text in shown:
        check(f"README shows {path}", json.loads(text), json.loads(text_of(path)))


def check_readme(readme):
    check(f"README has at most {MAX_LINES} lines", len(readme.splitlines()) <= MAX_LINES)
    for path in re.findall(r"\]\(([^)]+)\)", readme):
        check(f"README links to {path}", os.path.exists(f"{ROOT}/{path}"))
    targets = set(re.findall(r"^([a-z]+):", text_of("Makefile"), re.M))
    for target in re.findall(r"^make ([a-z]+)", "".join(blocks(readme, "sh")), re.M):
        check(f"the Makefile has {target}", target in targets)


def is_there(path):
    return any(os.path.exists(f"{ROOT}{below}/{path}") for below in ("", "/crates"))


def check_paths():
    """The files that the pages name are there."""
    pages = sorted(name for name in os.listdir(f"{ROOT}/docs") if name.endswith(".md"))
    for page in ["README.md", *(f"docs/{name}" for name in pages)]:
        # (paths that begin with src or the like are in the crate that the text is about)
        named = set(re.findall(PATHS, text_of(page)))
        lost = [path for path in sorted(named) if not is_there(path)]
        check(f"{page} names files that are there", lost, [])


# Whose names the programs print, and which of them have no row of their own.
FAULTS = (("bpf_code/src/fault.rt", "CodeFault"), ("bpf_verify/src/fault.rt", "Fault"),
          ("verdict/src/stack.rt", "StackFault"), ("oci_profile/src/faults.rt", "ProfileFault"),
          ("profile_template/src/faults.rt", "TemplateFault"), ("script/src/faults.rt", "ScriptFault"),
          ("manifest/src/faults.rt", "PodFault"), ("cri_msgs/src/refusals.rt", "Refusal"),
          ("cri_frames/src/faults.rt", "FeedFault"), ("cri_frames/src/faults.rt", "Lost"),
          ("worker_core/src/answers.rt", "NodeRefusal"), ("compile/src/fault.rt", "CompileFault"),
          ("profile_text/src/faults.rt", "WriteFault"), ("node_io/src/faults.rt", "FileFault"),
          ("seccheck_stops/src/bad_words.rt", "WordFault"), ("command_line/src/fault.rt", "Misfit"),
          ("seen_calls/src/faults.rt", "LineFault"), ("profile_unit/src/faults.rt", "UnitFault"))
# (a template's fault that is one of a profile, and an architecture that is printed as BadNumber)
NO_ROWS = {"Profile", "NoArch"}


def check_faults():
    """docs/SEMANTICS.md lists every fault and refusal by its name."""
    listed = text_of("docs/SEMANTICS.md").partition("\n## Every fault and refusal\n")[2].partition("\n## ")[0]
    rows = [[cell.strip() for cell in line.split("|")[1:-1]] for line in listed.splitlines() if line[:2] == "| "]
    # (the names of misfits are in one row)
    named = [row[0] for row in rows] + [row[2] for row in rows if row[0] == "Misfit"]
    names = set(re.findall(r"\w+", " ".join(named)))
    for path, kind in FAULTS:
        source = text_of(f"crates/{path}")
        body = re.search(rf"enum {kind}(?:<'a>)? \{{\n(.*?)^\}}", source, re.M | re.S).group(1)
        variants = set(re.findall(r"^    ([A-Z]\w+)", body, re.M)) - NO_ROWS
        check(f"SEMANTICS lists each {kind}", sorted(variants - names), [])
    check("a row of faults has four cells", [row[0] for row in rows if len(row) != 4], [])


def check_plots():
    """The plots are drawn from today's tables of docs/BENCHMARKS.md, which shows them all."""
    ran = subprocess.run([f"{ROOT}/tools/plots.py", "--check"], capture_output=True, text=True)
    check("tools/plots.py --check", ran.stdout + ran.stderr, "")
    shown = re.findall(r"^!\[.+\]\((plots/\w+\.svg)\)$", text_of("docs/BENCHMARKS.md"), re.M)
    check("BENCHMARKS shows each plot", sorted(shown), sorted(f"plots/{it}" for it in os.listdir(f"{ROOT}/docs/plots")))


def check_quotes():
    """The lines that docs/PROOFS.md quotes stand in the files that it names above them."""
    for block in blocks(text_of("docs/PROOFS.md"), "antt"):
        path, found = None, ""
        for line in block.splitlines():
            if line.startswith("-- "):
                path, found = line[3:], text_of(line[3:])
            else:
                check(f"{path} has {line.strip()[:60]}", line.strip() in found)


def help_of(prefix, *words):
    ran = subprocess.run([f"{prefix}/bin/{words[0]}", *words[1:], "--help"], capture_output=True, text=True)
    return ran.stdout + ran.stderr


def stated_statuses(crates):
    stops = "".join(text_of(f"crates/{crate}/specs/Stops.antt") for crate in crates)
    return set(map(int, re.findall(r"^status_of .* = ([0-9])$", stops, re.M)))


# What a program ends with besides what stops it: done, and the last moment.
STATUSES = {
    "seccheck": (["seccheck_stops"], {0}),
    "scriptd": (["runtime_stops"], set()),
    "scriptctl": (["runtime_stops"], {0}),
    "nodeagent": (["runtime_stops", "agent_parts"], {0, 5}),
}


def check_page(prefix, program):
    page = text_of(f"man/{program}.1").replace("\\-", "-")
    plain = re.sub(r"\\f[A-Z]", "", page)
    check(f"{program}'s page is installed", os.path.exists(f"{prefix}/share/man/man1/{program}.1"))
    said = help_of(prefix, program)
    part = re.search(r"^Commands:\n((?:  .*\n)+)", said, re.M)
    names = re.findall(r"^  ([a-z]+) ", part.group(1), re.M) if part else []
    for name in names:
        if name != "help":
            check(f"{program}.1 has {name}", bool(re.search(rf"^\.(BI {name} |B {name}$)", plain, re.M)))
            said += help_of(prefix, program, name)
    check_numbers(program, said, plain, prefix)
    options = sorted(set(re.findall(r"--[a-z][a-z-]*", said)))
    check(f"{program} --help names options", "--help" in options)
    for option in options:
        check(f"{program}.1 has {option}", bool(re.search(rf"^\.(B|BI|BR) .*{option}\b", plain, re.M)))
    crates, more = STATUSES[program]
    told = set(map(int, re.findall(r"^\.B ([0-9])$", page, re.M)))
    check(f"{program}.1 has each status", told, stated_statuses(crates) | more)


# What a manual page says with a number, and the constant that it says it of.
NUMBERS = (
    ("nodeagent.1", r"at most (\d+) bytes", "runtime_stops/src/socket_fault.rt", "MAX_NAME"),
    ("nodeagent.1", r"in DIR, at most ([\d,]+) of them", "pod_folder/src/looking.rt", "MAX_FILES"),
    ("nodeagent.1", r"holds at least ([\d,]+) lines", "runtime_server/src/line_queue.rt", "MAX_WAITING"),
    ("nodeagent.1", r"up to (\d+) seconds for a reader", "runtime_server/src/line_writer.rt", "READER_PATIENCE"),
    ("nodeagent.1", r"Each file has at most ([\d,]+) bytes", "node_io/src/files.rt", "MAX_FILE_BYTES"),
    ("nodeagent.1", r"with 1 to (\d+) containers", "manifest/src/containers.rt", "MAX_CONTAINERS"),
    ("nodeagent.1", r"a list of at most ([\d,]+)\. A step", "script/src/scripts.rt", "MAX_STEPS"),
    ("nodeagent.1", r"of at most ([\d,]+) bytes:", "oci_profile/src/reader.rt", "MAX_PROFILE_BYTES"),
    ("nodeagent.1", r"a list of 1 to ([\d,]+) items", "bpf_code/src/limits.rt", "MAX_INSNS"),
    ("nodeagent.1", r"runs at most (\d+) pods", "worker_core/src/limits.rt", "MAX_PODS"),
    ("nodeagent.1", r"more than (\d+) seconds from its connection", "agent_program/src/limits.rt", "PATIENCE"),
    ("scriptd.1", r"which has 1 to (\d+) bytes", "runtime_stops/src/socket_fault.rt", "MAX_NAME"),
    ("scriptd.1", r"At most (\d+) connections", "runtime_server/src/connections.rt", "MAX_CONNECTIONS"),
    ("scriptd.1", r"^(\d+) connections are served", "runtime_server/src/connections.rt", "MAX_CONNECTIONS"),
    ("scriptd.1", r"holds at least ([\d,]+) lines", "runtime_server/src/line_queue.rt", "MAX_WAITING"),
    ("scriptd.1", r"Each file has at most ([\d,]+) bytes", "node_io/src/files.rt", "MAX_FILE_BYTES"),
    ("scriptd.1", r"a list of at most ([\d,]+)\. A step", "script/src/scripts.rt", "MAX_STEPS"),
    ("scriptd.1", r"of at most ([\d,]+) bytes:", "oci_profile/src/reader.rt", "MAX_PROFILE_BYTES"),
    ("scriptd.1", r"a list of 1 to ([\d,]+) items", "bpf_code/src/limits.rt", "MAX_INSNS"),
    ("scriptd.1", r"knows at most ([\d,]+) uids", "registry/src/limits.rt", "MAX_UIDS"),
    ("scriptd.1", r"has at most ([\d,]+) containers", "registry/src/limits.rt", "MAX_CELLS"),
    ("scriptd.1", r"and ([\d,]+) attempts over its life", "registry/src/limits.rt", "MAX_KEYS"),
    ("seccheck.1", r"Each file has at most ([\d,]+) bytes", "node_io/src/files.rt", "MAX_FILE_BYTES"),
    ("seccheck.1", r"A file of records has at most ([\d,]+) bytes", "seccheck_containers/src/denying.rt",
     "MAX_RECORDS_BYTES"),
    ("seccheck.1", r"of at most ([\d,]+) bytes:", "oci_profile/src/reader.rt", "MAX_PROFILE_BYTES"),
    ("seccheck.1", r"a list of 1 to ([\d,]+) items", "bpf_code/src/limits.rt", "MAX_INSNS"),
    ("seccheck.1", r"with 1 to (\d+) containers", "manifest/src/containers.rt", "MAX_CONTAINERS"),
    ("seccheck.1", r"A filter has at most ([\d,]+) instructions", "bpf_code/src/limits.rt", "MAX_INSNS"),
    ("seccheck.1", r"The default is ([\d,]+), and with", "seccheck_cli/src/compared.rt", "BUDGET"),
    ("seccheck.1", r"and with\n\.B .*all\n([\d,]+)\. If more", "seccheck_cli/src/compared.rt", "PART_BUDGET"),
    ("seccheck.1", r"A stack of filters has at most ([\d,]+) instr", "verdict/src/stack.rt", "MAX_STACK_INSNS"),
    ("scriptctl.1", r"waits (\d+) seconds for the runtime", "runtime_client/src/asking.rt", "PATIENCE"),
    ("motchidu.3", r"([\d,]+) bytes are room for any filter", "bpf_code/src/limits.rt", "MAX_BYTES"),
    ("motchidu.3", r"A text of more than ([\d,]+) bytes", "oci_profile/src/reader.rt", "MAX_PROFILE_BYTES"),
)


def check_constants():
    """The numbers of the manual pages are those of the constants that they describe."""
    for page, words, path, name in NUMBERS:
        told = {int(it.replace(",", "")) for it in re.findall(words, text_of(f"man/{page}"), re.M)}
        stated = re.search(rf"^(?:pub(?:\(crate\))? )?const {name}: \w+ = ([\d_]+);", text_of(f"crates/{path}"), re.M)
        check(f"{page}: {words}", told, {int(stated[1].replace("_", ""))})
    last = re.search(r"numbers 0 to (\d+) have names", text_of("man/seccheck.1"))
    limit = re.search(r"const NUMBER_LIMIT: usize = (\d+);", text_of("crates/sys_table/src/table.rt"))
    check("seccheck.1: the last number of the table", int(last[1]) + 1, int(limit[1]))
    mode = re.search(r"The socket has mode (\d+)", text_of("man/scriptd.1"))
    check("scriptd.1: the socket's mode", mode[1], "0600")


def check_library_page(prefix, room):
    """motchidu(3) has each function and each status of the header, and its example runs."""
    page, header = text_of("man/motchidu.3"), text_of("include/motchidu.h")
    functions = set(re.findall(r"^(?:static inline )?[a-z_ ]+ \*?(motchidu_[a-z_]+)\(", header, re.M))
    named = set(re.findall(r"^\.B (motchidu_[a-z_]+)$", page, re.M))
    check("motchidu.3 has each function", named, functions)
    statuses = re.findall(r"^    (MOTCHIDU_[A-Z0-9_]+) = (\d+)", header, re.M)
    told = re.findall(r'^\.BR (MOTCHIDU_[A-Z0-9_]+) " \(" (\d+) \)$', page, re.M)
    check("motchidu.3 has each status and each decider", told, statuses)
    placed = set(re.findall(r"(MOTCHIDU_[A-Z_]+) = \d+,? +/\* P: ", header))
    told = set(re.findall(r"^\.BR (MOTCHIDU_[A-Z_]+) .*\n.*Has a place\.$", page, re.M))
    check("motchidu.3 has what has a place", told, placed)
    if not os.path.isdir(f"{prefix}/lib"):
        return
    check("motchidu.3 is installed", os.path.exists(f"{prefix}/share/man/man3/motchidu.3"))
    example = re.search(r"^\.SH EXAMPLES\n\.nf\n(.*?)^\.fi$", page, re.M | re.S)[1]
    with open(f"{room}/example.c", "w", encoding="utf-8") as it:
        it.write(example.replace("\\(dq", '"').replace("\\e", "\\").replace("\\-", "-"))
    words = "cc example.c -o example $(pkg-config --cflags --libs motchidu) && ./example"
    how = {"cwd": room, "env": environment(prefix), "capture_output": True, "text": True}
    ran = subprocess.run(["sh", "-c", words], **how)
    check("motchidu.3's example", ran.stdout.split(",")[0], "Accepted")


# Command lines that are refused once their numbers are read.
LINES = {
    "scriptd": ["scriptd", "--socket", "none/s"],
    "nodeagent": ["nodeagent", "--socket", "s", "none.json"],
    "seccheck": ["seccheck", "run", "none.bpf", "0"],
}


# two whole numbers, and no part of a version such as 6.12
LIMITS = re.compile(r"(?<![\d.])(\d+) (?:to|or) (\d+)(?!\.?\d)")


def told_in_help(said):
    """The ranges and defaults of options that --help tells."""
    found = {}
    for option, text in re.findall(r"^ +(--[a-z-]+)(?: <[A-Z]+>)? +(.*)$", said, re.M):
        limits = LIMITS.search(text)
        default = re.search(r"\[default(?: with --settle)?: (\S+)\]", text)
        if limits or default:
            found[option] = (limits and limits.groups(), default and default[1])
    return found


def told_in_page(plain, option):
    """The range and the default of an option in a manual page."""
    part = re.search(rf"^\.(?:BI|B) {option}\b.*\n((?:(?!\.TP|\.SH).*\n)*)", plain, re.M)
    text = " ".join(part[1].split()) if part else ""
    limits = LIMITS.search(text)
    default = re.search(r"(?:By default|\.B --settle) (\d+(?:\.\d+)?|the working directory)", text)
    return limits and limits.groups(), default and default[1].replace("the working directory", ".")


def check_numbers(program, said, plain, prefix):
    for option, (limits, default) in told_in_help(said).items():
        told = told_in_page(plain, option)
        check(f"{program}.1 has the same for {option} as --help", told, (limits, default))
        if limits:
            check_ends(program, option, *map(int, limits), prefix)


def check_ends(program, option, least, most, prefix):
    """The program takes both ends, and refuses what is next to them; cases try that too."""
    cases = "".join(text_of(f"tests/{name}") for name in case_names())
    for word, is_taken in ((least, True), (most, True), (least - 1, False), (most + 1, False)):
        line = [*LINES[program], option, str(word)]
        ran = subprocess.run([f"{prefix}/bin/{line[0]}", *line[1:]], capture_output=True, text=True)
        check(f"{program} {option} {word}", "BadNumber" not in ran.stderr, is_taken)
        word = rf"{option}[ =](?:{word}|{hex(word)})\b"
        check(f"a case has {program} with {word}", bool(re.search(rf"{program} .*{word}", cases)))


def case_names():
    at = f"{ROOT}/tests"
    return [f"{folder}/{name}" for folder in sorted(os.listdir(at)) if os.path.isdir(f"{at}/{folder}")
            for name in sorted(os.listdir(f"{at}/{folder}")) if name.endswith(".case")]


def runs(command, how):
    """Whether a command ends as one that was not refused, or goes on, if it is scriptd's."""
    try:
        seconds = 2 if command.startswith("scriptd") else 60
        ran = subprocess.run(["sh", "-c", f"exec {command}"], capture_output=True, timeout=seconds, **how)
        return ran.returncode in (0, 5)
    except subprocess.TimeoutExpired:
        return command.startswith("scriptd")


def check_examples(prefix, program, room):
    page = text_of(f"man/{program}.1").replace("\\-", "-")
    part = page.partition("\n.SH EXAMPLES\n")[2].partition("\n.SH ")[0]
    examples = "".join(re.findall(r"^\.nf\n(.*?)^\.fi$", part, re.M | re.S)).splitlines()
    check(f"{program}.1 has two examples", len(examples) >= 2)
    how = {"cwd": f"{room}/examples", "env": environment(prefix)}
    # What scriptctl asks needs a runtime at the socket of its examples.
    words = ["scriptd", "--socket", "node.sock"] if program == "scriptctl" else ["true"]
    # A scriptd that was killed in an example leaves its socket.
    if os.path.exists(f"{room}/examples/node.sock"):
        os.unlink(f"{room}/examples/node.sock")
    with subprocess.Popen([shutil.which(words[0], path=how["env"]["PATH"]), *words[1:]], **how) as beside:
        while words[0] == "scriptd" and not os.path.exists(f"{room}/examples/node.sock"):
            time.sleep(0.01)
        for example in examples:
            check(f"{program}.1: {example}", runs(example, how))
        beside.kill()


def checked(programs):
    """How many things are as they should be, and how many not, by the programs of this folder."""
    with tempfile.TemporaryDirectory(prefix="motchidu-pages-") as room:
        prefix = f"{room}/motchidu"  # README's PREFIX, in a home of its own
        if not installed(prefix, programs):
            return COUNTS["passed"], COUNTS["failed"]
        readme = text_of("README.md")
        check_readme(readme)
        check_paths()
        check_quotes()
        check_plots()
        check_faults()
        check_files(readme)
        check_sessions(readme, prefix, room)
        check_tutorial(prefix, room)
        check_version(prefix)
        check_completions(prefix)
        for program in STATUSES:
            check_page(prefix, program)
            check_examples(prefix, program, room)
        check_library_page(prefix, room)
        check_constants()
        check_copy(prefix, room)
        check_uninstall(prefix)
    return COUNTS["passed"], COUNTS["failed"]
