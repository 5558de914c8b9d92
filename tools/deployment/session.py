"""The session of README.md, word for word, against a process of its own."""
import re
import subprocess

from deployment.stage import TOP, free_port

BLOCK = re.compile(r"^    out/xcapd serve .*\n((?:    .*\n|\n)+)", re.M)
SAYS = re.compile(r"# (\d{3})(.*)$")
PORT = "127.0.0.1:8081"


def lines_of_session():
    """The lines of the session; a line that ends in a backslash goes on."""
    found = BLOCK.search((TOP / "README.md").read_text())
    if not found:
        raise SystemExit("README.md has no session")
    return re.sub(r"\\\n\s*", "", found.group(1)).splitlines()


def told_status(shown):
    heads = re.findall(r"^HTTP/1\.1 (\d{3}) ", shown, re.M)
    return heads[-1] if heads else "nothing"


def run(lines):
    streams = {"stdout": subprocess.PIPE, "stderr": subprocess.DEVNULL, "text": True}
    words = ["bash", "-c", "\n".join(lines)]
    return subprocess.run(words, cwd=TOP / "crates" / "xcapd", **streams).stdout


def session(report, stage):
    report.part("The session of README.md")
    port, said = free_port(), []
    served = stage.serve(port, subprocess.DEVNULL)
    for line in lines_of_session():
        line = line.strip().replace(PORT, f"127.0.0.1:{port}")
        says = SAYS.search(line)
        if not says:
            said.append(line)
            continue
        status = told_status(run([*said, line]))
        report.holds("".join(says.groups()), status == says.group(1), status)
    stage.end(served)
