"""What checks share that ask the toolchain's front end, which reads a crate and all below it and proves nothing."""
import os
import re
import subprocess

TOP = os.path.dirname(os.path.dirname(os.path.realpath(__file__)))


def crates():
    """Returns the crates that each crate is over."""
    with open(f"{TOP}/crates.txt", encoding="utf-8") as text:
        lines = [line.partition("#")[0].partition(":") for line in text]
    return {head.split()[0]: below.split() for head, _, below in lines if head.strip()}


def below(crate, over):
    """Returns the crates of the repository that a crate stands on, the lowest first."""
    found = {}
    for it in over[crate]:
        if it in over:
            found |= below(it, over) | {it: None}
    return found


def front_end(tree, crate):
    """Reads a crate of the folder `tree`, with all below it, as the text stands there. Returns the errors, each as file,
    line and text, whether the crate compiles, and all that was said."""
    kit = os.path.dirname(subprocess.run(["rt", "doc"], capture_output=True, text=True, check=True).stdout.strip())
    over = crates()
    own = below(crate, over)
    root = "main" if os.path.exists(f"{tree}/{crate}/src/main.rt") else "lib"
    words = [f"{kit}/bin/rattle", "check", "--crate-name", crate, f"{tree}/{crate}/src/{root}.rt", "--only", ""]
    words += ["--jobs", "1", "--antt-project", f"{kit}/rattle/logic/antt-project.json"]
    words += ["--logic-built", f"{kit}/logic_built"]
    for it in sorted({"core", "std", *(low for name in [crate, *own] for low in over[name] if low not in over)}):
        words += ["--extern", f"{it}={kit}/rlibs/{it}.rlib"]
    words += ["-L", f"dependency={kit}/rlibs"]
    for it in own:
        words += ["--lib", f"{it}:{','.join(dict.fromkeys(['core', 'std', *over[it]]))}={tree}/{it}/src/lib.rt"]
    ran = subprocess.run(words, stdout=subprocess.PIPE, stderr=subprocess.STDOUT, text=True, check=False)
    told = re.findall(rf"^{re.escape(tree)}/(\S+?):(\d+):\d+: (error.*)", ran.stdout, re.M)
    compiles = bool(re.search(r"^only=.*\n\Z", ran.stdout, re.M))
    return {(file, int(line), error) for file, line, error in told}, compiles, ran.stdout
