"""The checker's words for a crate over the libraries that rt ci left in the crates' out/ (crates.txt says which a crate uses)."""
import pathlib, re, subprocess

top = pathlib.Path(__file__).resolve().parent.parent
kit = pathlib.Path(subprocess.run(["rt", "doc"], capture_output=True, text=True, check=True).stdout.strip()).parent


def crates():
    """Each crate's libraries, as crates.txt has them, and the static libraries."""
    uses, static = {}, set()
    for line in (top / "crates.txt").read_text(encoding="utf-8").splitlines():
        line = line.split("#")[0].strip()
        if line:
            name, _, rest = line.partition(":")
            uses[name.split()[0]] = rest.split()
            static |= {name.split()[0]} if "staticlib" in name.split() else set()
    return uses, static


USES, STATIC = crates()


def below(crate):
    """The repository's libraries below a crate, each after those that it uses."""
    found = []
    for dep in USES[crate]:
        if dep in USES:
            found += [it for it in [*below(dep), dep] if it not in found]
    return found


def words(crate):
    """The checker's words for a crate."""
    said = ["--crate-name", crate, "src/main.rt" if (top / "crates" / crate / "src" / "main.rt").exists() else "src/lib.rt"]
    for name in dict.fromkeys(["std", "core", *[it for it in USES[crate] if it not in USES]]):
        said += ["--extern", f"{name}={kit}/rlibs/{name}.rlib"]
    said += ["-L", f"dependency={kit}/rlibs"]
    for dep in USES[crate]:
        said += ["--extern", f"{dep}={top}/crates/{dep}/out/rlib/{dep}.rlib"] * (dep in USES)
    for dep in below(crate):
        said += ["-L", f"dependency={top}/crates/{dep}/out/rlib"]
    said += ["--antt-project", f"{kit}/rattle/logic/antt-project.json", "--logic-built", f"{kit}/logic_built", "--links", f"{crate}="]
    return said + ["--crate-type", "staticlib"] * (crate in STATIC)


def rattle(verb, crate, folder, *more):
    """Runs the checker on a crate whose files stand in a folder: its exit status, and what it said."""
    ran = subprocess.run([f"{kit}/bin/rattle", verb, *words(crate), *more], cwd=folder, stdin=subprocess.DEVNULL, stdout=subprocess.PIPE,
                         stderr=subprocess.STDOUT, text=True, errors="replace")
    return ran.returncode, ran.stdout
