"""A check of one crate by the toolchain, over libraries that lie there: what .ci/profile and .ci/edits-at-once share.

`--libraries FOLDER` names a folder of crates, as crates/ is one: the library of a crate is FOLDER/NAME/out/rlib/NAME.rlib, where `rt ci`
and `rt lib` leave it. Without these words it is crates/."""
import os
import shutil
import sys

from judge import TOP, text_of


def kit():
    """The toolchain's folder. Ends with 127 where there is no toolchain."""
    rt = shutil.which("rt")
    if not rt:
        print(f".ci/{os.path.basename(sys.argv[0])}: the toolchain's command rt is not on the path", file=sys.stderr)
        sys.exit(127)
    return os.path.dirname(os.path.dirname(os.path.realpath(rt)))


def crates_used():
    """The libraries that each crate uses, its own and the toolchain's."""
    lines = [line for line in (it.split("#")[0].strip() for it in text_of(f"{TOP}/crates.txt").split("\n")) if line]
    return {line.split(":")[0].split()[0]: line.split(":")[1].split() for line in lines}


USES = crates_used()


def below(crate, found=()):
    """The crates of this repository that a crate stands on."""
    for it in USES[crate]:
        if it in USES and it not in found:
            found = below(it, (*found, it))
    return found


def libraries_named(words):
    """The folder of libraries that words name, and the other words."""
    if "--libraries" not in words[:-1]:
        return f"{TOP}/crates", words
    at = words.index("--libraries")
    return os.path.abspath(words[at + 1]), words[:at] + words[at + 2 :]


def library_of(crate, libraries):
    return f"{libraries}/{crate}/out/rlib/{crate}.rlib"


def lacking(crates, libraries):
    """The libraries below these crates that aren't there."""
    paths = {library_of(it, libraries) for crate in crates for it in below(crate)}
    return sorted(it for it in paths if not os.path.isdir(it))


def words_of(crate, folder, libraries):
    """The call that checks a folder's src/, specs/ and proofs/ as the crate, with one job, over these libraries."""
    at = kit()
    words = [f"{at}/bin/rattle", "check", "--crate-name", crate, f"src/{'main' if os.path.exists(f'{folder}/src/main.rt') else 'lib'}.rt"]
    words += ["-L", f"dependency={at}/rlibs"]
    for it in dict.fromkeys(["std", *USES[crate]]):
        words += ["--extern", f"{it}={library_of(it, libraries) if it in USES else f'{at}/rlibs/{it}.rlib'}"]
    for it in below(crate):
        words += ["-L", f"dependency={os.path.dirname(library_of(it, libraries))}"]
    words += ["--antt-project", f"{at}/rattle/logic/antt-project.json", "--logic-built", f"{at}/logic_built"]
    return [*words, "--links", f"{crate}=", "--jobs", "1"]
