"""The tarball: a folder that lies anywhere, and can be copied over /usr/local or ~/.local."""
from pathlib import Path

from .checksums import write_checksums
from .made import Made
from .running import at_time, said
from .staging import Places, level_rights, put, stage

HERE = Places(Path("bin"), Path("include"), Path("lib"), Path("share"), "${pcfiledir}/../..", "${prefix}/lib")
MACHINE = "x86_64-linux"
SAY = """Pertxogai {version} for Linux on x86-64.

    cp -r bin include lib share ~/.local    puts it where your shell looks for it, or in the place of ~/.local: /usr/local
    pipx install wheel/{wheel}    adds the command pertxogai
    pip install wheel/{wheel}    adds it and the Python package, in a virtual environment of your own; one that is made
        with --system-site-packages has Debian's ezdxf, numpy and scipy too
    man -l share/man/man1/sketch.1.gz    is the manual

In ~/.local a program in C is linked with the library so (in /usr/local run ldconfig once; then it needs neither):

    export PKG_CONFIG_PATH=$HOME/.local/lib/pkgconfig
    cc places.c $(pkg-config --cflags --libs sketch) -Wl,-rpath,$HOME/.local/lib -o places

The Python package finds the library beside the program `sketch` on your path.

share/doc/pertxogai has the pages and the examples, share/pertxogai/checker the checkers of claims, LICENSE-MIT and LICENSE-APACHE say what you may do, licences what else is linked, GATE what was proved and tested of which
commit, SHA256SUMS the checksums of all: sha256sum --quiet -c SHA256SUMS
"""


def make_tarball(room: Path, made: Made, to: Path) -> Path:
    """Packs the tarball into the folder `to`, and answers its path."""
    root = room / f"pertxogai-{made.version}-{MACHINE}"
    stage(root, HERE, made)
    put(made.wheel, root / "wheel" / made.wheel.name)
    for name in ("licences", "LICENSE-MIT", "LICENSE-APACHE"):
        put(made.tree / name, root / name)
    (root / "GATE").write_text(made.gate)
    (root / "README").write_text(SAY.format(version=made.version, wheel=made.wheel.name))
    level_rights(root)
    write_checksums(root)
    packed = to / (root.name + ".tar.gz")
    same = ["--sort=name", f"--mtime=@{made.time}", "--owner=0", "--group=0", "--numeric-owner"]
    said("tar", *same, "--use-compress-program=gzip -n9", "-cf", packed, "-C", room, root.name, env=at_time(made.time))
    return packed
