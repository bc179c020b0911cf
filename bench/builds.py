"""The builds of the published Rust that bench/run measures, and the folders that they are compiled in.

A build is a package of oracle/flowforge, its features, and how it is compiled. The package `ticks` has the oracle's
stand-ins, `crates` the crates of the system's packages. docs/BENCHMARKS.md says what the builds have in common.
"""
import pathlib
import subprocess
import tomllib
import typing

import held

ROOT = pathlib.Path(__file__).resolve().parent.parent
BUILT = ROOT / "oracle" / "target" / "bench"
# Where the system's packages put the sources of crates.
SYSTEM = pathlib.Path("/usr/share/cargo/registry")
CRATES = ("rand", "rand_distr", "rand_xoshiro", "vec_map")
PACKAGES = " ".join("librust-%s-dev" % name.replace("_", "-") for name in CRATES)
CARGO = ["cargo", "build", "--release", "--offline", "--quiet"]
# The release profile as cargo has it: the oracle's own adds checks of overflow.
RELEASE = {"profile.release.overflow-checks": "false"}
TUNED = RELEASE | {"profile.release.opt-level": "3", "profile.release.lto": '"fat"', "profile.release.codegen-units": "1",
                   "profile.release.panic": '"abort"'}
NATIVE = TUNED | {"build.rustflags": '["-C", "target-cpu=native"]'}
COMPILED = {"release": RELEASE, "tuned": TUNED, "native": NATIVE}
LOCK = ROOT / "oracle" / "flowforge" / "crates" / "Cargo.lock"
FROM_SYSTEM = {"source.crates-io.replace-with": '"system"', "source.system.directory": '"%s"' % SYSTEM}


class Build(typing.NamedTuple):
    package: str
    features: tuple
    compiled: str

    def columns(self):
        """What it has as the map by number, as draws and as messages, and how it is compiled."""
        own = self.package == "ticks"
        return ("vector" if "vector" in self.features else "BTreeMap" if own else "vec_map", "stand-ins" if own else "rand",
                "lean" if "lean" in self.features else "counted", self.compiled)

    @property
    def name(self):
        return ", ".join(self.columns())

    def counts(self):
        """The port is compiled for every x86-64, so a build for this machine alone is not among those it is compared with."""
        return self.compiled != "native"

    def folder(self):
        return BUILT / "-".join((self.package, *self.features, self.compiled))

    def program(self):
        return self.folder() / "release" / "ticks"

    def asked(self, given, count):
        """The command and its input for so many ticks of a network."""
        return [self.program(), str(count)], held.line(given) + "\n"

    def answer(self, printed):
        """Ticks and clock."""
        return tuple(printed.split()[1:3])

    def make(self):
        """Whether it could be compiled."""
        settings = COMPILED[self.compiled] | (FROM_SYSTEM if self.package == "crates" else {})
        command = CARGO + ["--target-dir", str(self.folder()), "--features", ",".join(self.features)] + configured(settings)
        return subprocess.run(command, cwd=ROOT / "oracle" / "flowforge" / self.package).returncode == 0


BUILDS = [
    Build("ticks", (), "release"),
    Build("ticks", ("lean",), "release"),
    Build("ticks", ("vector",), "release"),
    Build("ticks", ("vector", "lean"), "release"),
    Build("crates", (), "release"),
    Build("crates", ("lean",), "release"),
    Build("ticks", (), "tuned"),
    Build("ticks", ("vector", "lean"), "tuned"),
    Build("crates", ("lean",), "tuned"),
    Build("crates", ("vector", "lean"), "tuned"),
    Build("ticks", ("vector", "lean"), "native"),
    Build("crates", ("lean",), "native"),
]


def configured(settings):
    return [word for name, value in settings.items() for word in ("--config", "%s=%s" % (name, value))]


def oracle():
    """The oracle, compiled as cargo's release profile has it."""
    subprocess.run(CARGO + ["--target-dir", str(BUILT)] + configured(RELEASE), cwd=ROOT / "oracle", check=True)
    return BUILT / "release" / "oracle"


def missing():
    return [name for name in CRATES if not list(SYSTEM.glob(name + "-[0-9]*"))]


def made():
    """The builds that could be compiled; what is left out is said. Those with the oracle's stand-ins must compile."""
    # The system's versions may be others than the last time.
    LOCK.unlink(missing_ok=True)
    if missing():
        print("The system lacks %s (packages %s)." % (", ".join(missing()), PACKAGES))
    done = []
    for build in BUILDS:
        if not (build.package == "crates" and missing()) and build.make():
            done.append(build)
        elif build.package == "crates":
            print("Left out: " + build.name)
        else:
            raise SystemExit("bench/run: the Rust does not compile: " + build.name)
    return done


def versions():
    """The crates of the builds with the package `crates`, as cargo chose them."""
    chosen = tomllib.loads(LOCK.read_text())["package"]
    return ", ".join("%s %s" % (crate["name"], crate["version"]) for crate in chosen if crate["name"] in CRATES)
