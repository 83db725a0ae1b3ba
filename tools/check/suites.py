"""The table of all checks: what each is, what it needs, and how long it takes."""
from dataclasses import dataclass

# Who has not said otherwise gets the suites of the default set; those of NIGHTLY take longer, or
# need a machine that does nothing else.
DEFAULT, NIGHTLY = "default", "nightly"


@dataclass(frozen=True)
class Suite:
    """A check that is started by one command, at the top of the repository, and ends with 0 where
    all is as it should be.

    Of its words `program` stands for `--program FILE` of a built octomap, `library` for `--library
    FOLDER` of liboctofix.a, liboctofix.so.1 and octofix.wasm, `proved` for `--proved` where these
    are proved.
    What the suite leaves out for want of something it says in lines `left out: N WHAT`.
    """

    name: str
    does: str  # what it looks at, in a few words
    words: str  # its command
    seconds: int  # about how long it takes without proof, with a core of its own
    needs: str = ""  # what of Debian or the kit it needs beside Python and numpy
    set: str = DEFAULT
    only_proved: bool = False  # measures or looks at what a build without proof isn't
    root: bool = False  # leaves out a part where root doesn't start it
    loopback: bool = False  # talks over the network of loopback

    def all_needs(self):
        """What `--list` says of what it needs."""
        more = [("a proved build", self.only_proved), ("root for a part", self.root),
                ("loopback", self.loopback)]
        return ", ".join([*filter(None, [self.needs]), *(it for it, holds in more if holds)])


SUITES = (
    # Sources and documents
    Suite("sources", "no source lets memory go", "tools/check_sources", 1),
    Suite("refusals", "all places tell of refusals alike", "tools/check_refusals", 1),
    Suite("version", "all places have one version", "tools/check_version", 1),
    Suite("promise", "the number of definitions in documents", "tools/check_promise", 6),
    Suite("numbers", "other numbers in documents that can be counted", "tools/check_numbers", 1),
    # The program
    Suite("examples", "examples/ beside their replies and the model",
          "examples/check program", 15),
    Suite("rows", "short runs whose answers were worked out by hand",
          "tests/rows/check program", 15),
    Suite("random", "random scripts beside the model",
          "tests/model/try_random.py program 1 25", 15),
    Suite("faults", "a full disk, a kill, a closed pipe", "tests/faults.py program", 2,
          root=True),
    Suite("writes", "how often a session writes", "tests/writes.py program", 1),
    Suite("refused", "each request for memory refused in turn", "tests/refused.py program", 16,
          needs="cc"),
    Suite("grids", "grids and scenes at their limits", "tests/grids.py program", 6),
    Suite("library", "files of the OctoMap library, and its insertion",
          "tests/library.py program", 30, needs="liboctomap-dev, octomap-tools, valgrind"),
    # The library
    Suite("c", "the library from C", "bindings/c/check library", 10, needs="gcc, valgrind"),
    Suite("cpp", "the library from C++", "bindings/cpp/check library", 115,
          needs="g++, liboctomap-dev"),
    Suite("python", "the library from Python", "bindings/python/check program library", 90,
          needs="gcc, python3-dev"),
    Suite("tools", "the tools of the package", "bindings/python/check_tools program library", 130,
          loopback=True),
    Suite("web", "the library in browsers and Node, and its page", "bindings/web/check library",
          65, needs="chromium or Node 20", loopback=True),
    Suite("ros", "the node for ROS", "examples/ros/check library", 30, needs="ROS 1",
          loopback=True),
    Suite("planning", "examples with FCL, OMPL and dynamicEDT3D",
          "examples/planning/check library", 30),
    # What is handed out
    Suite("install", "what ./octomap install puts where", "tools/install/check program library",
          180, needs="cmake, make, pkg-config"),
    Suite("release", "what ./octomap release makes",
          "tools/release/check proved program library", 75, root=True),
    # Longer ones
    Suite("limits", "peak memory at the limits", "tests/limits.py program", 120, set=NIGHTLY,
          needs="cc, 1.1 GB of disk, 3 GB of memory"),
    Suite("refused_map", "a map goes on after each refused request", "tests/refused_map.py", 150,
          set=NIGHTLY, needs="rt"),
    Suite("formats", "forms of clouds beside PCL, Open3D and meshio",
          "tests/tools_formats.py library", 60, set=NIGHTLY,
          needs="python3-open3d, python3-meshio, pcl-tools"),
    Suite("mutations", "20,000 damaged files", "tests/tools_trials.py damaged library", 400,
          set=NIGHTLY),
    Suite("interrupts", "20,000 runs interrupted, without room, or two at once",
          "tests/tools_trials.py ended library", 1200, set=NIGHTLY),
    Suite("more_random", "5,000 random scripts", "tests/model/try_random.py program 1 5000",
          1200, set=NIGHTLY),
    Suite("model", "200,000 calls of Python beside the model",
          "bindings/python/check_model --calls 200000 library", 1500, set=NIGHTLY,
          needs="gcc, python3-dev"),
    Suite("must_fail", "the wrong bodies that the gate leaves out", "tools/must_fail --nightly",
          3600, set=NIGHTLY, needs="rt"),
    # Limits of speed
    Suite("speed_scans", "instructions and memory of scans", "bench/scans.sh program", 30,
          set=NIGHTLY, needs="valgrind", only_proved=True),
    Suite("speed_commands", "instructions of single commands", "bench/commands.sh program", 60,
          set=NIGHTLY, needs="valgrind", only_proved=True),
    Suite("speed_convert", "instructions of a converted file", "bench/convert.sh program", 20,
          set=NIGHTLY, needs="valgrind", only_proved=True),
    Suite("speed_drill", "instructions of drills", "bench/drill.sh program", 60, set=NIGHTLY,
          needs="valgrind", only_proved=True),
    Suite("speed_library", "calls of the library", "bench/library_speed.sh program library", 60,
          set=NIGHTLY, needs="gcc, valgrind, a quiet machine", only_proved=True),
    Suite("speed_cores", "maps by several threads", "bench/cores.sh library", 300, set=NIGHTLY,
          needs="g++, a quiet machine", only_proved=True),
    Suite("speed_jobs", "maps by threads of the tools", "bench/jobs.py library", 60, set=NIGHTLY,
          needs="a quiet machine", only_proved=True),
    Suite("speed_tiles", "tiles beside one process", "bench/tiles.py library", 900, set=NIGHTLY,
          needs="2.5 GB of memory, 2 GB of disk, a quiet machine", only_proved=True),
    Suite("speed_python", "the package beside C++", "bench/python_speed.py library", 60,
          set=NIGHTLY, needs="g++, python3-dev, a quiet machine", only_proved=True),
    Suite("speed_web", "the module in Node beside the native library", "bench/web_speed.py library",
          30, set=NIGHTLY, needs="gcc, python3-dev, Node 20, a quiet machine"),
    Suite("speed_tools", "clouds to a map beside a session",
          "bench/tools_speed.py program library", 120, set=NIGHTLY, needs="a quiet machine",
          only_proved=True),
)
