"""A machine that qemu emulates, with a kernel of Debian, for scripts beside this one that need drivers of CAN
interfaces. Its clock counts instructions, not time: what happens in it does not depend on how busy this machine is, and
where nothing runs it goes on at once.

    it = Emulated("/")                    # a folder with the unpacked linux-image-amd64 and busybox-static
    it.add("/usr/bin/ip", PROGRAM)        # programs with their libraries, other files and folders, at their places
    it.add_module("can_wire.c")           # a module of the kernel, made with linux-headers-amd64
    it.run(["python3", ..], devices=[..]) # the exit code of a job; what it writes is written here

All that the machine has is in its memory, and gone with it: Python with its library, and what was added.
"""
from __future__ import annotations

import compileall
import glob
import os
import re
import shlex
import shutil
import subprocess
import sys
import sysconfig
import tempfile
from typing import Sequence

MODULES = ("can", "can-raw", "can-dev", "can-gw", "vcan", "vxcan", "slcan", "sja1000", "kvaser_pci")
NEEDLESS = shutil.ignore_patterns(
    "test", "tests", "idlelib", "lib2to3", "ensurepip", "config-*", "*-packages", "_tkinter*", "out"
)
MEMORY = "1024"  # MB
INSTRUCTION = 0  # it takes 2^0 ns
UP = "Linux "  # so the first line of a machine begins that is up
TERMINAL = re.compile(r"\x1b\[[0-9;?]*[a-zA-Z]|\x1bc|\r")
INIT = """#!/bin/busybox sh
/bin/busybox --install -s /bin
mount -t proc proc /proc; mount -t sysfs sys /sys; mount -t devtmpfs dev /dev
mkdir -p /dev/pts /tmp /run; mount -t devpts devpts /dev/pts
for m in /m/*.ko; do insmod $m; done
ip link set lo up
echo "Linux $(uname -rm)"
cd /run && PATH=@PATH@:/bin @JOB@
echo "the job ended with $?"
poweroff -f
"""


class Emulated:
    """The machine, before it is switched on."""

    def __init__(self, folder: str) -> None:
        images = sorted(glob.glob(os.path.join(folder, "boot", "vmlinuz-*")))
        busybox = os.path.join(folder, "bin", "busybox")
        if not images or not os.path.exists(busybox):
            sys.exit(f"{sys.argv[0]}: there is no kernel or no busybox below {folder}")
        self.image, self.release = images[-1], os.path.basename(images[-1])[len("vmlinuz-") :]
        self.room = tempfile.TemporaryDirectory()
        self.top = os.path.join(self.room.name, "initrd")
        for name in ("bin", "proc", "sys", "dev", "m"):
            os.makedirs(os.path.join(self.top, name))
        shutil.copy(busybox, os.path.join(self.top, "bin", "busybox"))
        found = {}
        modules = os.path.join(folder, "lib", "modules", self.release, "kernel", "**", "*.ko*")
        for path in glob.glob(modules, recursive=True):
            found[os.path.basename(path).split(".ko")[0]] = path
        self.modules = 0
        for name in MODULES:
            self._put_module(found[name])
        library = sysconfig.get_path("stdlib")
        self.add(sys.executable, library, *glob.glob(os.path.join(library, "lib-dynload", "*.so")))

    def _put_module(self, path: str) -> None:
        """The modules are loaded in this order."""
        shutil.copy(path, os.path.join(self.top, "m", f"{self.modules:02}-{os.path.basename(path)}"))
        self.modules += 1

    def add(self, *paths: str) -> None:
        for path in paths:
            place = self.top + os.path.abspath(path)
            if os.path.isdir(path):
                shutil.copytree(path, place, ignore=NEEDLESS, dirs_exist_ok=True)
                compileall.compile_dir(place, quiet=2)
                continue
            needed = subprocess.run(["ldd", path], capture_output=True, text=True).stdout
            for one in (path, *re.findall(r"(/\S+) \(0x", needed)):
                os.makedirs(os.path.dirname(self.top + one), exist_ok=True)
                shutil.copy(one, self.top + os.path.abspath(one))

    def add_module(self, source: str) -> None:
        """Makes a module of the kernel, which is loaded behind those of Debian."""
        name = os.path.basename(source)[: -len(".c")]
        folder = os.path.join(self.room.name, name)
        os.mkdir(folder)
        shutil.copy(source, folder)
        with open(os.path.join(folder, "Makefile"), "w") as file:
            file.write(f"obj-m := {name}.o\n")
        words = ["make", "-s", "-C", f"/lib/modules/{self.release}/build", f"M={folder}", "modules"]
        subprocess.run(words, check=True, stdout=subprocess.DEVNULL, stderr=subprocess.DEVNULL)
        self._put_module(os.path.join(folder, f"{name}.ko"))

    def run(self, job: Sequence[str], devices: Sequence[str] = ()) -> int:
        """Runs the machine with these words of qemu until this job ends. Its exit code; 1 where the machine failed."""
        with open(os.path.join(self.top, "init"), "w") as file:
            file.write(INIT.replace("@PATH@", os.environ["PATH"]).replace("@JOB@", shlex.join(job)))
        os.chmod(os.path.join(self.top, "init"), 0o755)
        names = subprocess.run(["find", "."], cwd=self.top, capture_output=True, check=True).stdout
        initrd = os.path.join(self.room.name, "initrd.cpio")
        pack = ["cpio", "-o", "-H", "newc", "--quiet"]
        with open(initrd, "wb") as packed:
            subprocess.run(pack, cwd=self.top, input=names, stdout=packed, check=True)
        words = ["qemu-system-x86_64", "-m", MEMORY, "-cpu", "max", "-accel", "tcg,thread=single", "-rtc", "clock=vm"]
        words += ["-icount", f"shift={INSTRUCTION},sleep=off", "-nographic", "-no-reboot", "-nic", "none"]
        words += ["-kernel", self.image, "-initrd", initrd]
        words += ["-append", "console=ttyS0 quiet panic=-1 no_timer_check tsc=reliable", *devices]
        code = 1
        # (a session of its own has its share of a busy machine)
        with subprocess.Popen(
            words, stdin=subprocess.DEVNULL, stdout=subprocess.PIPE, text=True, errors="replace", start_new_session=True
        ) as process:
            assert process.stdout is not None
            is_up = False
            for line in process.stdout:
                line = TERMINAL.sub("", line).rstrip("\n")
                ends = re.fullmatch(r"the job ended with (\d+)", line)
                if ends:
                    code, is_up = int(ends[1]), False
                elif is_up or UP in line:
                    print(line if is_up else line[line.index(UP) :], flush=True)
                    is_up = True
        return code
