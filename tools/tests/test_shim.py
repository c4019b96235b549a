"""What the modules for browsers have in place of the system, compiled for this machine: a wait that nobody ends."""
from __future__ import annotations

import pathlib
import shutil
import subprocess
import sys
import tempfile
import unittest

from yotarimu.common.places import HOME

SHIM = HOME / "tools" / "yotarimu" / "web" / "shim.c"
COMPILER = shutil.which("cc") or shutil.which("clang")
# There isn't a memory to grow, and the host's calls aren't made.
HOST = ("__heap_base", "host_read", "host_write", "host_count_words", "host_word", "host_exit")
WORDS = ("-x", "c", "-w", "-shared", "-fPIC", "-ffreestanding", "-nostdlib", "-Wl,-Bsymbolic",
         *(f"-Wl,--defsym={name}=0" for name in HOST), "-D__builtin_wasm_memory_grow(a,b)=0",
         "-D__builtin_wasm_memory_size(a)=0ull")
# A futex by its number, its two operations with the flag of one process, and the error of a time that is over.
FUTEX, WAIT, WAKE, TIMED_OUT = 202, 128, 129, 110
CALLS = f"""
import ctypes, sys
shim = ctypes.CDLL(sys.argv[1])
shim.syscall.restype = ctypes.c_longlong
shim.syscall.argtypes = [ctypes.c_uint64, ctypes.c_void_p, ctypes.c_uint64, ctypes.c_uint64, ctypes.c_void_p]
word, time = ctypes.c_uint32(0), (ctypes.c_int64 * 2)(0, 16000)
place = ctypes.addressof(word)
woken = shim.syscall({FUTEX}, place, {WAKE}, 1, None)
waited = shim.syscall({FUTEX}, place, {WAIT}, 0, ctypes.addressof(time))
print(woken, waited, shim.rattle_errno(), flush=True)
shim.syscall({FUTEX}, place, {WAIT}, 0, None)
"""


@unittest.skipUnless(COMPILER and SHIM.is_file(), "no compiler for this machine, or an archive")
class Waits(unittest.TestCase):
    """Waits where there is one thread."""
    def test_a_wait_with_a_time_limit_ends_and_one_without_is_refused(self) -> None:
        with tempfile.TemporaryDirectory() as place:
            library = pathlib.Path(place, "shim.so")
            subprocess.run([COMPILER or "", *WORDS, "-o", library, SHIM], check=True, capture_output=True)
            done = subprocess.run([sys.executable, "-c", CALLS, library], capture_output=True, text=True)
        self.assertEqual(done.stdout, f"0 -1 {TIMED_OUT}\n", done.stderr)
        self.assertLess(done.returncode, 0)


if __name__ == "__main__":
    unittest.main()
