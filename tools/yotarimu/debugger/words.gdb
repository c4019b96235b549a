# Words for gdb's own console, which `./fractal debug` has a gdb read that it starts; in another one `source` does.
#
#     goto TASK        goes to a position of the run; `monitor help` tells what may stand behind it
#     writes PLACE     all stores to a word, where PLACE is an expression, such as distance[3], or a label, such as sum+4
#
# It also waits ten minutes for an answer, since a track is made before the first one.

set remotetimeout 600

python
ARRIVED = "Now thread "


class Goto(gdb.Command):
    """Goes to a position of the run: goto TASK, goto TASK@N, goto TASK!, goto e17. `monitor help` tells more."""

    def __init__(self):
        super().__init__("goto", gdb.COMMAND_RUNNING)

    def invoke(self, words, _is_typed):
        said = gdb.execute(f"monitor goto {words}", to_string=True).strip()
        if not said.startswith(ARRIVED):
            raise gdb.GdbError(said)
        # gdb keeps registers, memory and threads until it is told that they changed.
        gdb.execute("maintenance flush register-cache", to_string=True)
        gdb.execute("maintenance flush dcache", to_string=True)
        gdb.execute("info threads", to_string=True)
        number = int(said[len(ARRIVED):].split()[0])
        for thread in gdb.selected_inferior().threads():
            if thread.ptid[1] == number:
                thread.switch()
        gdb.execute("frame")


class Writes(gdb.Command):
    """Tells all stores to a word of the data: writes distance[3]."""

    def __init__(self):
        super().__init__("writes", gdb.COMMAND_DATA)

    def invoke(self, words, _is_typed):
        try:
            value = gdb.parse_and_eval(words)
        except gdb.error:
            # A label of assembly has an address, and no type.
            gdb.execute(f"monitor writes {words.replace(' ', '')}")
            return
        address = value if value.address is None else value.address
        gdb.execute(f"monitor writes {int(address) & 0xFFFFFFFF:#x}")


Goto()
Writes()
end
