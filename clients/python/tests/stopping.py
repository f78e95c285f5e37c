"""What stops a call of the library before any line of it, or before any step of the interpreter."""

import sys


class Stop(Exception):
    pass


def stopped(steps, action, unit="line"):
    """Does something, and stops it before the line, or the `opcode`, of the library that comes after so many; whether it was stopped."""
    left = steps

    def trace(frame, event, argument):
        nonlocal left
        if "retro" not in frame.f_code.co_filename:
            return None
        frame.f_trace_opcodes = unit == "opcode"
        if event == unit:
            left -= 1
            if left < 0:
                raise Stop
        return trace

    before = sys.gettrace()
    sys.settrace(trace)
    try:
        action()
    except Stop:
        return True
    finally:
        sys.settrace(before)
    return False
