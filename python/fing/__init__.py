"""fing in Python: programs with ML modules checked, compiled, run and verified.

>>> import fing
>>> fing.check("val x = 1 + 2")
Reply(status=<Status.OK: 0>, text='pure (ex () (str (x (val int))))\\n')
>>> fing.check("val x = y")
Refusal(status=<Status.REFUSED: 1>, text='refused 8-9 Unbound y\\n', reason='Unbound', arguments=('y',), span=(8, 9))

Each call answers as the program `fing` does. It needs 8 MiB of stack, which the main thread has by default; for other
threads call `threading.stack_size(8 << 20)` before they start.
"""
from ._replies import Refusal, Reply, Status, check, emit, link, reply, run, verify

__all__ = ["Refusal", "Reply", "Status", "check", "emit", "link", "reply", "run", "verify"]
