"""Rules of before. Inside a block they hold in all that is read, so that it can be told what the newer ones decide."""
import contextlib
import contextvars


def older(about):
    """Whether an older rule holds, which it does not unless told, and the block in which it does."""
    holds = contextvars.ContextVar(about, default=False)

    @contextlib.contextmanager
    def inside():
        before = holds.set(True)
        try:
            yield
        finally:
            holds.reset(before)

    return holds, inside
