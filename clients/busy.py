"""What a busy machine takes from a process: how long its threads are ready to run, and wait for a processor that others use."""
import contextlib
import glob


def waited(process, thread="*"):
    """The seconds for which all threads of a process, or one, have waited so far. Those that end meanwhile count as nothing."""
    nanoseconds = 0
    for path in glob.glob(f"/proc/{process}/task/{thread}/schedstat"):
        with contextlib.suppress(OSError), open(path, encoding="ascii") as file:
            nanoseconds += int(file.read().split()[1])
    return nanoseconds / 1e9
