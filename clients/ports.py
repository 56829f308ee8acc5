"""Ports for servers under test. The system takes the ports of connections from a range of its own, which begins at 32,768, at any
moment: one that was free may be taken when the server that it is for begins to listen. These lie below that range, and no two
processes get the same."""
import functools
import itertools
import socket

# The first port, and how many blocks of so many ports there are. Each process that needs ports takes a block.
FIRST, BLOCKS, SIZE = 10_000, 220, 100

KERNEL_PORTS = ("shell_port", "iopub_port", "stdin_port", "control_port", "hb_port")


@functools.cache
def block():
    """This process's ports, one after the other without an end. The mark of a block is a socket's name, so it goes with the
    process."""
    for number in range(BLOCKS):
        mark = socket.socket(socket.AF_UNIX)
        try:
            mark.bind(f"\0lab80 ports {number}")
        except OSError:
            mark.close()
            continue
        ports = itertools.cycle(range(FIRST + number * SIZE, FIRST + (number + 1) * SIZE))
        return mark, ports
    raise OSError("all blocks of ports are taken")


def is_free(port):
    with socket.socket() as listener:
        listener.setsockopt(socket.SOL_SOCKET, socket.SO_REUSEADDR, 1)
        try:
            listener.bind(("127.0.0.1", port))
        except OSError:
            return False
    return True


def free_port():
    """A port at which nobody listens, and which no other process gets."""
    _, ports = block()
    found = next((port for port in itertools.islice(ports, SIZE) if is_free(port)), None)
    if found is None:
        raise OSError("somebody listens at each of these ports")
    return found


def kernel_ports():
    """Ports for a kernel's five channels, named as in a connection file."""
    return {name: free_port() for name in KERNEL_PORTS}
