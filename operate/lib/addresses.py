"""Addresses as the settings have them: a host and a port."""
import socket


def split_address(address: str) -> tuple[str, int]:
    """The host and the port of `127.0.0.1:3333`, `[::1]:3333` or `name:3333`."""
    host, _, port = address.rpartition(":")
    if not (port.isascii() and port.isdigit() and int(port) < 65_536):
        raise ValueError(f"{address} is no address with a port")
    return host.strip("[]"), int(port)


def dial(address: str, seconds: float) -> socket.socket:
    return socket.create_connection(split_address(address), timeout=seconds)


def listen(address: str) -> socket.socket:
    """A socket that listens there, also where one that was there before is still being closed."""
    host, port = split_address(address)
    family = socket.AF_INET6 if ":" in host else socket.AF_INET
    return socket.create_server((host, port), family=family, backlog=128)


def is_listened_at(address: str) -> bool | None:
    """Whether somebody listens at an address's port, without calling there; None where the system doesn't
    tell."""
    port = f":{split_address(address)[1]:04X}"
    tables = []
    for name in ("/proc/net/tcp", "/proc/net/tcp6"):
        try:
            with open(name, encoding="ascii") as table:
                tables += [line.split() for line in table]
        except OSError:
            continue
    if not tables:
        return None
    # The state 0A is that of a socket that listens.
    return any(line[1].endswith(port) and line[3] == "0A" for line in tables)
