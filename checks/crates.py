"""The crates that crates.txt lists."""


def named(top):
    """What each crate stands on, the kit's libraries too, by the name of the crate and in the order of the file."""
    lines = (line.partition("#")[0].partition(":") for line in (top / "crates.txt").read_text(encoding="utf-8").splitlines())
    return {head.split()[0]: tail.split() for head, _, tail in lines if head.strip()}


def listed(top):
    """The same without the kit's libraries."""
    found = named(top)
    return {crate: [it for it in below if it in found] for crate, below in found.items()}
