"""What crates.txt says of the crates, for the tools beside it."""
import os

TOP = os.path.dirname(os.path.dirname(os.path.abspath(__file__)))


def dependencies():
    """Each crate of crates.txt with what it stands on."""
    with open(os.path.join(TOP, 'crates.txt'), encoding='utf-8') as file:
        rows = [line.split(':') for line in file if ':' in line and not line.startswith('#')]
    return {crate: below.split() for crate, below in rows}


def crates_up_to(name, needs, found=None):
    """The crates on which one stands, and it, in the order in which the toolchain builds them."""
    found = {} if found is None else found
    for below in needs[name]:
        if below in needs and below not in found:
            crates_up_to(below, needs, found)
    found[name] = None
    return list(found)
