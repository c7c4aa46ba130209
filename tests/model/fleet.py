"""Many sites, and the frames that they sent."""

from .site import Site

UPSTREAMS = ("127.0.0.1:5301", "127.0.0.1:5302")


def site_address(index):
    """The address of a site of a script."""
    return f"127.0.0.1:{5400 + index}"


class Fleet:
    """Sites by number, each the peer of every other one, and the frames that they sent, by number."""

    def __init__(self, count):
        addresses = [site_address(index) for index in range(count)]
        self.sites = [Site(UPSTREAMS, tuple(peer for peer in addresses if peer != own)) for own in addresses]
        self.frames = []

    def keep(self, step):
        """Keeps the frames of a step, so that they can be delivered at any time. It gives their numbers."""
        first = len(self.frames)
        self.frames += step.frames
        return range(first, len(self.frames))
