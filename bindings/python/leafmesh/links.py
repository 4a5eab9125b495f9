"""What joins polygons and layers."""

from dataclasses import dataclass, field
from typing import Iterator, Tuple

import numpy as np

from .rows import CHANNEL, CONTACT, VIA, entries, number


@dataclass(frozen=True, eq=False)
class Links:
    """Contacts, vias and channels, as arrays or tuples of the fields of CONTACT, VIA and CHANNEL, and the layer of all
    channels."""

    contacts: np.ndarray = field(default=())
    vias: np.ndarray = field(default=())
    channels: np.ndarray = field(default=())
    channel_layer: int = 0

    def __post_init__(self):
        object.__setattr__(self, "contacts", entries(self.contacts, CONTACT, "contact"))
        object.__setattr__(self, "vias", entries(self.vias, VIA, "via"))
        object.__setattr__(self, "channels", entries(self.channels, CHANNEL, "channel"))
        object.__setattr__(self, "channel_layer", number(self.channel_layer, "channel_layer", "u2"))

    def rows(self) -> list:
        """As the calls take them."""
        return [self.contacts, self.vias, self.channel_layer, self.channels]

    def each(self) -> Iterator[Tuple[str, int, "Links"]]:
        """Each link by itself, in the order of the net's links: its kind and its place in its row."""
        for at in range(len(self.contacts)):
            yield "contact", at, Links(contacts=self.contacts[at : at + 1])
        for at in range(len(self.vias)):
            yield "via", at, Links(vias=self.vias[at : at + 1])
        for at in range(len(self.channels)):
            yield "channel", at, Links(channels=self.channels[at : at + 1], channel_layer=self.channel_layer)


NO_LINKS = Links()
