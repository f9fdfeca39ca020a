"""What can be stored when a host is stopped: contents by their numbers, and the shortest way to each.

A content is what the image would be with all that is stored over it. A sector that is stored with the bytes that the image has there is as
if nothing were stored.
"""

import os
import zlib

import future_records
import payload
from grammar import SIGN
from host import told_with
from image import SECTOR

ZEROS = bytes(SECTOR)


class Contents:
    """All contents so far. What a write or a discard stores is told by the name of its bio."""

    def __init__(self, image, stored, options=(), record=None):
        self.image, self.options, self.record = image, options, record
        # Of each content what is stored where the image has something else, and its number.
        self.all, self.numbers = [], {}
        # What each of them stores: sectors with their blocks, which are None if the image has these bytes.
        self.writes = {}
        # The bytes of each sum that one of them has; and whether others have this sum, too, so that it does not tell them apart.
        self.of_sums, self.has_one_sum = {}, False
        # What stores the same as others, by its word, its sectors and its bytes.
        self.same = {}
        self.after = {}
        self.first = self.number(self.over_image(stored))

    def of_image(self, sector):
        """The bytes of a sector of the image; zeros if there is no image."""
        if self.image is None:
            return ZEROS
        with told_with(self.image.path):
            return os.pread(self.image.descriptor, SECTOR, SECTOR * sector)

    def over_image(self, stored):
        """The content of what is stored."""
        return {sector: block for sector, block in stored if block != self.of_image(sector)}

    def number(self, content):
        """The number of a content."""
        found = self.numbers.setdefault(frozenset(content.items()), len(self.all))
        if found == len(self.all):
            self.all.append(content)
        return found

    def name_all(self, names, opening):
        """Names what each write and each discard of the opening and of the clients stores, also by how a line spells it. What is spelled alike
        stores the same bytes, unless `has_one_sum` says otherwise."""
        for serial, act in opening.bios.items():
            self.name(names, act, int(serial))
        for number, client in enumerate(opening.clients):
            for place, item in enumerate(client.items):
                self.name(names, item.act(), (number, place))

    def name(self, names, act, place):
        """Names what a write or a discard stores, by what it does and where it comes from. Bytes are the same wherever they stand."""
        if act[0] not in ("write", "discard"):
            return
        word, start, count, *source = act
        blocks = self.blocks(int(count), *source)
        data = b"".join(blocks)
        crc = zlib.crc32(data)
        self.has_one_sum |= self.of_sums.setdefault(crc, data) != data
        names.same[act] = self.same.setdefault((word, start, count, data), act)
        name = names.of(act, place)
        names.spelled[f"{start}+{count}" + (f"={crc:08x}" if source else "")] = name
        self.writes[name] = [(sector, None if block == self.of_image(sector) else block) for sector, block in enumerate(blocks, int(start))]

    def blocks(self, count, source="0"):
        """So many blocks of a byte, or those that stand in the payload from a sector on, or those of an entry of the record. A discard
        has none, and stores zeros."""
        if source.startswith(SIGN):
            return [payload.block_at(self.options, int(source.removeprefix(SIGN)) + at) for at in range(count)]
        if source.startswith(future_records.SIGN):
            return self.record.blocks(source)
        return [bytes([int(source)]) * SECTOR] * count

    def stored(self, before, bios):
        """The content that comes of another one when a request is stored."""
        found = self.after.get((before, bios))
        if found is None:
            content = dict(self.all[before])
            for bio in bios:
                for sector, block in self.writes[bio]:
                    if block is None:
                        content.pop(sector, None)
                    else:
                        content[sector] = block
            found = self.after[before, bios] = self.number(content)
        return found


class Ways:
    """The shortest way to each content: how many steps it has, a node of the search, and what is completed after it."""

    def __init__(self, contents, bounds):
        self.contents, self.bounds = contents, bounds
        self.shortest = {}
        # What was closed already, with the fewest steps that lead there.
        self.closed = {}

    def found(self, content, steps, node, after=()):
        """A way to a content."""
        if content not in self.shortest:
            self.bounds.look(len(self.shortest))
        if content not in self.shortest or steps < self.shortest[content][0]:
            self.shortest[content] = steps, node, after

    def is_closed(self, content, steps, stores):
        """Whether all that comes of a content and of the bios of each store is known with as few steps."""
        return self.closed.get((content, tuple(sorted(stores))), steps + 1) <= steps

    def close(self, content, steps, node, stores):
        """All contents that come of completions of what is in flight, in any order. A store is its move and its bios."""
        todo = [(content, steps, stores, ())]
        while todo:
            content, steps, stores, after = todo.pop()
            bios = tuple(sorted(bios for _, bios in stores))
            if self.is_closed(content, steps, bios):
                continue
            self.closed[content, bios] = steps
            self.found(content, steps, node, after)
            # With many requests in flight these are more than anybody waits for.
            self.bounds.look()
            for at, (move, bios) in enumerate(stores):
                todo.append((self.contents.stored(content, bios), steps + 1, stores[:at] + stores[at + 1:], (*after, move)))
