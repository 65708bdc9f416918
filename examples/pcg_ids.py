"""Ids of pcg: a number of 64 bits that holds a layer, a chunk and a segment."""


def pack(bits, layer, x, y, z, segment):
    """Returns the id with these parts; a coordinate has `bits` bits."""
    return layer << 56 | x << 56 - bits | y << 56 - 2 * bits | z << 56 - 3 * bits | segment


def unpack(bits, number):
    """Returns the layer, x, y, z and segment of an id."""
    least = (1 << bits) - 1
    x, y, z = (number >> 56 - k * bits & least for k in (1, 2, 3))
    return number >> 56, x, y, z, number & (1 << 56 - 3 * bits) - 1


def spelled(bits, number):
    """Returns an id as a person reads it."""
    layer, x, y, z, segment = unpack(bits, number)
    return f"{number} (layer {layer}, chunk {x},{y},{z}, segment {segment})"
