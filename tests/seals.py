"""The lines of a store with their numbers, batches and sums, by their definition in docs/STORE.md."""
import re

MASK = (1 << 64) - 1
SEAL = re.compile(rb',"batch":\[(\d+),(\d+),(\d+)\],"sum":"([0-9a-f]{16})"\}$')


def rotated(number, by):
    return (number << by | number >> (64 - by)) & MASK


def rounds(v, count):
    for _ in range(count):
        v[0] = (v[0] + v[1]) & MASK
        v[2] = (v[2] + v[3]) & MASK
        v[1] = rotated(v[1], 13) ^ v[0]
        v[3] = rotated(v[3], 16) ^ v[2]
        v[0] = rotated(v[0], 32)
        v[2] = (v[2] + v[1]) & MASK
        v[0] = (v[0] + v[3]) & MASK
        v[1] = rotated(v[1], 17) ^ v[2]
        v[3] = rotated(v[3], 21) ^ v[0]
        v[2] = rotated(v[2], 32)


def sip_hash(data):
    """SipHash-1-3 with a key of zeros."""
    v = [0x736F6D6570736575, 0x646F72616E646F6D, 0x6C7967656E657261, 0x7465646279746573]
    padded = data + bytes(7 - len(data) % 8) + bytes([len(data) & 255])
    for at in range(0, len(padded), 8):
        word = int.from_bytes(padded[at : at + 8], "little")
        v[3] ^= word
        rounds(v, 1)
        v[0] ^= word
    v[2] ^= 255
    rounds(v, 3)
    return v[0] ^ v[1] ^ v[2] ^ v[3]


def sum_after(before, data):
    return sip_hash(before.to_bytes(8, "little") + data)


def sealed(payloads, batches, before=0, number=0):
    """The lines with their seals, after this sum and this number of lines."""
    lines, rest = [], iter(payloads)
    for size in batches:
        first, last = number + 1, number + size
        for _ in range(size):
            number += 1
            front = next(rest)[:-1] + f',"batch":[{number},{first},{last}'.encode()
            before = sum_after(before, front)
            lines.append(front + f'],"sum":"{before:016x}"}}'.encode())
    return lines


def payload(line):
    """A line without its seal."""
    return SEAL.sub(b"}", line)


def batches(lines):
    """How many lines each batch has, by the numbers of the lines."""
    seals = [SEAL.search(line) for line in lines]
    return [int(it[3]) - int(it[2]) + 1 for it in seals if it[1] == it[2]]


def resealed(data, change):
    """The bytes of a store whose lines were changed without their seals, and then sealed again in the same batches."""
    lines = data.split(b"\0")[0].split(b"\n")[:-1]
    changed = b"\n".join(sealed(change([payload(line) for line in lines]), batches(lines))) + b"\n"
    return changed + bytes(max(len(data) - len(changed), 0))
