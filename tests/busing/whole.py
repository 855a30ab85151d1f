"""How many whole records a stream has; status 1 where it does not end at one. Words after it are the beginnings of transfers, kinds and
bytes in hex: no other transfer may be there."""
import sys


def records(data):
    """Kind and payload of each, and None where one is cut."""
    at = 0
    while at < len(data):
        length = int.from_bytes(data[at:at + 2], 'little')
        if at + 4 + length > len(data) or at + 4 > len(data):
            yield None
            return
        yield f'{data[at + 2]:02x}', data[at + 4:at + 4 + length].hex()
        at += 4 + length


def main(name, *beginnings):
    with open(name, 'rb') as file:
        found = list(records(file.read()))
    if not found or None in found:
        return 1
    transfer = []
    for kind, payload in found:
        if kind in ('10', '11'):
            transfer.append(kind + payload)
        elif kind == '13':
            if beginnings and ','.join(transfer) not in beginnings:
                print(','.join(transfer))
                return 1
            transfer = []
    print(len(found))
    return 0


sys.exit(main(*sys.argv[1:]))
