# Cases of the fuzzing harness, as tests/host/fuzz.h lays them out: those made of the samples, and the findings that are kept.
import os
import struct

HOME = os.path.dirname(os.path.dirname(os.path.abspath(__file__)))
FOUND = 'tests/host/found'
CALLS = ('check', 'run', 'short_form', 'fire')


def words(sample, name):
    with open(os.path.join(HOME, 'samples', sample, name + '.txt'), encoding='utf-8') as file:
        return [int(word) for line in file for word in line.partition('#')[0].split()]


def samples():
    folder = os.path.join(HOME, 'samples')
    return sorted(name for name in os.listdir(folder) if os.path.isdir(os.path.join(folder, name)))


def firings(net, sheet, count):
    """Transitions along the arcs from node 0, at each node the last one that it has; on words that are not in form, any."""
    transitions, arcs = net[1], dict(zip(sheet[2 : 2 + sheet[1]], sheet[2 + sheet[1] :]))
    node, fired = 0, []
    for _ in range(count):
        offered = [t for t in range(min(transitions, 32)) if node * transitions + t in arcs]
        if not offered:
            return fired + [0]
        fired.append(offered[-1])
        node = arcs[node * transitions + offered[-1]]
    return fired


def case(net, sheet, record, out=32776, scratch=32768, reply=48, node=0, transition=0, places=0, filling=0, cut=0):
    """A case as bytes; so many of the sheet's last bytes can be cut off."""
    net, sheet, record = (struct.pack(f'<{len(part)}I', *part) for part in (net, sheet, record))
    sheet = sheet[: len(sheet) - cut]
    head = struct.pack('<HHHHBBBBB3x', len(net), len(sheet), out, scratch, reply, node, transition, places, filling)
    return head + net + sheet + record


def of_samples():
    """The name and the bytes of each case made of a sample."""
    for sample in samples():
        net, sheet = words(sample, 'net'), words(sample, 'sheet')
        record = firings(net, sheet, 6)
        yield f'{sample}', case(net, sheet, record, places=0x2a)
        yield f'{sample}-not-offered', case(net, sheet, record + [31], node=200, transition=31, places=0x15, filling=7)
        yield f'{sample}-node', case(net, sheet, [], transition=250, filling=9)
        yield f'{sample}-out', case(net, sheet, record, out=3, transition=1)
        yield f'{sample}-scratch', case(net, sheet, record, scratch=32767, places=0xff)
        yield f'{sample}-reply', case(net, sheet, record, reply=47)
        yield f'{sample}-more', case(net, sheet, record, out=40001, scratch=32771, reply=49, places=0xff)
        yield f'{sample}-cut', case(net, sheet, record, cut=1)


def found(call):
    """The findings that are kept for a call, as paths."""
    folder = os.path.join(HOME, FOUND)
    return sorted(os.path.join(folder, name) for name in os.listdir(folder) if name.startswith(call + '-')) if os.path.isdir(folder) else []
