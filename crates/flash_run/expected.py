#!/usr/bin/env python3
"""Writes stdin and stdout of flash_run: scripts, and what document 01 says of them.

The model below is written from the text of document 01 ('Flash rules', 'Supply', 'The trace') and keeps to its words: a frame is a list of bytes, the status is
four flags, the page a table of the places that were sent. It shares nothing with the crate `flash`."""
import os
import random

CODES = {'0000x110': 'WREN', '0000x100': 'WRDI', '0000x101': 'RDSR', '0000x001': 'WRSR', '0000x011': 'READ',
         '0000x010': 'PROGRAM', '0001x101': 'RDID', '0101x010': 'SECTOR', '0110x010': 'CHIP'}
LETTER = {'WREN': 'e', 'WRDI': 'd', 'RDSR': 's', 'WRSR': 'w', 'READ': 'r', 'PROGRAM': 'p', 'SECTOR': 'x', 'CHIP': 'c', 'RDID': 'i'}


def instruction(code):
    bits = format(code, '08b')
    for pattern, name in CODES.items():
        if all(p in ('x', b) for p, b in zip(pattern, bits)):
            return name
    return None


def sector(place):
    return max(n for n, start in enumerate([0x00000, 0x08000, 0x10000, 0x18000], 1) if start <= place)


class Status:
    def __init__(self, byte):
        self.wpen, self.bp1, self.bp0, self.enable = byte >> 7 & 1, byte >> 3 & 1, byte >> 2 & 1, 0

    def byte(self):
        return self.wpen << 7 | self.bp1 << 3 | self.bp0 << 2 | self.enable << 1

    def locked(self, n):
        return n in {(0, 0): [], (0, 1): [4], (1, 0): [3, 4], (1, 1): [1, 2, 3, 4]}[self.bp1, self.bp0]


class Chip:
    def __init__(self, status, watched):
        self.supply, self.lock, self.watched = True, False, watched
        self.status, self.cycle = Status(status), None
        self.frame = None                       # None idle, 'void', or the list of its bytes
        self.fact = None                        # None, False (free), True (locked): only in an open frame

    # ---- the parts of an open frame
    def name(self):
        return instruction(self.frame[0])

    def address(self):
        return (self.frame[1] << 16 | self.frame[2] << 8 | self.frame[3]) & 0x1ffff

    def sent(self):
        """The page of a PROGRAM that is sent: a later byte for a place replaces the earlier."""
        table, at = {}, self.address()
        for n, data in enumerate(self.frame[4:]):
            table[(at % 256 + n) % 256] = data
        return at // 256, table

    def opened(self):
        return isinstance(self.frame, list)

    def void(self):
        self.frame, self.fact = 'void', None

    # ---- channel F
    def sel(self):
        if not self.supply:
            self.void()
            return '.'
        self.frame, self.fact = [], None
        if self.cycle is None and self.status and self.status.wpen:
            self.fact = self.lock
        return '.'

    def x(self, byte):
        if not self.supply or not self.opened():
            return '.'
        if not self.frame:
            name = instruction(byte)
            if name is None or (self.cycle and name != 'RDSR'):
                self.void()
            else:
                self.frame = [byte]
            return '.'
        reply, count = '.', len(self.frame)
        if self.name() == 'RDSR' and self.status:
            reply = 'g%02x' % (0xff if self.cycle else self.status.byte())
        if self.name() == 'RDID' and count <= 2:
            reply = 'g1f' if count == 1 else 'g60'
        if self.name() == 'READ' and count >= 4:
            place = (self.address() + count - 4) % 0x20000
            if sector(place) == self.watched:
                reply = 'r%04x' % (place % 32768)
        self.frame.append(byte)
        return reply

    def cut(self):
        self.void()
        return '.'

    def starts(self):
        """The cycle that the open frame starts, or None."""
        name, length, status = self.name(), len(self.frame), self.status
        if not status or not status.enable:
            return None
        if name == 'WRSR' and length == 2:
            if status.wpen and self.fact is not False:
                return None
            return ('w', self.frame[1] & 0x8c)
        if name == 'CHIP' and length == 1:
            return None if all(status.locked(n) for n in (1, 2, 3, 4)) else ('c',)
        if name == 'SECTOR' and length == 4:
            n = sector(self.address())
            return None if status.locked(n) else ('x', n)
        if name == 'PROGRAM' and length >= 5:
            page, table = self.sent()
            return None if status.locked(sector(page * 256)) else ('p', page, table)
        return None

    def des(self):
        reply = '.'
        if self.supply and self.opened() and self.frame:
            name, cycle = self.name(), self.starts()
            if cycle and not self.cycle:
                self.cycle, reply = cycle, 'S'
            elif name in ('WREN', 'WRDI') and len(self.frame) == 1 and self.status:
                self.status.enable = 1 if name == 'WREN' else 0
        self.frame, self.fact = None, None
        return reply

    def end(self):
        if not self.supply or not self.cycle:
            return '7'
        if self.cycle[0] == 'w':
            self.status = Status(self.cycle[1])
        self.status.enable, self.cycle = 0, None
        return 'E'

    # ---- channel L
    def line(self, word):
        if word == 'on':
            self.supply = True
        if word == 'off' and self.supply:
            self.supply = False
            if self.cycle and self.cycle[0] == 'w':
                self.status = None
            if self.status:
                self.status.enable = 0
            self.cycle = None
            if self.opened():
                self.void()
        if word == 'lock' and not self.lock:
            self.lock = True
            if self.fact is not None:
                self.fact = True
        if word == 'free':
            self.lock = False
        return ''

    def shown(self):
        fact = {None: '-', False: 'f', True: 'l'}[self.fact]
        if self.frame is None:
            frame = 'I'
        elif self.frame == 'void':
            frame = 'V'
        elif not self.frame:
            frame = 'O' + fact
        else:
            frame = LETTER[self.name()] + str(min(len(self.frame), 5)) + fact
        table, cycle = {}, '-'
        if self.cycle:
            kind = self.cycle[0]
            cycle = kind + {'p': lambda: '%03x' % self.cycle[1], 'x': lambda: str(self.cycle[1]), 'c': lambda: '', 'w': lambda: '%02x' % self.cycle[1]}[kind]()
            table = self.cycle[2] if kind == 'p' else {}
        elif self.opened() and self.frame and self.name() == 'PROGRAM' and len(self.frame) > 4:
            table = self.sent()[1]
        page = ''.join('%02x' % table.get(n, 0xff) for n in (0, 1, 254, 255))
        return ' %s %s %s %s\n' % (frame, cycle, '%02x' % self.status.byte() if self.status else '-', page)


WORDS = {'S': lambda c, b: c.sel(), 'X': lambda c, b: c.x(b), 'C': lambda c, b: c.cut(), 'D': lambda c, b: c.des(), 'E': lambda c, b: c.end(),
         'N': lambda c, b: c.line('on'), 'O': lambda c, b: c.line('off'), 'L': lambda c, b: c.line('lock'), 'F': lambda c, b: c.line('free')}


def played(script):
    """What a line of a script says: status, B, sector, W, then events."""
    chip, typed, out = Chip(int(script[0:2], 16), int(script[3:5], 16)), '00', ''
    for letter in script[6:]:
        if letter in '0123456789abcdef':
            typed = (typed + letter)[-2:]
        else:
            out += WORDS[letter](chip, int(typed, 16))
    return out + chip.shown()


def sends(*data):
    return ''.join('%02xX' % b for b in data)


def framed(*data):
    return 'S' + sends(*data) + 'D'


WREN = framed(0x06)
OPENED = {0x06: (0, 1, 2, 3), 0x04: (0, 1, 2, 3), 0x05: (0, 0, 0, 0), 0x01: (0x8c, 0, 0, 0), 0x03: (0, 0x7f, 0xff, 0), 0x02: (0, 0, 0xff, 0x11),
          0x52: (1, 0, 0, 0), 0x62: (0, 0, 0, 0), 0x15: (0, 0, 0, 0)}


def scripts():
    # every op-code, with write enable, and five bytes more, or none
    for code in range(256):
        yield '00B01W' + WREN + framed(code, 0x00, 0x01, 0xff, 0x5a, 0xa5) + framed(code)
    # every length of each instruction, both values of x
    for code in OPENED:
        for length in range(1, 7):
            yield '80B01W' + WREN + framed(*(code | 8, 0x0c, 0x00, 0xff, 0x11, 0x22)[:length])
    # the lock-out table
    for bits in (0x00, 0x04, 0x08, 0x0c):
        for place in (0x00, 0x7f), (0x00, 0x80), (0x01, 0x7f), (0x01, 0x80):
            yield '%02xB03W' % bits + WREN + framed(0x52, *place, 0x00)
            yield '%02xB03W' % bits + WREN + framed(0x0a, *place, 0xfe, 0x01, 0x02, 0x03)
        yield '%02xB03W' % bits + WREN + framed(0x62)
    # every event in every kind of frame
    for code, rest in OPENED.items():
        for count in (1, 2, 4, 5):
            before = '80B01W' + WREN + 'S' + sends(code, *rest[:count - 1])
            for event in ('07X33X44X', 'C', 'D', 'E', 'O', 'ONXD', 'L', 'LFD', 'F'):
                yield before + event
    for before in ('', 'S', 'S05XC', 'SffX'):
        for event in ('07X06XD' if before else '', 'C' if before in ('S', 'SffX') else '', 'D' if before else '', 'E', 'O', 'ON', 'L', 'F', 'OLN', 'OE'):
            if event:
                yield '80B01W' + WREN + before + event
    # in a cycle of each kind
    for cycle in (framed(0x62), framed(0x52, 0x01, 0x80, 0x00), framed(0x02, 0x01, 0x23, 0xfe, 1, 2, 3), framed(0x01, 0x8c)):
        for event in ('', 'E', 'EE', 'O', 'OE', 'SE', 'SEL', 'SE06XD', 'SE01X00XD', 'S05XE00X', 'S05X00XE00X', 'S03XE00X', 'SLE05X', 'S06XD', 'S05XD', 'SC', 'SO', 'SON05XD',
                      'ONS05X00XD', 'EON' + WREN + framed(0x62), 'ON' + WREN + framed(0x62), 'ONS03X00X00X07X00XDS15X00XD'):
            yield '00B01W' + WREN + cycle + event
    # the lock at every place of a WRSR frame
    for status in ('80', '00'):
        for at in range(6):
            for word in ('L', 'LF', 'OLN'):
                parts = ['', 'S', '01X', '0cX', 'D', '']
                yield status + 'B01W' + WREN + ''.join(p + (word if n == at else '') for n, p in enumerate(parts))
    # long ways, at random
    pick = random.Random(1)
    for turn in range(120):
        yield '%02xB%02xW' % (pick.choice((0x00, 0x04, 0x80, 0x8c)), pick.randrange(0, 6)) + wandering(pick)


def wandering(pick):
    """Records that are possible in this order."""
    out, selected, cut = '', False, False
    for turn in range(24):
        words = ['E', 'N', 'O', 'N', 'N', 'L', 'F', 'D' if selected else WREN]
        if not selected:
            words += ['S'] * 4
        elif not cut:
            words += ['C'] + ['X'] * 12
        word = pick.choice(words)
        selected, cut = (word == 'S' or (selected and word != 'D')), (word == 'C' or (cut and word != 'D'))
        if word == 'X':
            word = '%02xX' % pick.choice((0x05, 0x0e, 0x01, 0x03, 0x02, 0x0a, 0x52, 0x62, 0x15, 0x00, 0x01, 0xff, 0x7f))
        out += word
    return out


def main():
    lines = list(scripts())
    here = os.path.dirname(os.path.abspath(__file__))
    with open(os.path.join(here, 'stdin'), 'w') as f:
        f.write(''.join(line + '\n' for line in lines))
    with open(os.path.join(here, 'stdout'), 'w') as f:
        f.write(''.join(played(line) for line in lines))


if __name__ == '__main__':
    main()
