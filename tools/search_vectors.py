#!/usr/bin/env python3
"""Writes the calls of the search's test program and the lines that it must print.

usage: search_vectors.py DATA_FILE STDOUT_FILE [--bench FOLDER]

A call is `search JOBHEX RR`: the job in upper-case hexadecimal (`-` for an empty job) and
the length of the answer buffer. The test program fills byte i of the buffer with
(0xA0 + i) mod 256, calls the search and prints `refused N BUFFERHEX` or
`found L G C D ready T0 T1 T2 T3 T4 BUFFERHEX`, the buffer whole, `-` for an empty one. Headings start with `#`
and are echoed.

Expected values come from bench/brute.rs (every list of gates, every layout; no skipping), or
where that takes too long from document 01's theorem on odd tables over four wires, or from
bench/plain.rs; each call's source is counted on standard error. Both are compiled with
`rustc -O` into a temporary folder. inverse_vectors.py adds its pairs at the end of DATA_FILE, and is run after this.
"""
import argparse
import os
import subprocess
import sys
import tempfile

from jobs import LONG, NO_LIMIT, after, job, sbox
from reference import ready_words, split_job

HERE = os.path.dirname(os.path.abspath(__file__))
SAMPLE_ROWS = [0, 2, 1, 3, 4, 6, 5, 7]
ODD_TABLE = list(range(7)) + [15] + list(range(8, 15)) + [7]  # rows 7 and 15 exchanged
EXCHANGE_3_7 = [0, 1, 2, 7, 4, 5, 6, 3]
PROST, GIFT, LBLOCK, UBLOCK = (sbox(name) for name in ("PROST", "GIFT", "LBLOCK", "UBLOCK"))


# Jobs found by tools/mutants.py that show a wrong order of keys or a parity cut too wide.
PICKED = """
6402FFFF016B01010102FE010020000040001040
6C03FFFFFFFF0505050103042040330044504400
6402FFFFFFFF0402040104032210000044400000
8402003C0053FE00FFFF010110881140200011800000001000110000
6402FFFFFFFF0000000401016440104411114055
6403FFFFFFFF0101050204047071757677747273
6C02FFFF00080101010303044044404444404440
84020001FFFF00010002040100114400000010000000000000000080
8402FFFFFFFF010105010107E031B240E4D5B200C8881011CCC81000
8002000A0003010105010203F2F300F1F6F7F4F5FA00F8F9FE0000FD
8402000AFFFF0505040402030020C8118066007500C4EABA7380F9B8
8001FFFFFFFF020404010202F0606633E4C480E2D899DCDD30550099
""".split()
# Random jobs of bench/compare.py, every second one again with tightened limits.
RANDOM = """
8402FFFFFFFF030502FFFEFFB0D1E23344A8C4AAB864AAD5DCA866D9
64040000FFFF0000000204037076727477007173
6C02FFFFFFFFFE01FE0402020030737200665500
6403FFFFFFFFFF6464FF01FE3071627574737633
6403012C0100FF6464FF01FE3071627574737633
80030001FFFF000000010301F0F1F8F9F4F5FCFDF2F3FAFBF6F7FEFF
6802FFFFFFFF0200020403042031000040001051
80030006000301010503010370B1E2114466A02030E8222277002054
80030001000301010503010370B1E2114466A02030E8222277002054
8403022CFFFFFF6401FE0202F0F1F2F3F6F7F4F5F8F9FAFBFEFFFCFD
84030063FFFFFF6401FE0202F0F1F2F3F6F7F4F5F8F9FAFBFEFFFCFD
8C02FFFFFFFF010101010403F0F3F4F7F8FBFCFFF1F6F5F2F9FEFDFA
8C020001FFFF010101010403F0F3F4F7F8FBFCFFF1F6F5F2F9FEFDFA
6004FFFF00030101050101022211401022335530
6004000100030101050101022211401022335530
6C03FFFF000B0105040101046450200066225511
6C010000000B0105040101046450200066225511
6C03000200130000010101077270767473757771
6C02000200080000010101077270767473757771
6403000B00040101050101017071720074757376
6401000B00020101050101017071720074757376
6C030003FFFF000100FE02FF7270737176747775
8C02FFFFFFFF000100FFFE01A2A2D091C43390F522BBD8F92299ECB9
8C02FFFFFFFF010101030104F0F1F2F3F6F7F4F5FAFBF8F9FCFDFEFF
8C01FFFF0001010101030104F0F1F2F3F6F7F4F5FAFBF8F9FCFDFEFF
8802FFFF000901010501010700200040000000000011000000000010
88020001000101010501010700200040000000000011000000000010
8403FFFF0006030104040102F0F4F1F5FAFCF9FFF2F6F3F7F8FEFBFD
840300080004030104040102F0F4F1F5FAFCF9FFF2F6F3F7F8FEFBFD
84020008FFFF040305040101F0F1F8F9F3F2FAFBF4F5FCFDF7F6FEFF
84020008FFFF040305040101F0F1F8F9F3F2FAFBF4F5FCFDF7F6FEFF
6003FFFFFFFF0304000102FE7071727764743376
6003FFFF00FF0304000102FE7071727764743376
8403FFFFFFFF000002010107F2FFF6FBD1FAF7FEF0DDF4F9F1F8F5FC
84030001FFFF000002010107F2FFF6FBD1FAF7FEF0DDF4F9F1F8F5FC
8C020000FFFF00000001FFFEF0F9F2FBF4FDF6FFF8F1FAF3FCF5FEF7
8402015BFFFF6401FFFE01FEF0F1F3F2F4F5F7F6F8F9FBFAFDFCFEFF
6403FFFFFFFF0000000102027170406220554454
8402FFFFFFFF020501040303F0F7F2F5F6F1F4F3F8FFFAFDFEF9FCFB
6403FFFF023602030201FF017071727375777674
64030007023602030201FF017071727375777674
6004FFFFFFFF0101010204017677747172737075
6004000200020101010204017677747172737075
60040006FFFF030300FF02FF4032403154642262
60040003FFFF030300FF02FF4032403154642262
6403FFFF00150101050101077071767774727375
6403FFFF000E0101050101077071767774727375
8003FFFFFFFFFF6400010302F0FBF2F9F4FDF6FFFAF1F8F3FCF5FEF7
8003FFFF0007FF6400010302F0FBF2F9F4FDF6FFFAF1F8F3FCF5FEF7
6004FFFFFFFF0001000101047475737670777271
8403FFFF0006010105020204F5FDF7FFF1F9F3FBFCF4FEF6F8F0FAF2
88020002FFFF00000103020400440000000040000000000088000020
6403000AFFFF00030202FEFE2022202222202022
8C0200020003000001020102F0F9F3FAF4FDF7FEF8F1FBF2FCF5FFF6
6403FFFFFFFF0101050404012030662271323172
8802FFFFFFFF000000040401000000F3F4F5FEFFF8F9FA00FDFCF700
8C02FFFFFFFFFEFFFE030203E4E2E4E2ECEAECEAE0E6E0E6E8EEE8EE
8C02FFFFFFFF050200FF02FEF4FDF0F8F5FCF1F9F6FFF2FAF7FEF3FB
8C01FFFFFFFF050200FF02FEF4FDF0F8F5FCF1F9F6FFF2FAF7FEF3FB
6003FFFF00040000000201045051515055545455
6803000DFFFF0505020101020070710000747500
880201E0012D64FF000102FFB8B9BBBAB8B9BBBAB0B1B2B3B0B1B2B3
88020063012D64FF000102FFB8B9BBBAB8B9BBBAB0B1B2B3B0B1B2B3
6004FFFF03B8000403FEFE027073727100760075
600100060100000403FEFE027073727100760075
6403000CFFFF0101050301025033717077665574
6403000600060101050301025033717077665574
64040000FFFF0000000101073344642231623310
640402C0FFFFFFFF000101077172737075777476
6404018FFFFF0001640304047071747776727375
6404012CFFFF0001640304047071747776727375
6404FFFF00050502010203016466626660626460
6404FFFF00050502010203016466626660626460
""".split()
# Random jobs with an ancilla: the first twelve have an answer that uses it, the others one that would be another were it left dirty.
ANCILLA = """
8C03FFFF00BF01010102FF0250A240912066548030AAD8115411BA99
8C03FFFFFFFF00FF64020203F0F1F2F3F4F5F6FFF8F9FAFBFCFDFEF7
8C03012C000800FF64020203F0F1F2F3F4F5F6FFF8F9FAFBFCFDFEF7
8C03FFFFFFFF000000010201F0F1F2F3F4F5F6F7F8F9FAFBFCFFFEFD
8C030004FFFF010101020104F0F4E0F5F276F3F7D8EC71ECBAFEDDD9
8C030003FFFF010101020104F0F4E0F5F276F3F7D8EC71ECBAFEDDD9
8C03FFFF0006010105020401F0F1F2F3F4F5F6F7F8F9FAFFFCFDFEFB
8C03FFFF0003010105020401F0F1F2F3F4F5F6F7F8F9FAFFFCFDFEFB
8C030000FFFF010000010107F0F1F8F9F4F5FCFDF2F3FAFFF6F7FEFB
8C0200000014010000010107F0F1F8F9F4F5FCFDF2F3FAFFF6F7FEFB
6803FFFF000B0001000102047051626276557431
6803FFFF00050001000102047051626276557431
6C030004FFFF00010101FFFF2000403254517632
6C03FFFF00050101050102017071727374717673
6803FFFFFFFFFE01000102026071327354757255
8C02FFFFFFFF01FF64030401D071A2C030E4A222E8A81022DC75EE73
88020006013E010502FEFF025040623310F5226660C8D877549900FB
6C03FFFFFFFFFEFF000104043030323233333131
8802FFFF0003010105030301F0F1F2F3F4F5F6F7F8F9FAFBFCFDFFFE
8C03FFFF007100000002FF01F0F5F2F6F4F1F7F3F8FDFAFEFCF9FFFB
8803FFFF014F01030202FE01F0F1F2F300F5FEF7F800FA00FCFDF6FF
8802FFFFFFFF020202010107F0F1F2F3F4F5F6F7F8F9FAFBFCFDFFFE
6C02FFFFFFFF0064010101077072645571737476
8C02FFFFFFFF010501010107F0D1E2E2F4F5F6FFF8F9BAD9FCB9FEF7
6C03FFFFFFFF030500FF02FF7071727576777473
68030001000C0100000104027071727174757600
6803FFFF000C0204000101072020202022222222
6C03FFFFFFFF0001000201FE7273707177767574
""".split()
# Random longer jobs of bench/compare.py: sixteen answers have a gate of three controls; some again with tightened limits.
LONGER = """
8C02FFFFFFFF0164FEFE0201FE01F3F6F8F2F1F1F5F7F4FFF0F7F4FCF3F5
6803FFFFFFFF05020400040104020000000020001100
6003FFFF0004FEFF6400010204027476707275737771
8402FFFF0014010101000101070BF1F4F3F7F5F0F6F2F9FCFBFFFDF8FEFA
8C020001FFFF0101010104020202F0F8F1F9F4FCF7FF00FAF300F6FEF5FD
8001FFFF0007000100010101070B00A8B1F9E6CC3120C032A222A0A8C400
8C010005FFFF02030501FEFE01FEF0F1B2E276F7F4F5F8F9FAFBFEFFDCFD
6C0301BBFFFF000100FF010102017077747572737671
8003000301410000030501FF010150555055505550515451545154515554
6C01FFFFFFFFFE006400FE01FEFF7471707576737277
8801FFFFFFFF0404050101010102F0F8F1F9F2FAB3BBE4FCF5FDE6BAF7FF
6C0100010001000100010101070B7072717774767573
6002FFFF01E002040302FF0101FE7071747372777675
8402FFFFFFFF0100050204040302D4E676F5F073728074558875D8C8BA11
8403FFFFFFFF000000000101070BF8FC00FE0000F0F400FD00F500000000
6004001B000401010509020103027574767371707772
8403FFFFFFFF0000010004040401A8A8AAAAA8A0A2AAA0A0A2A2A0A8AAA2
84020000FFFF0000010004040401A8A8AAAAA8A0A2AAA0A0A2A2A0A8AAA2
8003FFFFFFFF0202020203040102FCDDFEFBF8B9FAFFB0F1F2F3D4F5F6F7
6003FFFFFFFF01FFFFFE020404013075727370715455
6C02FFFF01570000000001FE01025044111132225533
6C00FFFF01570000000001FE01025044111132225533
6004FFFFFFFF01010509FEFE01FE6031227730312251
6001FFFFFFFF01010509FEFE01FE6031227730312251
8003FFFFFFFF020202020202010100200080440000000020000088100000
6C020003000702000502010203037075727774717673
6803FFFFFFFFFF64FF01040404047071727374777675
8C030003FFFF010300010101070B202072A2E4444400A811224098EC0054
8C0300030006010300010101070B202072A2E4444400A811224098EC0054
8C02000100010100040101020303F3F8B2F3B2F3FBB1B0F4FEFBF4F5F6FB
6403FFFFFFFF01010101FE01FE013200506400403071
6404FFFF00046464FE010101070B7754603073723174
6802FFFFFFFF03010303040201037477767570737271
6802FFFF000403010303040201037477767570737271
8802FFFFFFFF0403000303010404F4F5F6F7F0F1F2F3FCFDFEFFF8F9FAFB
8802FFFFFFFF010105090403030160E09022903190001040501130313310
8003FFFFFFFF0000000002030104F0F1F2F7F4F5F6F3FAFFF8F9FBFEFCFD
8C02000B00090400050103010403F0F4F8FCF1F5F9FDF2F6FAFEF3FFFBF7
8802FFFFFFFF0101050902FEFF02F0F1F2F3F4F5F6FFFCFDFEF7F8F9FAFB
8C02FFFF00040300020502040202F0F8F4FCF2FAF6FEF1F9F5FDF3FFF7FB
8C01000400040300020502040202F0F8F4FCF2FAF6FEF1F9F5FDF3FFF7FB
8003000100080000000003020202B8E8FAF3FCFDFEFFE0F1B2FBE4F5F6F7
8003000100080000000003020202B8E8FAF3FCFDFEFFE0F1B2FBE4F5F6F7
8002FFFFFFFF010105090403030310403011D41110B1D8AA98205566FC44
8403FFFFFFFF03040301020202FEF0F5F2F7F8FDFFFEF4F1F6F3FCF9FBFA
84030007010203040301020202FEF0F5F2F7F8FDFFFEF4F1F6F3FCF9FBFA
84030003FFFF010101010103030370F1F2F3F4F5F6F7E8F9FAEAFCFDFFEE
80030014FFFF010105090402030100F1F200F4F5FEFFF8F9FAF3FC000000
88020031000500FF000002010304F0F1F2F3F4F5F6F7F8F9FAFFFCFDFEFB
88010006FFFF0105050502020401F0F1F2F3F4F5F6FFF8F9FAFBFCFDFEF7
8C030009FFFF0300050104020103508050A27491D4006011AA9920FF7675
6C03000502F4000404030202FFFE0000622210206662
""".split()


def placed(values, wires):
    """Output j read from wire wires[j]."""
    return [sum((value >> wire & 1) << j for j, wire in enumerate(wires)) for value in values]


def changed(record, **places):
    """The bytes with some replaced: b0=0x70 sets byte 0."""
    record = bytearray(record)
    for place, value in places.items():
        record[int(place[1:])] = value
    return bytes(record)


class Vectors:
    def __init__(self, brute, plain):
        self.brute, self.plain = brute, plain
        self.calls, self.lines, self.known, self.sources = [], [], {}, {}

    def heading(self, text):
        self.calls.append("# " + text)
        self.lines.append("# " + text)

    def solve(self, record, source):
        """The line of `main` for this job: `refused N`, or `found G C D RECORDHEX`."""
        if (record, source) not in self.known:
            if source == "theorem":
                line = "refused 14"
            else:
                command = [self.brute] if source == "brute" else [self.plain, "--rules", source]
                run = subprocess.run(command, input=record, stdout=subprocess.PIPE, check=True)
                line = run.stdout.decode().strip()
            self.known[record, source] = line
        return self.known[record, source]

    def search(self, record, room=15, source="brute"):
        words = self.solve(record, source).split()
        if words[0] == "refused" and words[1] != "14":
            words = words[:2]
        elif room < 15:
            words = ["refused", "13"]
        buffer = bytes((0xA0 + i) % 256 for i in range(room))
        if words[0] == "found":
            circuit = bytes.fromhex(words[4])
            buffer = circuit + buffer[len(circuit):]
            words = ["found", str(len(circuit))] + words[1:4] + [ready_words(circuit[3:], split_job(record)[1])]
        self.calls.append(f"search {record.hex().upper() or '-'} {room:02X}")
        self.lines.append(" ".join(words + [buffer.hex().upper() or "-"]))
        self.sources[source] = self.sources.get(source, 0) + 1


def samples(v):
    v.heading("document 01's samples: row list, limits 3 and 2, free layout")
    v.search(job(SAMPLE_ROWS, 3))
    v.search(job(SAMPLE_ROWS, 2))
    v.search(job(SAMPLE_ROWS, 3, free=1))
    v.search(job(SAMPLE_ROWS, 0, free=1))
    v.heading("exchange of rows 3 and 7, limit 1: an odd 3-bit table is found")
    v.search(job(EXCHANGE_3_7, 1))
    v.heading("exchange of rows 7 and 15, n = 4, m = 0: infeasible at every limit")
    for limit in range(13):
        v.search(job(ODD_TABLE, limit), source="brute" if limit <= 4 else "theorem")
    v.heading("the same with free layout, with other prices, with all limits 0")
    v.search(job(ODD_TABLE, 12, free=1), source="theorem")
    v.search(job(ODD_TABLE, 12, prices=(0, 0, 0)), source="theorem")
    v.search(job(ODD_TABLE, 12, cost=0, depth=0), source="theorem")
    v.heading("other odd 4-bit tables, full care masks, m = 0")
    inverse = [int(digit, 16) for digit in "062493D51EC78ABF"]
    v.search(job(inverse, 12), source="theorem")
    v.search(job(inverse, 12, free=1), source="theorem")
    v.search(job([1, 0] + list(range(2, 16)), 12), source="theorem")
    v.heading("no bit wanted, n = 3, limit 0; the same with free layout, n = 4, ancilla")
    for n, m, free in [(3, 0, 0), (3, 0, 1), (4, 0, 0), (4, 0, 1), (3, 1, 0), (4, 1, 1)]:
        v.search(job([0] * (1 << n), 0, m=m, free=free, masks=[0] * (1 << n)))
    v.heading("no bit wanted, limit 12")
    v.search(job([0] * 8, 12, masks=[0] * 8), source="full")
    v.search(job([0] * 16, 12, m=1, free=1, masks=[0] * 16), source="full")
    v.heading("n = 3, m = 1, every row wanting 0, limits 2, 1, 0")
    for limit in (2, 1, 0):
        v.search(job([0] * 8, limit, m=1))


def refusals(v):
    sample, wide = job(SAMPLE_ROWS, 3), job(list(range(16)), 1)
    v.heading("1: lengths 0, 1, 12, 19, 21, 27, 29, 40")
    for length in (0, 1, 12, 19, 21, 27, 29, 40):
        v.search((wide * 2)[:length])
    v.heading("1 before 2 and all others: 19 and 29 bytes of FF")
    v.search(b"\xff" * 19)
    v.search(b"\xff" * 29)
    v.heading("2: n = 4, 0, 7, 2, 5 with 20 bytes; n = 3, 0, 6 with 28")
    for first in (0x80, 0x00, 0xE0, 0x40, 0xA0):
        v.search(changed(sample, b0=first))
    for first in (0x60, 0x00, 0xC0):
        v.search(changed(wide, b0=first))
    v.heading("2 before 3, and before all others")
    v.search(changed(sample, b0=0x93))
    v.search(b"\xff" * 20)
    v.search(b"\xff" * 28)
    v.heading("3: m = 2, m = 3, either low bit, both")
    for first in (0x70, 0x78, 0x61, 0x62, 0x63, 0x74):
        v.search(changed(sample, b0=first))
    for first in (0x90, 0x98, 0x81, 0x8A):
        v.search(changed(wide, b0=first))
    v.heading("3 before 4 and 6")
    v.search(changed(sample, b0=0x70, b1=13, b12=0x80))
    v.heading("4: gate limits 13 and 255")
    v.search(changed(sample, b1=13))
    v.search(changed(wide, b1=255))
    v.heading("4 before 5 and 6")
    v.search(changed(sample, b1=13, b9=0, b19=0x01))
    v.heading("5: each duration 0, all of them")
    for place in ("b9", "b10", "b11"):
        v.search(changed(sample, **{place: 0}))
        v.search(changed(wide, **{place: 0}))
    v.search(changed(sample, b9=0, b10=0, b11=0))
    v.heading("5 before 6")
    v.search(changed(sample, b11=0, b12=0x01))
    v.heading("6: value outside the care mask, bit 3 of mask or value with n = 3; first and last row")
    for row in (0x01, 0x08, 0x80, 0x88, 0xF0, 0x78, 0x34, 0x6F):
        v.search(changed(sample, b12=row))
        v.search(changed(sample, b19=row))
    for row in (0x01, 0x78, 0xE1, 0x0F):
        v.search(changed(wide, b12=row))
        v.search(changed(wide, b27=row))
    v.heading("bit 3 is lawful with n = 4; a wholly unwanted row is lawful")
    v.search(changed(wide, b12=0x80))
    v.search(changed(wide, b27=0x00))


def buffers(v):
    sample, swap = job(SAMPLE_ROWS, 3), job(EXCHANGE_3_7, 1)
    none, broken = job(SAMPLE_ROWS, 2), changed(job(SAMPLE_ROWS, 3), b1=13)
    v.heading("13: buffers of 0, 1, 6 and 14 bytes, though the answer would fit in 6")
    for room in (0, 1, 6, 14):
        v.search(sample, room)
    v.heading("buffers of 15, 16, 64 and 255 bytes: later bytes keep")
    for room in (15, 16, 64, 255):
        v.search(sample, room)
    v.search(swap, 64)
    v.search(job(list(range(8)), 0), 15)
    v.search(job(list(range(8)), 0), 0)
    v.heading("the job's numbers before 13")
    v.search(b"", 0)
    v.search(b"", 14)
    v.search(broken, 0)
    v.search(broken, 14)
    v.search(changed(sample, b12=0x01), 14)
    v.heading("13 before 14")
    v.search(none, 0)
    v.search(none, 14)
    v.search(job(ODD_TABLE, 12), 14, source="theorem")
    v.search(job(ODD_TABLE, 12), 0, source="theorem")
    v.heading("refusals keep every byte of longer buffers")
    v.search(none, 64)
    v.search(broken, 64)
    v.search(b"", 16)
    v.search(job(ODD_TABLE, 12), 64, source="theorem")


def limits(v):
    v.heading("limits met exactly and missed by one: exchange 3/7, gates 1 and 0, cost 5 and 4, depth 7 and 6")
    v.search(job(EXCHANGE_3_7, 1, cost=5, depth=7))
    v.search(job(EXCHANGE_3_7, 0))
    v.search(job(EXCHANGE_3_7, 1, cost=4))
    v.search(job(EXCHANGE_3_7, 1, depth=6))
    v.heading("gates 3 within 3, 4, 5 and 6")
    for limit in (4, 5, 6):
        v.search(job(SAMPLE_ROWS, limit))
    v.heading("cost 3 and 2, depth 3 and 2 for the sample")
    for cost, depth in ((3, 3), (2, 3), (3, 2), (0, 3), (3, 0)):
        v.search(job(SAMPLE_ROWS, 4, cost=cost, depth=depth))
    v.heading("a depth limit that only a dearer list keeps: gate 21, durations 1 255 1")
    for depth in (255, 254, 4, 3):
        v.search(job(after([0x21], 3), 4, depth=depth, durations=(1, 255, 1)))
    v.search(job(after([0x21], 3), 4, cost=11, depth=254, durations=(1, 255, 1)))
    v.heading("limits above 255, and whose low byte alone would do or would not")
    doubled = after([0x43, 0x25], 3)
    for cost, depth in ((510, 510), (509, 510), (510, 509), (0x1FE, NO_LIMIT), (0xFE, NO_LIMIT)):
        v.search(job(doubled, 3, cost=cost, depth=depth, prices=(255, 255, 255), durations=(255, 255, 255)))
    v.heading("parallel depth: x xor 3 within depth 1; n = 4, four NOTs; two CNOTs apart and on one wire")
    v.search(job([x ^ 3 for x in range(8)], 2, depth=1))
    v.search(job([x ^ 15 for x in range(16)], 4, depth=1))
    v.search(job([x ^ 15 for x in range(16)], 4, depth=0))
    v.search(job([x ^ 15 for x in range(16)], 3))
    v.search(job(after([0x21, 0x62], 4), 3, depth=2))
    v.search(job(after([0x21, 0x62], 4), 3, depth=1))
    v.search(job(after([0x21, 0x61], 4), 2, depth=1))
    v.search(job(after([0x21, 0x48], 4), 2, depth=1))
    v.heading("cost and depth limit 0")
    v.search(job(list(range(8)), 3, cost=0, depth=0))
    v.search(job([x ^ 1 for x in range(8)], 3, cost=0))
    v.search(job([x ^ 1 for x in range(8)], 3, cost=0, prices=(0, 1, 1)))
    v.search(job([x ^ 1 for x in range(8)], 3, depth=0))


def order(v):
    cnot = after([0x21], 3)
    v.heading("a longer list is cheaper: gate 21, prices 0 5 1, limits 0 to 5")
    for limit in range(6):
        v.search(job(cnot, limit, prices=(0, 5, 1)))
    v.heading("the same with a cost limit of 4 and a depth limit of 15")
    v.search(job(cnot, 3, prices=(0, 5, 1), cost=4))
    v.search(job(cnot, 4, prices=(0, 5, 1), depth=15))
    v.heading("a Toffoli dearer than any other list, n = 4 with an ancilla")
    v.search(job(after([0x43], 3), 5, prices=(1, 1, 255)))
    v.search(job(after([0x21, 0x41], 4), 3, prices=(9, 2, 1)))
    v.search(job(after([0x21], 3), 3, m=1, prices=(0, 5, 1)))
    v.heading("ties of cost decided by gates: NOTs cost 0, then all prices 0")
    v.search(job([x ^ 1 for x in range(8)], 5, prices=(0, 1, 1)))
    v.search(job(SAMPLE_ROWS, 5, prices=(0, 0, 0)))
    v.search(job(list(range(8)), 6, prices=(0, 0, 0)))
    v.search(job(list(range(16)), 4, prices=(0, 0, 0), free=1))
    v.search(job(EXCHANGE_3_7, 5, prices=(0, 0, 0)))
    v.search(job(cnot, 5, prices=(0, 2, 1)))
    v.search(job(cnot, 4, prices=(0, 0, 0), durations=(1, 255, 1)))
    v.search(job(cnot, 4, prices=(0, 2, 1), durations=(1, 255, 1)))
    v.heading("ties of cost and gates decided by depth: unit durations, several orders of one list")
    v.search(job(after([0x61, 0x41, 0x28], 4), 3, durations=(1, 1, 1)))
    v.search(job(after([0x41, 0x61, 0x28], 4), 4, durations=(1, 1, 1)))
    v.search(job(after([0x28, 0x2C, 0x00, 0x04], 4), 4, durations=(1, 2, 7)))
    v.search(job(after([0x21, 0x41, 0x20], 3), 4, durations=(3, 2, 1)))
    v.heading("ties decided by the layout, which stands before the bytes")
    half = [0b001] * 8
    v.search(job([x & 1 for x in range(8)], 2, free=1, masks=half))
    v.search(job([x >> 1 & 1 for x in range(8)], 2, free=1, masks=half))
    v.search(job([x >> 2 & 1 for x in range(8)], 2, free=1, masks=half))
    v.search(job([(x & 1) ^ 1 for x in range(8)], 2, free=1, masks=half))
    v.search(job([(x ^ x >> 1) & 1 for x in range(8)], 2, free=1, masks=half))
    v.search(job([(x ^ x >> 3) & 1 for x in range(16)], 2, free=1, masks=[1] * 16))
    v.search(job([(x ^ x >> 3) << 3 & 8 for x in range(16)], 2, free=1, masks=[8] * 16))
    v.search(job(after([0x21, 0x02], 3), 3, free=1))
    v.heading("ties decided by the gate bytes alone")
    v.search(job([x ^ 7 for x in range(8)], 3))
    v.search(job([x ^ 7 for x in range(8)], 5))
    v.search(job(after([0x41, 0x21], 3), 3))
    v.search(job(after([0x66, 0x41, 0x20], 4), 3))
    v.search(job([0] * 8, 3, m=1, masks=[1] + [0] * 7))
    v.search(job([1] * 8, 2, masks=[1, 0, 0, 0, 0, 0, 1, 0]))
    v.heading("prices of 0 by kind")
    for prices in ((0, 1, 5), (1, 0, 5), (1, 1, 0), (0, 0, 1), (0, 1, 0), (1, 0, 0)):
        v.search(job(after([0x20, 0x41, 0x06], 3), 4, prices=prices))
    v.heading("durations of 255 and 254")
    for durations in ((255, 255, 255), (255, 1, 1), (1, 255, 1), (1, 1, 255), (254, 255, 1)):
        v.search(job(after([0x20, 0x41, 0x06], 3), 4, durations=durations))
    v.search(job(after([0x43, 0x25, 0x06], 3), 3, durations=(255, 255, 255), prices=(255, 255, 255)))


def care(v):
    v.heading("unwanted rows: row 3 wants 7, row 7 unwanted; row 7 wants 3, row 3 unwanted")
    masks = [7] * 7 + [0]
    v.search(job(EXCHANGE_3_7, 1, masks=masks))
    v.search(job(EXCHANGE_3_7, 0, masks=masks))
    v.search(job(EXCHANGE_3_7, 1, masks=[7, 7, 7, 0, 7, 7, 7, 7]))
    v.search(job(list(range(8)), 0, masks=[7, 0, 7, 0, 7, 0, 7, 0]))
    v.search(job([7] * 8, 3, masks=[0, 0, 0, 0, 0, 0, 7, 0]))
    v.search(job([7] * 8, 3, masks=[7, 0, 0, 0, 0, 0, 7, 0]))
    v.heading("unwanted bits: one output, two outputs, scattered")
    v.search(job(after([0x43], 3), 2, masks=[4] * 8))
    v.search(job(after([0x43], 3), 2, masks=[3] * 8))
    v.search(job(after([0x43, 0x21], 3), 3, masks=[6] * 8))
    v.search(job(after([0x43, 0x21], 3), 3, masks=[7, 6, 5, 4, 3, 2, 1, 0]))
    v.search(job(after([0x25, 0x40, 0x06], 3), 4, masks=[1, 2, 4, 7, 7, 4, 2, 1]))
    v.search(job(after([0x66, 0x0C, 0x21], 4), 3, masks=[15, 8, 4, 2, 1, 0, 7, 11, 13, 14, 3, 12, 15, 15, 9, 6]))
    v.search(job(after([0x66, 0x0C, 0x21], 4), 3, masks=[8] * 16))
    v.search(job(after([0x66, 0x0C, 0x21], 4), 3, masks=[15] * 8 + [0] * 8))
    v.search(job(ODD_TABLE, 3, masks=[15] * 15 + [0]))
    v.search(job(ODD_TABLE, 3, masks=[15] * 15 + [14]))
    v.search(job(ODD_TABLE, 4, masks=[15] * 7 + [0] + [15] * 7 + [0]))
    v.search(job(ODD_TABLE, 3, masks=[7] * 16))
    v.search(job(ODD_TABLE, 3, masks=[8] * 16))
    v.search(job(ODD_TABLE, 3, free=1, masks=[15] * 15 + [7]))
    v.heading("values that are no permutation: infeasible at m = 0, whole or in one output")
    v.search(job([0] * 8, 4))
    v.search(job([0] * 16, 3))
    v.search(job([0, 0, 2, 3, 4, 5, 6, 7], 4))
    v.search(job([x & 7 for x in range(16)], 3, free=1))
    v.search(job([x & x >> 1 & 1 for x in range(8)], 5, masks=[1] * 8))
    v.heading("two outputs must not share a wire")
    for limit in range(4):
        v.search(job([3 * (x & 1) for x in range(8)], limit, free=1, masks=[3] * 8))
    v.search(job([3 * (x & 1) for x in range(8)], 2, m=1, free=1, masks=[3] * 8))
    v.search(job([3 * (x & 1) for x in range(8)], 3, m=1, free=1, masks=[3] * 8))


def layouts(v):
    v.heading("each of the six layouts for n = 3, found with no gate; fixed: not within 0")
    for wires in ((0, 1, 2), (0, 2, 1), (1, 0, 2), (1, 2, 0), (2, 0, 1), (2, 1, 0)):
        v.search(job(placed(list(range(8)), wires), 2, free=1))
        v.search(job(placed(list(range(8)), wires), 0))
    v.heading("layouts for n = 4")
    for wires in ((3, 2, 1, 0), (1, 2, 3, 0), (3, 0, 1, 2), (2, 3, 0, 1), (0, 1, 3, 2)):
        v.search(job(placed(list(range(16)), wires), 2, free=1))
    v.search(job(placed(list(range(16)), (3, 2, 1, 0)), 3))
    v.heading("gates and a layout together")
    v.search(job(placed(after([0x43], 3), (2, 0, 1)), 2, free=1))
    v.search(job(placed(after([0x43, 0x25], 3), (1, 2, 0)), 3, free=1))
    v.search(job(placed(after([0x21, 0x4A], 4), (3, 1, 0, 2)), 3, free=1))
    v.search(job(placed(after([0x63, 0x0C, 0x29], 4), (2, 3, 1, 0)), 3, free=1))
    v.search(job(placed(after([0x21], 3), (1, 0, 2)), 2, m=1, free=1))
    v.search(job(placed(after([0x43, 0x66], 4), (3, 0, 2, 1)), 2, m=1, free=1))
    v.heading("PROST free: 4 gates, not 3; fixed: not within 3, 4, 5")
    v.search(job(PROST, 4, free=1))
    v.search(job(PROST, 3, free=1))
    v.search(job(PROST, 4, free=1, cost=20, depth=28))
    v.search(job(PROST, 4, free=1, cost=19))
    v.search(job(PROST, 4, free=1, depth=27))
    v.search(job(PROST, 4, free=1, prices=(1, 1, 1), durations=(1, 1, 1)))
    v.search(job(PROST, 3))
    v.search(job(PROST, 4))
    v.search(job(PROST, 5))
    v.heading("GIFT: not within 4 or 5 gates")
    v.search(job(GIFT, 4, free=1))
    v.search(job(GIFT, 5))


def ancillas(v):
    v.heading("an ancilla goes back clean, n = 4: exchange of rows 7 and 15, limits 0 to 3, none within 2")
    for limit in range(4):
        v.search(job(ODD_TABLE, limit, m=1))
    v.search(job(ODD_TABLE, 3, m=1, cost=15, depth=21))
    v.search(job(ODD_TABLE, 3, m=1, cost=14))
    v.search(job(ODD_TABLE, 3, m=1, depth=20))
    v.search(job(ODD_TABLE, 3, m=1, free=1))
    v.search(job(ODD_TABLE, 3, m=1, prices=(1, 1, 1), durations=(1, 1, 1)))
    v.search(job(ODD_TABLE, 3, m=1, masks=[8] * 16))
    v.heading("n = 3: only bit 0 wanted, 0, limits 4 to 1: none, since the ancilla would keep what wire 0 had")
    for limit in (4, 3, 2, 1):
        v.search(job([0] * 8, limit, m=1, masks=[1] * 8))
    v.heading("few rows wanted, with an ancilla")
    v.search(job([0] * 8, 3, m=1, masks=[0, 1] * 4))
    v.search(job([0] * 8, 3, m=1, masks=[0, 1, 0, 0, 0, 0, 0, 0]))
    v.search(job([0] * 8, 3, m=1, masks=[0, 1, 0, 1, 0, 0, 0, 0]))
    v.search(job([0] * 16, 2, m=1, masks=[0] * 15 + [15]))
    v.search(job([0] * 16, 3, m=1, masks=[1, 1] + [0] * 14))
    v.heading("a product made, used and unmade: three Toffolis on five wires; on four one does")
    v.search(job(after([0x83, 0x74, 0x83], 4, m=1), 3, m=1))
    v.search(job(after([0x86, 0x18, 0x86], 4, m=1), 3, m=1, prices=(1, 2, 3)))
    v.search(job(after([0x63, 0x48, 0x63], 3, m=1), 4, m=1))
    v.search(job(after([0x63, 0x28, 0x48, 0x63], 3, m=1), 4, m=1, prices=(1, 1, 5)))
    v.heading("random jobs with an ancilla, all shapes of care masks")
    for record in ANCILLA:
        v.search(bytes.fromhex(record))
    v.heading("an ancilla that isn't needed stays out")
    v.search(job(SAMPLE_ROWS, 3, m=1))
    v.search(job(SAMPLE_ROWS, 2, m=1))
    v.search(job(SAMPLE_ROWS, 3, m=1, free=1))
    v.search(job(EXCHANGE_3_7, 1, m=1))
    v.search(job(after([0x43, 0x0C], 4), 2, m=1))
    v.search(job(list(range(16)), 2, m=1))
    v.heading("an ancilla that shortens the depth or makes the list cheaper")
    v.search(job(after([0x41, 0x21, 0x61], 4), 3, m=1, durations=(1, 1, 1)))
    v.search(job(after([0x43, 0x25], 3), 4, m=1, prices=(1, 1, 5)))
    v.search(job([x & x >> 1 & 1 for x in range(8)], 3, m=1, masks=[1] * 8))
    v.search(job([(x & x >> 1 & 1) * 2 for x in range(8)], 3, m=1, masks=[2] * 8))
    v.search(job([x & x >> 1 & x >> 2 & 1 for x in range(16)], 3, m=1, masks=[1] * 16))
    v.search(job([(x & x >> 1 & 1) << 3 for x in range(16)], 3, m=1, masks=[8] * 16))
    v.heading("an ancilla is no data wire: a layout never names it")
    v.search(job([0] * 8, 1, m=1, free=1, masks=[4] * 8))
    v.search(job([0] * 8, 2, m=1, free=1, masks=[4] * 8))
    v.search(job([0] * 16, 1, m=1, free=1, masks=[1] * 16))
    v.search(job([0] * 16, 2, m=1, free=1, masks=[1] * 16))


def small_tables(v):
    v.heading("3-bit tables of 1 to 6 gates, even and odd, prices 1 1 1 and 1 1 5")
    lists = ([0x06], [0x43, 0x25], [0x43, 0x20, 0x06], [0x25, 0x43, 0x06, 0x41],
             [0x06, 0x21, 0x43, 0x02, 0x24], [0x43, 0x25, 0x06, 0x43, 0x20, 0x02])
    for gates in lists:
        for prices in ((1, 1, 1), (1, 1, 5)):
            v.search(job(after(gates, 3), min(len(gates) + 1, 6), prices=prices))
            v.search(job(after(gates, 3), len(gates) - 1, prices=prices))
    v.heading("the same with free layout and unit durations")
    for gates in lists[:5]:
        v.search(job(after(gates, 3), len(gates), free=1, prices=(2, 1, 3), durations=(1, 1, 1)))
    v.heading("4-bit tables of 1 to 4 gates, and one more wire")
    for gates in ([0x60], [0x66, 0x0C], [0x43, 0x2C, 0x61], [0x0A, 0x49, 0x21, 0x60]):
        v.search(job(after(gates, 4), len(gates)))
        v.search(job(after(gates, 4), len(gates) - 1))
        v.search(job(after(gates, 4), min(len(gates), 3), m=1, prices=(3, 2, 1)))
    v.heading("five gates on four wires; three on five that leave the ancilla dirty, and whose table wants more")
    five = after([0x0A, 0x49, 0x21, 0x66, 0x2C], 4)
    v.search(job(five, 5))
    v.search(job(five, 4))
    v.search(job(five, 5, cost=20))
    v.search(job(after([0x83, 0x74, 0x0C], 4, m=1), 3, m=1))
    v.search(job(after([0x83, 0x74, 0x30], 4, m=1), 3, m=1, free=1, prices=(1, 2, 3)))
    v.search(job(after([0x63, 0x4A, 0x28], 3, m=1), 3, m=1))
    v.heading("every gate of three wires alone, and the first, the last and some others of four and five")
    for gate in (0x00, 0x02, 0x04, 0x06, 0x20, 0x21, 0x24, 0x25, 0x40, 0x41, 0x42, 0x43):
        v.search(job(after([gate], 3), 1))
    for gate in (0x00, 0x0C, 0x28, 0x4A, 0x60, 0x66):
        v.search(job(after([gate], 4), 1))
        v.search(job(after([gate], 4), 1, m=1))


def random_jobs(v):
    v.heading("jobs that show a wrong order of keys or a parity cut too wide")
    for record in PICKED:
        v.search(bytes.fromhex(record))
    v.heading("random jobs, every second one again with limits at or one below its measures")
    for record in RANDOM:
        v.search(bytes.fromhex(record))


def marked(line):
    """The line with the mark in its record."""
    *words, record = line.split()
    return " ".join(words + [f"{int(record[:2], 16) | 1:02X}{record[2:]}"]) if words[0] == "found" else line


def longer(v):
    v.heading("longer jobs: exchange of rows 7 and 15, n = 4, m = 0: one gate of three controls; none within 0 gates, cost 8, depth 10")
    v.search(job(ODD_TABLE, 1, **LONG))
    for limit in (0, 2, 3):
        v.search(job(ODD_TABLE, limit, **LONG))
    v.search(job(ODD_TABLE, 1, cost=9, depth=11, **LONG))
    v.search(job(ODD_TABLE, 2, cost=8, **LONG))
    v.search(job(ODD_TABLE, 2, depth=10, **LONG))
    v.search(job(ODD_TABLE, 3, free=1, **LONG))
    v.search(job(ODD_TABLE, 12, **LONG), source="full")
    v.heading("other odd tables on four data wires: of 3, 5 and 7 gates")
    v.search(job(after([0x08, 0x67, 0x08], 4), 3, **LONG))
    v.search(job(after([0x00, 0x20, 0x67, 0x00, 0x20], 4), 5, **LONG), source="max")
    v.search(job([1, 0] + list(range(2, 16)), 7, **LONG), source="max")
    v.search(job([1, 0] + list(range(2, 16)), 6, **LONG), source="max")
    v.heading("the same exchange with an ancilla: by price one gate of three controls or three Toffolis")
    for price in (9, 14, 15, 16):
        v.search(job(ODD_TABLE, 3, m=1, prices=(1, 1, 5, price), durations=(1, 1, 7, 11)))
    v.search(job(ODD_TABLE, 3, m=1, prices=(0, 0, 0, 0), durations=(1, 1, 7, 21)))
    v.search(job(ODD_TABLE, 3, m=1, prices=(0, 0, 0, 1), durations=(1, 1, 1, 255)))
    v.heading("each gate of three controls alone, on four wires and on five; on three data wires and an ancilla")
    for gate in (0x0E, 0x2D, 0x4B, 0x67):
        v.search(job(after([gate], 4), 1, **LONG))
        v.search(job(after([gate], 4), 2, m=1, **LONG))
    for gate in (0x0E, 0x2D, 0x4B):
        v.search(job(after([0x60, gate, 0x60], 3, m=1), 3, m=1, prices=(0, 0, 9, 1), durations=(1, 1, 7, 11)))
        v.search(job(after([gate], 3, m=1), 2, m=1, **LONG))
    v.search(job(list(range(8)), 2, m=1, masks=[0] * 8, **LONG))
    v.heading("answers without such a gate are marked too: document 01's samples with prices and durations of four kinds")
    for n, m in ((3, 0), (3, 1), (4, 0), (4, 1)):
        v.search(job(list(range(1 << n)), 1, m=m, **LONG))
    v.search(job(SAMPLE_ROWS, 3, **LONG))
    v.search(job(SAMPLE_ROWS, 2, **LONG))
    v.search(job(SAMPLE_ROWS, 3, free=1, **LONG))
    v.search(job(EXCHANGE_3_7, 1, **LONG))
    v.search(job([0] * 8, 0, masks=[0] * 8, **LONG))
    v.search(job([0] * 8, 2, m=1, **LONG))
    v.heading("one gate of three controls for a longer list that is cheaper, and the other way round")
    for prices in ((1, 1, 5, 9), (1, 1, 5, 255), (0, 0, 0, 1), (1, 1, 1, 0), (255, 255, 255, 255)):
        v.search(job(after([0x43, 0x66, 0x43], 4), 4, prices=prices, durations=(1, 1, 7, 11)), source="full")


def longer_refusals(v):
    three, four = job(SAMPLE_ROWS, 3, **LONG), job(list(range(16)), 1, **LONG)
    v.heading("1 for a longer job: lengths 21, 23, 29, 31")
    v.search(three[:21])
    v.search(three + b"\0")
    v.search(four[:29])
    v.search(four + b"\0")
    v.heading("2: n = 4 with 22 bytes, n = 3 with 30; 3, 4, 5 (each duration), 6 (first row and last)")
    for sound, other in ((three, 0x80), (four, 0x60)):
        v.search(changed(sound, b0=other))
        for low in (0x10, 0x01, 0x02):
            v.search(changed(sound, b0=sound[0] | low))
        v.search(changed(sound, b1=13))
        for place in ("b10", "b11", "b12", "b13"):
            v.search(changed(sound, **{place: 0}))
        v.search(changed(sound, b14=0x01))
        v.search(changed(sound, **{f"b{len(sound) - 1}": 0x08}))
    v.heading("two rules broken: the earlier is told; 13 after the job's, before 14")
    v.search(changed(three, b0=0x93))
    v.search(changed(three, b0=0x70, b1=13))
    v.search(changed(three, b1=13, b13=0))
    v.search(changed(four, b13=0, b29=0x08))
    v.search(changed(four, b29=0x08), 14)
    v.search(three, 14)
    v.search(job(ODD_TABLE, 0, **LONG), 14)
    v.search(job(ODD_TABLE, 0, **LONG), 16)
    v.search(job(ODD_TABLE, 1, **LONG), 64)


def out_of_reach(v):
    v.heading("shorter jobs, and longer ones whose fourth price is above the cost limit: the same but for the mark")
    records = [bytes.fromhex(record) for record in PICKED + RANDOM[:40:4] + ANCILLA[:20:4]]
    for record in records:
        if record[1] <= 3:
            shorter = record[:2] + min(int.from_bytes(record[2:4], "big"), 254).to_bytes(2, "big") + record[4:]
            four = shorter[:9] + b"\xff" + shorter[9:12] + b"\x01" + shorter[12:]
            assert v.solve(four, "brute") == marked(v.solve(shorter, "brute")), record.hex()
            v.search(shorter)
            v.search(four)


def longer_random(v):
    v.heading("random longer jobs")
    for record in LONGER:
        v.search(bytes.fromhex(record))
    v.heading("longer jobs of real S-boxes: UBLOCK and GIFT at prices 1,1,5,9 and 1,1,1,1")
    for prices in ((1, 1, 5, 9), (1, 1, 1, 1)):
        for table, free in ((UBLOCK, 0), (GIFT, 1)):
            v.search(job(table, 8, free=free, prices=prices, durations=(1, 1, 7, 11)), source="max")


def sboxes(v):
    """Expected: plain.rs at its other level, which has rules that the program does not have."""
    v.heading("real S-boxes at gate limit 12: 8 gates, and LBLOCK with fixed layout 9; prices 1,1,1 and 1,1,5")
    for table, layouts in ((GIFT, (1,)), (LBLOCK, (0, 1)), (UBLOCK, (0, 1))):
        for free in layouts:
            for prices in ((1, 1, 1), (1, 1, 5)):
                v.search(job(table, 12, free=free, prices=prices), source="max")
    v.heading("the same within cost 23, and within depth 30: none; UBLOCK at prices 0,0,1 and 3,2,2")
    v.search(job(UBLOCK, 8, cost=23), source="max")
    v.search(job(UBLOCK, 8, depth=30), source="max")
    v.search(job(UBLOCK, 8, prices=(0, 0, 1)), source="max")
    v.search(job(UBLOCK, 8, prices=(3, 2, 2)), source="max")


def main():
    parser = argparse.ArgumentParser()
    parser.add_argument("data")
    parser.add_argument("stdout")
    parser.add_argument("--bench", default=os.path.join(os.path.dirname(HERE), "bench"))
    args = parser.parse_args()
    with tempfile.TemporaryDirectory() as folder:
        programs = []
        for name in ("brute", "plain"):
            programs.append(os.path.join(folder, name))
            subprocess.run(["rustc", "-O", "-o", programs[-1], os.path.join(args.bench, name + ".rs")], check=True)
        vectors = Vectors(*programs)
        for part in (samples, refusals, buffers, limits, order, care, layouts, ancillas, small_tables,
                     random_jobs, sboxes, longer, longer_refusals, out_of_reach, longer_random):
            part(vectors)
    for path, lines in ((args.data, vectors.calls), (args.stdout, vectors.lines)):
        os.makedirs(os.path.dirname(os.path.abspath(path)), exist_ok=True)
        with open(path, "w", newline="\n") as file:
            file.write("\n".join(lines) + "\n")
    count = sum(vectors.sources.values())
    print(f"{count} calls, by source: {vectors.sources}", file=sys.stderr)


if __name__ == "__main__":
    main()
