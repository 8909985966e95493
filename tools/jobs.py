"""Jobs and tables that the scripts of tools/ and bench/ share."""

NO_LIMIT = 0xFFFF
LONG = dict(prices=(1, 1, 5, 9), durations=(1, 1, 7, 11))  # of a longer job
# Tables of the source documents 002 and 003, one digit a row. M is 002's linear map. LAC's table is LBLOCK's.
SBOXES = {
    "GIFT": "1A4C6F392DB7508E",
    "PRESENT": "C56B90AD3EF84712",
    "RECTANGLE": "65CA1E79B03D8F42",
    "SKINNY": "C6901A2B385D4E7F",
    "MIDORI": "CAD3EBF789150246",
    "ELEPHANT": "EDB0214F7A859C36",
    "LBLOCK": "E9F0D4AB128376C5",
    "LAC": "E9F0D4AB128376C5",
    "UBLOCK": "749CBAD8FE160325",
    "PROST": "048F15E927ACBD63",
    "PICCOLO": "E4B238091A7F6C5D",
    "M": "093A6F5CD4E7B281",
    "inverse": "062493D51EC78ABF",
}
# Tables of three bits. The sources print none: these are ours.
THREE_BITS = {
    "exchanged bits": "02134657",
    "exchanged rows": "01274563",
    "mixed": "51426730",
}
# Of 003's Tables 6 to 9: the row's name and the table's number; and of its Table D2.
RELATED = {
    "PICCOLO/6": "084E1F592A7BD3C6",
    "SKINNY/6": "08172D3A4CF9EB56",
    "PRESENT/6": "01874DCB239EA5F6",
    "RECTANGLE/6": "082E1F93C7A5D46B",
    "LAC/6": "01894DEB2F7A635C",
    "GIFT/6": "081F2E394DA57CB6",
    "PROST/7": "20F831ADE45C976B",
    "PICCOLO/7": "8C7204ADB36F1E95",
    "SKINNY/7": "276DFAC3014E89B5",
    "PRESENT/7": "8C7204ADB36F1E95",
    "RECTANGLE/7": "405863AED1B7F2C9",
    "LAC/7": "8A0D9B72C643F51E",
    "GIFT/7": "2349017EAFC5B68D",
    "G0/8": "04261F7C8EDB95A3",
    "G1/8": "082E1F93C7A5D46B",
    "G2/8": "018E47C923B5FD6A",
    "G4/8": "092A18764FE5DBC3",
    "G5/8": "042F1B9E86A5DC73",
    "G7/8": "0D192A7C48FEB653",
    "G13/8": "042A8CD71F35BE69",
    "G0/9": "8BC5F6A9014E237D",
    "G1/9": "8C7204ADB36F1E95",
    "G2/9": "405B637AC8F19E2D",
    "G4/9": "19FA5CBD082E7634",
    "G5/9": "2A053D1E6CB849F7",
    "G7/9": "46FE59AD038CB127",
    "G8/9": "20F831ADE45C976B",
    "G13/9": "109B783CD45E6FA2",
    "S1/D2": "084E2A7D1F59C3B6",
    "S2/D2": "04158B392EF6A7CD",
    "S3/D2": "08471BDC265A3FE9",
    "S4/D2": "10983ACF5E6D74B2",
    "S5/D2": "47096C8AD2BEF135",
    "S6/D2": "4501C3A86F7DEB92",
}
# Of 003's Table C1: a table of each affine class.
CLASSES = {
    "G0": "012D47F68BC93EA5",
    "G1": "012D47F68BE359AC",
    "G2": "012D47F68BE3AC59",
    "G3": "012D47F68C53AEB9",
    "G4": "012D47F68C9BAE53",
    "G5": "012D47F68CB9AE35",
    "G6": "012D47F68CB9AE53",
    "G7": "012D47F68CEBA935",
    "G8": "012D47F68E95AB3C",
    "G9": "012D47F68EB359AC",
    "G10": "012D47F68EB5A93C",
    "G11": "012D47F68EBA59C3",
    "G12": "012D47F68EBA93C5",
    "G13": "012D47F68EC95BA3",
    "G14": "012D47F68ECB395A",
    "G15": "012D47F68ECB93A5",
}
TABLES = {**SBOXES, **THREE_BITS, **RELATED, **CLASSES}


def sbox(name):
    return [int(digit, 16) for digit in TABLES[name]]


def by_table(tables):
    """The tables with all their names, equal tables together."""
    names = {}
    for name, digits in tables.items():
        names.setdefault(digits, []).append(name)
    return names


def job(values, limit, m=0, free=0, cost=NO_LIMIT, depth=NO_LIMIT, prices=(1, 1, 5),
        durations=(1, 1, 7), masks=None):
    """A job's bytes; value bits outside the care masks are dropped. Four prices and four
    durations make a longer job, in which gates may have three controls."""
    n = 3 if len(values) == 8 else 4
    masks = masks or [(1 << n) - 1] * len(values)
    head = [n << 5 | m << 3 | free << 2, limit, cost >> 8, cost & 255, depth >> 8, depth & 255]
    rows = [mask << 4 | value & mask for mask, value in zip(masks, values)]
    return bytes(head + list(prices) + list(durations) + rows)


def after(gates, n, m=0):
    """The data wires after this list of gate bytes, for every row."""
    values = []
    for gate in gates:
        target, controls = gate >> 5, gate & 31
        assert target < n + m and controls < 1 << n + m and not controls >> target & 1
        assert bin(controls).count("1") <= 3
    for value in range(1 << n):
        for gate in gates:
            if value & gate & 31 == gate & 31:
                value ^= 1 << (gate >> 5)
        values.append(value & ((1 << n) - 1))
    return values
