"""The services of scripts (docs/scripts.md): rules, upstreams that requests are forwarded to, and a zone. Each gives what the polls of a
request give: None if that is pending, or an item.
"""
RCODES = {"formerr": 1, "servfail": 2, "notimp": 4, "refused": 5}
FORMERR, SERVFAIL = 1, 2
HEARD = {"": 0, "begin": 1, "end": 2, "idle": 3}
MOST = 65535
ANSWER, AUTHORITY, ADDITIONAL = 1, 2, 3
EXTENDED_ERROR, PADDING = 15, 12
A, NS, CNAME, SOA, AAAA, OPT, ANY = 1, 2, 5, 6, 28, 41, 255
# How many aliases a zone follows.
ALIASES = 8
# How long the data of options may be; of the others any data is read.
LENGTHS = {9: (0, 4), 10: (8, *range(16, 41)), 11: (0, 2), 14: range(0, 65536, 2), 15: range(2, 65536)}
SUBNET, CHAIN = 8, 13


# ---- names and questions

def name_at(message, at):
    """A name's labels and where it ends, or None."""
    labels, end, size = [], None, 1
    while at < len(message):
        length = message[at]
        if length >= 192:
            to = (length & 63) * 256 + message[at + 1] if at + 1 < len(message) else at
            end = end or at + 2
            if to >= at:
                return None
            at = to
        elif length > 63 or at + length >= len(message):
            return None
        elif length == 0:
            return labels, end or at + 1
        else:
            labels.append(message[at + 1:at + 1 + length])
            size, at = size + length + 1, at + 1 + length
            if size > 255:
                return None
    return None


def questions(message):
    """The questions up to the first that can't be read, each as its labels and its type and class."""
    at, found = 12, []
    for _ in range(int.from_bytes(message[4:6], "big")):
        name = name_at(message, at)
        if name is None or name[1] + 4 > len(message):
            break
        found.append((name[0], message[name[1]:name[1] + 4]))
        at = name[1] + 4
    return found


def labels_of(word):
    """The labels of a name that a script spells."""
    return [label.encode() for label in word.split(".") if label]


def spelled(labels):
    """A name as a script spells it, in lower case."""
    return b"".join(label.lower() + b"." for label in labels) or b"."


def wire(labels):
    """A name in wire form."""
    return b"".join(bytes([len(label)]) + label for label in labels) + b"\0"


def ends(labels, others):
    """Whether a name ends with another one."""
    return spelled(labels[max(len(labels) - len(others), 0):]) == spelled(others)


def is_subnet(data):
    """Whether data is a client subnet (RFC 7871, section 6)."""
    size = {b"\0\1": 4, b"\0\2": 16}.get(data[:2])
    if size is None or len(data) < 4 or data[2] > 8 * size or len(data) != 4 + (data[2] + 7) // 8:
        return False
    return data[2] % 8 == 0 or data[-1] % (1 << (8 - data[2] % 8)) == 0


def is_option(code, data):
    """Whether an option can be read: one of another kind is octets."""
    if code == SUBNET:
        return is_subnet(data)
    if code == CHAIN:
        return b"\xc0" > data[:1] and name_at(data, 0) is not None and wire(name_at(data, 0)[0]) == data
    return code not in LENGTHS or len(data) in LENGTHS[code]


def are_options(data):
    """Whether each option of an OPT record's data can be read."""
    at = 0
    while at + 4 <= len(data):
        code, size = int.from_bytes(data[at:at + 2], "big"), int.from_bytes(data[at + 2:at + 4], "big")
        if not is_option(code, data[at + 4:at + 4 + size]):
            return False
        at += 4 + size
    return at == len(data)


# ---- what a poll gives

class Reply:
    """A reply to a message: its response code, whether it is authoritative, its records, and the options of its OPT record, if any."""

    def __init__(self, rcode=0, is_authoritative=False, records=(), options=None):
        self.rcode, self.aa, self.records, self.options = rcode, is_authoritative, list(records), options

    def octets(self, message):
        """It as octets, with the message's identifier, opcode, RD and questions."""
        asked = questions(message)
        counts = [sum(section == one for section, *_ in self.records) for one in (ANSWER, AUTHORITY, ADDITIONAL)]
        counts[2] += self.options is not None
        octets = message[:2] + bytes([0x80 | self.aa << 2 | message[2] & 0x79, self.rcode])
        octets += b"".join(count.to_bytes(2, "big") for count in [len(asked), *counts])
        octets += b"".join(wire(labels) + more for labels, more in asked)
        for _, owner, rtype, ttl, data in self.records:
            octets += wire(owner) + rtype.to_bytes(2, "big") + b"\0\1" + ttl.to_bytes(4, "big") + len(data).to_bytes(2, "big") + data
        if self.options is not None:
            data = b"".join(code.to_bytes(2, "big") + len(it).to_bytes(2, "big") + it for code, it in self.options)
            octets += b"\0" + OPT.to_bytes(2, "big") + bytes(6) + len(data).to_bytes(2, "big") + data
        return octets


def explained(text):
    """SERVFAIL with an extended error and a text."""
    return Reply(SERVFAIL, options=[(EXTENDED_ERROR, b"\0\0" + text)])


class Item:
    """What is heard, and octets of a reply, a reply, or the response code of an error."""

    def __init__(self, message, reply=None, error=None, octets=None, heard=0, timeout=0):
        self.heard, self.timeout, self.reply, self.octets, self.error = heard, timeout, reply, octets, error
        if reply is not None:
            made = reply.octets(message)
            if len(made) > MOST:
                self.heard, self.reply, self.error = 0, None, SERVFAIL
            # Of octets the client subnets and the extended errors are kept alone.
            elif all(code == EXTENDED_ERROR for code, _ in reply.options or []):
                self.octets = made
            # An OPT record without options isn't built.
            if reply.options == []:
                self.reply = None


# ---- rules

def ruled(message, word):
    """The item of a rule's word."""
    feedback, both, reply = word.rpartition("+")
    if not both and word.partition(":")[0] in HEARD:
        feedback, reply = word, ""
    name, _, number = feedback.partition(":")
    heard, timeout = HEARD[name], int(number or 0)
    kind, _, number = reply.partition(":")
    number = int(number or 0)
    if kind in RCODES:
        return Item(message, error=RCODES[kind], heard=heard, timeout=timeout)
    if kind == "blank":
        return Item(message, octets=bytes(3) + bytes([number]) + bytes(8), heard=heard, timeout=timeout)
    made = {"": None, "rcode": Reply(number % 16), "fill": Reply(records=[(ANSWER, [], 65280, 0, bytes(number % 65536))]),
            "live": Reply(records=[(ANSWER, [], 65280, number, b"")]), "opt": Reply(options=[(PADDING, bytes(number % 65536))])}[kind]
    return Item(message, reply=made, heard=heard, timeout=timeout)


class Rules:
    """The answers of the first rule that fits."""

    def __init__(self):
        self.rules = []

    def add(self, words):
        """A line."""
        self.rules.append((None if words[0] == "*" else words[0].lower().encode(), words[1:]))

    def items(self, message, _):
        """What the polls give."""
        asked = questions(message)
        fits = (answers for name, answers in self.rules if name is None or asked and spelled(asked[0][0]) == name)
        return [None if word == "pend" else ruled(message, word) for word in next(fits, ["refused"])]


# ---- upstreams

class Upstreams:
    """Upstreams by the names of their requests."""

    def __init__(self):
        self.upstreams = []

    def add(self, words):
        """A line."""
        self.upstreams.append((labels_of(words[0]), words[1:]))

    def items(self, message, can_be_sent):
        """What the polls give: of the upstream with the most labels, and among those the last one."""
        asked = questions(message)
        if not asked:
            return [Item(message, reply=Reply(FORMERR, options=[]))]
        fits = [(len(name), i) for i, (name, _) in enumerate(self.upstreams) if ends(asked[0][0], name)]
        if not fits:
            return [Item(message, reply=explained(b"No upstream for request"))]
        if not can_be_sent(message):
            return [Item(message, error=SERVFAIL)]
        return self.waited(message, self.upstreams[max(fits)[1]][1])

    @staticmethod
    def waited(message, words):
        """What the polls give until a reply fits, or it is late for the second time."""
        found, sent = [], 1
        for word in [*words, "late", "late"]:
            kind, _, number = word.partition(":")
            if kind == "rcode" and message[4:6] == b"\0\1":
                return [*found, Item(message, reply=Reply(int(number)))]
            if kind == "late" and sent == 2:
                return [*found, Item(message, reply=explained(b"request timed out"))]
            sent += kind == "late"
            found.append(None)
        return found


# ---- a zone

class Zone:
    """Records below a name, each as its owner, type, TTL and data."""

    def __init__(self):
        self.apex, self.records = [], []

    def begin(self, words):
        """Its line."""
        self.apex = labels_of(words[0])

    def add(self, words):
        """The line of a record."""
        self.records.append((labels_of(words[0]), int(words[2]), int(words[1]), bytes.fromhex(words[3].replace("-", ""))))

    def owned(self, name, *types):
        """The records of a name, of all types or of some."""
        return [it for it in self.records if spelled(it[0]) == spelled(name) and (not types or it[1] in types)]

    def cut(self, name):
        """The NS records of the cut that a name is at or below."""
        found = [it for it in self.records if it[1] == NS and ends(name, it[0]) and spelled(it[0]) != spelled(self.apex)]
        least = min((len(it[0]) for it in found), default=0)
        return [it for it in found if len(it[0]) == least]

    def followed(self, name, rtype, left=ALIASES):
        """The answers of a type from a name on."""
        alias = self.owned(name, CNAME)
        if not alias or left == 0:
            return [] if alias else self.owned(name, rtype)
        target = name_at(alias[0][3], 0)[0]
        is_within = ends(target, self.apex) and not self.cut(target)
        return [alias[0], *(self.followed(target, rtype, left - 1) if is_within else [])]

    def answer(self, name, rtype):
        """The reply to a question."""
        servers = self.cut(name)
        if servers:
            hosts = {spelled(name_at(it[3], 0)[0]) for it in servers}
            glue = [it for it in self.records if it[1] in (A, AAAA) and spelled(it[0]) in hosts]
            return self.reply(0, False, (AUTHORITY, servers), (ADDITIONAL, glue))
        if rtype not in (CNAME, ANY) and self.owned(name, CNAME):
            return self.reply(0, True, (ANSWER, self.followed(name, rtype)))
        found = self.owned(name, *([] if rtype == ANY else [rtype]))
        if found:
            return self.reply(0, True, (ANSWER, found))
        soa = [(owner, kind, min(ttl, int.from_bytes(data[-4:], "big")), data) for owner, kind, ttl, data in self.records if kind == SOA]
        return self.reply(0 if any(ends(it[0], name) for it in self.records) else 3, True, (AUTHORITY, soa))

    @staticmethod
    def reply(rcode, is_authoritative, *sections):
        """A reply of records by section."""
        return Reply(rcode, is_authoritative, [(section, *it[:2], it[2], it[3]) for section, found in sections for it in found])

    def items(self, message, _):
        """What the one poll gives. What isn't answered is SERVFAIL, as of each single service."""
        asked = questions(message)
        if not asked or message[2] & 0x78 or asked[0][1][2:] != b"\0\1" or not ends(asked[0][0], self.apex):
            return [Item(message, error=SERVFAIL)]
        return [Item(message, reply=self.answer(asked[0][0], int.from_bytes(asked[0][1][:2], "big")))]
