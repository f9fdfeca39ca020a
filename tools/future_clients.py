"""The clients of a search, what each of them calls in its order, and the record and the script from whose end they go on."""

import collections

import grammar
from host import BadInput, BadLine, Ended, Host, bad_line, read_lines
from logs import MOST_SECTORS
from payload import size_of, why_lacking
from shown import SEATS

FORMS = [form.split() for form in ["seat SEAT", "write START COUNT BYTE", "write START COUNT @SECTOR", "read START COUNT", "discard START COUNT", "reap", "sync"]]
PRIO = 4
MOST_OWED = 32


class Item(collections.namedtuple("Item", "word start count byte")):
    """What a client calls: of a read, a write or a discard also where it begins, how many sectors it has, and the byte of a write, or from
    which sector of the payload on it takes its bytes, as `@SECTOR`."""

    def act(self):
        """What it does, as `act_of` tells it of a line."""
        return tuple(str(part) for part in self if part is not None)


REAP = Item("reap", None, None, None)


def act_of(line):
    """What a read, a write or a discard does by its line: its words but for the seat and the session."""
    word, _, _, *words = line.split(" ")
    return (word, *words)


class Client:
    """A client of a file: its seat, its session there, and what it calls."""

    def __init__(self, path, number, seat):
        self.path, self.number, self.seat = path, number, seat
        # The rows of its block, each a number and its words; and what comes of them.
        self.rows, self.items = [], []
        self.session = None
        # How many bytes the payload has, if there is one.
        self.payload = None
        # For each number of items that it has called: how many reaps are the last of these.
        self.last_reaps = [0]

    def settle(self, session, owed, host):
        """Takes its rows, once the host has told its session and how many results it is owed."""
        self.session = session
        for number, words in self.rows:
            if words[0] == "sync":
                self.items += [REAP] * owed
                owed = 0
                continue
            if words[0] == "reap":
                if not owed:
                    raise bad_line(self.path, number, "no result is owed here")
                self.items.append(REAP)
                owed -= 1
                continue
            self.items.append(self.io_of(number, words, host))
            owed += 1
            if owed > MOST_OWED:
                raise bad_line(self.path, number, f"a client is owed at most {MOST_OWED} results: reap one first")
        for item in self.items:
            self.last_reaps.append(self.last_reaps[-1] + 1 if item is REAP else 0)

    def io_of(self, number, words, host):
        """A read, a write or a discard, which must end before the device does. The payload must have the bytes that a write takes."""
        word, start, count, *source = words
        last = int(start) + int(count) - 1
        if last >= 2**64 or host.ask(f"sector {last}").endswith(" none"):
            raise bad_line(self.path, number, f"past the end of the device: sector {last}")
        if source and source[0].startswith(grammar.SIGN) and (why := why_lacking(int(count), source[0], self.payload)):
            raise bad_line(self.path, number, why)
        return Item(word, int(start), int(count), source[0] if source else None)


def read_clients(path):
    """The clients of a file, whose lines are looked at one by one."""
    clients = []
    for number, row in read_lines(path):
        if why := grammar.why_bad(row, FORMS):
            raise bad_line(path, number, why)
        if grammar.is_silent(row):
            continue
        words = row.split(" ")
        if words[0] == "seat":
            clients.append(Client(path, number, seat_of(path, number, words[1], clients)))
            continue
        if not clients:
            raise bad_line(path, number, "no `seat SEAT` stands before it")
        if words[0] in ("read", "write", "discard") and not 1 <= int(words[2]) <= MOST_SECTORS:
            raise bad_line(path, number, f"COUNT is 1 to {MOST_SECTORS}: '{words[2]}'")
        clients[-1].rows.append((number, words))
    if not clients:
        raise bad_line(path, 1, "there is no `seat SEAT`, with which a client begins")
    return clients


def seat_of(path, number, word, clients):
    """The seat of a new client."""
    seat = int(word)
    if seat >= SEATS:
        raise bad_line(path, number, f"SEAT is at most {SEATS - 1}: '{word}'")
    if any(it.seat == seat for it in clients):
        raise bad_line(path, number, f"seat {seat} has a client already")
    return seat


def read_script(path):
    """The lines of a script that are not silent, each with its number."""
    lines = []
    for number, line in read_lines(path):
        if number > grammar.MOST_LINES:
            raise bad_line(path, number, f"a script has at most {grammar.MOST_LINES} lines")
        if why := grammar.why_bad(line):
            raise bad_line(path, number, why)
        if not grammar.is_silent(line):
            lines.append((number, line))
    return lines


class Opening:
    """What each host is asked before the search: a script, and who it has not brought comes. It may go on behind a record."""

    def __init__(self, program, options, script, clients, record=None):
        self.program, self.options, self.record = program, options, record
        # The options that say what the host is.
        self.limits = options if record is None else [*record.options, *options]
        self.clients = clients
        size = size_of(options)
        for client in clients:
            client.payload = size
        self.lines, self.answers = [], []
        # How often the script met each refusal.
        self.refusals = collections.Counter()
        # What each bio does, by its serial; and the issues of what was sent.
        self.bios, self.issues = {}, []
        with self.begun() as host:
            self.play(script, read_script(script) if script else [], host)
            self.bring(host)
            # What takes a serial was accepted.
            self.serial = int(host.ask("line").split(" ")[3])
            self.name_asked()
            if record is not None:
                self.name_recorded(host)

    def begun(self):
        """A host that has taken no line yet."""
        return Host(self.program, self.options, self.record and self.record.path)

    def words(self):
        """What a tool is given that has such a host."""
        return [*([] if self.record is None else ["--record", self.record.path]), "--", *self.options]

    def name_asked(self):
        """What the lines have queued and sent."""
        for line, answer in zip(self.lines, self.answers):
            word, *words = answer.split(" ")
            if word == "queued":
                self.bios[words[0]] = act_of(line)
            elif word == "issued":
                self.issues.append(words[1])

    def name_recorded(self, host):
        """What the record has queued and sent, as far as it is neither done nor undone. The rest of a long record has no names."""
        for look in ("show requeued", "show flight", *(f"show queue {seat}" for seat in range(SEATS))):
            for item in [it for it in host.ask(look).split(" ") if ":" in it]:
                if look == "show flight":
                    self.issues.append(item.split(":")[1])
                for serial in item.rpartition(":")[2].split(","):
                    if serial not in self.bios:
                        self.bios[serial] = self.record.act(serial)

    def ask(self, host, line):
        """A line that each host is asked."""
        self.lines.append(line)
        self.answers.append(host.ask(line))
        return self.answers[-1]

    def play(self, path, lines, host):
        """Asks the script, which must not end held."""
        for number, line in lines:
            try:
                answer = self.ask(host, line)
            except BadLine as fault:
                raise bad_line(path, number, fault.why) from None
            if grammar.is_refusal(answer):
                self.refusals[answer] += 1
        if (lines or self.record) and host.ask("show host").split(" ")[3] == "held":
            if lines:
                raise bad_line(path, lines[-1][0], "the script ends here, and the host is held, so that it takes no step")
            raise BadInput(f"{self.record.name}: behind entry {self.record.count} the host is held, so that it takes no step")

    def bring(self, host):
        """Clients that the script has not brought come, and each looks at what it is to call."""
        for client in self.clients:
            if host.ask(f"show seat {client.seat}").split(" ")[2] == "none":
                answer = self.ask(host, f"attach {client.seat} 0 {PRIO}")
                if grammar.is_refusal(answer):
                    raise bad_line(client.path, client.number, f"it cannot come: {grammar.named(answer)}")
            _, _, session, _, _, owed, _, place = host.ask(f"show seat {client.seat}").split(" ")
            if place != "here":
                raise bad_line(client.path, client.number, f"whoever sat at seat {client.seat} has left, and is not gone yet")
            client.settle(session, int(owed), host)

    def host(self):
        """A host that has taken the opening."""
        host = self.begun()
        answers = list(host.ask_each(self.lines))
        if answers != self.answers:
            line, first, now = next(it for it in zip(self.lines, self.answers, answers) if it[1] != it[2])
            raise Ended(f"{self.program} answers {line!r} with {first!r} once, and with {now!r} another time")
        return host


def weights_of(word, clients):
    """The weights that `--lag` has, one for each client."""
    words = word.split(",")
    for weight in words:
        if grammar.why_no_number("WEIGHT", weight) or not 1 <= int(weight) <= 1000:
            raise BadInput(f"--lag: a weight is 1 to 1000: {weight!r}")
    if len(words) != len(clients):
        raise BadInput(f"--lag has {len(words)} weights, and there are {len(clients)} clients")
    return [*map(int, words)]
