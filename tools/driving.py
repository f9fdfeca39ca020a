"""What drives logs of fio through a host: the clients that their files are (logs.py), and the device."""

import collections

import grammar
from host import BadInput, Stop
from logs import AHEAD, MOST_SECTORS, PLACE, SECTOR, SYNC, Account, Log, Places, number

# What these options of sim are where they are not given. Beside an image the number of sectors is not used.
USUAL = {"--sectors": "65536", "--history": "16777216"}
# The greatest number of sectors in a millisecond.
MOST_RATE = 2**31

# Answers that say: not as things stand.
NOTHING_QUEUED, NO_TAG, NONE_IN_SERVICE, REQUESTS_FULL = "refused 17", "refused 18", "refused 26", "notyet 43"


class Stuck(Stop):
    """The host does not take a call that must go on."""

    def __init__(self, line, answer):
        super().__init__(f"the host takes no more: {line!r} is answered {answer!r}")
        self.answer = answer


class Driver:
    """Clients of a host, and its device."""

    def __init__(self, host, clients, account, groups=(), notes=()):
        self.host = host
        self.clients = clients
        self.account = account
        # The lines that make groups, each with its number; and who notes what happens.
        self.groups, self.notes = groups, notes
        # Who may send now, the next one first.
        self.turn = collections.deque()
        # The tag and the issue of each request in flight, with its client, the oldest first.
        self.flights = collections.deque()
        # How many were in flight when no tag was free.
        self.tags = None
        # The bios that are not reaped by their serials: what each does, and how many sectors it has.
        self.bios = {}
        # The sectors that were sent so far.
        self.clock = 0

    def note(self, what, *words):
        """Tells those who note what happens."""
        for note in self.notes:
            note.clock = self.clock
            getattr(note, what)(*words)

    def came(self, time):
        """What the clock was when a read, a write or a discard came: it comes when it is sent."""
        return self.clock

    def passed(self, count):
        """So many sectors were sent."""
        self.clock += count

    def begin(self):
        """The groups are made, and the clients come."""
        for line, number in self.groups:
            self.accepted(line, f"group {number}")
        for client in self.clients:
            prio, class_name, group = client.place
            of_class = "" if class_name == PLACE.class_name else f" {class_name}"
            client.session, = self.accepted(f"attach {client.seat} {group} {prio}{of_class}", "attached")

    def run(self):
        """Sends all that the clients have to do, until the last result is taken."""
        self.begin()
        for client in self.clients:
            self.take_turn(client)
        while True:
            self.send()
            self.dispatch()
            if not self.flights:
                return
            self.work()

    def accepted(self, line, word):
        """The words after the first one of the answer to a call that must be done."""
        answer = self.host.ask(line)
        if not answer.startswith(word):
            raise Stuck(line, answer)
        return answer.split()[1:]

    def take_turn(self, client):
        """Whoever may go on sends after the others that may."""
        if not client.is_in_turn and client.may_go_on():
            client.is_in_turn = True
            self.turn.append(client)

    def send(self):
        """The clients send a bio each, in turn, while they may and the host has room."""
        while self.turn:
            client = self.turn[0]
            if not self.send_one(client):
                return
            self.turn.popleft()
            client.is_in_turn = False
            self.take_turn(client)

    def send_one(self, client):
        """A client's next bio is sent. Gives whether the host had room for it."""
        io = word, start, count, time = client.todo.popleft()
        if word == SYNC:
            return True
        part = min(count, MOST_SECTORS)
        line = f"{word} {client.seat} {client.session} {start} {part}"
        answer = self.host.ask(f"{line} {client.seat + 1}" if word == "write" else line)
        if answer == REQUESTS_FULL:
            self.account.refusals[answer] += 1
            client.todo.appendleft(io)
            return False
        if grammar.is_refusal(answer):
            self.account.refusals[answer] += 1
            self.account.refused += 1
            return True
        bio = answer.removeprefix("queued ")
        self.bios[bio] = word, part
        self.note("queued", client, bio, word, start, part, self.came(time))
        self.account.bios += 1
        client.ahead += 1
        if count > part:
            client.todo.appendleft((word, start + part, count - part, time))
        return True

    def dispatch(self):
        """Requests are sent while a tag is free. Whose each is, the flight shows."""
        while len(self.flights) != self.tags:
            self.note("before_dispatch")
            answer, flight = self.host.ask_all(["dispatch", "show flight"])
            if grammar.is_refusal(answer):
                self.account.refusals[answer] += 1
                if answer == NO_TAG:
                    self.tags = len(self.flights)
                elif answer != NOTHING_QUEUED:
                    raise Stuck("dispatch", answer)
                return
            _, tag, issue, operation, start, count = answer.split()
            seat = flight.split(f" {tag}:{issue}:", 1)[1].split(":", 1)[0]
            request = self.clients[int(seat)], operation, int(start), int(count)
            self.flights.append((tag, issue, request))
            self.account.sent += 1
            self.note("issued", *request)
            self.passed(int(count))

    def work(self):
        """The device does the work of the oldest request in flight, and its client takes the results."""
        tag, issue, request = self.flights.popleft()
        client = request[0]
        line = f"work {tag} {issue}"
        answer = self.host.ask(line)
        if answer == "requeued":
            self.account.given_back += 1
            self.note("given_back", *request)
            return
        if not answer.startswith("finished "):
            raise Stuck(line, answer)
        count = int(answer.split()[1])
        self.account.merged += count - 1
        self.note("finished", *request)
        line = f"reap {client.seat} {client.session}"
        for answer in self.host.ask_all([line] * count):
            if not answer.startswith("completed "):
                raise Stuck(line, answer)
            self.take(client, *answer.split(" ", 3)[1:3])

    def take(self, client, bio, result):
        """A client takes the result of a bio."""
        word, count = self.bios.pop(bio)
        if result == "error":
            self.account.failed += 1
        else:
            self.account.bytes[word] += SECTOR * count
        self.note("done", client, bio)
        client.ahead -= 1
        self.take_turn(client)


class OpenDriver(Driver):
    """Clients whose reads, writes and discards come by their times. The clock counts what the device could have taken by now."""

    def __init__(self, *of_driver, rate, has_ticks):
        super().__init__(*of_driver)
        self.rate, self.has_ticks = rate, has_ticks

    def came(self, time):
        return time * self.rate

    def passed(self, count):
        """Nothing passes when a request is sent: the device takes it later."""

    def take_turn(self, client):
        """Whoever has something to do whose time has come is in turn."""
        if client.todo and self.came(client.todo[0][3]) <= self.clock:
            super().take_turn(client)

    def fill(self):
        """What has come by now is sent, and the tags are filled."""
        for client in self.clients:
            self.take_turn(client)
        self.send()
        self.dispatch()

    def next_time(self):
        """When the next read, write or discard comes; None if none does."""
        return min((time for client in self.clients if client.todo and (time := self.came(client.todo[0][3])) > self.clock), default=None)

    def run(self):
        """Goes from one time to the next, until all is done."""
        self.begin()
        while True:
            self.fill()
            if self.flights:
                self.take_oldest()
            elif (time := self.next_time()) is None:
                return
            else:
                self.clock = time

    def take_oldest(self):
        """The device takes the oldest request in flight. What comes meanwhile is sent meanwhile."""
        end = self.clock + self.flights[0][2][3]
        while (time := self.next_time()) is not None and time < end:
            self.go_to(time)
            self.fill()
        self.go_to(end)
        self.work()

    def go_to(self, time):
        """The clock goes on while the device works."""
        before, self.clock = self.clock, time
        for _ in range(time // self.rate - before // self.rate if self.has_ticks else 0):
            answer = self.host.ask("tick")
            if answer != NONE_IN_SERVICE and grammar.is_refusal(answer):
                raise Stuck("tick", answer)


def with_usual(options):
    """The options of sim, and those that are not given as they usually are."""
    given = {option.partition("=")[0] for option in options}
    return [*options, *(word for name, value in USUAL.items() if name not in given for word in (name, value))]


# Words of the tools that drive.

WORDS = [
    ("logs", {"metavar": "LOG", "nargs": "+", "help": "a log of fio, or -"}),
    ("--depth", {"metavar": "N", "type": number("a depth", AHEAD), "default": AHEAD, "help": f"bios that a client has ahead ({AHEAD})"}),
    ("--open", {"action": "store_true", "help": "each read, write and trim comes when its time comes"}),
    ("--rate", {"metavar": "N", "type": number("a rate", MOST_RATE), "help": "how many sectors the device takes in a millisecond"}),
    ("--ticks", {"action": "store_true", "help": "a tick in each millisecond"}),
]


def read_logs(given):
    """What the words of a tool ask for: the clients with what they have to do, the account, and the lines that make groups."""
    if given.open != (given.rate is not None) or given.ticks and not given.open:
        raise BadInput("--open needs --rate N, and --rate and --ticks need --open")
    clients, account, places = [], Account(), Places()
    for path, place in [places.of(text) for text in given.logs]:
        Log(path, clients, account, place, given.depth, given.open).read()
    return clients, account, places.lines()


def driver_of(given, *parts):
    """The driver that the words of a tool ask for."""
    return OpenDriver(*parts, rate=given.rate, has_ticks=given.ticks) if given.open else Driver(*parts)
