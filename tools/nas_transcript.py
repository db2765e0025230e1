"""Reads the transcript of `nas run`, and holds what the scripts beside this file share: faults, words and files.

A transcript is the line `nas transcript 1`, a block of lines for each event, and a line `end`. One that is cut or has
another line anywhere is refused, so the scripts meet whole transcripts alone.
"""
import os
import re
import sys
import tempfile
from typing import Dict, List, NamedTuple, Optional, Tuple

HEAD = "nas transcript 1"
EVENT = re.compile(r"([1-9][0-9]{0,5}) (\S.*)")
SENT = re.compile(r"  (up|down) ([1-9][0-9]{0,9}) (\S*)")
REFUSED = re.compile(r"  refused (\w+)")
NOTHING = re.compile(r"  nothing")
HANDSET = re.compile(r"  ue (\w+) (idle|connected) (-|[0-9a-f]{8}) (-|[0-7])")
NETWORK = re.compile(r"  net (\w+) (-|[0-9a-f]{8}(?:,[0-9a-f]{8})*) (-|[0-7])")
SESSION = re.compile(r"  psi ([1-9]|1[0-5]) (\w+) (\w+)")
VERDICTS = re.compile(r"  honest (yes|no) agree (yes|no)")
END = re.compile(r"end (0|[1-9][0-9]{0,5}) events honest (yes|no) agree (yes|no)")
OCTETS = re.compile(r"(?:[0-9a-fA-F]{2})+")
# The lines of a script whose words are read here, by their first word.
DELIVERY = re.compile(r"to-(net|ue) ([1-9][0-9]{0,9})")
INJECTION = re.compile(r"inject-(?:net fresh|net|ue) (-|(?:[0-9a-fA-F]{2})+)")
TICK = re.compile(r"(ue|net)-at ([0-9]{1,16})")
FORMS = {"to-net": DELIVERY, "to-ue": DELIVERY, "inject-net": INJECTION, "inject-ue": INJECTION, "ue-at": TICK, "net-at": TICK}


class Fault(Exception):
    """Why an input can't be read or an output can't be written, in one line."""


class Message(NamedTuple):
    """A message that was sent: `up` by the handset, `down` by the network, numbered from 1 in each direction."""
    direction: str
    number: int
    octets: bytes
    event: int
    moment: int         # of the end that sent it, in milliseconds


class Handset(NamedTuple):
    """The handset behind an event; `-` stands for no TMSI and for no ngKSI."""
    state: str
    connection: str
    tmsi: str
    ksi: str


class Network(NamedTuple):
    """The network's record of the handset behind an event: the state `none` where the handset is no subscriber."""
    state: str
    kept: str           # the TMSIs, joined by commas, or `-`
    ksi: str


class Event(NamedTuple):
    """One event of the script and all that the transcript says of it."""
    number: int
    line: str                               # the script's line, as it was given
    delivered: Optional[Tuple[str, int]]    # the direction and number of the message that `to-net` or `to-ue` names
    injected: Optional[bytes]               # the octets of `inject-net` or `inject-ue`
    moment: Optional[int]                   # of the end that `ue-at` or `net-at` names, behind it
    sent: List[Message]
    refused: Optional[str]
    nothing: bool
    handset: Handset
    network: Network
    sessions: Dict[int, Tuple[str, str]]    # for each PSI the handset's word and the network's
    honest: bool
    agree: bool

    @property
    def words(self):
        """The words of the script's line."""
        return self.line.split(" ")


def messages(events):
    """All messages that were sent, in the order of the transcript."""
    return [message for event in events for message in event.sent]


def read(name):
    """The events of the transcript in the file of this name, or a Fault."""
    try:
        with open(name, "rb") as file:
            octets = file.read()
    except OSError as error:
        raise Fault("%s: %s" % (name, error.strerror))
    try:
        return events_in(octets)
    except Fault as fault:
        raise Fault("%s: %s" % (name, fault))


def events_in(octets):
    """The events of the transcript in these octets, or a Fault that names the line."""
    try:
        text = octets.decode("ascii")
    except UnicodeDecodeError as error:
        raise Fault("line %d: an octet above 127, so no transcript" % (octets[:error.start].count(b"\n") + 1))
    lines = Lines(text)
    if not lines.next_is(HEAD):
        raise Fault("no transcript: it doesn't begin with '%s'" % HEAD)
    return Reading(lines).events()


class Lines:
    """The lines of a text, taken one after the other. A last line without its line feed is a cut one, and isn't taken."""

    def __init__(self, text):
        *self.lines, self.cut = text.split("\n")
        self.place = 0

    def next_is(self, line):
        """Whether the next line is this one; it is taken then."""
        return self.take(re.compile(re.escape(line))) is not None

    def take(self, form):
        """The next line as a match of this form, or None where it is another or there is none."""
        match = form.fullmatch(self.lines[self.place]) if self.place < len(self.lines) else None
        self.place += match is not None
        return match

    def want(self, form, what):
        """The next line as a match of this form, or a Fault."""
        match = self.take(form)
        if match is None:
            raise Fault("line %d: %s %s" % (self.place + 1, "cut before" if self.place == len(self.lines) else "not", what))
        return match

    def all_taken(self):
        """Whether nothing is left, a cut line included."""
        return self.place == len(self.lines) and not self.cut


class Reading:
    """What has been read so far: the messages of each direction, and the moment of each end."""

    def __init__(self, lines):
        self.lines = lines
        self.sent = {"up": 0, "down": 0}
        self.moments = {"up": 0, "down": 0}     # of the end that sends in this direction

    def events(self):
        """The events up to the line `end`, behind which nothing may stand."""
        events = []
        end = self.lines.take(END)
        while end is None:
            events.append(self.event(len(events) + 1))
            end = self.lines.take(END)
        if int(end[1]) != len(events):
            raise Fault("line %d: the end of %s events behind %d" % (self.lines.place, end[1], len(events)))
        if not self.lines.all_taken():
            raise Fault("line %d: more behind the end" % (self.lines.place + 1))
        return events

    def event(self, number):
        """The block of the event of this number."""
        head = self.lines.want(EVENT, "event %d or the end" % number)
        if int(head[1]) != number:
            raise Fault("line %d: event %s where %d is due" % (self.lines.place, head[1], number))
        delivered, injected, moment = self.words_of(head[2])
        sent = self.messages(number)
        refused = self.lines.take(REFUSED)
        nothing = self.lines.take(NOTHING) is not None
        handset = Handset(*self.lines.want(HANDSET, "the handset's line of event %d" % number).groups())
        network = Network(*self.lines.want(NETWORK, "the network's line of event %d" % number).groups())
        sessions = self.sessions()
        verdicts = self.lines.want(VERDICTS, "the verdicts of event %d" % number)
        return Event(number, head[2], delivered, injected, moment, sent, refused and refused[1], nothing, handset, network,
                     sessions, verdicts[1] == "yes", verdicts[2] == "yes")

    def words_of(self, line):
        """What a script's line delivers, what it injects, and which moment it gives to its end; None for what it doesn't."""
        form = FORMS.get(line.split(" ")[0])
        match = form and form.fullmatch(line)
        if form and not match:
            raise Fault("line %d: '%s' is no line of a script" % (self.lines.place, line[:40]))
        if form is DELIVERY:
            return ("up" if match[1] == "net" else "down", int(match[2])), None, None
        if form is INJECTION:
            return None, b"" if match[1] == "-" else bytes.fromhex(match[1]), None
        if form is TICK:
            return None, None, self.pass_moment("up" if match[1] == "ue" else "down", int(match[2]))
        return None, None, None

    def pass_moment(self, direction, moment):
        """The moment of the end that sends in this direction becomes this one, but never falls."""
        self.moments[direction] = max(self.moments[direction], moment)
        return self.moments[direction]

    def messages(self, event):
        """The messages that the event of this number sent."""
        sent = []
        match = self.lines.take(SENT)
        while match is not None:
            sent.append(self.message(match, event))
            match = self.lines.take(SENT)
        return sent

    def message(self, match, event):
        """The message of a line `up` or `down`, whose number must be the next of its direction."""
        direction, number = match[1], int(match[2])
        self.sent[direction] += 1
        if number != self.sent[direction]:
            raise Fault("line %d: %s %d where %d is due" % (self.lines.place, direction, number, self.sent[direction]))
        if not OCTETS.fullmatch(match[3]):
            raise Fault("line %d: octets that are no even number of hex digits" % self.lines.place)
        return Message(direction, number, bytes.fromhex(match[3]), event, self.moments[direction])

    def sessions(self):
        """The lines `psi`, by PSI."""
        sessions = {}
        match = self.lines.take(SESSION)
        while match is not None:
            sessions[int(match[1])] = (match[2], match[3])
            match = self.lines.take(SESSION)
        return sessions


def write_whole(name, octets):
    """Writes a file whole or not at all: to a file beside it, which then takes its name."""
    name = os.path.realpath(name)
    if os.path.exists(name) and not os.path.isfile(name):
        raise Fault("%s: no regular file" % name)
    beside = None
    try:
        handle, beside = tempfile.mkstemp(dir=os.path.dirname(name), prefix=os.path.basename(name) + ".")
        with os.fdopen(handle, "wb") as file:
            file.write(octets)
        os.chmod(beside, 0o666 & ~current_umask())
        os.replace(beside, name)
    except OSError as error:
        if beside is not None and os.path.exists(beside):
            os.unlink(beside)
        raise Fault("%s: %s" % (name, error.strerror))


def current_umask():
    """The rights that a new file of this process doesn't get."""
    mask = os.umask(0)
    os.umask(mask)
    return mask


def run(tool, usage, purpose, count):
    """Runs a script on its words, of which it wants this number; ends with 1 and one line where they or its input are wrong."""
    words = sys.argv[1:]
    if "--help" in words:
        print("usage: %s\n%s" % (usage, purpose))
        sys.exit(0)
    try:
        if len(words) != count:
            raise Fault("usage: %s" % usage)
        tool(*words)
        sys.stdout.flush()
    except Fault as fault:
        sys.exit("%s: %s" % (os.path.basename(sys.argv[0]), fault))
    except OSError as error:
        # What is left in the buffer would fail once more at the end.
        os.dup2(os.open(os.devnull, os.O_WRONLY), sys.stdout.fileno())
        sys.exit("%s: %s" % (os.path.basename(sys.argv[0]), error.strerror))
