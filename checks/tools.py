"""Tries the scripts of tools/: see tools.sh. What is expected is read from the transcripts here, not by the scripts' reader."""
import glob
import os
import re
import shutil
import struct
import subprocess
import sys
import tempfile
import xml.etree.ElementTree as xml

PROGRAM = "crates/nas_cli/out/nas_cli"
MODEL = os.environ.get("NAS_MODEL", "")
TSHARK = shutil.which("tshark")
SVG = "{http://www.w3.org/2000/svg}"

STATES = "  ue %s - -\n  net Registered - -\n  honest %s agree %s\n"
CONNECTED, IDLE = STATES % ("Registering connected", "yes", "yes"), STATES % ("Deregistered idle", "yes", "yes")
FORGED, APART = STATES % ("Registering connected", "no", "yes"), STATES % ("Registering connected", "no", "no")
REQUEST = "7e004179000d0100f110f0ff000000000000102e02a020"
# Each thing that a chart shows, a line of no kind that is known here too. Two moments are below their end's own, and one message
# holds another.
BY_HAND = ("nas transcript 1\n"
           "1 ue-at 1500\n" + IDLE +
           "2 ue-at 100\n" + IDLE +
           "3 register\n  up 1 " + REQUEST + "\n" + CONNECTED +
           "4 register\n  refused WrongState\n" + CONNECTED +
           "5 to-net 1\n  down 1 7e005b01\n" + CONNECTED +
           "6 to-net 1\n  down 2 7e005b01\n" + CONNECTED +
           "7 to-ue 7\n  nothing\n" + CONNECTED +
           "8 net-at 6000\n  down 3 7e0299999999077e00\n" + CONNECTED +
           "9 net-at 5\n  down 4 7e0399999999087e005d220002a020\n" + CONNECTED +
           "10 to-ue 4\n  up 2 7e0199999999fe7e005e710017" + REQUEST + "\n" + CONNECTED +
           "11 ue-at 7001\n  up 3 7e0199999999ff7e004c000007f4004000000001\n" + CONNECTED +
           "12 inject-net fresh 7e004501000bf200f11002004000000001\n" + CONNECTED +
           "13 inject-ue -\n" + FORGED +
           "14 drop-ue\n" + FORGED + "15 drop-net\n" + FORGED + "16 restart\n" + FORGED +
           "17 of a kind <unknown> & later\n" + APART +
           "end 17 events honest no agree no\n")
MOMENTS_BY_HAND = [1500, 1500, 1500, 6000, 6000, 6000, 7001]
SHOWN_BY_HAND = ["up 1: REGISTRATION REQUEST", "refused: WrongState", "down 1: IDENTITY REQUEST", "again: up 1",
                 "nothing: down 7 isn't sent yet", "down 3: header type 2, sn 7, by a timer",
                 "down 4: SECURITY MODE COMMAND (header type 3, sn 8), by a timer",
                 "up 2: SECURITY MODE COMPLETE (header type 1, sn 254)",
                 "up 3: SERVICE REQUEST (header type 1, sn 255), by a timer", "injected fresh: DEREGISTRATION REQUEST",
                 "injected: 0 octets", "from event 13 on: honest no", "from event 17 on: agree no", "restart", "at 7001 ms",
                 "17  of a kind <unknown> & later"]
IDS_BY_HAND = ["up-1", "up-2", "up-3", "down-1", "down-2", "down-3", "down-4", "up-1-again-6", "injected-12", "injected-13"]


def expect(what, wanted, found):
    """Ends with 1 where something else was found."""
    if wanted != found:
        print("tools: %s: wanted %r, found %r" % (what, wanted, found))
        sys.exit(1)


def run(tool, *words, **variables):
    """A script's end, with these variables in its environment: status, standard output, standard error."""
    environment = dict(os.environ, PYTHONDONTWRITEBYTECODE="1", **variables)
    done = subprocess.run([sys.executable, "tools/" + tool] + list(words), capture_output=True, text=True, env=environment)
    return done.returncode, done.stdout, done.stderr


def sent_in(transcript):
    """The direction, number and hex digits of each message of a transcript."""
    return re.findall(r"(?m)^  (up|down) ([0-9]+) ([0-9a-f]+)$", transcript)


def packets_in(name):
    """The times in milliseconds and the octets of a capture's packets."""
    with open(name, "rb") as file:
        octets = file.read()
    head = struct.unpack(">IHHiIII", octets[:24])
    expect("head of %s" % name, (0xA1B2C3D4, 2, 4, 252), head[:3] + head[6:])
    packets, place = [], 24
    while place < len(octets):
        seconds, micros, size, whole = struct.unpack(">IIII", octets[place:place + 16])
        expect("size of a packet of %s" % name, size, whole)
        packets.append((seconds * 1000 + micros // 1000, octets[place + 16:place + 16 + size]))
        place += 16 + size
    return packets


def lines_for(sent):
    """The lines of a script that inject these messages."""
    lines, fresh = [], "fresh "
    for direction, _, octets in sent:
        lines.append(("inject-net " + fresh if direction == "up" else "inject-ue ") + octets)
        fresh = "" if direction == "up" else fresh
    return lines


def try_transcript(name, text, folder, readable=False):
    """All three scripts on one transcript. Where it is readable, nothing in it is enciphered."""
    files = [os.path.join(folder, file) for file in ("in.transcript", "out.pcap", "out.svg")]
    with open(files[0], "w") as file:
        file.write(text)
    sent = sent_in(text)
    expect("to-pcap of " + name, (0, "", ""), run("to-pcap", *files[:2]))
    expect("packets of " + name, [octets for _, _, octets in sent],
           [packet[32:].hex() for _, packet in packets_in(files[1])])
    try_back(name, sent, files[1])
    if TSHARK:
        try_tshark(name, sent, files[1], readable)
    expect("ladder of " + name, (0, "", ""), run("ladder", files[0], files[2]))
    try_chart(name, sent, files[2])
    return files


def try_back(name, sent, capture):
    """The messages come back from their capture, with tshark and without."""
    wanted = (0, "".join(line + "\n" for line in lines_for(sent)), "")
    if not sent:
        wanted = (1, "", "from-pcap: %s: no NAS message in it\n" % capture)
    expect("from-pcap of %s without tshark" % name, wanted, run("from-pcap", capture, PATH=""))
    if TSHARK:
        expect("from-pcap of %s by tshark" % name, wanted, run("from-pcap", capture))


def tshark(capture, *words):
    """The lines that tshark prints for a capture."""
    done = subprocess.run([TSHARK, "-n", "-r", capture] + list(words), capture_output=True, text=True)
    expect("tshark on " + capture, 0, done.returncode)
    return done.stdout.splitlines()


def try_tshark(name, sent, capture, readable):
    """tshark takes each packet as NAS of 5GS, from the right end, and none as malformed; each is named where it is readable."""
    addresses = {"up": "192.0.2.1", "down": "192.0.2.2"}
    words = ["-o", "nas-5gs.null_decipher:TRUE"] if readable else []
    words += ["-Y", "nas-5gs && !_ws.malformed", "-T", "fields", "-e", "frame.number", "-e", "ip.src", "-e", "_ws.col.Info"]
    fields = [line.split("\t") for line in tshark(capture, *words)]
    wanted = [[str(place + 1), addresses[end]] for place, (end, _, _) in enumerate(sent)]
    expect("tshark's reading of " + name, wanted, [field[:2] for field in fields])
    if readable:
        expect("messages without a name in " + name, [], [field[0] for field in fields if not field[2].strip()])


def try_chart(name, sent, chart):
    """The chart is XML and shows each message once."""
    root = xml.parse(chart).getroot()
    expect("chart of " + name, (SVG + "svg", "1.1"), (root.tag, root.get("version")))
    ids = [element.get("id") for element in root.iter() if element.get("id")]
    expect("identities in the chart of " + name, len(set(ids)), len(ids))
    expect("messages in the chart of " + name, sorted("%s-%s" % message[:2] for message in sent),
           sorted(identity for identity in ids if re.fullmatch("(up|down)-[0-9]+", identity)))
    labels = [element.text for element in root.iter(SVG + "text")]
    for direction, number, _ in sent:
        begin = "%s %s: " % (direction, number)
        expect("'%s' in the chart of %s" % (begin, name), 1, len([label for label in labels if label.startswith(begin)]))


def try_by_hand(folder):
    """A transcript with each thing that a chart shows, and the times of its packets."""
    files = try_transcript("the transcript by hand", BY_HAND, folder)
    expect("times by hand", MOMENTS_BY_HAND, [time for time, _ in packets_in(files[1])])
    root = xml.parse(files[2]).getroot()
    labels = [element.text for element in root.iter(SVG + "text")]
    expect("texts by hand", [], [text for text in SHOWN_BY_HAND if text not in labels])
    expect("lost connections by hand", 2, labels.count("connection lost"))
    expect("moments of the handset by hand", 2, labels.count("at 1500 ms"))
    ids = [element.get("id") for element in root.iter(SVG + "g") if element.get("id")]
    expect("identities by hand", sorted(IDS_BY_HAND), sorted(ids))


def try_faults(folder):
    """Wrong transcripts and captures: one line, status 1, and the file that is there stays as it was."""
    late = BY_HAND.replace("ue-at 1500", "ue-at 999999999999999")
    wrong = {"no transcript": "nas: words\n", "empty": "", "cut in a line": BY_HAND[:-1],
             "cut between events": BY_HAND[:BY_HAND.index("6 to-net")], "cut in an event": BY_HAND[:BY_HAND.index("  net ")],
             "odd digits": BY_HAND.replace("7e005b01\n", "7e005b0\n"), "no digits": BY_HAND.replace("inject-ue -", "inject-ue x"),
             "a message missing": BY_HAND.replace("  down 1 7e005b01\n", ""),
             "an event missing": BY_HAND.replace("4 register\n  refused WrongState\n" + CONNECTED, ""),
             "more behind the end": BY_HAND + "\n", "another end": BY_HAND.replace("end 17", "end 16"),
             "an octet above 127": BY_HAND.replace("restart", "r\u00e9start")}
    place, out = os.path.join(folder, "wrong"), os.path.join(folder, "kept")
    with open(out, "w") as file:
        file.write("as it was")
    cases = [(tool, what, text) for tool in ("to-pcap", "ladder") for what, text in wrong.items()]
    for tool, what, text in cases + [("to-pcap", "a moment beyond a capture's", late)]:
        with open(place, "w", encoding="utf-8") as file:
            file.write(text)
        before = sorted(os.listdir(folder))
        refused("%s on %s" % (tool, what), run(tool, place, out))
        with open(out) as file:
            expect("the file after %s on %s" % (tool, what), "as it was", file.read())
        expect("the folder after %s on %s" % (tool, what), before, sorted(os.listdir(folder)))
    refused("to-pcap to no folder", run("to-pcap", place, os.path.join(folder, "none", "out")))
    try_wrong_captures(folder, place)


def try_wrong_captures(folder, place):
    """Captures that are none, are cut, or are of another link type, which only tshark reads."""
    files = try_transcript("the transcript by hand", BY_HAND, folder)
    with open(files[1], "rb") as file:
        whole = file.read()
    wrong = {"junk": b"junk\n", "an empty file": b"", "a cut head": whole[:20], "a cut packet": whole[:-1],
             "a cut packet's head": whole[:30], "Ethernet": whole[:20] + struct.pack(">I", 1) + whole[24:]}
    for what, octets in wrong.items():
        with open(place, "wb") as file:
            file.write(octets)
        refused("from-pcap without tshark on " + what, run("from-pcap", place, PATH=""))
        if TSHARK and what != "Ethernet":
            refused("from-pcap by tshark on " + what, run("from-pcap", place))
    refused("from-pcap on no file", run("from-pcap", place + "-none"))


def refused(what, ended):
    """A script ended with 1, one line on standard error, and nothing else."""
    expect("end of " + what, (1, "", 1, True), (ended[0], ended[1], ended[2].count("\n"), ended[2].endswith("\n")))
    expect("no trace of Python in " + what, False, "Traceback" in ended[2])


def ngap_packet(number, procedure, source, destination, message):
    """An IPv4 packet with an SCTP chunk that holds, under this number, an NGAP message of this procedure with a NAS message
    (TS 38.413, aligned PER)."""
    element = bytes((0, 38, 0, len(message) + 1, len(message))) + message
    identity = bytes((0, 85, 0, 2, 0, 1))
    fields = bytes((0, 0, 2)) + identity + element
    ngap = bytes((0, procedure, 0x40, len(fields))) + fields
    chunk = struct.pack(">BBHIHHI", 0, 3, 16 + len(ngap), number, 0, 0, 60) + ngap + bytes(-len(ngap) % 4)
    sctp = struct.pack(">HHII", source, destination, 1, 0) + chunk
    addresses = bytes((10, 0, 0, 1, 10, 0, 0, 2))
    return struct.pack(">BBHHHBBH", 0x45, 0, 20 + len(sctp), 0, 0, 64, 132, 0) + addresses + sctp


def write_capture(place, link, packets, missing=0):
    """A capture of these packets, with numbers in the other order than those of to-pcap. So many octets of each are missing."""
    with open(place, "wb") as file:
        file.write(struct.pack("<IHHiIII", 0xA1B2C3D4, 2, 4, 0, 0, 65535, link))
        for packet in packets:
            file.write(struct.pack("<IIII", 0, 0, len(packet), len(packet) + missing) + packet)


def try_others(folder):
    """Exported PDUs of another origin: one that the port of the AMF tells, which only tshark reads, two that their type tells,
    one that nothing tells, and one of another dissector."""
    place = os.path.join(folder, "others.pcap")
    named = bytes.fromhex("000c0008") + b"nas-5gs\0"
    ports = bytes.fromhex("00180004") + struct.pack(">I", 1) + bytes.fromhex("00190004") + struct.pack(">I", 40000) \
        + bytes.fromhex("001a0004") + struct.pack(">I", 38412)
    enciphered, end = bytes.fromhex("7e0299999999077e00"), bytes(4)
    other = bytes.fromhex("000c0008") + b"nas-eps\0" + end + bytes.fromhex("074142")
    write_capture(place, 252, [named + end + bytes.fromhex("7e005b01"), named + ports + end + enciphered,
                               named + end + bytes.fromhex("7e005c00010f"), named + end + enciphered, other])
    unknown, octets = "# no direction: ", enciphered.hex()
    note = "from-pcap: %d left out: nothing tells the direction (a comment in the script)\n"
    alone = ["inject-ue 7e005b01", unknown + octets, "inject-net fresh 7e005c00010f", unknown + octets, ""]
    expect("from-pcap of others without tshark", (0, "\n".join(alone), note % 2
                                                  + "from-pcap: 1 left out: the packet is of the dissector 'nas-eps'\n"),
           run("from-pcap", place, PATH=""))
    if TSHARK:
        wanted = ["inject-ue 7e005b01", "inject-net fresh " + octets, "inject-net 7e005c00010f", unknown + octets, ""]
        expect("from-pcap of others by tshark", (0, "\n".join(wanted), note % 1), run("from-pcap", place))


def try_short(folder):
    """A packet that was captured in part is left out, with tshark and without."""
    place = os.path.join(folder, "short.pcap")
    write_capture(place, 252, [bytes.fromhex("000c0008") + b"nas-5gs\0" + bytes(4) + bytes.fromhex("7e005b01")], missing=1)
    wanted = (0, "", "from-pcap: 1 left out: the packet was cut when captured\n")
    expect("from-pcap of a short packet without tshark", wanted, run("from-pcap", place, PATH=""))
    if TSHARK:
        expect("from-pcap of a short packet by tshark", wanted, run("from-pcap", place))


def try_inner(folder):
    """A message that holds another is one message, also for a tshark whose user lets it read what isn't enciphered."""
    files = try_transcript("the transcript by hand", BY_HAND, folder)
    settings = os.path.join(folder, "settings")
    os.mkdir(settings)
    with open(os.path.join(settings, "preferences"), "w") as file:
        file.write("nas-5gs.null_decipher: TRUE\n")
    wanted = "".join(line + "\n" for line in lines_for(sent_in(BY_HAND)))
    expect("from-pcap with settings", (0, wanted, ""), run("from-pcap", files[1], WIRESHARK_CONFIG_DIR=settings))


def try_ngap(folder):
    """A capture of NGAP, whose procedures tell the directions where the ports don't."""
    place = os.path.join(folder, "ngap.pcap")
    sent = [("up", 15, 38412, 38412, "7e0299999999067e00"), ("down", 4, 38412, 40000, "7e005b01"),
            ("up", 46, 40000, 38412, "7e0299999999077e00"), ("down", 4, 38412, 40000, "7e0299999999087e00")]
    packets = [ngap_packet(number, procedure, source, destination, bytes.fromhex(octets))
               for number, (_, procedure, source, destination, octets) in enumerate(sent)]
    write_capture(place, 228, packets)
    wanted = "".join(line + "\n" for line in lines_for([(direction, 0, octets) for direction, _, _, _, octets in sent]))
    expect("from-pcap of NGAP by tshark", (0, wanted, ""), run("from-pcap", place))


def transcript_of(command, configuration, script):
    """The transcript that a program writes of a run."""
    done = subprocess.run(command + ["run", configuration, script], capture_output=True, text=True)
    expect("status of %s on %s" % (command[-1], script), 0, done.returncode)
    return done.stdout


def configuration_of(script):
    """The configuration of a script: the one with its name, or that of the registration."""
    own = script[:-len("script")] + "toml"
    return own if os.path.isfile(own) else os.path.join(os.path.dirname(script), "registration.toml")


def try_runs(command, scripts, folder):
    """The scripts with their configurations, as they are and without ciphering."""
    for script in scripts:
        configuration = configuration_of(script)
        plain = os.path.join(folder, "plain.toml")
        with open(configuration) as file, open(plain, "w") as copy:
            copy.write(file.read().replace("ciphering = 2", "ciphering = 0"))
        for chosen, readable in ((configuration, False), (plain, True)):
            name = "%s by %s%s" % (script, command[-1], " without ciphering" if readable else "")
            try_transcript(name, transcript_of(command, chosen, script), folder, readable)
    return len(scripts)


def try_picture(rows, folder):
    """The picture of the guide is what ladder draws of the model's clean run."""
    script = os.path.join(rows, "clean-run.script")
    if not os.path.isfile(script):
        return
    text = transcript_of([sys.executable, MODEL], script[:-len("script")] + "toml", script)
    files = try_transcript("the clean run", text, folder)
    with open(files[2]) as drawn, open("docs/pictures/clean-run.svg") as kept:
        expect("docs/pictures/clean-run.svg as tools/ladder draws it", True, drawn.read() == kept.read())


def main():
    """All that this machine can try."""
    with tempfile.TemporaryDirectory() as folder:
        try_by_hand(folder)
        try_faults(folder)
        try_others(folder)
        try_short(folder)
        if TSHARK:
            try_inner(folder)
            try_ngap(folder)
        examples, runs = sorted(glob.glob("examples/*.script")), 0
        if os.access(PROGRAM, os.X_OK):
            runs += try_runs(["./nas"], examples, folder)
        else:
            print("tools: the examples' runs by the program are skipped, %s isn't built" % PROGRAM)
        if os.path.isfile(MODEL):
            rows = os.path.join(os.path.dirname(MODEL), "..", "rows")
            runs += try_runs([sys.executable, MODEL], examples + sorted(glob.glob(os.path.join(rows, "*.script"))), folder)
            try_picture(rows, folder)
        else:
            print("tools: runs by the model are skipped, NAS_MODEL names none")
    print("tools: the transcript by hand and %d runs, each with ciphering and without, are as they should be%s"
          % (runs, "" if TSHARK else "; tshark is missing, so what it reads is skipped"))


if __name__ == "__main__":
    main()
