"""Compares a network of three subscribers, as machine_probe's call `network` drives it, with an executable model. See network.sh.

Each step compares what is sent, octet for octet, in order, with its link and its pass, the message that passed, the refusal, and all
that can be seen of each subscriber. Which timers run is seen by ticks, at their deadlines and just before. Handsets of the model
register with it, two of one subscriber and one of none, over links that lose, repeat and change what they carry; other octets come beside.

The model has sessions, which the network hasn't yet: so what it does with their messages is replaced by nothing.

usage: network.py MODEL PROBE [WALKS [SEED]]
"""
import sys

from elements import mutated
from frame_inputs import LONGEST
from handset_walks import COMMANDS
from network_ends import Phone, Subscribed
from network_inputs import Handsets
from probe import text
from walks import Answered, Walk, compare

# Commands to the network, and the refusals that tell a 5G-TMSI.
ORDERS = ["authenticate", "deregister", "update", "update"]
TMSI_REFUSALS = {"Uncompleted": "uncompleted", "Updated": "updated", "TmsiSpent": "tmsi_spent"}
SENSIBLE = ["mobility", "mobility", "periodic", "periodic", "service", "service", "service", "deregister", "switch-off"]


class NetworkWalk(Walk):
    CALL = "network"

    def __init__(self, rng, model):
        super().__init__(rng)
        self.model = model
        made = Subscribed(rng, model)
        self.network = self.observed()(made.config)
        self.words += made.words()
        owners = made.subscribers + [made.subscribers[0], made.stranger()]
        links = rng.sample([1, 2, 3, 4, 33, 64], len(owners))
        self.phones = [self.new_phone(made.handset(owner), link) for owner, link in zip(owners, links)]
        self.others = Handsets(rng, model.crypto, model.codec, self.network)
        self.phone, self.rand = rng.choice(self.phones), bytes(16)
        self.calm = rng.choice([0, 8, 8, 16])  # so many steps of one handset at the beginning

    def new_phone(self, config, link):
        """A handset that was just made. Some have a 5G-GUTI of another network."""
        handset = self.model.ue.Handset(config)
        if self.chance(0.15):
            handset.guti = self.model.codec.Guti(config.plmn, *self.rng.choice([(2, 64, 1), (1, 64, 2), (2, 65, 3)]))
        return Phone(handset, link)

    def observed(self):
        """The model's network, without sessions."""

        class Observed(self.model.net.Network):
            def _smf_frame(self, *frame):
                pass

        return Observed

    # what can be seen of the model, in machine_probe's words

    def view(self, record):
        pending = getattr(record.proc, "pending", None)
        kept = ".".join(text(self.model.codec.Identity.write(guti)) for guti in record.kept)
        parts = [record.word, "true" if record.registered else "false", self.context(record.in_use) if record.in_use else "none"]
        parts += [self.challenge(pending.challenge) if pending else "none", kept or "none", "true" if record.completed else "false"]
        return ":".join(parts)

    def seen(self, refusal):
        """What the step before is to answer."""
        network = self.network
        return {
            "refused": refusal,
            "passed": self.passing(network._passed) if network._passed else None,
            "sent": [f"sent:{send.link}:{self.carried(send)}" for send in network._out],
            "view": "|".join(self.view(record) for record in network.subs.values()),
        }

    # steps of the network

    def step(self, word, act):
        network = self.network
        before = [record.in_use for record in network.subs.values()]
        network._out, network._passed, refused = [], None, None
        try:
            act()
        except self.model.ue.Refused as refusal:
            refused = self.refusal(refusal)
        for context, record in zip(before, network.subs.values()):
            if context is not None and context is not record.in_use:
                self.others.contexts.append(context)
            self.others.gutis += [guti for guti in record.kept if guti not in self.others.gutis]
        for send in network._out:
            for phone in self.phones:
                if phone.link == send.link:
                    phone.came.append(send.octets)
        self.deadlines.update(network.timers.values())
        self.end_step(word, self.seen(refused))

    def refusal(self, refusal):
        if refusal.name == "UnknownSupi":
            return "unknown_supi"
        if refusal.name == "SqnSpent":
            return f"sqn_spent:{refusal.args[1]:012x}"
        if refusal.name == "WrongState":
            return f"wrong_state:{refusal.args[1]}"
        return f"{TMSI_REFUSALS[refusal.name]}:{refusal.args[1]:08x}"

    def draw_rand(self):
        if self.chance(0.3):
            self.rand = self.rng.randbytes(16)
            self.give(f"random:{text(self.rand)}")

    def deliver(self, link, fresh, octets):
        self.draw_rand()
        word = f"{'fresh' if fresh else 'deliver'}:{link}:{text(octets)}"
        self.step(word, lambda: self.network.deliver(self.rand, link, fresh, octets))

    def command(self, name, supi):
        self.draw_rand()
        self.step(f"{name}:{supi}", lambda: self.network.command(self.rand, (name,), supi))

    def any_command(self):
        supi = self.rng.choice(self.phones).handset.cfg.supi
        self.command(self.rng.choice(ORDERS), supi)

    def tick(self):
        self.tell(self.moment(self.network))

    def tell(self, moment):
        self.draw_rand()
        self.step(f"tick:{moment}", lambda: self.network.tick(self.rand, moment))

    def let_expire(self):
        """Timers expire one after the other, perhaps up to the end of a procedure."""
        for _ in range(self.rng.randint(1, 6)):
            if self.network.timers:
                self.tell(min(self.network.timers.values()))

    def drop(self):
        phone = self.rng.choice(self.phones)
        self.step(f"drop:{phone.link}", lambda: self.network.drop_link(phone.link))
        if self.chance(0.7):
            self.lose_connection(phone)

    def drop_any(self):
        link = self.rng.randint(1, 64)
        self.step(f"drop:{link}", lambda: self.network.drop_link(link))

    # steps of handsets

    def lose_connection(self, phone):
        """The handset comes back later, perhaps on another link or on that of another."""
        phone.handset.drop_link()
        phone.came, phone.place = [], len(phone.sent)
        if self.chance(0.3):
            phone.link = self.rng.choice([1, 2, 3, 33, 64])

    def commanded(self, phone):
        """A command to a handset, which may be refused."""
        first = phone.handset.word == "Deregistered"
        name = "register" if first else self.rng.choice(SENSIBLE)
        try:
            phone.say(phone.handset.command(COMMANDS[name]))
        except self.model.ue.Refused:
            pass

    def wait(self, phone):
        """The handset waits for its next timer."""
        phone.say(phone.handset.tick(min(phone.handset.timers.values())))

    def reach(self, phone):
        """What came down reaches the handset, or is lost, or comes once more."""
        octets = phone.came.pop(0)
        if self.chance(0.05):
            return
        phone.say(phone.handset.deliver(octets)[0])
        if self.chance(0.05):
            phone.came.insert(0, octets)

    def come_up(self, phone):
        """What the handset sent next comes up, or is lost, or comes once more."""
        fresh, octets = phone.sent[phone.place]
        phone.place += 1
        if self.chance(0.04):
            return
        self.deliver(phone.link, fresh, octets)
        if self.chance(0.05):
            self.deliver(phone.link, fresh, octets)

    def late_or_changed(self):
        """What a handset sent some time comes up once more, late, changed or on another link."""
        phone = self.rng.choice(self.phones)
        if not phone.sent:
            return self.other_octets()
        fresh, octets = self.rng.choice(phone.sent[-4:])
        if self.chance(0.5):
            octets = mutated(self.rng, octets)
        link = phone.link if self.chance(0.6) else self.rng.choice(self.phones).link
        self.deliver(link, fresh if self.chance(0.9) else not fresh, octets)

    def other_octets(self):
        """Octets that none of the handsets sent."""
        link, octets = self.others.string()
        if link is None or self.chance(0.15):
            link = self.rng.choice(self.phones).link
        self.deliver(link, self.chance(0.15 if len(octets) <= LONGEST else 0.5), octets)

    def go_on(self, phone):
        """The handset and the network go on with what is under way."""
        if phone.came:
            return self.reach(phone)
        if phone.place < len(phone.sent):
            return self.come_up(phone)
        record = self.network.subs.get(phone.handset.cfg.supi)
        if record and record.word == "Registered" and record.proc is None and self.chance(0.3):
            return self.command(self.rng.choice(ORDERS), record.supi)
        if phone.handset.word in ("Deregistered", "Registered") and self.chance(0.7):
            return self.commanded(phone)
        if phone.handset.timers and self.chance(0.4):
            return self.wait(phone)
        return self.any_command() if self.chance(0.2) else self.tick()

    def go(self):
        """One step, or something between steps."""
        rng, drawn = self.rng, self.rng.random()
        if len(self.steps) < self.calm:
            return self.go_on(self.phone)
        if self.chance(0.08):
            self.phone = rng.choice(self.phones)
        if drawn < 0.65:
            return self.go_on(self.phone)
        if drawn < 0.80:
            return self.other_octets()
        if drawn < 0.86:
            return self.late_or_changed()
        if drawn < 0.88:
            return self.any_command()
        if drawn < 0.93:
            return self.tick()
        if drawn < 0.94:
            return self.let_expire()
        if drawn < 0.96:
            return self.drop()
        if drawn < 0.965:
            return self.drop_any()
        if drawn < 0.985:
            return self.lose_connection(rng.choice(self.phones))
        if drawn < 0.99:
            return self.phone.handset.restart()
        return self.step("copy", lambda: None)


class Model:
    """The model's modules."""

    def __init__(self):
        import nas_codec
        import nas_crypto
        import nas_net
        import nas_script
        import nas_ue

        self.codec, self.crypto, self.net, self.script, self.ue = nas_codec, nas_crypto, nas_net, nas_script, nas_ue


def draw(rng):
    """A walk of 10 to 70 steps."""
    return NetworkWalk(rng, Model()).lasting(rng.randint(10, 70))


if __name__ == "__main__":
    sys.exit(compare("network", draw, Answered, 600))
