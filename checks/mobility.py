"""Compares a handset's 5GMM, as machine_probe's call `mobility` drives it step by step, with an executable model. See mobility.sh.

Beside what handset.py compares, each step compares what the sessions are told, by what becomes of them, and the running timers
with their deadlines. The order of what goes out is compared among the messages that are sent, and among those for the sessions,
and not between one and another kind.

The model has sessions, so its calls for them are replaced by ones that note what they are told, and a message of a session is
carried by the call that its sessions make. Timers expire whether they are due or not.

usage: mobility.py MODEL PROBE [WALKS [SEED]]
"""
import sys

from frame_inputs import COUNTS, MOST
from handset_walks import HandsetWalk, compare_handsets
from probe import text
from walks import Answered

OWNERS = {"T3510": "Registering", "T3517": "Serving", "T3521": "Deregistering"}
OF_THE_NETWORK = ["T3522", "T3550", "T3555", "T3560"]


class MobilityWalk(HandsetWalk):
    CALL = "mobility"

    def __init__(self, rng, modules, config):
        super().__init__(rng, modules, config)
        self.held = frozenset()  # as it was given last

    def observed(self):
        """The model's handset, that tells in place of its sessions."""

        class Observed(self.model.Handset):
            def _frame(self, octets):
                self.told.append(f"to_session:{text(octets)}")

            def _not_forwarded(self, octets):
                self.told.append(f"not_forwarded:{text(octets)}")

            def _abandon(self):
                self.told.append("abandon")

            def _clear_sessions(self):
                self.told.append("clear")
                for psi in range(1, 16):
                    self.psis[psi].word = "Inactive"

            def hold(self, held):
                for psi in range(1, 16):
                    self.psis[psi].word = "Active" if psi in held else "Inactive"

        return Observed

    def timer(self, name):
        return f"T{self.model.TIMER_KEYS[name][1:]}"

    def seen(self, refusal):
        handset = self.handset
        seen = super().seen(refusal) | {
            "to sessions": [told for told in handset.told if told != "abandon" and told != "clear"],
            "held": sorted(handset.held()),
            "timers": {self.timer(name): at for (name, _), at in sorted(handset.timers.items())},
        }
        # without a connection the sessions have nothing under way
        return seen | {"abandoned": "abandon" in handset.told} if self.connected else seen

    # steps

    def step(self, word, act):
        handset = self.handset
        self.connected, held = handset.connected, handset.held()
        if held != self.held:
            self.held = held
            self.give(f"held:{text(self.codec.StatusC.write(held))}")
        handset.told = []
        super().step(word, act)

    def expire(self, key):
        def act():
            self.handset.timers.pop(key, None)
            self.handset._expire(*key)

        self.step(f"expired:{self.timer(key[0])}", act)

    def expire_one(self):
        if self.handset.timers:
            self.expire(self.rng.choice(sorted(self.handset.timers)))

    def expire_without_owner(self):
        """A timer that doesn't run: T3516 drops the reply all the same, and no other is of a procedure."""
        running = {self.timer(name) for name, _ in self.handset.timers}
        name = self.rng.choice(OF_THE_NETWORK + list(OWNERS) + ["T3516"])
        if name in running:
            return
        if name == "T3516":
            self.expire((self.model.T3516, 0))
        elif OWNERS.get(name) != self.handset.word:
            self.step(f"expired:{name}", lambda: None)

    def carry(self):
        rng = self.rng
        size = rng.choice([0, 4, 20]) if self.chance(0.9) else rng.choice([4078, 4080, 4081, 4082, 4083, 4100])
        frame = rng.randbytes(size)
        psi = rng.randint(1, 15)
        dnn = rng.choice([None, None, b"\x08internet", b"\x01a\x01b"])
        words = [f"carry:{psi}", text(frame)] + ([text(dnn)] if dnn else [])
        self.step(":".join(words), lambda: self.handset._carry(psi, dnn, frame))

    def hold(self):
        self.handset.hold(frozenset(psi for psi in range(1, 16) if self.chance(0.3)))

    def count(self):
        """The counts of the context in use are others, of which many are at their end."""
        context = self.handset.current
        if context is not None:
            context.up, context.down = (self.rng.choice([COUNTS - n for n in (0, 0, 1, 2, 300)] + [255, 256, 65535]) for _ in "ud")
            self.give(f"counts:{context.up}:{context.down}")

    def go(self):
        """One word or a few."""
        handset, drawn = self.handset, self.rng.random()
        if handset.word in ("Deregistered", "Registered") and (not handset.connected or self.chance(0.15)) and self.chance(0.75):
            return self.sensible_command()
        if handset.word == "Deregistering" and self.chance(0.4):
            return self.expire_one()
        if drawn < 0.70:
            return self.deliver(self.network.string()[:MOST])
        if drawn < 0.74:
            return self.any_command()
        if drawn < 0.78:
            return self.expire_one()
        if drawn < 0.80:
            return self.expire_without_owner()
        if drawn < 0.83:
            return self.drop()
        if drawn < 0.835:
            return self.restart()
        if drawn < 0.92:
            return self.carry()
        if drawn < 0.96:
            return self.hold()
        return self.count()


def psis(status):
    """The sessions of a session status."""
    octets = bytes.fromhex(status)
    return frozenset(psi for psi in range(1, 16) if int.from_bytes(octets, "little") >> psi & 1)


class AnsweredWithSessions(Answered):
    """What machine_probe answered so far, with what became of sessions and timers."""

    def __init__(self):
        super().__init__()
        self.timers, self.held = {}, frozenset()

    def nothing(self):
        return super().nothing() | {"to sessions": [], "abandoned": False}

    def after(self, words, step):
        for word in words:
            name, _, value = word.partition(":")
            if name == "held":
                self.held = psis(value)
            elif name == "expired":
                self.timers.pop(value, None)
        seen = super().after(words, step)
        return seen | {"held": sorted(self.held), "timers": dict(sorted(self.timers.items()))}

    def take(self, out):
        name, _, value = out.partition(":")
        if name in ("to_session", "not_forwarded"):
            self.seen["to sessions"].append(out)
        elif name == "abandon":
            self.seen["abandoned"] = True
        elif name == "clear":
            self.held = frozenset()
        elif name == "keep":
            self.held &= psis(value)
        elif name == "start":
            timer, at = value.split(":")
            self.timers[timer] = int(at)
        elif name == "stop":
            self.timers.pop(value, None)
        else:
            super().take(out)


if __name__ == "__main__":
    sys.exit(compare_handsets("mobility", MobilityWalk, AnsweredWithSessions, 400))
