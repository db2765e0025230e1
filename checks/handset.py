"""Compares a handset, as machine_probe's call `handset` drives it, with an executable model. See handset.sh.

Each step compares what is sent, octet for octet, in order, with its freshness and its pass, the message that passed, the context
that was taken, the refusal, and all that can be seen. Which timers run is seen by ticks, at their deadlines and just before.

The model has sessions, which the handset hasn't yet: so its calls for them are replaced by ones that do nothing.

usage: handset.py MODEL PROBE [WALKS [SEED]]
"""
import sys

from frame_inputs import CAPABILITIES
from handset_walks import HandsetWalk, compare_handsets
from probe import text
from walks import Answered


class WholeWalk(HandsetWalk):
    CALL = "handset"

    def __init__(self, rng, modules, config):
        if rng.random() < 0.2:
            config = config._replace(capability=bytes.fromhex(rng.choice(CAPABILITIES)))
        super().__init__(rng, modules, config)
        self.words.append(text(config.capability))

    def observed(self):
        """The model's handset, without sessions."""

        class Observed(self.model.Handset):
            def _frame(self, octets):
                pass

            def _not_forwarded(self, octets):
                pass

        return Observed

    def step(self, word, act):
        super().step(word, act)
        self.deadlines.update(self.handset.timers.values())

    def tick(self):
        moment = self.moment(self.handset)
        self.step(f"tick:{moment}", lambda: self.handset.tick(moment))

    def go(self):
        """One step."""
        handset, drawn = self.handset, self.rng.random()
        if handset.word in ("Deregistered", "Registered") and (not handset.connected or self.chance(0.15)) and self.chance(0.75):
            return self.sensible_command()
        if handset.word == "Deregistering" and self.chance(0.8):
            return self.tick()  # up to the fifth expiry
        if drawn < 0.80:
            return self.deliver(self.network.string())
        if drawn < 0.84:
            return self.any_command()
        if drawn < 0.95:
            return self.tick()
        if drawn < 0.98:
            return self.drop()
        if drawn < 0.985:
            return self.restart()
        return self.step("copy", lambda: None)


if __name__ == "__main__":
    sys.exit(compare_handsets("handset", WholeWalk, Answered, 2000))
