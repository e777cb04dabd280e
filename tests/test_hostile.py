"""The worst inputs that the limits let through: how long `rbl` takes over each, and how much memory."""
from .worst_texts import cases
from .shared import Cases, folder_of, measured, tell_most

SECONDS = 10
MEGABYTES = {1: 200, 2: 400}


class Hostile(Cases):
    def test_worst_texts(self):
        """Each command ends within 10 seconds of processor time and 200 MB (edition 2: 400 MB), with the status that is named."""
        taken = []

        def fault(name, words, texts, edition, status):
            with folder_of(texts) as folder:
                real = measured(words, folder, 2 * SECONDS)
            taken.append((real, name))
            if real.status != status or real.seconds > SECONDS or real.megabytes > MEGABYTES[edition]:
                return f"status {real.status} for {status}, {real.seconds:.2f} s, {real.megabytes:.0f} MB"
            return None

        self.each([(case[0], *case) for case in cases()], fault)
        tell_most(taken)
