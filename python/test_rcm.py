"""Tests of the module rcm. The folder that RCM_TEST_FILES names holds the modules `ranking`, `stops` (stop 33), `sum` (adds its two
arguments) and `count` (takes millions of steps), and the form `form` of the ranking."""

import copy
import os
import pathlib
import pickle
import threading
import unittest

import rcm

FILES = pathlib.Path(os.environ["RCM_TEST_FILES"])
RANKING = (FILES / "ranking").read_bytes()
STOPS = (FILES / "stops").read_bytes()
SUM = (FILES / "sum").read_bytes()
COUNT = (FILES / "count").read_bytes()
FORM = (FILES / "form").read_bytes()
LIST = b"bedacf"


def in_threads(work, count):
    """Does the work in so many threads at once, and waits for all."""
    threads = [threading.Thread(target=work) for _ in range(count)]
    for thread in threads:
        thread.start()
    for thread in threads:
        thread.join()


class Checking(unittest.TestCase):
    def test_verdict(self):
        self.assertEqual(rcm.check(SUM), rcm.Verdict(types=1, structs=0, functions=1, instructions=2))
        self.assertEqual(rcm.Module(bytearray(SUM)).verdict.instructions, 2)

    def test_parameters(self):
        self.assertEqual(rcm.Module(SUM).parameters, 2)
        self.assertEqual(rcm.Module(RANKING).parameters, 0)

    def test_refusals(self):
        damaged = bytearray(RANKING)
        damaged[512 + 100] ^= 1
        for file, number, place in [(b"", 1, 0), (b"x" * 500, 1, 0), (b"\0" * 512, 2, 0), (damaged, 3, 1)]:
            with self.assertRaises(rcm.Refused) as caught:
                rcm.Module(file)
            self.assertEqual((caught.exception.number, caught.exception.place), (number, place))
            self.assertEqual(caught.exception.text, rcm.refusal_text(number))
            self.assertIn(f"refused {number} {place}: ", str(caught.exception))

    def test_a_refusal_is_copied_and_pickled_whole(self):
        with self.assertRaises(rcm.Refused) as caught:
            rcm.check(b"")
        refused = caught.exception
        for other in (copy.copy(refused), copy.deepcopy(refused), pickle.loads(pickle.dumps(refused))):
            self.assertIsInstance(other, rcm.Refused)
            self.assertEqual(vars(other), vars(refused))
            self.assertEqual((str(other), other.number, other.place), (str(refused), 1, 0))

    def test_types(self):
        with self.assertRaisesRegex(TypeError, "the module: expected bytes, found str"):
            rcm.check("ranking")


class Running(unittest.TestCase):
    def test_to_the_end(self):
        run = rcm.Module(RANKING).open()
        self.assertEqual((run.status, run.result, run.stop, run.output), ("running", None, None, b""))
        self.assertEqual(run.go(FORM), rcm.Answer("ended", 6, 335))
        self.assertEqual((run.status, run.result, run.stop, run.output), ("ended", 6, None, LIST))
        with self.assertRaises(rcm.Refused) as caught:
            run.go(FORM)
        self.assertEqual(caught.exception.number, 22)
        self.assertEqual(run.output, LIST)

    def test_saved_and_resumed(self):
        module = rcm.Module(RANKING)
        run = module.open()
        steps = 0
        while run.status == "running":
            steps += run.go(FORM, budget=50).steps
            run = module.resume(run.state, run.output)
        self.assertEqual((steps, run.result, run.output), (335, 6, LIST))

    def test_stop(self):
        run = rcm.Module(STOPS).open()
        self.assertEqual(run.go(), rcm.Answer("stopped", 33, 3))
        self.assertEqual((run.status, run.stop, run.result), ("stopped", 33, None))
        self.assertEqual(rcm.stop_text(run.stop), "an index not below the array's count")

    def test_arguments(self):
        module = rcm.Module(SUM)
        self.assertEqual(module.open(40, 2).go().value, 42)
        self.assertEqual(module.open(-1, 2**32 - 1).go().value, 2**32 - 2)
        for arguments in [(), (1,), (1, 2, 3)]:
            with self.assertRaises(rcm.Refused) as caught:
                module.open(*arguments)
            self.assertEqual(caught.exception.number, 9)
        with self.assertRaisesRegex(ValueError, "expected a number from -2147483648 to 4294967295, found 4294967296"):
            module.open(2**32, 0)
        with self.assertRaisesRegex(TypeError, "an argument: expected a number, found str"):
            module.open("1", 0)

    def test_bad_input_changes_nothing(self):
        run = rcm.Module(RANKING).open()
        before = run.state
        with self.assertRaises(rcm.Refused) as caught:
            run.go(b"\0" * (rcm.FORM_MAX + 1))
        self.assertEqual(caught.exception.number, 9)
        for budget in [-1, 2**64]:
            with self.assertRaises(ValueError):
                run.go(FORM, budget=budget)
        self.assertEqual(run.state, before)
        self.assertEqual(run.go(FORM, budget=0), rcm.Answer("running", None, 0))
        self.assertEqual(run.state, before)

    def test_threads(self):
        module = rcm.Module(RANKING)
        outputs = []

        def rank():
            run = module.open()
            while run.go(FORM, budget=7).status == "running":
                pass
            outputs.append(run.output)

        in_threads(rank, 8)
        self.assertEqual(outputs, [LIST] * 8)

    def test_one_run_in_two_threads(self):
        # Every step is made once, by whichever thread; one that comes too late is refused.
        module = rcm.Module(COUNT)
        whole = module.open().go(budget=2**32)
        run = module.open()
        steps, refused = [], []

        def share():
            try:
                while run.status == "running":
                    steps.append(run.go(budget=whole.steps // 10).steps)
            except rcm.Refused as late:
                refused.append(late.number)

        in_threads(share, 2)
        self.assertEqual((sum(steps), run.status, run.result), (whole.steps, "ended", whole.value))
        self.assertLessEqual(set(refused), {22})


class States(unittest.TestCase):
    def test_damaged(self):
        module = rcm.Module(RANKING)
        state = bytearray(module.open().state)
        module.test(state)
        state[63] = 1  # a spare byte
        for bad, number in [(state, 21), (b"", 20), (bytes(rcm.STATE_BYTES - 1), 20)]:
            for call in (module.test, lambda bytes: module.resume(bytes, b"")):
                with self.assertRaises(rcm.Refused) as caught:
                    call(bad)
                self.assertEqual(caught.exception.number, number)

    def test_output_that_is_behind(self):
        module = rcm.Module(RANKING)
        run = module.open()
        run.go(FORM)
        with self.assertRaisesRegex(ValueError, "the output: expected 6 to 4096 bytes, found 5"):
            module.resume(run.state, run.output[:5])

    def test_object(self):
        run = rcm.Module(RANKING).open()
        self.assertIsNone(run.object(256))
        run.go(FORM, budget=300)
        found = run.object(258)
        self.assertEqual((found.address, len(found.bytes)), (256, 6))
        self.assertEqual(found.bytes, run.state[8192 + 256 : 8192 + 262])
        self.assertIsNone(run.object(0))
        self.assertIsNone(run.object(2**32 - 1))
        with self.assertRaises(ValueError):
            run.object(-1)


class Texts(unittest.TestCase):
    def test_every_number(self):
        for number in [*range(1, 10), 20, 21, 22]:
            self.assertNotIn("no number", rcm.refusal_text(number))
            self.assertTrue(rcm.refusal_advice(number).endswith("."))
        for number in range(31, 40):
            self.assertNotIn("no number", rcm.stop_text(number))
            self.assertTrue(rcm.stop_advice(number).endswith("."))
        self.assertEqual(rcm.refusal_text(10), "no number of a refusal")
        self.assertEqual(rcm.stop_text(1), "no number of a stop")


if __name__ == "__main__":
    unittest.main()
