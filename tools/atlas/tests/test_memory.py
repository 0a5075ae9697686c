"""Tests of the check on who may say that memory ran out."""
import unittest

from atlas.functions import Function
from atlas.memory import places


def fault_of(body):
    """Returns what is wrong with the one place of a function with this body."""
    function = Function("some", "crates/some/src/lib.rt", 1, "", "", "", "name")
    function.body = "{\n" + body + "\n}"
    (place,) = places(function)
    return place.fault


class FailedCalls(unittest.TestCase):
    def test_a_failed_call(self):
        self.assertEqual(fault_of("let Ok(made) = Vec::with_capacity(alloc, 8 * count) else {\n return Err(Fault::NoMemory);\n };"), "")
        self.assertEqual(fault_of("if code.push(instr).is_err() {\n return Err((Fault::NoMemory, code));\n }"), "")
        self.assertEqual(fault_of("encode(alloc, code).map_err(|_| AllocError)"), "")
        self.assertEqual(fault_of("match line.cut() {\n Ok(piece) => Ok(piece),\n Err(_) => Err(Fault::NoMemory),\n }"), "")

    def test_an_error_of_another_name(self):
        self.assertEqual(fault_of("match fault {\n LineFault::NoMemory => Answer::NoMemory,\n LineFault::Full => Answer::Full,\n }"), "")

    def test_a_comparison(self):
        self.assertNotEqual(fault_of("if count > 100_000 {\n return Err(Fault::NoMemory);\n }"), "")
        self.assertNotEqual(fault_of("if count > 9 || code.push(instr).is_err() {\n return Err(AllocError);\n }"), "")

    def test_no_cause(self):
        self.assertNotEqual(fault_of("Err(AllocError)"), "")
        self.assertNotEqual(fault_of("match count {\n 0 => Ok(()),\n _ => Err(AllocError),\n }"), "")


if __name__ == "__main__":
    unittest.main()
