"""The declarations are those of include/leafmesh.h, call by call and field by field."""

import ctypes
import re
import shutil
import subprocess
import tempfile
import unittest
from pathlib import Path

import leafmesh
from leafmesh import _library, errors, limits, rows

ROOT = Path(__file__).resolve().parents[3]
HEADER = re.sub(r"/\*.*?\*/", "", (ROOT / "include" / "leafmesh.h").read_text(), flags=re.S)

NUMBERS = {
    "int64_t": ctypes.c_int64,
    "uint64_t": ctypes.c_uint64,
    "uint16_t": ctypes.c_uint16,
    "size_t": ctypes.c_size_t,
}


def calls():
    """Each call of the header: its result's name, and its arguments' types."""
    declared = re.findall(r"^(\w+) (leafmesh_\w+)\(([^{};]*)\);", HEADER, flags=re.M)
    for result, name, arguments in declared:
        yield name, result, [argument_type(argument) for argument in arguments.split(",")]


def argument_type(argument):
    return ctypes.c_void_p if "*" in argument else NUMBERS[argument.split()[-2]]


def fields(struct):
    """The names of a struct's fields in the header; an array's with its length."""
    body = re.search(r"typedef struct \{([^{}]*)\} %s;" % struct, HEADER).group(1)
    found = []
    for line in body.split(";"):
        found += re.findall(r"(\w+)(?:\[\w+\])?\s*(?=,|$)", line.strip())
    return found


class Header(unittest.TestCase):
    def test_every_call_is_declared_with_its_arguments_and_its_outcome(self):
        found = {name: (result, arguments) for name, result, arguments in calls()}
        self.assertGreaterEqual(len(found), 16)
        self.assertEqual(set(found), set(_library.DECLARATIONS))
        for name, (result, arguments) in _library.DECLARATIONS.items():
            with self.subTest(call=name):
                self.assertEqual(arguments, found[name][1])
                self.assertEqual(result, NUMBERS.get(found[name][0], result))
                if issubclass(result, ctypes.Structure):
                    self.assertEqual(result.__name__, found[name][0])
                    self.assertEqual([field for field, _ in result._fields_], fields(found[name][0]))

    def test_the_version_is_the_headers(self):
        version = re.search(r'#define LEAFMESH_VERSION "(.*)"', HEADER).group(1)
        self.assertEqual(leafmesh.__version__, version)

    def test_limits_are_the_headers(self):
        there = dict(re.findall(r"^#define LEAFMESH_(\w+) (\d+)", HEADER, flags=re.M))
        there.update(re.findall(r"^#define LEAFMESH_(TICK) 0x1p(-\d+)", HEADER, flags=re.M))
        here = {name: value for name, value in vars(limits).items() if name.isupper()}
        here["SLOT"] = here.pop("SLOT_NUMBERS")
        self.assertEqual(here.pop("TICK"), 2.0 ** int(there["TICK"]))
        self.assertEqual(here, {name: int(there[name]) for name in here})

    def test_refusals_have_the_headers_numbers_and_words(self):
        numbers = dict(re.findall(r"LEAFMESH_(\w+)\s*=\s*(\d+)", HEADER))
        words = dict(re.findall(r'case LEAFMESH_(\w+):\s*return "(.*)";', HEADER))
        reasons = {reason.name: str(int(reason)) for reason in leafmesh.Reason}
        self.assertEqual(reasons, {name: number for name, number in numbers.items() if name != "ACCEPTED"})
        for reason in leafmesh.Reason:
            self.assertEqual(leafmesh.Refusal(reason, 0).words, words[reason.name])
        later = re.search(r'default:\s*return "(.*)";', HEADER).group(1)
        self.assertEqual(errors.Refusal(99, 0).words, later)


# Fields of a row's type in the header, where they have other names here.
FLAT = {
    "VIA": {"x": "footprint.x", "y": "footprint.y", "half_width": "footprint.half_width",
            "half_height": "footprint.half_height"},
    "CHANNEL": {f"{end}_{field}": f"{end}.{field}" for end in ("drain", "source") for field in ("component", "x", "y")},
}
ROWS = {"NODE": "node", "EDGE": "edge", "CELL": "cell", "RECT": "rect", "LAYER": "layer", "POLYGON": "polygon",
        "CONTACT": "contact_pair", "VIA": "via", "CHANNEL": "channel"}


@unittest.skipUnless(shutil.which("cc"), "the layout of rows is asked of a C compiler, cc")
class Layout(unittest.TestCase):
    def test_rows_have_the_headers_layout(self):
        wanted, asked = [], []
        for name, struct in ROWS.items():
            kind = getattr(rows, name)
            wanted.append(kind.itemsize)
            asked.append(f"sizeof(leafmesh_{struct})")
            for field in kind.names:
                place = FLAT.get(name, {}).get(field, field)
                wanted += [kind.fields[field][1], kind[field].itemsize]
                asked += [f"offsetof(leafmesh_{struct}, {place})", f"sizeof(((leafmesh_{struct} *)0)->{place})"]
        self.assertEqual(answers(asked), wanted)


def answers(asked):
    """What a C program says of these."""
    lines = "".join(f'    printf("%zu\\n", (size_t)({each}));\n' for each in asked)
    source = f'#include <stdio.h>\n#include "leafmesh.h"\nint main(void)\n{{\n{lines}    return 0;\n}}\n'
    with tempfile.TemporaryDirectory() as folder:
        program = Path(folder) / "layout"
        program.with_suffix(".c").write_text(source)
        subprocess.run(["cc", "-std=c11", "-I", ROOT / "include", program.with_suffix(".c"), "-o", program], check=True)
        said = subprocess.run([program], check=True, capture_output=True, text=True).stdout
    return [int(line) for line in said.split()]


if __name__ == "__main__":
    unittest.main()
