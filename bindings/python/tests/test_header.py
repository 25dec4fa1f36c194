"""Holds the package's structs, functions, numbers and words to include/chroma.h: by the header's text,
and by what a C compiler makes of it."""
import ctypes
import os
import re
import shutil
import subprocess
import tempfile
import unittest

from chroma import Refusal, Refused, _raw, scratch_need
from reference import TOP

with open(os.path.join(TOP, "include", "chroma.h")) as file:
    HEADER = file.read()
TEXT = re.sub(r"/\*.*?\*/", "", HEADER, flags=re.S)
TYPES = {
    "size_t": ctypes.c_size_t,
    "uint32_t": ctypes.c_uint32,
    "uint8_t": ctypes.c_uint8,
    "float": ctypes.c_float,
    "double": ctypes.c_double,
}
STRUCTS = {name: kind for name, kind in vars(_raw).items()
           if isinstance(kind, type) and issubclass(kind, ctypes.Structure)}
TYPES.update(STRUCTS)


def fields(body):
    """The names and types of a struct's text, in order."""
    for line in filter(None, map(str.strip, body.split(";"))):
        kind, names = line.split(None, 1)
        for name in names.split(","):
            name, count = re.fullmatch(r"\s*(\w+)(?:\[(\d+)\])?\s*", name).groups()
            yield name, TYPES[kind] * int(count) if count else TYPES[kind]


def parameters(text):
    """The types of a function's parameters."""
    for word in filter(None, map(str.strip, text.split(","))):
        word = word.replace("const ", "")
        if word == "void":
            continue
        kind, star = re.fullmatch(r"(\w+)\s+(\**)\w+", word).groups()
        if star:
            named = {"uint8_t": _raw.BYTES, "uint16_t": _raw.WORDS, "float": _raw.FLOATS}
            yield named[kind][0]
        else:
            yield TYPES[kind]


class Header(unittest.TestCase):
    def test_structs(self):
        found = dict(re.findall(r"typedef struct (\w+) \{(.*?)\} \1;", TEXT, flags=re.S))
        self.assertEqual(set(found), set(STRUCTS))
        for name, body in found.items():
            self.assertEqual(list(fields(body)), STRUCTS[name]._fields_, name)

    def test_functions(self):
        found = {name: (TYPES[result], tuple(parameters(words)))
                 for result, name, words in re.findall(r"^(\w+) (chroma_\w+)\(([^)]*)\);", TEXT, flags=re.M)}
        self.assertEqual(found, _raw.FUNCTIONS)

    def test_numbers(self):
        defined = dict(re.findall(r"^#define (CHROMA_\w+) (\w+)$", TEXT, flags=re.M))
        for name in ("VERSION", "PICTURE_SCRATCH", "PICTURE_OUTPUT"):
            self.assertEqual(getattr(_raw, name), int(defined["CHROMA_" + name], 0), name)
        self.assertEqual(_raw.LIBRARY["chroma_version"](), _raw.VERSION)

    def test_refusals(self):
        body = re.search(r"enum ChromaRefusal \{(.*?)\};", TEXT, flags=re.S).group(1)
        named = {name: int(number) for name, number in re.findall(r"CHROMA_(\w+) = (\d+)", body)}
        self.assertEqual(named.pop("ACCEPTED"), 0)
        self.assertEqual({each.name: each.value for each in Refusal}, named)
        for number in range(1, 300):
            refused = Refused(number)
            self.assertEqual(refused.number, number)
            self.assertEqual("no name" in refused.words, number not in named.values(), number)

    @unittest.skipUnless(shutil.which("gcc"), "gcc isn't there")
    def test_offsets(self):
        lines, wanted = [], []
        for name, kind in STRUCTS.items():
            lines.append(f'printf("{name} %zu\\n", sizeof({name}));')
            wanted.append(f"{name} {ctypes.sizeof(kind)}")
            for field, _ in kind._fields_:
                lines.append(f'printf("{name}.{field} %zu\\n", offsetof({name}, {field}));')
                wanted.append(f"{name}.{field} {getattr(kind, field).offset}")
        for cw, w in ((1, 1), (3, 5), (320, 640), (8192, 8192)):
            lines.append(f'printf("need %zu\\n", chroma_scratch_need({cw}, {w}));')
            wanted.append(f"need {scratch_need(cw, w)}")
        text = '#include "chroma.h"\n#include <stdio.h>\nint main(void) {\n' + "\n".join(lines) + "\nreturn 0;\n}\n"
        with tempfile.TemporaryDirectory() as folder:
            source, program = os.path.join(folder, "offsets.c"), os.path.join(folder, "offsets")
            with open(source, "w") as file:
                file.write(text)
            subprocess.run(["gcc", "-I", os.path.join(TOP, "include"), "-o", program, source], check=True)
            found = subprocess.run([program], stdout=subprocess.PIPE, check=True, universal_newlines=True)
        self.assertEqual(found.stdout.splitlines(), wanted)
