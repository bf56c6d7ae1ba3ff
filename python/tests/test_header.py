# SPDX-License-Identifier: Apache-2.0
"""The declarations beside include/shelfpigeon.h: functions, structs and numbers are all declared, and as they are there."""
import ctypes
import enum
import re
from ctypes import POINTER, c_bool, c_char_p, c_int32, c_size_t, c_uint16, c_uint32, c_uint64, c_void_p
from pathlib import Path

import pytest

from shelfpigeon import declarations as declared
from shelfpigeon import names, sockets
from shelfpigeon.declarations import ANSWERS, FUNCTIONS, STRUCTS, library

HEADER = Path(__file__).resolve().parents[2] / "include" / "shelfpigeon.h"
PLAIN = {"uint16_t": c_uint16, "uint32_t": c_uint32, "uint64_t": c_uint64, "int32_t": c_int32, "size_t": c_size_t, "bool": c_bool}


def code() -> str:
    """The header without comments."""
    return re.sub(r"/\*.*?\*/", "", HEADER.read_text(), flags=re.S)


def parameter(text: str):
    """The ctypes type of a parameter or a field, as the package would have it."""
    words = re.sub(r"\bconst\b|\w+(\[.*\])?$", "", text.strip()).split()
    stars = "".join(words).count("*")
    name = "".join(words).replace("*", "")
    if stars == 0:
        return PLAIN[name]
    if name == "void":
        return c_void_p
    if name in ("uint8_t", "char"):
        return c_char_p if stars == 1 else POINTER(c_void_p if name == "uint8_t" else c_char_p)
    return POINTER(STRUCTS.get(name) or PLAIN[name])


def functions() -> dict[str, tuple[str, list[str]]]:
    found = re.findall(r"(?m)^(uint32_t|void) (pigeon_\w+)\(([^)]*)\);", code())
    return {name: (answer, [it for it in given.split(",") if it.strip() != "void"]) for answer, name, given in found}


def structs() -> dict[str, list[tuple[str, str]]]:
    found = {}
    for body, name in re.findall(r"typedef struct \w+ \{(.*?)\} (\w+);", code(), re.S):
        fields = [it.strip() for it in body.split(";") if it.strip()]
        found[name] = [(re.search(r"\w+$", it)[0], it) for it in fields]
    return found


def numbers() -> dict[str, int]:
    found = {}
    for body in re.findall(r"enum \{(.*?)\}", code(), re.S):
        found.update({name: int(value) for name, value in re.findall(r"PIGEON_(\w+) = (\d+)", body)})
    return found


def test_the_header_is_read():
    assert len(functions()) > 45 and len(structs()) > 9 and len(numbers()) > 100


def test_each_function_is_declared():
    assert set(FUNCTIONS) == set(functions())


@pytest.mark.parametrize("name", sorted(functions()))
def test_parameters(name):
    answer, given = functions()[name]
    assert FUNCTIONS[name] == [parameter(it) for it in given]
    assert ANSWERS.get(name, c_uint32) is (c_uint32 if answer == "uint32_t" else None)


def test_each_struct_is_declared():
    assert set(STRUCTS) == set(structs())


@pytest.mark.parametrize("name", sorted(structs()))
def test_fields(name):
    wanted = [(field, c_void_p if "void *" in text else parameter(text)) for field, text in structs()[name]]
    assert STRUCTS[name]._fields_ == wanted
    assert ctypes.alignment(STRUCTS[name]) == 8 or name == "pigeon_given_up"


# The enums of the package whose names have a word before them in the header.
PREFIXES = {
    "Text": "TEXT_",
    "Checksum": "CHECKSUM_",
    "ZeroChecksum": "ZERO_CHECKSUM_",
    "ChannelState": "CHANNEL_STATE_",
    "Peer": "PEER_",
    "Cause": "CAUSE_",
    "ErrorKind": "ERROR_",
    "Role": "ROLE_",
    "Refusal": "REFUSED_",
}


def test_numbers():
    own = {}
    for name, kind in vars(names).items():
        if isinstance(kind, type) and issubclass(kind, enum.IntEnum | enum.IntFlag) and kind.__module__ == names.__name__:
            own.update({PREFIXES.get(name, "") + it: value.value for it, value in kind.__members__.items()})
    assert own == numbers()


def test_what_stands_beside_them():
    text = HEADER.read_text()
    assert f"#define PIGEON_SEED_SIZE {declared.SEED_SIZE}\n" in text
    assert "#define PIGEON_UNLIMITED UINT32_MAX" in text and declared.UNLIMITED == 2**32 - 1
    assert "#define PIGEON_UNSET UINT64_MAX" in text and declared.UNSET == sockets.NEVER == 2**64 - 1
    (number,) = re.findall(r"#define PIGEON_VERSION_NUMBER (\d+)\n", text)
    assert int(number) // 100 == declared.VERSION[0] * 100 + declared.VERSION[1]


def test_the_library_has_each_function():
    for name in FUNCTIONS:
        assert getattr(library(), name).argtypes == FUNCTIONS[name]


def test_sizes_are_those_that_the_library_knows():
    for kind, call in ((declared.OptionsStruct, "pigeon_default_options_sized"), (declared.OptionsStruct, "pigeon_options_for_webrtc_sized")):
        room = ctypes.create_string_buffer(ctypes.sizeof(kind) + 8)
        assert getattr(library(), call)(room, ctypes.sizeof(kind)) == names.Answer.OK
        assert getattr(library(), call)(room, ctypes.sizeof(kind) + 8) == names.Answer.INVALID_SIZE
