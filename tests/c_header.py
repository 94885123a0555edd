"""What capi/blossom.h declares: its numbers, and the types of its calls. The tests of the
library call it by these, so that a number or a type that isn't the library's shows."""
import ctypes
import os
import re

CAPI = os.path.join(os.path.dirname(os.path.abspath(__file__)), "..", "capi")
#: What ctypes calls the types of the header.
TYPES = {
    "uint32_t": ctypes.c_uint32,
    "size_t": ctypes.c_size_t,
    "const uint8_t *": ctypes.c_void_p,
    "const uint32_t *": ctypes.POINTER(ctypes.c_uint32),
    "const int64_t *": ctypes.POINTER(ctypes.c_int64),
    "int64_t *": ctypes.POINTER(ctypes.c_int64),
    "uint8_t *": ctypes.c_void_p,
    "size_t *": ctypes.POINTER(ctypes.c_size_t),
}


class Header:
    def __init__(self):
        with open(os.path.join(CAPI, "blossom.h"), encoding="utf-8") as file:
            text = re.sub(r"/\*.*?\*/", " ", file.read(), flags=re.S)
        enums = {
            enum: {name: int(number) for name, number in re.findall(r"BLOSSOM_(\w+) = (\d+)", body)}
            for enum, body in re.findall(r"enum blossom_(\w+) \{(.*?)\};", text, re.S)
        }
        #: The numbers by their names without BLOSSOM_.
        self.tasks, self.kinds, self.statuses = enums["task"], enums["kind"], enums["status"]
        self.input_errors, self.outcomes = enums["input_error"], enums["outcome"]
        self.violations, self.parts = enums["violation"], enums["answer_part"]
        self.join_outcomes = enums["join_outcome"]
        #: Second names of numbers, each with the first one, without BLOSSOM_.
        self.aliases = dict(re.findall(r"BLOSSOM_(\w+) = BLOSSOM_(\w+)", text))
        self.aliases["LONGEST_ANSWER"] = re.search(
            r"#define BLOSSOM_LONGEST_ANSWER BLOSSOM_(\w+)\n", text
        )[1]
        self.abi = int(re.search(r"#define BLOSSOM_ABI (\d+)\n", text)[1])
        #: How long an answer is at most, and one of `gallai`.
        self.longest_answer, self.longest_gallai = (
            int(size) << int(shift)
            for size, shift in re.findall(
                r"#define BLOSSOM_MAX_\w+_BYTES \(BLOSSOM_CAST_\(size_t, (\d+)\) << (\d+)\)\n", text
            )
        )
        #: For each call what it answers and what it takes, as ctypes has it.
        self.calls = {
            name: (
                TYPES[answer],
                [type_of(one) for one in words.split(",") if one.strip() != "void"],
            )
            for answer, name, words in re.findall(
                r"^(\w+) (blossom_\w+)\((.*?)\);", text, re.M | re.S
            )
        }


def type_of(parameter):
    return TYPES[re.fullmatch(r"\s*(.*?)\w+\s*", parameter)[1].strip()]
