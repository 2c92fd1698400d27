"""Gives LLVM's text a shuffle of bytes of its own, in place of the instruction `pshufb` of x86.

The backend writes the instruction by its name in LLVM where code looks 16 bytes up at once. It
takes 16 bytes and 16 places. For each place the result has the byte at its lowest four bits, or 0
where its highest bit is set. The function below does that byte by byte, and any machine has it.
"""
import re

OF_X86, OWN = "@llvm.x86.ssse3.pshuf.b.128", "@shuffled_bytes"
DECLARED = re.compile(rf"^declare [^\n]*{re.escape(OF_X86)}\([^\n]*\n", re.M)
WIDTH, BYTES = 16, "<16 x i8>"


def byte_at(index):
    """Puts the byte for one place into the result, after those for the places before it."""
    before = f"%made{index - 1}" if index else "zeroinitializer"
    return f"""\
  %place{index} = extractelement {BYTES} %places, i64 {index}
  %low{index} = and i8 %place{index}, {WIDTH - 1}
  %byte{index} = extractelement {BYTES} %bytes, i8 %low{index}
  %set{index} = icmp slt i8 %place{index}, 0
  %chosen{index} = select i1 %set{index}, i8 0, i8 %byte{index}
  %made{index} = insertelement {BYTES} {before}, i8 %chosen{index}, i64 {index}
"""


def function():
    """The function."""
    lines = "".join(map(byte_at, range(WIDTH)))
    return f"""\
define internal {BYTES} {OWN}({BYTES} %bytes, {BYTES} %places) {{
{lines}  ret {BYTES} %made{WIDTH - 1}
}}
"""


def with_shuffle(text):
    """LLVM's text with that function in the place of the instruction, where it names that."""
    if OF_X86 not in text:
        return text
    return f"{DECLARED.sub('', text).replace(OF_X86, OWN)}\n{function()}"
