"""The operations of WebAssembly that libdnorm.c may have, each with what it is in C, to be read beside the WebAssembly
Core Specification 2.0: 5.4 has the numbers, 4.3.2 says what an operation on integers computes, 4.4 what an instruction
does. A number is a u32 or a u64 of C, by which also a signed one is kept; s8 to s64 are the signed types."""

from __future__ import annotations

from typing import NamedTuple


class Operation(NamedTuple):
    """An operation: its name, the types of its operands and its result, and what it is in C."""

    name: str
    operands: list[str]
    result: str
    text: str


class Access(NamedTuple):
    """A load or a store: its name, the type of the number, how many bits are in memory, and for a load, the casts of C
    that widen them."""

    name: str
    kind: str
    bits: int
    casts: str


def rows(table: str) -> dict[int, list[str]]:
    """Returns the columns of the rows of a table, by the number of the operation."""
    split = [it.split(None, 4) for it in table.strip().splitlines()]
    return {int(number, 16): columns for number, *columns in split}


# Control instructions (5.4.1).
UNREACHABLE, NOP, BLOCK, LOOP, IF, ELSE, END, BR, BR_IF, BR_TABLE, RETURN, CALL = (
    0,
    1,
    2,
    3,
    4,
    5,
    11,
    12,
    13,
    14,
    15,
    16,
)
# What begins a block that has no result.
NO_RESULT = 0x40
# Parametric instructions (5.4.3) and variable instructions (5.4.4).
DROP, SELECT = 0x1A, 0x1B
LOCAL_GET, LOCAL_SET, LOCAL_TEE, GLOBAL_GET, GLOBAL_SET = 0x20, 0x21, 0x22, 0x23, 0x24
# Constants (5.4.7).
I32_CONST, I64_CONST = 0x41, 0x42
# The first byte of memory.copy and memory.fill (5.4.6), and both bytes. Bytes 0 follow, for the memories.
MORE, COPY, FILL = 0xFC, 0xFC0A, 0xFC0B

# Loads (5.4.6, 4.4.7): the number in memory is little endian; one of fewer bits is widened by its sign (_s) or by 0.
LOADS = {
    number: Access(name, kind, int(bits), casts[0] if casts else "")
    for number, (name, kind, bits, *casts) in rows(
        """
        28  i32.load      i32  32
        29  i64.load      i64  64
        2C  i32.load8_s   i32  8   (u32)(s32)(s8)
        2D  i32.load8_u   i32  8   (u32)
        2E  i32.load16_s  i32  16  (u32)(s32)(s16)
        2F  i32.load16_u  i32  16  (u32)
        30  i64.load8_s   i64  8   (u64)(s64)(s8)
        31  i64.load8_u   i64  8   (u64)
        32  i64.load16_s  i64  16  (u64)(s64)(s16)
        33  i64.load16_u  i64  16  (u64)
        34  i64.load32_s  i64  32  (u64)(s64)(s32)
        35  i64.load32_u  i64  32  (u64)
        """
    ).items()
}
# Stores (5.4.6, 4.4.7): the lowest bits of the number.
STORES = {
    number: Access(name, kind, int(bits), "")
    for number, (name, kind, bits) in rows(
        """
        36  i32.store    i32  32
        37  i64.store    i64  64
        3A  i32.store8   i32  8
        3B  i32.store16  i32  16
        3C  i64.store8   i64  8
        3D  i64.store16  i64  16
        3E  i64.store32  i64  32
        """
    ).items()
}
# Numeric instructions (5.4.7): the names of the functions of 4.3.2 are those behind the dot with an `i` before them,
# such as iadd. Shifts and rotations take their count modulo the width. Those in capitals are functions of
# c/file/head.c; those that trap are in TRAPPING.
NUMERIC = {
    number: Operation(name, operands.split(","), result, text)
    for number, (name, operands, result, text) in rows(
        """
        45  i32.eqz           i32      i32  (u32)!{0}
        46  i32.eq            i32,i32  i32  (u32)({0} == {1})
        47  i32.ne            i32,i32  i32  (u32)({0} != {1})
        48  i32.lt_s          i32,i32  i32  (u32)((s32){0} < (s32){1})
        49  i32.lt_u          i32,i32  i32  (u32)({0} < {1})
        4A  i32.gt_s          i32,i32  i32  (u32)((s32){0} > (s32){1})
        4B  i32.gt_u          i32,i32  i32  (u32)({0} > {1})
        4C  i32.le_s          i32,i32  i32  (u32)((s32){0} <= (s32){1})
        4D  i32.le_u          i32,i32  i32  (u32)({0} <= {1})
        4E  i32.ge_s          i32,i32  i32  (u32)((s32){0} >= (s32){1})
        4F  i32.ge_u          i32,i32  i32  (u32)({0} >= {1})
        50  i64.eqz           i64      i32  (u32)!{0}
        51  i64.eq            i64,i64  i32  (u32)({0} == {1})
        52  i64.ne            i64,i64  i32  (u32)({0} != {1})
        53  i64.lt_s          i64,i64  i32  (u32)((s64){0} < (s64){1})
        54  i64.lt_u          i64,i64  i32  (u32)({0} < {1})
        55  i64.gt_s          i64,i64  i32  (u32)((s64){0} > (s64){1})
        56  i64.gt_u          i64,i64  i32  (u32)({0} > {1})
        57  i64.le_s          i64,i64  i32  (u32)((s64){0} <= (s64){1})
        58  i64.le_u          i64,i64  i32  (u32)({0} <= {1})
        59  i64.ge_s          i64,i64  i32  (u32)((s64){0} >= (s64){1})
        5A  i64.ge_u          i64,i64  i32  (u32)({0} >= {1})
        67  i32.clz           i32      i32  CLZ32({0})
        68  i32.ctz           i32      i32  CTZ32({0})
        69  i32.popcnt        i32      i32  POPCNT32({0})
        6A  i32.add           i32,i32  i32  ({0} + {1})
        6B  i32.sub           i32,i32  i32  ({0} - {1})
        6C  i32.mul           i32,i32  i32  ({0} * {1})
        6D  i32.div_s         i32,i32  i32  DIV_S32({0}, {1})
        6E  i32.div_u         i32,i32  i32  DIV_U32({0}, {1})
        6F  i32.rem_s         i32,i32  i32  REM_S32({0}, {1})
        70  i32.rem_u         i32,i32  i32  REM_U32({0}, {1})
        71  i32.and           i32,i32  i32  ({0} & {1})
        72  i32.or            i32,i32  i32  ({0} | {1})
        73  i32.xor           i32,i32  i32  ({0} ^ {1})
        74  i32.shl           i32,i32  i32  ({0} << ({1} & 31))
        75  i32.shr_s         i32,i32  i32  (u32)((s32){0} >> ({1} & 31))
        76  i32.shr_u         i32,i32  i32  ({0} >> ({1} & 31))
        77  i32.rotl          i32,i32  i32  ROTL32({0}, {1})
        78  i32.rotr          i32,i32  i32  ROTR32({0}, {1})
        79  i64.clz           i64      i64  CLZ64({0})
        7A  i64.ctz           i64      i64  CTZ64({0})
        7B  i64.popcnt        i64      i64  POPCNT64({0})
        7C  i64.add           i64,i64  i64  ({0} + {1})
        7D  i64.sub           i64,i64  i64  ({0} - {1})
        7E  i64.mul           i64,i64  i64  ({0} * {1})
        7F  i64.div_s         i64,i64  i64  DIV_S64({0}, {1})
        80  i64.div_u         i64,i64  i64  DIV_U64({0}, {1})
        81  i64.rem_s         i64,i64  i64  REM_S64({0}, {1})
        82  i64.rem_u         i64,i64  i64  REM_U64({0}, {1})
        83  i64.and           i64,i64  i64  ({0} & {1})
        84  i64.or            i64,i64  i64  ({0} | {1})
        85  i64.xor           i64,i64  i64  ({0} ^ {1})
        86  i64.shl           i64,i64  i64  ({0} << ({1} & 63))
        87  i64.shr_s         i64,i64  i64  (u64)((s64){0} >> ({1} & 63))
        88  i64.shr_u         i64,i64  i64  ({0} >> ({1} & 63))
        89  i64.rotl          i64,i64  i64  ROTL64({0}, {1})
        8A  i64.rotr          i64,i64  i64  ROTR64({0}, {1})
        A7  i32.wrap_i64      i64      i32  (u32){0}
        AC  i64.extend_i32_s  i32      i64  (u64)(s64)(s32){0}
        AD  i64.extend_i32_u  i32      i64  (u64){0}
        C0  i32.extend8_s     i32      i32  (u32)(s32)(s8){0}
        C1  i32.extend16_s    i32      i32  (u32)(s32)(s16){0}
        C2  i64.extend8_s     i64      i64  (u64)(s64)(s8){0}
        C3  i64.extend16_s    i64      i64  (u64)(s64)(s16){0}
        C4  i64.extend32_s    i64      i64  (u64)(s64)(s32){0}
        """
    ).items()
}
# An operand that is not defined (4.3.2) is a trap.
TRAPPING = {number for number, it in NUMERIC.items() if it.name[4:] in ("div_s", "div_u", "rem_s", "rem_u")}
