"""Makes C functions of a WebAssembly module over the memory of the program itself: an address of the module is an
address of the program, a call is a call, and what the linker has placed, the constant data, is found by its
relocations. c/file/head.c has what these functions call.

A function of C has the locals of the module's, l0, l1 and so on, and a variable for each place of the operand stack,
i0 or j0 for the lowest, by its type. What is on the operand stack is a text of C over these variables, which neither
reads memory nor can trap; it is put into the variable of its place before anything that it reads changes, and where
blocks begin. So each load, call, store and trap happens where the module has it."""

from __future__ import annotations

import struct
from collections.abc import Callable
from typing import NamedTuple

import wasm_operations as op
from wasm_module import ADDRESS, FUNCTION_INDEX, GLOBAL_INDEX, OFFSET, TYPES, WORD, Bytes, Module, stop

C_TYPES = {"i32": "u32", "i64": "u64"}
# How the variables of the operand stack begin.
LETTERS = {"i32": "i", "i64": "j"}
# A longer text gets a variable.
LONGEST = 120
# The globals: the pointer to the module's stack, and whether a call goes on. Others do not change.
STACK_POINTER = 0
CHANGING = ["i64", "i32"]
# A pointer to the stack below this is one that the module's stack has no room for.
LEAST_POINTER = 16
# How many bytes of the data are in a line.
ROW = 32


class Instruction(NamedTuple):
    """An instruction: its number, what follows it, and whether the linker has placed what follows."""

    number: int
    numbers: list[int]
    is_placed: bool = False


class Value(NamedTuple):
    """A text of C for what is on the operand stack: its type, which variables it reads, its value if it is a constant,
    and whether it is the pointer to the module's stack, or one that the function has made of it."""

    text: str
    kind: str
    uses: frozenset[str] = frozenset()
    constant: int | None = None
    is_pointer: bool = False


class Frame:
    """A block: its instruction, its number, the type of its result, and the height of the operand stack before it."""

    def __init__(self, number: int, label: int, result: str | None, height: int) -> None:
        self.number, self.label, self.result, self.height = number, label, result, height
        # Whether something branches to its end.
        self.is_used = False


class Code:
    """The code of a module, read function by function. It notes which relocations the instructions have."""

    def __init__(self, module: Module, section: Bytes) -> None:
        self.module, self.section = module, section
        self.used = set[int]()

    def placed(self, kind: int) -> bool:
        """Whether a relocation of this kind is about the number that follows."""
        at = self.section.at
        found = self.module.in_code.get(at)
        if found is not None:
            self.used.add(at)
            if found != kind:
                stop(f"a relocation of the kind {found} where one of the kind {kind} may be")
        return found is not None

    def function(self) -> tuple[list[str], list[Instruction]]:
        """Returns the types of the locals of the next function, without the arguments, and its instructions."""
        section = self.section
        end = section.unsigned() + section.at
        counts = section.vector(lambda: (section.unsigned(), section.value_type()))
        instructions = list[Instruction]()
        while section.at < end:
            instructions.append(self.instruction())
        if section.at != end:
            stop("an instruction goes beyond its function")
        return [kind for count, kind in counts for _ in range(count)], instructions

    def instruction(self) -> Instruction:
        section = self.section
        number = section.byte()
        if number in (op.BLOCK, op.LOOP, op.IF):
            return Instruction(number, [section.byte()])
        if number in (op.BR, op.BR_IF, op.LOCAL_GET, op.LOCAL_SET, op.LOCAL_TEE):
            return Instruction(number, [section.unsigned()])
        if number in (op.CALL, op.GLOBAL_GET, op.GLOBAL_SET):
            is_placed = self.placed(FUNCTION_INDEX if number == op.CALL else GLOBAL_INDEX)
            return Instruction(number, [section.unsigned()], is_placed)
        if number == op.BR_TABLE:
            return Instruction(number, [*section.vector(section.unsigned), section.unsigned()])
        if number in op.LOADS or number in op.STORES:
            align = section.unsigned()
            return Instruction(number, is_placed=self.placed(OFFSET), numbers=[align, section.unsigned()])
        if number in (op.I32_CONST, op.I64_CONST):
            return Instruction(number, is_placed=self.placed(ADDRESS), numbers=[section.signed()])
        if number == op.MORE:
            number = op.MORE << 8 | section.unsigned()
            if any(section.take(2 if number == op.COPY else 1)):
                stop("memory.copy or memory.fill of another memory")
        return Instruction(number, [])


class Body:
    """A function that is made into C."""

    def __init__(self, module: Module, index: int, kinds: list[str]) -> None:
        self.module = module
        self.signature = module.signatures[index]
        self.arguments = len(self.signature.arguments)
        self.locals = [*self.signature.arguments, *kinds]
        self.lines, self.stack = list[str](), list[Value]()
        self.frames = [Frame(op.END, 0, self.signature.result, 0)]
        self.labels = 0
        # Behind a branch, how many blocks deep: what stands there is never reached.
        self.dead = 0
        # The variables of the operand stack with their types, and which variables are read.
        self.places, self.read = dict[str, str](), set[str]()
        # The locals that are pointers to the module's stack.
        self.pointers = set[str]()
        self.steps: dict[int, Callable[[Instruction], None]] = {
            op.UNREACHABLE: lambda _: self.leave("DN_TRAP();"),
            op.NOP: lambda _: None,
            **{it: self.enter for it in (op.BLOCK, op.LOOP, op.IF)},
            op.BR: lambda it: self.leave(self.branch(it.numbers[0])),
            op.BR_IF: self.branch_if,
            op.BR_TABLE: self.branch_table,
            op.RETURN: lambda _: self.leave(self.branch(len(self.frames) - 1)),
            op.CALL: self.call,
            op.DROP: lambda _: self.drop(),
            op.SELECT: lambda _: self.select(),
            op.LOCAL_GET: lambda it: self.push(self.local(it.numbers[0])),
            op.LOCAL_SET: self.set_local,
            op.LOCAL_TEE: self.set_local,
            op.GLOBAL_GET: self.get_global,
            op.GLOBAL_SET: self.set_global,
            op.I32_CONST: self.constant,
            op.I64_CONST: self.constant,
            op.COPY: lambda _: self.move("dn_copy", "i64"),
            op.FILL: lambda _: self.move("dn_fill", "i32"),
            **{it: self.load for it in op.LOADS},
            **{it: self.store for it in op.STORES},
            **{it: self.compute for it in op.NUMERIC},
        }

    def say(self, text: str) -> None:
        self.lines.append(text)

    def of(self, value: Value) -> str:
        """Returns the text of a value that a statement reads."""
        self.read |= value.uses
        return value.text

    def place(self, depth: int, kind: str) -> str:
        """Returns the variable of a place of the operand stack."""
        name = f"{LETTERS[kind]}{depth}"
        self.places[name] = kind
        return name

    def put(self, depth: int, value: Value) -> Value:
        """Puts a value into the variable of a place. What lies below, and reads the variable, is put away first."""
        name = self.place(depth, value.kind)
        if value.text != name:
            self.keep(lambda it: name in it.uses, depth)
            self.say(f"{name} = {self.of(value)};")
        return Value(name, value.kind, frozenset([name]), is_pointer=value.is_pointer)

    def keep(self, which: Callable[[Value], bool], most: int | None = None) -> None:
        """Puts values on the operand stack below a place, or all, into their variables."""
        for depth, it in enumerate(self.stack[:most]):
            if which(it):
                self.stack[depth] = self.put(depth, it)

    def keep_all(self) -> None:
        self.keep(lambda it: it.constant is None)

    def push(self, value: Value, is_now: bool = False) -> None:
        """Puts a value on the operand stack: into its variable, if it has to be computed now, or is long."""
        self.stack.append(self.put(len(self.stack), value) if is_now or len(value.text) > LONGEST else value)

    def pop(self, kind: str | None = None) -> Value:
        if len(self.stack) <= self.frames[-1].height:
            stop("a block takes what is below it")
        value = self.stack.pop()
        if kind not in (None, value.kind):
            stop(f"a value of the type {value.kind} where one of {kind} is wanted")
        return value

    def step(self, it: Instruction) -> None:
        if it.number in (op.ELSE, op.END) and self.dead <= 1:
            (self.other if it.number == op.ELSE else self.end)()
        elif self.dead:
            self.dead += it.number in (op.BLOCK, op.LOOP, op.IF)
            self.dead -= it.number == op.END
        elif it.number in self.steps:
            self.steps[it.number](it)
        else:
            stop(f"an instruction {it.number:#x}")

    def enter(self, it: Instruction) -> None:
        [kind] = it.numbers
        if kind != op.NO_RESULT and kind not in TYPES:
            stop("a block with arguments, or with several results")
        condition = self.pop("i32") if it.number == op.IF else None
        self.keep_all()
        self.labels += 1
        self.frames.append(Frame(it.number, self.labels, TYPES.get(kind), len(self.stack)))
        if condition:
            self.say(f"if ({self.of(condition)}) {{")
        elif it.number == op.LOOP:
            self.say(f"L{self.labels}:;")

    def finish(self) -> Frame:
        """Puts the result of the block into its variable, and takes its values away."""
        frame = self.frames[-1]
        if not self.dead:
            if len(self.stack) != frame.height + (frame.result is not None):
                stop("a block leaves more or less than its result")
            if frame.result:
                self.put(frame.height, self.pop(frame.result))
        del self.stack[frame.height :]
        return frame

    def other(self) -> None:
        frame = self.finish()
        if frame.number != op.IF:
            stop("an `else` without its `if`")
        frame.number, self.dead = op.ELSE, 0
        self.say("} else {")

    def end(self) -> None:
        if len(self.frames) == 1:
            if not self.dead:
                self.say(self.branch(0))
            elif self.lines[-1] == "DN_TRAP();" and self.signature.result:
                # Some compilers do not know that abort does not return.
                self.say("return 0;")
            self.frames.clear()
            return
        frame = self.finish()
        self.frames.pop()
        is_if = frame.number in (op.IF, op.ELSE)
        if is_if:
            self.say("}")
        if frame.is_used and frame.number != op.LOOP:
            self.say(f"L{frame.label}:;")
        # What follows an `if` may be reached by its other half.
        self.dead = int(self.dead > 0 and not is_if and (not frame.is_used or frame.number == op.LOOP))
        if frame.result:
            name = self.place(frame.height, frame.result)
            self.stack.append(Value(name, frame.result, frozenset([name])))

    def leave(self, text: str) -> None:
        """Ends what can be reached in the block."""
        self.say(text)
        self.dead = 1

    def branch(self, depth: int) -> str:
        """Returns the statements by which the code goes to the end of a block, or the beginning of a loop."""
        if depth >= len(self.frames):
            stop("a branch to no block")
        frame = self.frames[-1 - depth]
        takes = frame.result if frame.number != op.LOOP else None
        value = self.stack[-1] if takes else None
        if value and value.kind != takes:
            stop("a branch with a value of another type")
        if depth == len(self.frames) - 1:
            return f"return {self.of(value)};" if value else "return;"
        frame.is_used = True
        if not value:
            return f"goto L{frame.label};"
        name = self.place(frame.height, value.kind)
        before = f"{name} = {self.of(value)}; " if value.text != name else ""
        return f"{before}goto L{frame.label};"

    def branch_if(self, it: Instruction) -> None:
        condition = self.of(self.pop("i32"))
        self.say(f"if ({condition}) {{ {self.branch(it.numbers[0])} }}")

    def branch_table(self, it: Instruction) -> None:
        chosen = self.of(self.pop("i32"))
        *cases, default = [self.branch(depth) for depth in it.numbers]
        self.say(f"switch ({chosen}) {{")
        for number, text in enumerate(cases):
            self.say(f"case {number}: {text}")
        self.leave(f"default: {default} }}")

    def call(self, it: Instruction) -> None:
        [index] = it.numbers
        signature = self.module.signatures[index]
        given = [self.of(self.pop(kind)) for kind in reversed(signature.arguments)]
        text = f"{name_of(self.module, index)}({', '.join(['c', *reversed(given)])})"
        self.read.add("c")
        if signature.result:
            self.push(Value(text, signature.result), is_now=True)
        else:
            self.say(f"{text};")

    def drop(self) -> None:
        self.pop()

    def select(self) -> None:
        condition, second = self.pop("i32"), self.pop()
        first = self.pop(second.kind)
        uses = condition.uses | first.uses | second.uses
        self.push(Value(f"({condition.text} ? {first.text} : {second.text})", first.kind, uses))

    def local(self, index: int) -> Value:
        if index >= len(self.locals):
            stop("a local that is none")
        name = f"l{index}"
        return Value(name, self.locals[index], frozenset([name]), is_pointer=name in self.pointers)

    def set_local(self, it: Instruction) -> None:
        [index] = it.numbers
        value, name = self.pop(self.local(index).kind), f"l{index}"
        if value.text != name:
            self.keep(lambda it: name in it.uses)
            self.say(f"{name} = {self.of(value)};")
        (self.pointers.add if value.is_pointer else self.pointers.discard)(name)
        if it.number == op.LOCAL_TEE:
            self.push(self.local(index))

    def constant(self, it: Instruction) -> None:
        kind, [number] = "i32" if it.number == op.I32_CONST else "i64", it.numbers
        if it.is_placed:
            self.push(Value(self.module_address(number), kind))
        elif kind == "i32":
            self.push(Value(f"{number % (1 << 32)}u", kind, constant=number))
        else:
            self.push(Value(f"U64({number % (1 << 64)})", kind, constant=number))

    def module_address(self, address: int) -> str:
        """Returns the text for an address in the data."""
        offset = address - self.module.base
        if not 0 <= offset <= len(self.module.data):
            stop("a relocation of what is not in the data")
        return f"DN_AT({offset}u)"

    def address(self, value: Value, offset: int, is_placed: bool) -> str:
        given = self.of(value)
        if is_placed:
            return self.module_address(offset) + (f" + {given}" if value.constant != 0 else "")
        return f"{given} + {offset}u" if offset else given

    def access(self, it: Instruction, access: op.Access, given: Value) -> str:
        """Returns the beginning of a load or a store: `u` is for an address that may be no multiple of the size."""
        align, offset = it.numbers
        size = access.bits.bit_length() - 4
        if align > size:
            stop(f"{access.name} is aligned beyond its size")
        unaligned = "u" if align < size else ""
        return f"{access.bits}{unaligned}({self.address(given, offset, it.is_placed)}"

    def load(self, it: Instruction) -> None:
        access = op.LOADS[it.number]
        text = f"{access.casts}ld{self.access(it, access, self.pop('i64'))})"
        self.push(Value(text, access.kind), is_now=True)

    def store(self, it: Instruction) -> None:
        access = op.STORES[it.number]
        value, given = self.pop(access.kind), self.pop("i64")
        self.say(f"st{self.access(it, access, given)}, {self.of(value)});")

    def compute(self, it: Instruction) -> None:
        operation = op.NUMERIC[it.number]
        given = [self.pop(kind) for kind in reversed(operation.operands)][::-1]
        if operation.name == "i64.lt_s" and given[0].is_pointer and given[1].constant == LEAST_POINTER:
            self.push(Value(f"(u32)DN_BELOW({self.of(given[0])})", "i32", given[0].uses | {"c"}))
            return
        text = operation.text.format(*(value.text for value in given))
        uses = frozenset[str]().union(*(value.uses for value in given))
        number = given[1].constant if operation.name in ("i64.add", "i64.sub") and given[0].is_pointer else None
        made = Value(text, operation.result, uses, is_pointer=number is not None)
        is_frame = number is not None and (number > 0) == (operation.name == "i64.sub")
        self.push(made, is_now=is_frame or it.number in op.TRAPPING)
        if is_frame:
            # The kit may write into a frame before it checks that there is room.
            self.read.add("c")
            self.say(f"if (DN_BELOW({self.of(self.stack[-1])})) DN_TRAP();")

    def get_global(self, it: Instruction) -> None:
        index = self.changing(it)
        self.read.add("c")
        self.push(Value(f"c->g{index}", CHANGING[index], is_pointer=index == STACK_POINTER), is_now=True)

    def set_global(self, it: Instruction) -> None:
        index = self.changing(it)
        value = self.pop(CHANGING[index])
        self.read.add("c")
        self.say(f"c->g{index} = {self.of(value)};")
        if index == STACK_POINTER and not value.is_pointer:
            stop("the pointer to the module's stack is set to something else")

    def changing(self, it: Instruction) -> int:
        """Returns the index of a global that changes."""
        [index] = it.numbers
        if index >= len(CHANGING):
            stop(f"the global {index}")
        return index

    def move(self, function: str, second: str) -> None:
        count, given, to = self.pop("i64"), self.pop(second), self.pop("i64")
        self.say(f"{function}({self.of(to)}, {self.of(given)}, {self.of(count)});")

    def text(self) -> str:
        """Returns the body, with the variables in front."""
        own = {f"l{at}": kind for at, kind in enumerate(self.locals)}
        lines = list[str]()
        for kind in TYPES.values():
            names = [f"{it} = 0" for it in [*own][self.arguments :] if own[it] == kind]
            names += sorted(it for it in self.places if self.places[it] == kind)
            if names:
                lines.append(f"{C_TYPES[kind]} {', '.join(names)};")
        for it in ["c", *own, *self.places]:
            if it not in self.read:
                lines.append(f"(void){it};")
        return "".join(f"  {it}\n" for it in [*lines, *self.lines])


def name_of(module: Module, index: int) -> str:
    if index >= len(module.signatures):
        stop("a function that is none")
    return f"dn_{module.imports[index]}" if index < len(module.imports) else f"f{index}"


def head(module: Module, index: int) -> str:
    """Returns the declaration of a function, without what ends it."""
    arguments, result = module.signatures[index]
    given = ["dn_call *c", *(f"{C_TYPES[kind]} l{at}" for at, kind in enumerate(arguments))]
    return f"static {C_TYPES[result] if result else 'void'} {name_of(module, index)}({', '.join(given)})"


def data(module: Module) -> str:
    """Returns the data: bytes, and pointers into the data themselves."""
    fields, values, at = list[str](), list[str](), 0
    for place in [*sorted(it - module.start_of_data for it in module.in_data), len(module.data)]:
        if place > at:
            rows = [module.data[it : min(it + ROW, place)] for it in range(at, place, ROW)]
            fields.append(f"u8 b{at}[{place - at}];")
            values.append("{" + ",\n".join(",".join(map(str, it)) for it in rows) + "}")
        if place < len(module.data):
            [address] = struct.unpack_from("<Q", module.data, place)
            offset = address - module.base
            if place % 8 or place < at or module.in_data[place + module.start_of_data] != WORD:
                stop(f"a relocation at {place} of the data")
            if not 0 <= offset <= len(module.data):
                stop("data with the address of something else")
            fields.append(f"const u8 *p{place};")
            values.append(f"(const u8 *)&dn_data + {offset}")
        at = place + 8
    size = -(-len(module.data) // 8) * 8
    if not module.in_data:
        stop("no data that are addresses, which align the others")
    struct_ = "static const struct dn_data {\n" + "\n".join(fields) + "\n} dn_data = {\n" + ",\n".join(values) + "};\n"
    return f"{struct_}DN_ASSERT(sizeof(struct dn_data) == {size}, size_of_data);\n"


def functions(module: Module, section: Bytes) -> str:
    """Returns all functions of the module, with their data, and the names of the exported ones."""
    imported, count = len(module.imports), len(module.signatures)
    code = Code(module, section)
    if section.unsigned() != count - imported:
        stop("it has not as many bodies as functions")
    parts = [data(module), *(f"{head(module, it)};\n" for it in range(imported, count))]
    for index in range(imported, count):
        kinds, instructions = code.function()
        body = Body(module, index, kinds)
        for it in instructions:
            if not body.frames:
                stop("instructions behind the end of a function")
            body.step(it)
        if body.frames:
            stop(f"the function {index} has no end")
        parts.append(f"{head(module, index)} {{\n{body.text()}}}\n")
    if code.used != {*module.in_code}:
        stop("relocations that no instruction has")
    return "".join([*parts, *(f"#define W_{name} f{index}\n" for name, index in sorted(module.exports.items()))])
