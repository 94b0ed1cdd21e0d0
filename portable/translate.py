"""translate.py ORIGIN MIR... >C: the library as one C file, beside the header `cuckooormolu.h`.

MIR are the files toolchain/mir.json of the library and of those below it. ORIGIN says what they were made of, for the
file's first lines. What is not known is refused, with the function and the statement.
"""
import pathlib
import sys

from c import U64, Body
from kinds import Names, Types, declared, identifier, spelled
from mir import Program, Refused
from sizes import layout

# What hosts call: functions of this crate, in any of its modules, whose names begin so.
LIBRARY, EXPORTED = "cuckooormolu::", "cuckooormolu_"
HEAD = pathlib.Path(__file__).with_name("head.c").read_text()
# Bytes of an array, or of what holds one, from which on a function that has it is not inlined.
LARGE = 4096


def own_name(name):
    return name.rpartition("::")[2]


class Translation:
    """A program's functions in C, each by its name and its types."""

    def __init__(self, program):
        self.program, self.types, self.names = program, Types(program.types), Names()

    def name(self, function):
        """A function's name in C."""
        name = identifier(function.name)
        return self.names.of(function.key, "_".join([name, *map(self.types.short, function.types)]))

    def body(self, function):
        """A function's body. What only values that tell nothing are made of is left out, in turn."""
        while True:
            body = Body(self.types, self.program, self.name, function)
            if not function.live - body.read - {0}:
                return body
            function.live &= body.read | {0}

    def translated(self, function):
        """A function's prototype and definition."""
        try:
            return self.written(function)
        except Refused as why:
            raise why if str(why).startswith("in ") else Refused(f"in {function.name}: {why}")

    def written(self, function):
        body = self.body(function)
        kinds = [self.types.of(kind) for kind in function.kinds]
        arguments = [i for i in function.arguments if kinds[i] != "void"]
        parameters = ", ".join(declared(kinds[i], f"l{i}") for i in arguments) or "void"
        own = [i for i in sorted(function.live) if i not in function.arguments and kinds[i] != "void"]
        static = "static"
        if any(layout(self.types, function.kinds[i])[0] >= LARGE for i in own):
            static += " OUT_OF_LINE"
        else:
            static += " inline"
        head = f"{static} {declared(kinds[0], self.name(function))}({parameters})"
        lines = [f"    {declared(kinds[i], f'l{i}')};" for i in own]
        lines += [f"    (void)l{i};" for i in arguments if i not in function.live]
        choice = f"<{', '.join(map(spelled, function.types))}>" if function.types else ""
        title = f"/* {function.name}{choice} */"
        return f"{head};", "\n".join([title, head, "{", *body.constants, *lines, *body.lines, "}", ""])

    def exported(self, function):
        """What a host calls. A slice is a pointer and a length; lengths, numbers and the code are of size_t. A number
        that is told is always written, so what stood in its place is not read."""
        parameters, given, before, after = [], [], [], []
        for i in function.arguments:
            match function.kinds[i]:
                case ("Struct", "&[]", (("Ref", mutable, target), _)) as kind:
                    pointer = declared(self.types.of(target), "*")
                    parameters += [("const " if mutable == "Imm" else "") + f"{pointer}p{i}", f"size_t n{i}"]
                    given.append(f"({self.types.of(kind)}){{({pointer})p{i}, n{i}}}")
                case ("Ref", "Mut", ("Int", 64)):
                    parameters.append(f"size_t *p{i}")
                    before.append(f"    uint64_t w{i} = 0;")
                    given.append(f"&w{i}")
                    after.append(f"    *p{i} = (size_t)w{i};")
                case ("Int", 64):
                    parameters.append(f"size_t p{i}")
                    given.append(f"p{i}")
                case kind:
                    raise Refused(f"in {function.name}: argument {i} of type {self.types.of(kind)}")
        if function.kinds[0] != U64:
            raise Refused(f"in {function.name}: a result of type {self.types.of(function.kinds[0])}")
        head = f"size_t {own_name(function.name)}({', '.join(parameters) or 'void'})"
        call = f"    size_t code = (size_t){self.name(function)}({', '.join(given)});"
        return "\n".join([head, "{", *before, call, *after, "    return code;", "}", ""])


def main():
    program = Program(sys.argv[2:])
    translation = Translation(program)
    roots = [name for name in program.items if name.startswith(LIBRARY) and own_name(name).startswith(EXPORTED)]
    if not roots:
        raise Refused("nothing is exported")
    functions = program.needed([(name, (), ()) for name in roots])
    prototypes, definitions = zip(*map(translation.translated, functions))
    exports = [translation.exported(program.function((name, (), ()))) for name in roots]
    origin = sys.argv[1].replace("\n", "\n * ")
    structs = translation.types.structs.values()
    parts = f"/*\n * {origin}\n */\n{HEAD}", *structs, "\n".join(prototypes), "", *definitions, *exports
    sys.stdout.write("\n".join(parts))


if __name__ == "__main__":
    try:
        main()
    except Refused as why:
        sys.exit(f"translate: {why}")
