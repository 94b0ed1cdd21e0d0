"""The bodies of the middle language's functions in C11.

The proofs exclude that a sum, a difference, a product or a shift leaves its type, so nothing wraps; operands of less
than 32 bits are widened to uint32_t, where C would take int. What is meant to wrap goes by functions of head.c. Memory
is accessed only as the type that it was lent or declared with. A value that tells nothing is left out.
"""
from kinds import declared
from mir import Refused, show
from sizes import offsets, scaled

UNSIGNED = {"Add": "+", "Sub": "-", "Mul": "*", "Div": "/", "Rem": "%", "Shr": ">>", "Lt": "<", "Le": "<="}
PLAIN = {"And": "&", "Or": "|", "Xor": "^", "Shl": "<<", "Eq": "==", "Ne": "!="}
WRAPPING = {"WrapAdd": "wrapping_sum", "WrapSub": "wrapping_difference", "WrapMul": "wrapping_product"}
COMPARISONS = {"<", "<=", "==", "!="}
U8, U16, U32, U64 = ("Int", 8), ("Int", 16), ("Int", 32), ("Int", 64)


def written(number):
    """A number of a constant. One that no signed type has is to say so."""
    return str(number) if number < 2**63 else f"UINT64_C({number})"


class Body:
    """The lines of a function's body, its constants, and the locals that they read."""

    def __init__(self, types, program, names, function):
        self.types, self.program, self.names, self.function = types, program, names, function
        self.lines, self.constants, self.labels, self.used, self.read = [], [], 0, set(), set()
        try:
            body = scaled(types, function.body)
        except Refused as why:
            raise Refused(f"in {function.name}: {why}")
        self.statement(body, 1, [])

    def line(self, depth, text):
        self.lines.append("    " * depth + text)

    def place(self, place, written=False):
        """A place as C, and its type."""
        _, local, steps = place
        text, kind = f"l{local}", self.function.kinds[local]
        rest = list(steps)
        while rest:
            match rest.pop(0), kind:
                case ("Deref", target), "Ptr":
                    text, kind = f"(*({declared(self.types.of(target), '*')}){text})", target
                case ("Deref", target), ("Ref", _, pointed) if self.types.same(target, pointed):
                    text, kind = f"(*{text})", target
                case ("Deref", target), ("Ref", _, ("Array", element, _)) if self.types.same(target, element):
                    text, kind = f"(*{text}->at)", target
                case ("Field", index), _:
                    name, kind = self.types.fields(kind)[index]
                    text = f"{text}.{name}"
                case ("Variant", variant), _:
                    _, index = rest.pop(0)
                    fields = [("tag", U8)] + self.types.variants(kind)[variant]
                    name, kind = fields[index]
                    text = f"{text}.tag" if name == "tag" else f"{text}.of.v{variant}.{name}"
                case other:
                    raise Refused(f"step {show(other)}")
        if (steps or not written) and not self.types.is_empty(kind):
            self.read.add(local)
        return text, kind

    def operand(self, operand):
        """An operand as C, and its type."""
        match operand:
            case "True" | "False":
                return operand.lower(), "Bool"
            case "Unit":
                return "", "Unit"
            case ("Int", width, number):
                return f"UINT{width}_C({number})", ("Int", width)
            case ("SizeOf", kind) | ("Sizes", 1, kind) if not self.types.is_empty(kind):
                return f"(uint64_t)sizeof({self.types.of(kind)})", U64
            case ("Sizes", count, kind) if not self.types.is_empty(kind):
                return f"(UINT64_C({count}) * (uint64_t)sizeof({self.types.of(kind)}))", U64
            case ("SizeOf" | "Sizes", *_):
                return "UINT64_C(0)", U64
            case ("Copy", place):
                return self.place(place)
        raise Refused(f"operand {show(operand)}")

    def given(self, operand, wanted):
        """An operand where a type is wanted. The address of an array is taken for that of its first element, and a raw
        address for that of what is wanted."""
        text, kind = self.operand(operand)
        match kind, wanted:
            case _ if self.types.same(kind, wanted):
                return text
            case "Ptr", ("Ref", _, target):
                return "" if self.types.is_empty(target) else f"({self.types.of(wanted)}){text}"
            case ("Ref", _, target), "Ptr":
                return "(void *)0" if self.types.is_empty(target) else text
            case ("Ref", _, ("Array", element, _)), ("Ref", _, target) if self.types.same(element, target):
                return f"{text}->at"
        raise Refused(f"{show(kind)} where {show(wanted)} is wanted")

    def all_given(self, operands, kinds):
        pairs = list(zip(operands, kinds, strict=True))
        given = [self.given(operand, kind) for operand, kind in pairs]
        return ", ".join(text for text, (_, kind) in zip(given, pairs) if not self.types.is_empty(kind))

    def binary(self, operator, left, right, wanted):
        text, kind = self.operand(left)
        if self.types.is_empty(kind):
            raise Refused(f"operator {show(operator)} of {show(kind)}")
        if operator == "Offset" and wanted == "Ptr":
            return f"(unsigned char *){text} + (size_t){self.given(right, U64)}"
        other = self.given(right, kind)
        match operator:
            case "PtrLt" | "PtrEq" if kind == "Ptr" and wanted == "Bool":
                return f"(uintptr_t){text} {'<' if operator == 'PtrLt' else '=='} (uintptr_t){other}"
            case str() if operator in WRAPPING and kind[0] == "Int" and wanted == kind:
                return f"({self.types.of(kind)}){WRAPPING[operator]}({text}, {other})"
            case (name, "Unsigned") if kind[0] == "Int":
                symbol = UNSIGNED[name]
            case str() if kind == "Bool" or kind[0] == "Int":
                symbol = PLAIN[operator]
            case _:
                raise Refused(f"operator {show(operator)}")
        if wanted != ("Bool" if symbol in COMPARISONS else kind):
            raise Refused(f"{show(wanted)} of {show(kind)}")
        if wanted in (U8, U16):
            return f"({self.types.of(kind)})((uint32_t){text} {symbol} (uint32_t){other})"
        return f"{text} {symbol} {other}"

    def counted(self, operator, operand):
        """A number of bits of a word, counted as in one of 64."""
        text, kind = self.operand(operand)
        match operator, kind:
            case "CountOnes", ("Int", _):
                return f"count_ones({text})"
            case "LeadingZeros", ("Int", 64):
                return f"leading_zeros({text})"
            case "LeadingZeros", ("Int", width):
                return f"leading_zeros({text}) - UINT32_C({64 - width})"
            case "TrailingZeros", ("Int", 64):
                return f"trailing_zeros({text})"
            case "TrailingZeros", ("Int", width):
                return f"trailing_zeros({text} | UINT64_C(1) << {width})"
        raise Refused(f"{operator} of {show(kind)}")

    def value(self, value, wanted):
        """What is assigned to a place of a type."""
        match value:
            case ("Opd", operand):
                return self.given(operand, wanted)
            case ("Op2", operator, left, right):
                return self.binary(operator, left, right, wanted)
            case ("Op1", "Not", operand) if wanted == "Bool":
                return f"!{self.given(operand, wanted)}"
            case ("Op1", "Not", operand) if wanted in (U8, U16):
                return f"({self.types.of(wanted)})~(uint32_t){self.given(operand, wanted)}"
            case ("Op1", "Not", operand) if wanted in (U32, U64):
                return f"~{self.given(operand, wanted)}"
            case ("Op1", "CountOnes" | "LeadingZeros" | "TrailingZeros" as operator, operand) if wanted == U32:
                return self.counted(operator, operand)
            case ("Op1", ("Cast", "Unsigned", "Unsigned", width), operand) if wanted == ("Int", width):
                return f"({self.types.of(wanted)}){self.operand(operand)[0]}"
            case ("AddrOf", place):
                text, kind = self.place(place)
                if wanted == "Ptr" or self.types.same(wanted[2], kind):
                    return "(void *)0" if self.types.is_empty(kind) else f"&{text}"
            case ("Aggregate", *operands):
                return f"({self.types.of(wanted)}){{{self.initial(operands, wanted)}}}"
        raise Refused(f"value {show(value)}")

    def initial(self, operands, wanted):
        match wanted:
            case ("Array", element, (_, count)):
                return f"{{{self.all_given(operands, [element] * count) or '0'}}}"
            case _ if self.types.has_variants(wanted):
                (_, _, tag), *others = operands
                inner = self.all_given(others, [kind for _, kind in self.types.variants(wanted)[tag]])
                return f".tag = {tag}" + (f", .of.v{tag} = {{{inner}}}" if inner else "")
            case _ if self.types.is_lent(wanted):
                pairs = zip(operands, self.types.fields(wanted), strict=True)
                return ", ".join(f".{name} = {self.given(operand, kind)}" for operand, (name, kind) in pairs)
        return self.all_given(operands, [kind for _, kind in self.types.fields(wanted)])

    def statement(self, statement, depth, exits):
        """A statement. `exits` has the labels of the blocks and loops around it, the innermost first."""
        try:
            self.single(statement, depth, exits)
        except (Refused, ValueError, TypeError, KeyError, IndexError) as why:
            known = isinstance(why, Refused) and str(why).startswith("in ")
            raise why if known else Refused(f"in {self.function.name}: {show(statement)}: {why}")

    def single(self, statement, depth, exits):
        match statement:
            case "Skip":
                pass
            case ("Seq", *statements):
                for one in statements:
                    self.statement(one, depth, exits)
            case "Return":
                self.line(depth, "return;" if self.types.is_empty(self.function.kinds[0]) else "return l0;")
            case "Unreachable":
                self.line(depth, "UNREACHABLE;")
            case ("Assign", place, value):
                self.assign(place, value, depth)
            case ("LendStatic", place, kind, value):
                self.lend(place, kind, value, depth)
            case ("Call", ("Fn", *key), operands, place):
                self.call(self.program.function(tuple(key)), operands, place, depth)
            case ("If", operand, "Skip", otherwise):
                self.nested(f"if (!{self.given(operand, 'Bool')}) {{", otherwise, depth, exits)
                self.line(depth, "}")
            case ("If", operand, then, otherwise):
                self.nested(f"if ({self.given(operand, 'Bool')}) {{", then, depth, exits)
                if otherwise != "Skip":
                    self.nested("} else {", otherwise, depth, exits)
                self.line(depth, "}")
            case ("Block", inner):
                self.labelled("out", inner, depth, exits)
            case ("Loop", inner):
                self.line(depth, "for (;;) {")
                self.labelled("next", inner, depth + 1, exits)
                self.line(depth, "}")
            case ("Exit", count):
                self.used.add(exits[count])
                self.line(depth, f"goto {exits[count]};")
            case ("Switch", operand, arms, default):
                self.line(depth, f"switch ({self.operand(operand)[0]}) {{")
                self.arms(arms, default, depth, exits)
                self.line(depth, "}")
            case _:
                raise Refused("statement")

    def nested(self, head, inner, depth, exits):
        self.line(depth, head)
        self.statement(inner, depth + 1, exits)

    def labelled(self, stem, inner, depth, exits):
        """A statement that can be left, to what stands behind it."""
        self.labels += 1
        label = f"{stem}_{self.labels}"
        self.statement(inner, depth, [label] + exits)
        if label in self.used:
            self.line(depth, f"{label}:;")

    def arms(self, arms, default, depth, exits):
        """The arms of a switch. Where there is no default, the last arm is written as one: it is taken where no other
        is."""
        if default is None:
            *arms, (_, default) = arms
        for values, inner in [*arms, (None, default)]:
            labels = "default:" if values is None else " ".join(f"case {value}:" for value in values)
            self.nested(labels, inner, depth, exits)
            self.line(depth + 1, "break;")

    def is_live(self, place):
        return place[2] or place[1] in self.function.live

    def assign(self, place, value, depth):
        target, kind = self.place(place, written=True)
        match value, kind:
            case _ if self.types.is_empty(kind) or not self.is_live(place):
                pass
            case ("Repeat", ("Int", _, 0), count), ("Array", _, length) if count == length:
                self.line(depth, f"memset(&{target}, 0, sizeof {target});")
            case ("Repeat", operand, count), ("Array", element, length) if count == length:
                self.line(depth, f"for (size_t i = 0; i < {count[1]}; i++)")
                self.line(depth + 1, f"{target}.at[i] = {self.given(operand, element)};")
            case _:
                self.line(depth, f"{target} = {self.value(value, kind)};")

    def lend(self, place, kind, value, depth):
        """A constant is lent, for good and to be read only. What it refers to stands in it, behind what is lent."""
        target, wanted = self.place(place, written=True)
        match kind, value:
            case ("Struct", "", (kind, *kinds)), ("Parts", value, *values):
                places, _ = offsets(self.types, (kind, *kinds))
                here = dict(zip(places[1:], zip(kinds, values, strict=True), strict=True))
            case _:
                here = {}
        match wanted:
            case ("Ref", "Imm", pointed) if self.types.same(pointed, kind):
                pass
            case _:
                raise Refused(f"{show(wanted)} lends {show(kind)}")
        if not self.types.is_empty(kind) and self.is_live(place):
            name = self.kept(value, kind, here)
            self.line(depth, f"{target} = ({self.types.of(wanted)})&{name};")

    def kept(self, value, kind, here):
        """The name of a constant that stands above the lines. `here` has the constants that it may refer to."""
        text = self.constant(value, kind, here)
        name = f"c{len(self.constants) + 1}"
        self.constants.append(f"    static const {self.types.of(kind)} {name} = {text};")
        return name

    def constant(self, value, kind, here):
        """A constant as an initializer."""
        match value, kind:
            case ("Ints", width, numbers), ("Array", ("Int", bits), (_, count)) if width == bits:
                if len(numbers) != count:
                    raise Refused(f"{len(numbers)} values of {count}")
                return f"{{{{{', '.join(map(written, numbers)) or '0'}}}}}"
            case ("Repeat", part, number), ("Array", element, (_, count)) if number == count:
                return f"{{{{{', '.join([self.constant(part, element, here)] * count) or '0'}}}}}"
            case ("Parts", *parts), ("Array", element, (_, count)):
                if len(parts) != count:
                    raise Refused(f"{len(parts)} values of {count}")
                return f"{{{{{', '.join(self.constant(part, element, here) for part in parts) or '0'}}}}}"
            case ("Parts", *parts), ("Named", *_) if self.types.has_variants(kind):
                (_, _, tag), *others = parts
                inner = self.constants_of(others, self.types.variants(kind)[tag], here)
                return f"{{.tag = {tag}" + (f", .of.v{tag} = {{{inner}}}}}" if inner else "}")
            case ("Parts", *parts), ("Named" | "Struct", *_):
                return f"{{{self.constants_of(parts, self.types.fields(kind), here)}}}"
            case ("Here", place), ("Ref", _, target):
                of, part = here[place]
                name = self.kept(part, of, here)
                if not self.types.same(target, of) and not (of[0] == "Array" and self.types.same(target, of[1])):
                    raise Refused(f"{show(of)} where {show(target)} is wanted")
                return f"({self.types.of(kind)})&{name}"
            case ("Int", width, number), ("Int", bits) if width == bits:
                return written(number)
            case "True" | "False", "Bool":
                return value.lower()
        raise Refused(f"constant {show(value)} of {show(kind)}")

    def constants_of(self, parts, fields, here):
        pairs = zip(parts, fields, strict=True)
        return ", ".join(self.constant(part, kind, here) for part, (_, kind) in pairs if not self.types.is_empty(kind))

    def call(self, callee, operands, place, depth):
        target, kind = self.place(place, written=True)
        if not self.types.same(kind, callee.kinds[0]):
            raise Refused(f"result {show(callee.kinds[0])}")
        given = self.all_given(operands, [callee.kinds[i] for i in callee.arguments])
        kept = "" if self.types.is_empty(kind) else f"{target} = " if self.is_live(place) else "(void)"
        self.line(depth, f"{kept}{self.names(callee)}({given});")
