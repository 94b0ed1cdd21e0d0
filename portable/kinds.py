"""The types of the middle language in C11.

Integers are unsigned and of a fixed width; usize is uint64_t on every machine. A slice is a pointer and a length, an
array is a struct, so that it can be copied, and a type of variants is a tag and a union. A type with parameters is a
struct for each choice of them. A type whose values tell nothing, as that of a closure that captures nothing or of a
reference to it, is `void`: it has no fields, arguments and locals.
"""
import re

from mir import Refused, chosen, read_only, show

# The structs that a host lends, with the names that they and their fields have in the header.
LENT = {"calls::Record": ("cuckooormolu_record", ("event", "from", "to", "answer.cuckooormolu_private"))}
# So many characters of a name are significant in C11.
SIGNIFICANT = 63
# The toolchain's own libraries: their types go by their last names.
TOOLCHAIN = ("core::", "std::", "std_alloc::")


def identifier(name):
    return re.sub(r"\W+", "_", name)


def declared(ctype, name):
    return f"{ctype}{name}" if ctype.endswith("*") else f"{ctype} {name}"


def spelled(kind):
    """A type as Rattle spells it."""
    match kind:
        case "Unit":
            return "()"
        case ("Int", width):
            return f"u{width}"
        case ("Const", number) | ("Lit", number):
            return str(number)
        case ("Ref", _, target):
            return f"&{spelled(target)}"
        case ("Array", element, count):
            return f"[{spelled(element)}; {spelled(count)}]"
        case ("Struct", "&[]", (("Ref", _, target), _)):
            return f"&[{spelled(target)}]"
        case ("Named", name, kinds) if name.startswith("("):
            return f"({', '.join(map(spelled, kinds))})"
        case ("Named", name, ()):
            return name
        case ("Named", name, kinds):
            return f"{name}<{', '.join(map(spelled, kinds))}>"
    return str(kind).lower()


class Names:
    """Names in C, one for each thing."""

    def __init__(self):
        self.given, self.taken = {}, set()

    def of(self, thing, *wishes):
        """The name of a thing, the first of the wishes that is free; a long name is cut, and has a number."""
        if thing not in self.given:
            name = next((wish for wish in wishes if len(wish) <= SIGNIFICANT and wish not in self.taken), None)
            number = 1
            while name is None or name in self.taken:
                number += 1
                name = f"{wishes[0][:SIGNIFICANT - 6].rstrip('_')}_{number}"
            self.given[thing] = name
            self.taken.add(name)
        return self.given[thing]


class Types:
    """A program's types in C. Structs are declared as they are met, each after those that it holds."""

    def __init__(self, named):
        self.named, self.structs, self.names = named, {}, Names()
        self.known, self.empty = {}, {}

    def of(self, kind):
        kind = read_only(kind)
        if kind not in self.known:
            self.meet(kind)
        return self.known[kind]

    def same(self, left, right):
        return self.of(left) == self.of(right)

    def meet(self, kind):
        match kind:
            case _ if self.is_empty(kind):
                self.known[kind] = "void"
            case "Bool":
                self.known[kind] = "bool"
            case "Ptr":
                self.known[kind] = "void *"
            case ("Int", 8 | 16 | 32 | 64 as width):
                self.known[kind] = f"uint{width}_t"
            case ("Ref", _, target):
                self.known[kind] = declared(self.of(target), "*")
            case ("Named", name, ()) if self.is_lent(kind):
                self.known[kind] = f"struct {LENT[name][0]}"
            case ("Array", _, _) | ("Struct", "&[]", _) | ("Named", _, _):
                name = self.short(kind)
                self.known[kind] = f"struct {name}"
                members = "".join(f"    {member};\n" for member in self.members(kind))
                self.structs[name] = f"/* {spelled(kind)} */\nstruct {name} {{\n{members}}};\n"
            case _:
                raise Refused(f"type {show(kind)}")

    def short(self, kind):
        """A type in the names of others and of functions."""
        kind = read_only(kind)
        match kind:
            case ("Int", width):
                return f"u{width}"
            case ("Const", number) | ("Lit", number):
                return str(number)
            case ("Ref", _, target):
                return f"ref_{self.short(target)}"
            case ("Array", element, count):
                return self.names.of(kind, f"array_{self.short(element)}_{self.short(count)}")
            case ("Struct", "&[]", (("Ref", _, target), _)):
                return self.names.of(kind, f"slice_{self.short(target)}")
            case ("Named", name, kinds):
                last = name.rpartition("::")[2] if name.startswith(TOOLCHAIN) else name
                last = "tuple" if name.startswith("(") else identifier(last)
                rest = [self.short(inner) for inner in kinds]
                return self.names.of(kind, "_".join([last, *rest]), "_".join([identifier(name), *rest]))
            case str():
                return kind.lower()
        raise Refused(f"type {show(kind)}")

    def is_empty(self, kind):
        """Whether a type's values tell nothing."""
        if kind not in self.empty:
            self.empty[kind] = False
            match kind:
                case "Unit":
                    self.empty[kind] = True
                case ("Ref", _, inner) | ("Array", inner, _):
                    self.empty[kind] = self.is_empty(inner)
                case ("Named", _, _) if not self.has_variants(kind):
                    self.empty[kind] = all(self.is_empty(inner) for _, inner in self.fields(kind))
        return self.empty[kind]

    def members(self, kind):
        if kind[0] == "Array":
            # No array in C has no elements.
            return [declared(self.of(kind[1]), f"at[{kind[2][1] or 1}]")]
        if not self.has_variants(kind):
            return self.declarations(self.fields(kind))
        structs = []
        for v, fields in enumerate(self.variants(kind)):
            inner = " ".join(f"{declaration};" for declaration in self.declarations(fields))
            structs += [f"struct {{ {inner} }} v{v}"] if inner else []
        return ["uint8_t tag"] + ([f"union {{ {' '.join(f'{one};' for one in structs)} }} of"] if structs else [])

    def declarations(self, fields):
        return [declared(self.of(inner), name) for name, inner in fields if not self.is_empty(inner)]

    def is_lent(self, kind):
        return kind[0] == "Named" and kind[1] in LENT

    def shape(self, kind):
        _, name, kinds = kind
        return chosen(self.named[name], kinds, ())

    def has_variants(self, kind):
        return kind[0] == "Named" and self.shape(kind)[0] == "Variants"

    def fields(self, kind):
        """The fields of a struct, each with its name and type."""
        match kind:
            case ("Struct", "&[]", (pointer, length)):
                return [("at", pointer), ("length", length)]
            case ("Named", name, ()) if self.is_lent(kind):
                return list(zip(LENT[name][1], self.shape(kind)[1:], strict=True))
            case ("Named", _, _) if not self.has_variants(kind):
                return [(f"f{i}", inner) for i, inner in enumerate(self.shape(kind)[1:])]
        raise Refused(f"fields of {show(kind)}")

    def variants(self, kind):
        """The same of each variant in turn; the tag counts as field 0."""
        if not self.has_variants(kind):
            raise Refused(f"variants of {show(kind)}")
        return [[(f"f{i}", inner) for i, inner in enumerate(kinds, 1)] for kinds in self.shape(kind)[1:]]
