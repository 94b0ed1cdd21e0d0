"""Offsets in arrays of structs.

Where the type of the elements is known, the middle language has their size as a number, for machines of 64 bits.
Another machine may lay out a struct or an address in fewer bytes: there it has to be C's own size.
"""
from mir import Refused, show


def rounded(size, align):
    return -(-size // align) * align


def layout(types, kind):
    """The size and the alignment that the compiler gives to a type."""
    match kind:
        case "Unit":
            return 0, 1
        case "Bool":
            return 1, 1
        case ("Int", width):
            return width // 8, width // 8
        case "Ptr" | ("Ref", _, _):
            return 8, 8
        case ("Array", element, (_, count)):
            size, align = layout(types, element)
            return count * size, align
        case ("Struct", "", parts):
            return together(types, parts)
        case _ if types.has_variants(kind):
            inner = [together(types, [of for _, of in fields]) for fields in types.variants(kind)]
            align = max([align for _, align in inner], default=1)
            return rounded(rounded(1, align) + max([size for size, _ in inner], default=0), align), align
    return together(types, [of for _, of in types.fields(kind)])


def offsets(types, kinds):
    """Where each of some fields begins, and where the last ends."""
    places, end = [], 0
    for kind in kinds:
        size, align = layout(types, kind)
        places.append(rounded(end, align))
        end = places[-1] + size
    return places, end


def together(types, kinds):
    align = max([layout(types, kind)[1] for kind in kinds], default=1)
    return rounded(offsets(types, kinds)[1], align), align


def is_fixed(types, kind):
    """A type that every machine lays out alike."""
    match kind:
        case ("Array", element, _):
            return is_fixed(types, element)
        case "Bool" | ("Int", _):
            return True
    return types.is_lent(kind)


def pointed(local, value):
    """What a local's address is taken for where it is first used in some statements; none if it is not."""
    match value:
        case ("place", number, (("Deref", kind), *_)) if number == local:
            return kind
        case tuple():
            for part in value:
                kind = pointed(local, part)
                if kind is not None:
                    return kind
    return None


def scaled(types, statement):
    """A statement with C's own sizes in the offsets of structs."""
    match statement:
        case ("Block" | "Loop", inner):
            return (statement[0], scaled(types, inner))
        case ("If", operand, then, otherwise):
            return ("If", operand, scaled(types, then), scaled(types, otherwise))
        case ("Switch", operand, arms, default):
            return ("Switch", operand, tuple((of, scaled(types, arm)) for of, arm in arms), scaled(types, default))
        case ("Seq", *steps):
            steps = [scaled(types, step) for step in steps]
            for at, step in enumerate(steps):
                match step:
                    case ("Assign", ("place", local, ()) as place, ("Op2", "Offset", base, offset)):
                        kind = pointed(local, tuple(steps[at + 1:]))
                        if kind is not None and not is_fixed(types, kind):
                            offset = scale(types, steps, at, kind, offset)
                            steps[at] = ("Assign", place, ("Op2", "Offset", base, offset))
            return ("Seq", *steps)
    return statement


def scale(types, steps, at, kind, offset):
    """The offset of an element in an array of such. Where it is a product, that has its size in place."""
    size, _ = layout(types, kind)
    match offset:
        case ("Int", 64, number) if number % (size or 1) == 0:
            return ("Sizes", number // (size or 1), kind)
        case ("Copy", ("place", local, ())):
            for before in reversed(range(at)):
                match steps[before]:
                    case ("Assign", ("place", assigned, ()) as place, value) if assigned == local:
                        match value:
                            case ("Op2", ("Mul", "Unsigned") as operator, left, ("Int", 64, number)) if number == size:
                                steps[before] = ("Assign", place, ("Op2", operator, left, ("Sizes", 1, kind)))
                                return offset
                            case ("Op2", ("Mul", "Unsigned"), _, ("SizeOf" | "Sizes", *_)):
                                return offset
                        break
    raise Refused(f"an offset of {show(kind)}, {show(offset)}")
