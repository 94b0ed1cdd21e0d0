"""The proved code of a library in the compiler's middle language, MIR, as Python values.

`rt lib` writes it beside the library, as toolchain/mir.json: what a build above it links. There `{"Op2": [a, b]}` is
the form `("Op2", a, b)` here, a list is a tuple, and a place is `("place", local, steps)`. Lifetimes are left out. A
body is a list of statements, each before those that it holds; here it is a tree.

A function with parameters, which are types, numbers and dictionaries (the impls that its bounds ask for), is taken
once for each choice of them that is reached. `("Param", i)` stands for the type, and `("Given", i)` for the dictionary.
"""
import json


class Refused(Exception):
    """What the translator does not know."""


def show(value, depth=8):
    """A value on one line, cut where it is deep or long."""
    if not isinstance(value, tuple):
        return str(value)
    text = " ".join(show(part, depth - 1) for part in value) if depth else "..."
    return f"({text})" if len(text) <= 200 else f"({text[:200]} ...)"


def form(value):
    """A value of the JSON file as a form."""
    match value:
        case {"local": local, "steps": steps}:
            return ("place", local, form(steps))
        case {"name": name, "lifetimes": _}:
            return name
        case {"types": types, "dicts": dicts}:
            return (form(types), form(dicts))
        case {"Ref": [_, mutable, target]}:
            return ("Ref", mutable, form(target))
        case dict() if len(value) == 1:
            [(name, parts)] = value.items()
            match parts:
                case {"width": width, "value": of} | {"width": width, "values": of}:
                    return (name, width, form(of))
                case list():
                    return (name, *map(form, parts))
            return (name, form(parts))
        case dict():
            return tuple((name, form(part)) for name, part in value.items())
        case list():
            return tuple(map(form, value))
    return value


def sequence(*statements):
    """Statements one after the other, as one."""
    parts = [part for of in statements for part in (of[1:] if of[0] == "Seq" else (of,)) if part != "Skip"]
    return ("Seq", *parts) if len(parts) > 1 else parts[0] if parts else "Skip"


def tree(tokens):
    """The statement that a list of statements is, each before those that it holds."""
    done = []
    for token in reversed([form(token) for token in tokens]):
        match token:
            case "Seq":
                done.append(sequence(done.pop(), done.pop()))
            case "Block" | "Loop":
                done.append((token, done.pop()))
            case ("If", *operand):
                done.append(("If", *operand, done.pop(), done.pop()))
            case ("Switch", operand, values, has_default):
                arms = tuple((of, done.pop()) for of in values)
                done.append(("Switch", operand, arms, done.pop() if has_default else None))
            case _:
                done.append(token)
    [statement] = done
    return statement


def chosen(value, types, dicts):
    """A value of a function's body or types, with these types and dictionaries for its parameters."""
    match value:
        case ("Param", i):
            return types[i]
        case ("Given", i):
            return dicts[i]
        case ("NumOf", width, of):
            _, number = chosen(of, types, dicts)
            return ("Int", width, number)
        case ("Array" | "Repeat" as name, of, (_, _) as count):
            _, number = chosen(count, types, dicts)
            return (name, chosen(of, types, dicts), ("Lit", number))
        case tuple():
            return tuple(chosen(part, types, dicts) for part in value)
    return value


def read_only(kind):
    """A type with each reference for reading: what is made of a function with parameters is the same for both."""
    match kind:
        case ("Ref", _, target):
            return ("Ref", "Imm", read_only(target))
        case tuple():
            return tuple(map(read_only, kind))
    return kind


def locals_of(value):
    """The locals whose places stand in a value."""
    match value:
        case ("place", local, _):
            return {local}
        case tuple():
            return set().union(*map(locals_of, value))
    return set()


class Function:
    """A function for one choice of its parameters, `types` and `dicts`. Local 0 is its result, those from 1 on are its
    arguments, the others are its own. `kinds` has the type of each, `live` those whose value counts, and `calls` the
    functions that it calls, each by its name, types and dictionaries."""

    def __init__(self, key, arguments, kinds, body):
        self.key, self.kinds, self.body = key, kinds, body
        self.name, self.types, self.dicts = key
        self.arguments = range(1, 1 + arguments)
        self.note()

    def note(self):
        """Finds which locals count, and what is called."""
        self.live, self.calls = set(), set()
        assigned, todo = {}, [self.body]
        while todo:
            match todo.pop():
                case ("Assign", ("place", local, ()), value):
                    assigned.setdefault(local, set()).update(locals_of(value))
                case ("Call", callee, operands, ("place", _, steps) as place):
                    match callee:
                        case ("Fn", *key):
                            self.calls.add(tuple(key))
                    self.live |= locals_of((operands, place) if steps else operands)
                case ("If", operand, *parts):
                    self.live |= locals_of(operand)
                    todo += parts
                case ("Switch", operand, arms, default):
                    self.live |= locals_of(operand)
                    todo += [statement for _, statement in arms] + [default]
                case "Return":
                    self.live.add(0)
                case ("Seq" | "Block" | "Loop", *parts):
                    todo += parts
                case tuple() as other:
                    self.live |= locals_of(other)
        todo = list(self.live)
        while todo:
            more = assigned.get(todo.pop(), set()) - self.live
            self.live |= more
            todo += more


class Program:
    """The functions and the named types of some libraries, by the files of their MIR."""

    def __init__(self, files):
        self.items, self.types, self.methods = {}, {}, {}
        self.forms, self.functions, self.idle = {}, {}, {}
        for file in files:
            with open(file, encoding="utf-8") as opened:
                for name, item in json.load(opened):
                    self.add(name, item)

    def add(self, name, item):
        match item:
            case {"generics": {"method_of": of}, "types": types, "body": _}:
                self.items[name] = item
                for kind in types:
                    if kind["name"] not in self.types:
                        self.types[kind["name"]] = form(kind["shape"])
                match of:
                    case {"Impl": [impl, index]}:
                        self.methods[impl, index] = name

    def called(self, callee):
        """What a call calls, as ("Fn", name, types, dictionaries): a method is its impl's function."""
        match callee:
            case ("Fn", name, (types, dicts)):
                return ("Fn", name, read_only(types), read_only(dicts))
            case ("Method", ("Impl", name, types, dicts), index, (own_types, own_dicts)):
                if (name, index) not in self.methods:
                    raise Refused(f"no method {index} of {name}")
                return ("Fn", self.methods[name, index], read_only(types + own_types), read_only(dicts + own_dicts))
        return callee

    def resolved(self, statement):
        """A statement with each of its calls resolved."""
        match statement:
            case ("Call", callee, *rest):
                return ("Call", self.called(callee), *rest)
            case ("Seq" | "Block" | "Loop" | "If", *parts):
                return (statement[0], *map(self.resolved, parts))
            case ("Switch", operand, arms, default):
                return ("Switch", operand, tuple((of, self.resolved(arm)) for of, arm in arms), self.resolved(default))
        return statement

    def function(self, key):
        """A function for a choice of its parameters."""
        if key not in self.functions:
            name, types, dicts = key
            if name not in self.items:
                raise Refused(f"no function {name} in the libraries that are named")
            item = self.items[name]
            generics = item["generics"]
            if (len(generics["types"]), len(generics["bounds"])) != (len(types), len(dicts)):
                raise Refused(f"{name} with {len(types)} types and {len(dicts)} dictionaries")
            if name not in self.forms:
                self.forms[name] = form([local["ty"] for local in item["locals"]]), tree(item["body"])
            kinds, body = chosen(self.forms[name], types, dicts)
            try:
                self.functions[key] = Function(key, item["params"], kinds, self.resolved(body))
            except Refused as why:
                raise Refused(f"in {name}: {why}") from None
        return self.functions[key]

    def reached(self, roots):
        """The functions that these call, with them, in the program's order."""
        seen, todo = {}, list(roots)
        while todo:
            key = todo.pop()
            if key not in seen:
                seen[key] = self.function(key)
                todo += sorted(seen[key].calls, key=repr)
        place = {name: number for number, name in enumerate(self.items)}
        return sorted(seen.values(), key=lambda function: (place[function.name], repr(function.key)))

    def is_idle(self, key):
        """A function that does nothing and tells nothing, as the end of a value that owns nothing."""
        if key not in self.idle:
            self.idle[key] = False
            function = self.function(key)
            self.idle[key] = function.kinds[0] == "Unit" and self.does_nothing(function.body)
        return self.idle[key]

    def does_nothing(self, statement):
        match statement:
            case ("Call", ("Fn", *key), _, ("place", _, ())):
                return self.is_idle(tuple(key))
            case ("Assign", ("place", _, steps), _):
                return all(step[0] != "Deref" for step in steps)
            case ("If" | "Seq" | "Block", *parts):
                return all(map(self.does_nothing, parts))
            case ("Switch", _, arms, default):
                return all(self.does_nothing(arm) for _, arm in arms) and self.does_nothing(default)
            case ("Copy", _) | ("Exit", _) | "Skip" | "Return" | "Unreachable" | "True" | "False" | None:
                return True
        return False

    def without_idle(self, statement):
        """A statement without calls of functions that do nothing."""
        match statement:
            case ("Call", ("Fn", *key), *_) if self.is_idle(tuple(key)):
                return "Skip"
            case ("Seq", *parts):
                return sequence(*map(self.without_idle, parts))
            case ("Block" | "Loop" | "If", *parts):
                return (statement[0], *map(self.without_idle, parts))
            case ("Switch", operand, arms, default):
                arms = tuple((of, self.without_idle(arm)) for of, arm in arms)
                return ("Switch", operand, arms, self.without_idle(default))
        return statement

    def needed(self, roots):
        """The functions that these call, with them, without calls that do nothing."""
        for function in self.reached(roots):
            function.body = self.without_idle(function.body)
            function.note()
        return self.reached(roots)
