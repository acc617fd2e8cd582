"""Sources that are deep, and deep and wide: what bench/stack.py and bench/campaign.py share.

A shape makes, from a depth and a width, a source, an entry of it, and the value of the entry's argument as a heap file writes it. Whether a
source is within the limits, and by which rule or limit it is refused, is for the program to say.
"""

from typing import NamedTuple

HEAD = "id : U32 -> U32\nid x = x\n"
DEEP = [1, 2, 8, 60, 120, 168, 170, 200, 254, 256, 300, 340, 400, 480, 500, 509, 510, 511, 512, 600, 800, 1000, 1019, 1020, 1021, 1022, 1023, 1024, 1500]


class Deep(NamedTuple):
    """A source, an entry, and the text of its argument in a heap file."""

    source: str
    entry: str = "f"
    argument: str = "1"


def nested(depth, inner, around):
    """`inner`, so many times put into `around`, which is called with what is put and the level's number."""
    text = inner
    for level in range(depth):
        text = around(text, level)
    return text


def of_word(body):
    """A function of one word with this body."""
    return Deep(f"{HEAD}f : U32 -> U32\nf x = {body}\n")


def last_of(width, inner, filler="x"):
    """`inner` behind so many others."""
    return ", ".join([filler] * (width - 1) + [inner])


def first_of(width, inner, filler="x"):
    """`inner` before so many others."""
    return ", ".join([inner] + [filler] * (width - 1))


# Expressions


def sums(depth, width):
    return of_word(" + ".join(["x"] * depth))


def sums_to_the_right(depth, width):
    return of_word(nested(depth, "x", lambda text, level: f"x + ({text})"))


def ands(depth, width):
    return of_word(f"if {' && '.join(['x > 0'] * depth)} then 1 else 2")


def parentheses(depth, width):
    return of_word("(" * depth + "x" + ")" * depth)


def complements(depth, width):
    return of_word(nested(depth, "x", lambda text, level: f"complement ({text})"))


def casts(depth, width):
    return of_word(nested(depth, "x", lambda text, level: f"(upcast ({text}) : U32)"))


def annotations(depth, width):
    return of_word(nested(depth, "x", lambda text, level: f"({text} : U32)"))


def calls(depth, width):
    return of_word(nested(depth, "x", lambda text, level: f"id ({text})"))


def lets(depth, width):
    return of_word(nested(depth, "x", lambda text, level: f"let y{level} = x in {text}"))


def lets_of_many(depth, width):
    def around(text, level):
        return "let " + " and ".join([f"y{i} = x" for i in range(width)]) + f" in {text}"

    return of_word(nested(max(1, depth // width), "x", around))


def lets_in_values(depth, width):
    return of_word(nested(depth, "x", lambda text, level: f"let y = {text} in y"))


def observed_lets(depth, width):
    return of_word(nested(depth, "x", lambda text, level: f"let y{level} = x !x in {text}"))


def ifs_in_else(depth, width):
    return of_word(nested(depth, "x", lambda text, level: f"if x > {level} then {level} else {text}"))


def ifs_in_then(depth, width):
    return of_word(nested(depth, "x", lambda text, level: f"if x > {level} then ({text}) else {level}"))


def ifs_in_conditions(depth, width):
    return of_word(nested(depth, "x", lambda text, level: f"if ({text}) > {level} then x else x"))


# Records and tuples


def tuples_last(depth, width):
    made = nested(depth, "x", lambda text, level: f"({last_of(width, text)})")
    return of_word(f"let t = {made} in x")


def tuples_first(depth, width):
    made = nested(depth, "x", lambda text, level: f"({first_of(width, text)})")
    return of_word(f"let t = {made} in x")


def records_last(depth, width):
    def around(text, level):
        return "#{" + ", ".join([f"a{i} = x" for i in range(width - 1)] + [f"z = {text}"]) + "}"

    return of_word(f"let t = {nested(depth, 'x', around)} in x")


def members(depth, width):
    made = nested(depth, "x", lambda text, level: f"#{{a = {text}}}")
    return of_word(f"let t = {made} in t{'.a' * depth}")


def puts_in_values(depth, width):
    source = "type R = #{a : U32, b : U32}\n" + HEAD + "g : (R, U32) -> R\ng (r, x) = r {a = x}\nf : R -> R\n"
    made = nested(depth, "1", lambda text, level: f"((r {{a = {text}}}).a)")
    return Deep(f"{source}f r = r {{a = {made}}}\n", "f", "#{a = 1, b = 2}")


def puts_behind(depth, width):
    source = "type R = #{a : U32, b : U32}\nf : R -> R\n"
    return Deep(f"{source}f r = {nested(depth, 'r', lambda text, level: f'({text}) {{a = {level}}}')}\n", "f", "#{a = 1, b = 2}")


def puts_of_many(depth, width):
    source = "type R = #{" + ", ".join(f"a{i} : U32" for i in range(width)) + "}\nf : R -> R\n"
    put = ", ".join(f"a{i} = 1" for i in range(width))
    made = nested(max(1, depth // width), "r", lambda text, level: f"({text}) {{{put}}}")
    return Deep(f"{source}f r = {made}\n", "f", "#{" + ", ".join(f"a{i} = 2" for i in range(width)) + "}")


def takes(depth, width):
    source = "type R = {a : U32, b : U32}\nf : R -> R\n"
    made = nested(depth, "r", lambda text, level: f"let r {{a = y}} = r in let r = r {{a = y}} in {text}")
    return Deep(f"{source}f r = {made}\n", "f", "@1\n@1 = {a = 1, b = 2}")


# Variants


def constructors(depth, width):
    named = nested(depth, "U32", lambda text, level: f"<A ({text})>")
    made = nested(depth, "x", lambda text, level: f"A ({text})")
    return Deep(f"f : U32 -> {named}\nf x = {made}\n")


def constructors_of_many(depth, width):
    named = nested(depth, "U32", lambda text, level: "<" + " | ".join([f"A ({text})"] + [f"B{i}" for i in range(width - 1)]) + ">")
    made = nested(depth, "x", lambda text, level: f"A ({text})")
    return Deep(f"f : U32 -> {named}\nf x = {made}\n")


def matches_in_arms(depth, width):
    source = "type V = <A U32 | B U32>\nf : V -> U32\n"
    made = nested(depth, "1", lambda text, level: f"(v | A x -> x | B y -> {text})")
    return Deep(f"{source}f v = {made}\n", "f", "A 1")


def matches_in_subjects(depth, width):
    source = "type V = <A U32 | B U32>\ng : U32 -> V\ng x = A x\nf : V -> V\n"
    made = nested(depth, "v", lambda text, level: f"(({text}) | A x -> g x | B y -> g y)")
    return Deep(f"{source}f v = {made}\n", "f", "A 1")


def matches_of_many(depth, width):
    named = " | ".join(f"A{i} U32" for i in range(width))

    def around(text, level):
        arms = " ".join([f"| A{i} x -> x" for i in range(width - 1)] + [f"| A{width - 1} x -> {text}"])
        return f"(v {arms})"

    return Deep(f"type V = <{named}>\nf : V -> U32\nf v = {nested(max(1, depth // width), '1', around)}\n", "f", "A0 1")


# Types and patterns


def of_type(named, more=""):
    """The function that gives back what it has, of this type."""
    return Deep(f"{more}f : U32 -> U32\nf x = x\ng : {named} -> {named}\ng x = x\n")


def types_in_parentheses(depth, width):
    return of_type("(" * depth + "U32" + ")" * depth)


def types_of_records(depth, width):
    return of_type(nested(depth, "U32", lambda text, level: f"#{{a : {text}}}"))


def types_of_wide_records(depth, width):
    def around(text, level):
        return "#{" + ", ".join([f"a{i} : U8" for i in range(width - 1)] + [f"z : {text}"]) + "}"

    return of_type(nested(depth, "U32", around))


def types_of_variants(depth, width):
    return of_type(nested(depth, "U32", lambda text, level: f"<A ({text})>"))


def types_of_tuples(depth, width):
    return of_type(nested(depth, "U32", lambda text, level: f"({last_of(width, text, 'U8')})"))


def types_of_arrows(depth, width):
    return of_type("(" + nested(depth, "U32", lambda text, level: f"U32 -> ({text})") + ")")


def types_as_arguments(depth, width):
    source = "type P a = #{p : a}\n"
    return of_type(nested(depth, "U32", lambda text, level: f"P ({text})"), source)


def type_arguments(depth, width):
    named = nested(depth, "U32", lambda text, level: f"#{{a : {text}}}")
    return Deep(f"k : all a. U32 -> U32\nk x = x\nf : U32 -> U32\nf x = k[{named}] x\n")


def observed_types(depth, width):
    return of_type("(" + nested(depth, "U32", lambda text, level: f"({text})!") + ")")


def synonyms(depth, width):
    lines = ["type T0 = U32"] + [f"type T{i + 1} = T{i}" for i in range(depth * 3)]
    return Deep("\n".join(lines) + f"\nf : T{depth * 3} -> U32\nf x = x\n")


def doubled_synonyms(depth, width):
    lines = ["type T0 = U32"] + [f"type T{i + 1} = (T{i}, T{i})" for i in range(depth)]
    return Deep("\n".join(lines) + f"\nf : U32 -> U32\nf x = x\ng : T{depth} -> ()\ng x = ()\n")


def patterns(depth, width):
    pattern = nested(depth, "y", lambda text, level: f"({last_of(width, text, '_')})")
    made = nested(depth, "x", lambda text, level: f"({last_of(width, text)})")
    return of_word(f"let {pattern} = {made} in y")


def patterns_in_parentheses(depth, width):
    return of_word(f"let {'(' * depth}y{')' * depth} = x in y")


# Functions


def functions(depth, width):
    lines = ["f0 : U32 -> U32\nf0 x = x"] + [f"f{i + 1} : U32 -> U32\nf{i + 1} x = f{i} x + 1" for i in range(depth * 2)]
    return Deep("\n".join(lines) + "\n", f"f{depth * 2}")


def instances(depth, width):
    lines = ["g0 : all a. a -> a\ng0 x = x"] + [f"g{i + 1} : all a. a -> a\ng{i + 1} x = g{i}[a] x" for i in range(depth * 2)]
    return Deep("\n".join(lines) + f"\nf : U32 -> U32\nf x = g{depth * 2}[U32] x\n")


def growing_instances(depth, width):
    lines = ["g0 : all a. U32 -> U32\ng0 x = x"]
    lines += [f"g{i + 1} : all a. U32 -> U32\ng{i + 1} x = g{i}[#{{a : a}}] x" for i in range(depth)]
    return Deep("\n".join(lines) + f"\nf : U32 -> U32\nf x = g{depth}[U32] x\n")


def brackets(depth, width):
    return Deep(f"{HEAD}f : U32 -> U32\nf x = {'(' * depth}x\n")


def deep_arguments(depth, width):
    named = nested(depth, "U32", lambda text, level: f"#{{a : {text}}}")
    value = nested(depth, "1", lambda text, level: f"#{{a = {text}}}")
    return Deep(f"f : {named} -> {named}\nf x = x\n", "f", value)


def deep_heaps(depth, width):
    return Deep(f"{HEAD}f : U32 -> U32\nf x = x\n", "f", nested(depth, "1", lambda text, level: f"({last_of(width, text, '1')})"))


SHAPES = [
    sums, sums_to_the_right, ands, parentheses, complements, casts, annotations, calls, lets, lets_of_many, lets_in_values, observed_lets,
    ifs_in_else, ifs_in_then, ifs_in_conditions, tuples_last, tuples_first, records_last, members, puts_in_values, puts_behind, puts_of_many,
    takes, constructors, constructors_of_many, matches_in_arms, matches_in_subjects, matches_of_many, types_in_parentheses, types_of_records,
    types_of_wide_records, types_of_variants, types_of_tuples, types_of_arrows, types_as_arguments, type_arguments, observed_types, synonyms,
    doubled_synonyms, patterns, patterns_in_parentheses, functions, instances, growing_instances, brackets, deep_arguments, deep_heaps,
]
WIDE = {
    lets_of_many, tuples_last, tuples_first, records_last, puts_of_many, constructors_of_many, matches_of_many, types_of_wide_records,
    types_of_tuples, patterns, deep_heaps,
}


def widths(shape):
    """The widths that make a difference to a shape."""
    return [2, 9, 63, 64] if shape in WIDE else [1]


def heap_of(deep):
    """The heap file of a source's entry."""
    argument, _, cells = deep.argument.partition("\n")
    return (cells + "\n" if cells else "") + f"arg = {argument}\n"
