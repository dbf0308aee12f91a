"""Finds the functions in the text of a .rt file, as rt fmt lays it out, and the names that a check gives them. (A module of the scripts beside it.)"""
import re

# The first line of a function.
HEAD = re.compile(r'(?m)^( *)(?:pub(?:\([^)]*\))? )?(?:const |unsafe |final |extern "C" )*fn (\w+)')
# What methods stand in.
BLOCK = re.compile(r"(?m)^(?:unsafe )?(?:pub(?:\([^)]*\))? )?(?:impl|trait)\b[^{;]*")
# A function whose body others read: what a constant is, what a hidden type is, a step of a cycle.
OPEN_BODY = re.compile(r"constfn|->impl|#\[cycle")


def is_even(text):
    """Returns whether as many braces end as begin."""
    return text.count("{") == text.count("}")


def spans_in(text):
    """Returns of each function its block's head, its name, and where its first line begins, its head ends and all of it ends."""
    found, end = [], 0
    for head in HEAD.finditer(text):
        if head.start() < end:
            continue
        # (a method without a body ends with ';', as lines in the braces of a clause may, and one line may hold all)
        firsts = re.compile(rf"(?m);$|^{head[1]}\S.*}}$|^{head[1]}(?:\S.*)?{{$|^{head[1]}\S.*{{ .*$").finditer(text, head.start())
        first = next(it for it in firsts if it[0] != ";" or is_even(text[head.start() : it.end()]))
        # (an edit may put more behind the '{' of a body of several lines)
        is_whole = first[0][-1] == ";" or is_even(first[0])
        last = first if is_whole else re.compile(rf"(?m)^{head[1]}}}$").search(text, first.end())
        end = last.end()
        blocks = list(BLOCK.finditer(text, 0, head.start())) if head[1] else []
        found.append((blocks[-1][0] if blocks else "", head[2], head.start(), first.end(), end))
    return found


def functions_in(text):
    """Returns each function's head and text by its block's head and its name, and the code outside of all, without spaces."""
    found, outside, end = {}, [], 0
    for block, name, start, body, last in spans_in(text):
        outside.append(text[end:start])
        found[block, name] = [re.sub(r"\s", "", it) for it in (text[start:body].rstrip("};"), text[start:last])]
        end = last
    return found, re.sub(r"(?m)^ *//.*|\s", "", "".join([*outside, text[end:]]))


def stated_in(text):
    """Returns what a file states to other crates: the code outside of functions, and each function's head, or all of it if others read its body."""
    found, outside = functions_in(text)
    return outside, sorted((it, body if OPEN_BODY.search(body) else head) for it, (head, body) in found.items())


def plain(block):
    """Returns a block's head without its parameters and conditions."""
    kept, depth = "", 0
    for sign in block.replace("->", ""):
        depth += sign == "<"
        kept += sign if not depth else ""
        depth -= sign == ">"
    return re.sub(r"\s+", " ", kept).split(" where ")[0]


def is_of_trait(block):
    """Returns whether a block is a trait, or a type's impl of one."""
    return bool(re.search(r"\btrait\b|\bfor\b", plain(block)))


def owner_of(block):
    """Returns a pattern of the name that a check gives a block: its type's, with the name of the trait behind it."""
    kind, names = re.search(r"\b(impl|trait)\b ?(.*)", plain(block)).groups()
    if kind == "trait":
        return re.match(r"\w+", names)[0]
    *of_trait, of_type = [it.replace("&", "Ref").split("::") for it in names.split(" for ")]
    name = re.sub(r"\W", "", of_type[-1])
    if len(of_type) > 1:
        # (a type that is named by its module, as io::Error, may be IoError there)
        name = rf"(?:{re.sub(r'[^A-Za-z]', '', of_type[-2]).capitalize()})?{name}"
    of_trait = re.sub(r"\W", "", of_trait[0][-1]) if of_trait else "Drop"
    # (a drop is named as if it were the type's own, and what is of one instance of a type has its parameters behind a '+')
    return rf"{name}(?:\+\w+)*" if of_trait == "Drop" else rf"{name}{of_trait}\w*"
