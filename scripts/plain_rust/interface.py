"""The rules for what C sees: a function for each call, and the layout of each struct."""
import re

from rules import body

SIZES = {"uint8_t": 1, "uint16_t": 2, "uint32_t": 4, "uint64_t": 8, "size_t": 8}
STRUCT = re.compile(r"^typedef struct \{\n(.*?)^\} (icysixel\w*);", re.M | re.S)
MEMBER = re.compile(r"^    (\w+) (\*?)\w+(?:\[(\d+)\])?;", re.M)
# The structs of the header whose names differ by more than a prefix.
NAMES = {"Handle": "icysixel", "StatePointer": "void *"}
REFERENCE = re.compile(r"& (mut )?(?:\[ (.+) \]|(\w+))")


def layouts(header):
    """The size, the alignment and the offsets of the members of each struct, by the rules of C."""
    found = {name: (size, size, [0]) for name, size in SIZES.items()} | {"void *": (8, 8, [0])}
    for members, name in STRUCT.findall(header):
        offsets, end, most = [], 0, 1
        for kind, star, count in MEMBER.findall(members):
            size, align, _ = found["void *" if star else kind]
            offsets.append(-(-end // align) * align)
            end = offsets[-1] + size * int(count or 1)
            most = max(most, align)
        found[name] = (-(-end // most) * most, most, offsets)
    return found


def layout(source, at):
    """The size and the members of a struct for C, which have to be those of the header."""
    if not source.has(at, "# [ repr ( C ) ]"):
        return None
    start = source.find(at, "struct")
    name, opened = source.word(start + 1), source.find(start, "{")
    closed, place, members = source.close(opened), opened + 1, []
    while place < closed:
        end = source.find(place, ",", "}")
        words = source.words(place, end)
        if "ghost" not in words:
            members.append(words[words.index(":") - 1])
        place = end + 1
    in_c = NAMES.get(name, f"icysixel_{name.lower()}")
    if in_c not in source.layouts:
        raise source.error(at, f"the header has no {in_c}")
    size, align, offsets = source.layouts[in_c]
    facts = [f"size_of::<{name}>() == {size}", f"align_of::<{name}>() == {align}"]
    facts += [f"core::mem::offset_of!({name}, {member}) == {offset}"
              for member, offset in zip(members, offsets)]
    lines = "".join(f"    assert!({it});\n" for it in facts)
    source.append(closed, f"\n\nconst _: () = {{\n{lines}}};")
    return at + 7


def call(source, at):
    """A function for C beside one that takes references in the place of its pointers."""
    if not source.has(at, 'extern "C" fn'):
        return None
    name, opened = source.word(at + 3), at + 4
    closed, place = source.close(opened), opened + 1
    declared, passed = [], []
    while place < closed:
        end = source.find(place, ",", ")")
        add_parameter(source.word(place), " ".join(source.words(place + 2, end)), declared, passed)
        place = end + 1
    end = body(source, closed + 1)
    result = f" -> {source.word(closed + 2)}" if source.word(closed + 1) == "->" else ""
    calls = f"{name}({', '.join(passed)})"
    if any("*" in it for it in declared):
        calls = f"unsafe {{ {calls} }}"
    source.cut_between(at - 1, at + 2, " ")
    source.append(source.close(end), f"""

/// Calls [`{name}`] for C.
#[unsafe(export_name = "{name}")]
unsafe extern "C" fn {name}_for_c({', '.join(declared)}){result} {{
    {calls}
}}""")
    return closed + 1


def add_parameter(name, kind, declared, passed):
    """Adds the parameters in C of a parameter, and the argument that is made of them."""
    if kind == "Global":
        passed.append(kind)
        return
    reference = REFERENCE.fullmatch(kind)
    if not reference:
        declared.append(f"{name}: {kind}")
        passed.append(name)
        return
    mut, item, one = reference.groups()
    declared.append(f"{name}: *{'mut' if mut else 'const'} {item or one}")
    passed.append(f"&{mut or ''}*{name}")
    if item:
        declared.append(f"{name}_len: usize")
        passed[-1] = f"crate::slice{'_mut' if mut else ''}({name}, {name}_len)"
