"""What the library's archive declares, as C: the functions and values of crates/pim_c, and assertions that the headers
have the same; and what a compiled program and a library have to agree on, as lines."""
import re
from collections.abc import Iterator
from pathlib import Path

TOP = Path(__file__).resolve().parent.parent.parent
SOURCES = TOP / "crates" / "pim_c" / "src"
HEADERS = [TOP / "include" / "viqeshor" / name for name in ("viqeshor.h", "plane.h")]
CORE = TOP / "bindings" / "c" / "core.h"
# What VIQ_ABI stands for: its number, and the lines of `agreed`.
ABI = TOP / "bindings" / "c" / "abi.txt"
# What the crate's values are called in C.
NAMES = {
    "Handle": "viq_core", "GivenInterface": "viq_interface", "GivenRoute": "viq_route", "GivenRange": "viq_range",
    "GivenSettings": "viq_core_settings", "GivenConfiguration": "viq_core_configuration", "Packet": "viq_packet",
    "Interfaces": "viq_interfaces", "Forwarding": "viq_forwarding", "PlaneRow": "viq_plane_row",
    "OlderGroup": "viq_older_row", "NamedSource": "viq_source_group", "CNumber": "viq_number",
    "CHop": "viq_hop", "CPath": "viq_path", "CTree": "viq_tree", "CSourceTree": "viq_source_tree",
    "CQuerier": "viq_querier", "CLink": "viq_link", "CLanDelay": "viq_lan_delay",
    "CNeighbour": "viq_neighbour", "NeighbourColumns": "viq_neighbour_row", "GroupColumns": "viq_group_row",
    "SourceColumns": "viq_source_row", "DownstreamColumns": "viq_downstream_row", "AssertColumns": "viq_assert_row",
    "UpstreamColumns": "viq_upstream_row", "RptColumns": "viq_rpt_row", "ActiveColumns": "viq_active_row",
    "CRow": "viq_core_row", "GivenCall": "viq_call", "ListenerHandle": "viq_core_bsr", "CElected": "viq_bsr_elected",
    "LearnedRow": "viq_bsr_rp", "PartRow": "viq_bsr_part", "GivenRpSet": "viq_rp_set",
    "GivenCandidate": "viq_candidate", "GivenCandidacy": "viq_candidacy_settings", "GivenPrefix": "viq_prefix",
    "CandidacyHandle": "viq_core_candidacy", "CandidacyState": "viq_candidacy_state",
    "AdvertisedRow": "viq_candidacy_rp", "GivenActive": "viq_source_active",
}
# A place is a pointer beside what takes no room.
TYPES = {"u8": "uint8_t", "u32": "uint32_t", "u64": "uint64_t", "usize": "size_t", "bool": "bool", "Place": "void *",
         "ListenerPlace": "void *", "CandidacyPlace": "void *"}
# The files of the crate that have its values, and those that have its calls.
OF_VALUES = ("handle.rt", "given.rt", "returned.rt", "rows.rt", "trees.rt", "recorded.rt", "listening.rt", "learned.rt",
             "standing.rt", "stands.rt", "advertised.rt", "sources.rt")
OF_CALLS = ("calls.rt", "bootstraps.rt", "candidacies.rt", "sources.rt")
STRUCT = re.compile(r"#\[repr\(C\)\]\n(?:#\[[^\n]*\]\n)?pub struct (\w+)(?:<'a>)? \{\n(.*?)^\}", re.M | re.S)
FIELD = re.compile(r"^    (?:pub )?(\w+): (&'a \[)?(\w+)\]?,$", re.M)
CALL = re.compile(r'^pub extern "C" fn (viq_core_\w+)\((.*?)\)(?: -> (\w+))?\n', re.M | re.S)
PARAMETER = re.compile(r"(\w+): (&mut |&)?(\[?)(\w+)\]?")
C_CALL = re.compile(r"\b(viq_core_\w+)\(")
PROTOTYPE = re.compile(r"^(?:VIQ_\w+(?:\(\d+\))? ?)*((?:const )?\w+ \*?viq_\w+\([^;{]*\));", re.M)
C_STRUCT = re.compile(r"^struct (viq_\w+) \{\n(.*?)^\};", re.M | re.S)
C_ENUM = re.compile(r"^enum \{(.*?)\};", re.M | re.S)
C_NUMBER = re.compile(r"^#define (VIQ_(?:MOST|NEVER|NO|USUAL)\w*) (.+)$", re.M)


def structs() -> dict[str, list[tuple[str, str]]]:
    """The crate's values that C sees: each with its fields, a name and a type of C."""
    text = "".join((SOURCES / name).read_text() for name in OF_VALUES)
    found = {name: FIELD.findall(body) for name, body in STRUCT.findall(text)}
    return {NAMES[name]: [it for field in found[name] for it in c_fields(*field)] for name in NAMES}


def c_fields(name: str, is_lent: str, kind: str) -> Iterator[tuple[str, str]]:
    """A field as C has it: of a list its first value's place, and how many values it has; of bytes their length."""
    if is_lent:
        yield name, f"const {c_type(kind)} *"
        yield "length" if kind == "u8" else re.sub("(?<=ss)es$|s$", "", name) + "_count", "size_t"
    else:
        yield name, c_type(kind)


def c_type(kind: str) -> str:
    return TYPES.get(kind) or f"struct {NAMES[kind]}"


def parameters(text: str) -> Iterator[str]:
    """A call's parameters as C has them; the allocator is none there."""
    for _, lent, is_slice, kind in PARAMETER.findall(text):
        if kind == "Global":
            continue
        if not lent:
            yield c_type(kind)
        else:
            yield ("" if "mut" in lent else "const ") + c_type(kind) + " *"
            if is_slice:
                yield "size_t"


def calls() -> Iterator[tuple[str, str]]:
    """Each call as a type of C."""
    for name, text, answer in CALL.findall("".join((SOURCES / name).read_text() for name in OF_CALLS)):
        yield name, f"{c_type(answer) if answer else 'void'} (*)({', '.join(parameters(text))})"


def without_comments(header: str) -> str:
    return re.sub(r"/\*.*?\*/", "", header, flags=re.S)


def called(header: str) -> set[str]:
    """The calls of a header that the crate has to have."""
    return set(C_CALL.findall(without_comments(header)))


def agreed(headers: list[str]) -> Iterator[str]:
    """What a compiled program and a library have to agree on: values field by field, calls and numbers, each as a
    line."""
    code = without_comments("\n".join(headers))
    for name, body in C_STRUCT.findall(code):
        yield f"struct {name}: {'; '.join(' '.join(field.split()) for field in body.split(';') if field.strip())}"
    for body in C_ENUM.findall(code):
        yield from (" ".join(number.split()) for number in body.split(",") if number.strip())
    yield from (f"{name} = {value}" for name, value in C_NUMBER.findall(code))
    yield from (" ".join(call.split()) for call in PROTOTYPE.findall(code))


def abi_number(headers: list[str]) -> int:
    return int(re.search(r"^#define VIQ_ABI (\d+)$", "\n".join(headers), re.M)[1])


def abi_text(headers: list[str]) -> str:
    return "\n".join([f"VIQ_ABI {abi_number(headers)}", *sorted(agreed(headers)), ""])


def fields_hold(name: str, fields: list[tuple[str, str]]) -> Iterator[str]:
    """Assertions of a value: its size, and each field's place and type."""
    yield f"struct own_{name} {{ {' '.join(f'{kind} {field};' for field, kind in fields)} }};"
    yield f'_Static_assert(sizeof(struct {name}) == sizeof(struct own_{name}), "size of {name}");'
    for field, kind in fields:
        where = f"{name}.{field}"
        own = f"offsetof(struct own_{name}, {field})"
        yield f'_Static_assert(offsetof(struct {name}, {field}) == {own}, "place of {where}");'
        type_of = f"__typeof__(((struct {name} *)0)->{field})"
        yield f'_Static_assert(__builtin_types_compatible_p({type_of}, {kind}), "type of {where}");'


def row_members() -> list[tuple[str, str]]:
    """The columns of each kind of row: a name and a type of C."""
    return [field for field in structs()["viq_core_row"] if field[0] != "table"]


def members_hold() -> Iterator[str]:
    """Assertions of the union in a row: its members are the columns of each kind."""
    for field, kind in row_members():
        type_of = f"__typeof__(((struct viq_row *)0)->of.{field})"
        yield f'_Static_assert(__builtin_types_compatible_p({type_of}, {kind}), "type of viq_row.of.{field}");'


def assertions() -> str:
    """A C file that compiles where the headers declare what the crate does."""
    lines = ['#include "core.h"']
    for name, fields in structs().items():
        lines += fields_hold(name, fields)
    lines += members_hold()
    for name, kind in calls():
        lines.append(f'_Static_assert(__builtin_types_compatible_p(__typeof__(&{name}), {kind}), "{name}");')
    return "\n".join([*lines, ""])
