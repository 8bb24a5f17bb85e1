"""The types that rows name: their own terms, their descriptions, and the catalogue of test_memory_common."""
import re

from model.standard_types import Registry, add, described, field, known, term
from model.tables import Definition, Description, Field, Parameter, Variant

from .inputs import TOP

MEMBERS = (
    "u8 u16 u32 u64 u128 i8 i16 i32 i64 i128 bool char"
    " NonZeroU8 NonZeroU16 NonZeroU32 NonZeroU64 NonZeroU128 NonZeroI8 NonZeroI16 NonZeroI32"
).split()
MANY = (
    "(tuple of 20, Vec<u32>, [u8; 32], [u32; 16], (u32, bool), (u32, [u8; 32], bool), Option<(u32, bool)>, Compact<u32>, Range<u8>,"
    " RangeInclusive<u8>, Duration, String, Result<bool, String>, BTreeSet<String>, VecDeque<String>, Option<u8>, Option<u128>)"
)
OWN = (
    "Recursive Bits Mapping Missing Referring A B C D P Wide EnumOfItself References Documented Fielded Choice U256 I256"
).split()
WORDS = re.compile(r"tuple of \d+|&mut|'static|Phantom<\(\)>|\w+|\S")


def own_term(name):
    """The own term of the program's own type of this name."""
    return term("demo::Own", nums=[OWN.index(name)])


class Names:
    """Reads the name of a type, word by word."""

    def __init__(self, text):
        self.words = WORDS.findall(text)

    def take(self, word=None):
        """The next word, which is this one."""
        found = self.words.pop(0)
        if word not in (None, found):
            raise ValueError(f"{word} is wanted, not {found}")
        return found

    def all_until(self, end):
        """The terms up to a word, with commas between them."""
        found = []
        while self.words[0] != end:
            if self.words[0] in (",", "'static"):
                self.take()
            else:
                found.append(self.type())
        self.take(end)
        return found

    def reference(self):
        """What a reference refers to."""
        if self.words[0] == "[":
            self.take()
            item = self.type()
            self.take("]")
            return term("slice", item)
        if self.words[0] == "str":
            return term(self.take())
        return self.type()

    def array(self):
        """An array, after its bracket."""
        item = self.type()
        self.take(";")
        length = int(self.take())
        self.take("]")
        return term("array", item, nums=[length])

    def type(self):
        """The own term of the type."""
        word = self.take()
        if word == "(":
            return term("tuple", *self.all_until(")"))
        if word == "[":
            return self.array()
        if word in ("&", "&mut"):
            return term(word, self.reference())
        if word.startswith("tuple of "):
            return term("tuple", *map(term, MEMBERS[:int(word[9:])]))
        if word == "Many":
            return Names(MANY).type()
        if word in OWN:
            return own_term(word)
        args = []
        if self.words[:1] == ["<"]:
            self.take()
            args = self.all_until(">")
        head = {"StrType": "str", "SliceOf": "slice", "Tree": "demo::Tree", "MyStruct": "scale_info::tests::MyStruct"}.get(word, word)
        return term("PhantomData" if head == "Phantom" else head, *args)


def type_named(name):
    """The own term of the type of this name."""
    if name.startswith("Phantom<()>"):
        return term("PhantomData", term("tuple"))
    return Names(name.replace("Phantom<()>", "PhantomData<()>")).type()


def types_named(names, mark=" | "):
    """The terms that types of these names are known by."""
    return [known(type_named(it.strip())) for it in names.split(mark) if it.strip()]


def named(name, ty):
    """A field with a name alone."""
    return field(type_named(ty), name)


def unnamed(*names):
    """Fields of these types, without names."""
    return [field(type_named(it)) for it in names]


def struct(path, fields, params=()):
    """A composite."""
    return Description(path, list(params), Definition("composite", fields=fields))


def enum(path, variants, params=(), docs=()):
    """An enum."""
    return Description(path, list(params), Definition("variant", variants=variants), list(docs))


DOCUMENTED_FIELD = Field("value", known(type_named("Box<Recursive>")), "Box<Recursive>", ["f", "g"])
DOCUMENTED_VARIANT = Variant("Value", [DOCUMENTED_FIELD], 7, ["v"])
GIVEN_PARAMETER = Parameter("T", term("bool"))
PARAMETERS = [Parameter("S", None), GIVEN_PARAMETER]
DEMO_PATH = ["demo", "Recursive"]
BITS = Definition("bitsequence", types=[term("u8"), term("u32")])
MAP = Definition("map", types=[term("u32"), term("bool")])
OWN_TYPES = {
    "Recursive": enum(DEMO_PATH, [DOCUMENTED_VARIANT], PARAMETERS, ["d", ""]),
    "Bits": Description([], [], BITS),
    "Mapping": Description([], [], MAP),
    "Referring": struct([], unnamed("u32", "Missing")),
    "Wide": struct([], unnamed(*["u32"] * 40)),
    "A": struct(["A"], [named("b", "B"), named("c", "C")]),
    "B": struct(["B"], [named("d", "D")]),
    "C": struct(["C"], []),
    "D": struct(["D"], [named("a", "A")]),
    "P": struct(["P"], [named("a", "u8"), named("b", "bool")], PARAMETERS),
    "References": struct(
        ["RecursiveRefs"],
        [named("boxed", "Box<References>"), named("reference", "&References"), named("mutable_reference", "&mut References")],
    ),
    "EnumOfItself": enum(DEMO_PATH, [Variant("Value", unnamed("Box<EnumOfItself>"), 0), Variant("Empty", [], 1)]),
    "Documented": enum(["p"], [Variant("V", [Field("n", term("bool"), "N", ["f", "g"])], 7, ["v"])], PARAMETERS, ["d", ""]),
    "Fielded": struct([], [named("a", "u32"), named("b", "[u8; 32]"), named("c", "bool")]),
    "Choice": enum([], [Variant("A", unnamed("u32"), 0), Variant("B", unnamed("bool"), 1)]),
    "U256": Description([], [], Definition("primitive", primitive="u256")),
    "I256": Description([], [], Definition("primitive", primitive="i256")),
}


def description_named(name):
    """What the type of this name is described as."""
    if name in OWN_TYPES:
        return OWN_TYPES[name]
    if name in ("Tree", "Box<Tree>"):
        return Description([], [], Definition("sequence", types=[term("demo::Tree")]))
    return described(type_named(name))


def catalogue_of(names):
    """The catalogue of the types of these names."""
    found = {}
    for name in names.split(" | "):
        if name.strip():
            add(found, known(type_named(name.strip())), description_named(name.strip()))
    return found


def all_names():
    """The names of the types that the catalogue of test_memory_common describes."""
    with open(f"{TOP}/crates/test_memory_common/src/types.rt", encoding="utf-8") as it:
        text = re.search(r'const ALL: &str = "\\\n(.*?)";', it.read(), re.S)[1]
    return re.sub(r"\\\n\s*", "", text)


CATALOGUE = catalogue_of(all_names())


def registry_of(*names):
    """The registry of types, under the catalogue of all."""
    registry = Registry()
    registry.register([known(type_named(it)) for it in names], CATALOGUE)
    return registry
