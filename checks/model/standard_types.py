"""Identities and descriptions of standard types, and registrations of types.

A term is a tuple of a head, numbers, and the terms of its arguments. A description in the form of a program has terms as its types.
"""
from .tables import Definition, Description, Field, Parameter, Variant, references, with_types

LONGEST_ARRAY = 4294967295
PHANTOM_DOCS = "PhantomData placeholder, this type should be filtered out"
INTEGERS = [f"{sign}{width}" for sign in "ui" for width in (8, 16, 32, 64, 128)]
NON_ZERO = {f"NonZero{it.upper()}": it for it in INTEGERS}


class TooLong(Exception):
    """An array is longer than a description can say."""


class Conflict(Exception):
    """An identity is there with another description."""


class Undescribed(Exception):
    """A type is met that has no description."""

    def __init__(self, term):
        super().__init__(term)
        self.term = term


def term(head, *args, nums=()):
    """The term of a head, numbers and arguments."""
    return head, tuple(nums), args


UNIT, STR = term("tuple"), term("str")
PHANTOM = term("PhantomData", UNIT)


def known(own):
    """The term that a type is known by, by its own."""
    head, _, args = own
    if head in ("Vec", "VecDeque"):
        return term("slice", *args)
    if head == "String":
        return STR
    if head in ("Box", "Rc", "&", "&mut"):
        return args[0]
    return PHANTOM if head == "PhantomData" else own


def without_phantoms(fields):
    """Fields without those that are known as phantom."""
    return [it for it in fields if it.ty != PHANTOM]


def composite(name, params, fields):
    """The description of a composite."""
    return Description([name], params, Definition("composite", fields=without_phantoms(fields)))


def field(ty, name=None, type_name=None):
    """A field of the type with this term."""
    return Field(name, known(ty), type_name)


def enum(name, params, *variants):
    """The description of an enum of variants by their names, in order, with the types of their fields."""
    made = [Variant(it, without_phantoms([field(ty) for ty in types]), index) for index, (it, types) in enumerate(variants)]
    return Description([name], params, Definition("variant", variants=made))


def plain(kind, *types, length=0):
    """The description of types alone."""
    return Description([], [], Definition(kind, types=list(types), length=length))


def generic(head, args):
    """The description of a standard type with a path and arguments; None of another one."""
    names = {"Result": "TE", "BTreeMap": "KV", "Range": ["Idx"], "RangeInclusive": ["Idx"]}.get(head, "T")
    params = [Parameter(name, known(it)) for name, it in zip(names, args)]
    if head == "Option":
        return enum(head, params, ("None", []), ("Some", args))
    if head == "Result":
        return enum(head, params, ("Ok", args[:1]), ("Err", args[1:]))
    if head == "Cow":
        return composite(head, params, [field(args[0])])
    if head == "BTreeMap":
        return composite(head, params, [field(term("slice", term("tuple", *args)))])
    if head in ("BTreeSet", "BinaryHeap"):
        return composite(head, params, [field(term("slice", *args))])
    if head in ("Range", "RangeInclusive"):
        return composite(head, params, [field(args[0], it, "Idx") for it in ("start", "end")])
    return None


def described(own):
    """The description of the standard type with this own term."""
    head, nums, args = own
    if head in ("bool", "char", "str", *INTEGERS):
        return Description([], [], Definition("primitive", primitive=head))
    if head == "String":
        return described(STR)
    if head in NON_ZERO:
        return composite(head, [], [field(term(NON_ZERO[head]))])
    if head == "Duration":
        return composite(head, [], [field(term(it), None, it) for it in ("u64", "u32")])
    if head == "array":
        if nums[0] > LONGEST_ARRAY:
            raise TooLong
        return plain("array", known(args[0]), length=nums[0])
    if head == "tuple":
        return plain("tuple", *(known(it) for it in args if known(it) != PHANTOM))
    if head in ("slice", "Vec", "VecDeque"):
        return plain("sequence", known(args[0]))
    if head == "Compact":
        return plain("compact", known(args[0]))
    if head in ("Box", "Rc", "&", "&mut"):
        return described(args[0])
    if head == "PhantomData":
        return Description([head], [], Definition("composite"), [PHANTOM_DOCS])
    return generic(head, args)


def add(catalogue, identity, description):
    """Adds a description under an identity: whether that is new."""
    if identity in catalogue:
        if catalogue[identity] != description:
            raise Conflict
        return False
    catalogue[identity] = description
    return True


class Registry:
    """Types that are registered: their terms, and their descriptions with ids."""

    def __init__(self):
        self.terms, self.types = [], []

    def register(self, roots, catalogue):
        """The ids of types by the terms that they are known by, which are registered with all that they reach."""
        terms, found, pending = list(self.terms), [], list(reversed(roots))
        numbers = {it: number for number, it in enumerate(terms)}
        while pending:
            it = pending.pop()
            if it in numbers:
                continue
            if it not in catalogue:
                raise Undescribed(it)
            numbers[it] = len(terms)
            terms.append(it)
            found.append(catalogue[it])
            pending += reversed(references(catalogue[it]))
        self.terms = terms
        self.types += [with_types(it, numbers.__getitem__) for it in found]
        return [numbers[it] for it in roots]

    def portable(self, description, catalogue):
        """A description with ids in the place of types, which are registered."""
        ids = iter(self.register(references(description), catalogue))
        return with_types(description, lambda _: next(ids))
