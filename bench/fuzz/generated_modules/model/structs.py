"""Structs by chance."""

from bindings import some_binding
from chance import some_label, some_member_label, some_number, some_type
from layouts import Layouts
from placements import some_placement
from spelling import BOOL, F32, F64, FUNCTION, I32, I64, U32, U64, pointer_to, with_scalar
from words import MEMBERS


class StructMaker:
    """Structs that a text declares, and those that none does."""

    def __init__(self, r, module):
        self.r, self.module = r, module

    def make_named(self):
        """Special structs, and now and then others; and the types over these that a function may spell."""
        r, named = self.r, []
        for _ in range(r.choice([1, 1, 2, 3])):
            self.given_for(self.some_giver())
        if r.random() < 0.07:
            self.put(self.some_members())
        if r.random() < 0.05:
            # a special type that is no struct, or is nowhere
            ty = some_number(r) if r.random() < 0.9 else None
            if ty is not None:
                self.module.handle_of(ty)
            self.module.special.append((self.some_giver(), ty))
        for _ in range(r.choice([0, 0, 0, 1])):
            named.append(self.some_over(r.choice([ty for ty in self.module.types if ty[0] == "struct"])))
        return named

    def some_giver(self):
        r = self.r
        giver = r.choice(["modf", "modf", "frexp", "frexp", "exchange", "params", "transfer"])
        if giver in ("modf", "frexp"):
            return (giver, r.choice([0, 0, 2, 3, 4]), F32 if r.random() < 0.95 else F64)
        return (giver, 0, r.choice([I32, U32])) if giver == "exchange" else (giver, 0, F32)

    def some_over(self, ty):
        """The type, an array of it, or a pointer to one of these."""
        ty = ("array", ty, self.r.choice([0, 2, 3]), 16) if self.r.random() < 0.4 else ty
        return pointer_to(ty, FUNCTION) if self.r.random() < 0.4 else ty

    def given_for(self, giver):
        """The struct that is given for this, which is made if there is none."""
        known = dict(self.module.special)
        if giver in known and self.r.random() < 0.995:
            return known[giver]
        ty = self.put(self.members_for(giver))
        self.module.special.append((giver, ty))
        return ty

    def put(self, members):
        """A struct that most often no text declares, now and then without a label."""
        label = "__modf_result_f32" if self.r.random() < 0.8 else some_label(self.r)
        return self.put_under(label if self.r.random() < 0.9 else None, members, 0.05, 0.8)

    def put_under(self, label, members, bound, worded=1):
        """A struct that no other one of the module is the same as, of which a share of the members is bound, and a
        share of these to what has a word."""
        count = sum(ty[0] == "struct" for ty in self.module.types)
        ty = ("struct", tuple(members), 16 * count)
        self.module.handle_of(ty, label)
        for number in range(len(members)):
            if self.r.random() < bound:
                self.module.bindings[ty, number] = some_binding(self.r, self.r.random() < worded)
        self.place(ty)
        return ty

    def place(self, ty):
        """Most structs get offsets and a span. No two structs of the same members have the same."""
        others = [self.placed(each) for each in self.module.types
                  if each[0] == "struct" and each[1] == ty[1] and each != ty]
        offsets, span = self.placed(ty)
        if self.r.random() >= 0.15:
            found, end = some_placement(self.r, Layouts(self.module), ty)
            if (list(found), end) not in others:
                offsets, span = found, end
        while (list(offsets), span) in others:
            span += 16
        self.module.placements[ty] = (offsets, span)

    def placed(self, ty):
        """The offsets and the span of a struct, to be compared."""
        offsets, span = self.module.placement(ty)
        return list(offsets), span

    # ---- those that a text declares
    def make_declared(self, types):
        """A struct over some of these types."""
        r = self.r
        label = "S" if r.random() < 0.4 else some_label(r)
        has_hard_labels = r.random() < 0.5
        members = []
        for at in range(r.choice([0, 1, 1, 2, 2, 2, 3, 4, 6])):
            usual = r.choice(["a", "b", "x"]) if has_hard_labels else f"m{chr(97 + at)}"
            members.append((self.member_label(usual) if has_hard_labels else usual, self.declared_member(types)))
        return self.put_under(label if r.random() < 0.65 else None, members, r.choice([0, 0, 0.3, 1]))

    def member_label(self, usual):
        return usual if self.r.random() < 0.3 else some_member_label(self.r)

    def declared_member(self, types):
        """The type of a member: of numbers, an array, a struct, or now and then any."""
        r = self.r
        known = [ty for ty in types if ty[0] in ("struct", "array", "atomic")]
        if known and r.random() < 0.4:
            ty = r.choice(known)
            return self.some_elements(ty) if r.random() < 0.3 else ty
        if r.random() < 0.04:
            return ("atomic", r.choice([I32, U32, I64, U64, F32]))
        return some_number(r) if r.random() < 0.6 else r.choice(types)

    def some_elements(self, ty):
        """An array of elements of this type, most often of WGSL's stride."""
        stride = Layouts(self.module).stride(ty)
        if stride is None or stride >= 2**32 or self.r.random() < 0.1:
            stride = self.r.choice([4, 12, 16, 32])
        return ("array", ty, self.r.choice([0, 1, 2, 3, 4]), stride)

    def make_twin(self, ty):
        """A struct that differs by its label alone."""
        twin = (*ty[:2], ty[2] + 1)
        if twin in self.module.types:
            return None
        label = self.module.labels[self.module.types.index(ty)]
        self.module.handle_of(twin, None if label is not None else some_label(self.r))
        for number in range(len(ty[1])):
            if (ty, number) in self.module.bindings:
                self.module.bindings[twin, number] = self.module.bindings[ty, number]
        self.module.placements[twin] = self.module.placement(ty)
        return twin


    def members_for(self, giver):
        """Most often the right members, else in another order, under doubled or other labels, or others."""
        (name, size, scalar), r = giver, self.r
        value = ("vector", size, scalar) if size else ("scalar", scalar)
        members = {
            "modf": [("fract", value), ("whole", value)],
            "frexp": [("fract", value), ("exp", with_scalar(value, I32))],
            "exchange": [("old_value", value), ("exchanged", ("scalar", BOOL))]}.get(name, self.some_members())
        if members and r.random() < 0.1:
            at = r.randrange(len(members))
            members[at] = (members[at][0], self.some_member_type())
        what = r.random()
        if what < 0.6:
            return members
        if what < 0.65:
            return members[::-1]
        if what < 0.7:
            return [(members[0][0], ty) for _, ty in members] if members else members
        if what < 0.93:
            share = r.choice([0.3, 1])
            return [(some_member_label(r) if r.random() < share else label, ty) for label, ty in members]
        return self.some_members()

    def some_members(self):
        r = self.r
        labels = MEMBERS if r.random() < 0.4 else [some_member_label(r) for _ in MEMBERS]
        return [(label, self.some_member_type()) for label in r.sample(labels, r.choice([0, 1, 2, 2, 3, 4, 5]))]

    def some_member_type(self):
        known = [ty for ty in self.module.types if ty[0] == "struct"]
        if known and self.r.random() < 0.5:
            return self.some_over(self.r.choice(known))
        return some_number(self.r) if self.r.random() < 0.95 else some_type(self.r)
