"""What differs between `dpmi` and the processor for a reason, by name. docs/VALIDATION.md says the reason under the same name.

Each reason is a question of a case, of what it left on the processor (`one`) and under `dpmi` (`two`), and of the names of the parts that
differ.
"""

GENERAL = {"edi", "esi", "ebp", "ebx", "edx", "ecx", "eax"}
BOUNDS, INVALID, STACK, PROTECTION, PAGE = 0x05, 0x06, 0x0C, 0x0D, 0x0E


def adjusts_whole_ax(text, left, right):
    """AH differs by the carry or borrow of AL."""
    change = {"aaa": 1, "aas": -1}.get(text, 0)
    return change != 0 and (left >> 8) & 0xFF == (right >> 8) + change & 0xFF and (left ^ right) & 0xFFFF00FF == 0


def operation(case):
    return case.text.split("# ")[1] if "#" in case.text else case.text.replace(".byte 0x66; ", "").removeprefix("lock ").split()[0]


def width(case):
    """The operand size of an instruction that is told by its bytes."""
    return 48 - case.bits if "0x66" in case.text else case.bits


def wraps_at(case):
    return 2**32 if case.segments["ss"].is_big else 2**16


def has_stayed(case, left):
    """Nothing but the fault has come of the case."""
    return left.values["eip"] == case.eip and left.changed == 0 and all(left.values[name] == case.values[name] for name in GENERAL)


def both(one, two, vector):
    return one.vector == two.vector == vector


def is_aaa(case, one, two, names):
    return names == ["eax"] and adjusts_whole_ax(case.text, one.values["eax"], two.values["eax"])


def popa_loads_before_its_fault(case, one, two, names):
    return operation(case) == "popa" and one.vector == two.vector in (STACK, PAGE) and set(names) <= GENERAL and has_stayed(case, two)


def popa_passes_over_its_slot(case, one, two, names):
    """The slot of (E)SP, which isn't read, lies outside the stack's limit or across its end."""
    if operation(case) != "popa" or one.vector not in (STACK, PAGE) or one.values["eip"] != case.eip:
        return False
    stack, size = case.segments["ss"], width(case) // 8
    at = (case.values["esp"] + 3 * size) % wraps_at(case)
    return not stack.low <= at <= at + size - 1 <= stack.high


def compare_faults_in_repetition(case, one, two, names):
    words = operation(case).split("_")[0].split()
    return words[0] in ("rep", "repne") and words[-1][:4] in ("cmps", "scas") and names == ["flags"] and two.values["eip"] == case.eip


def pushes_before_its_fault(case, one, two, names):
    return (operation(case) in ("call", "call far", "lcall", "pusha", "enter") and one.vector == two.vector in (STACK, PROTECTION, PAGE)
            and names == ["memory"] and has_stayed(case, two))


def call_has_two_faults(case, one, two, names):
    return (operation(case) in ("call", "call far", "lcall") and set(names) <= {"vector", "error", "memory"}
            and one.vector in (STACK, PAGE) and two.vector == PROTECTION and has_stayed(case, two))


def selector_is_popped_as_word(case, one, two, names):
    """An item of 32 bits whose lower half, the selector, lies inside the stack's limit or its last page, and the half above it outside."""
    words = operation(case).split()
    above = 4 if words[0] in ("retf", "iret") else 0 if words[0] == "pop" and words[-1] in ("ds", "es", "ss", "fs", "gs") else None
    if above is None or width(case) != 32 or two.vector not in (STACK, PAGE):
        return False
    stack, at = case.segments["ss"], (case.values["esp"] + above) % wraps_at(case)
    return stack.low <= at and at + 1 <= stack.high < at + 3 and has_stayed(case, two)


def compare_has_two_faults(case, one, two, names):
    """The source has one fault, and ES:(E)DI another."""
    faults = {STACK, PROTECTION, PAGE}
    return ("cmps" in operation(case) and "vector" in names and set(names) <= {"vector", "error", "flags"} and {one.vector, two.vector} <= faults
            and one.values["eip"] == two.values["eip"] == case.eip)


def bound_tests_lower_first(case, one, two, names):
    return operation(case) == "bound" and one.vector == BOUNDS and two.vector in (STACK, PROTECTION, PAGE) and has_stayed(case, two)


def far_pointer_wraps(case, one, two, names):
    """A pointer or a pair of bounds that an address of 16 bits has across offset FFFFh."""
    if operation(case) not in ("lds", "les", "lss", "lfs", "lgs", "lcall", "ljmp", "bound"):
        return False
    at, size, address = case.place
    return address == 16 and at + size > 0x10000 and two.vector in (STACK, PROTECTION) and two.error == 0 and has_stayed(case, two)


def selector_is_its_own_code(case, one, two, names):
    """A selector read from the instruction's own bytes, which may name a descriptor of one side alone."""
    place = getattr(case, "place", None)
    return (operation(case) in ("lar", "lsl", "verr", "verw") and place is not None and case.eip - 2 < place[0] < case.eip + 15
            and set(names) <= GENERAL | {"flags"})


def enter_level(case):
    return int(case.text.split("#")[0].split(",")[-1], 16) % 32 if operation(case) == "enter" else -1


def enter_asks_last_stack_pointer(case, one, two, names):
    return enter_level(case) >= 0 and one.vector in (STACK, PAGE) and one.vector != two.vector and one.values["eip"] == case.eip


def enter_reads_frames_first(case, one, two, names):
    """So an absent page is read there, and written by a push on the processor."""
    if enter_level(case) > 1 and names == ["error"] and both(one, two, PAGE):
        return (one.error, two.error) == (6, 4)
    return enter_level(case) > 1 and names == ["memory"] and one.changed and two.changed


def enter_frame_has_operand_size(case, one, two, names):
    """The saved frame pointers are at EBP, or at BP."""
    return enter_level(case) > 1 and width(case) == 32 and wraps_at(case) == 2**16 and case.values["ebp"] >= 2**16


def enter_frame_has_high_half(case, one, two, names):
    one_frame, two_frame = one.values["ebp"], two.values["ebp"]
    return (enter_level(case) >= 0 and width(case) == 32 and wraps_at(case) == 2**16 and set(names) <= {"ebp", "memory"}
            and (one_frame ^ two_frame) % 2**16 == 0 and two_frame < 2**16)


# Operations that read their first operand and then write it; XCHG's second one may be the one in memory.
CHANGING = {"add", "adc", "sub", "sbb", "and", "or", "xor", "inc", "dec", "neg", "not", "rol", "ror", "rcl", "rcr", "shl", "shr", "sar", "shld",
            "shrd", "bts", "btr", "btc", "xchg"}


def changed_operand_is_read_first(case, one, two, names):
    """The fault of an operand in an absent page that is read and then written: a write's to the processor, a read's here."""
    return (operation(case) in CHANGING and names == ["error"] and both(one, two, PAGE) and (one.error, two.error) == (6, 4)
            and has_stayed(case, two))


def lock_is_refused_before_the_last_byte(case, one, two, names):
    """LOCK before an operation that doesn't take it, whose last bytes lie outside the segment of the code."""
    return (case.text.startswith((".byte 0xF0", "lock ")) and (one.vector, two.vector) == (PROTECTION, INVALID)
            and case.eip + 15 > case.segments["cs"].high and has_stayed(case, two))


REASONS = {
    "adjusts_whole_ax": is_aaa,
    **{reason.__name__: reason for reason in (
        popa_loads_before_its_fault, popa_passes_over_its_slot, compare_faults_in_repetition, compare_has_two_faults,
        pushes_before_its_fault, call_has_two_faults, selector_is_popped_as_word, selector_is_its_own_code, bound_tests_lower_first,
        far_pointer_wraps, enter_asks_last_stack_pointer, enter_reads_frames_first, enter_frame_has_operand_size, enter_frame_has_high_half, changed_operand_is_read_first,
        lock_is_refused_before_the_last_byte)},
}


def on_purpose(case, one, two, names):
    """The name of the reason, or None."""
    return next((name for name, applies in REASONS.items() if applies(case, one, two, names)), None)
