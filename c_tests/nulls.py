"""Writes a test in C of what each call of sctpr.h does with NULL, from the calls that the header declares, so that none is forgotten:

    python3 c_tests/nulls.py FILE.c

Of each call each pointer is NULL in turn, and each handle also empty, while all else is as the header asks: the call answers SCTPR_INVALID, or 0
where it answers no code, and nothing that it was handed changed. With a length of 0 NULL is no fault. The last line of the test counts."""

import re
import sys

CALL = re.compile(r"^(sctpr_code|uint8_t|uint32_t|size_t|void) (sctpr_\w+)\(([^)]*)\);", re.M)

HEAD = """#include "check.h"

/* What a call is handed in place of bytes, rows and values: any bytes. */
static _Alignas(16) uint8_t rooms[8][512], kept[8][512];
static sctpr_sender sender, no_sender = { NULL };
static sctpr_receiver receiver, no_receiver = { NULL };

static void begin(void) {
    memset(rooms, 0xa5, sizeof rooms);
    memcpy(kept, rooms, sizeof rooms);
}

/* Whether nothing that a call was handed changed. */
static int is_kept(void) {
    return memcmp(rooms, kept, sizeof rooms) == 0 && sender.at != NULL && receiver.at != NULL && no_sender.at == NULL && no_receiver.at == NULL &&
           sctpr_sender_pending(&sender) == 1 && sctpr_receiver_held_bytes(&receiver) == 401;
}

/* A sender with a message that waits, and a receiver that holds one of a byte. */
static void make_both(void) {
    static const uint8_t data[17] = { SCTPR_DATA, 3, 0, 17, 0, 0, 0, 1, 0, 1, 0, 0, 0, 0, 0, 51, 'x' };
    uint64_t number;
    size_t fragments;
    uint8_t complete;
    CHECK(sctpr_sender_new(1, 100, 1000, 1, &sender) == SCTPR_OK && sctpr_sender_open(&sender, 1) == SCTPR_OK);
    CHECK(sctpr_sender_write(&sender, 1, 51, data, 4, &number, &fragments) == SCTPR_OK);
    CHECK(sctpr_receiver_new(1, 1000, 2000, 100, &receiver) == SCTPR_OK && sctpr_receiver_open(&receiver, 1) == SCTPR_OK);
    CHECK(sctpr_receiver_data(&receiver, data, sizeof data, &complete) == SCTPR_OK && complete == 1);
}
"""

TAIL = """
int main(void) {{
    make_both();
{calls}
    begin();
    CHECK(is_kept());
    sctpr_sender_free(&sender);
    sctpr_receiver_free(&receiver);
    CHECK(held == 0);
    return report("nulls");
}}
"""


def kind_of(text, following):
    """What a parameter is: a number, a handle, a value behind a pointer, or items whose number follows."""
    if "*" not in text:
        return "number"
    if re.match(r"(const )?sctpr_(sender|receiver) \*(?!out$)", text):
        return "handle"
    return "items" if re.match(r"size_t \w+$", following) else "value"


def arguments(params, kinds, changed):
    """The arguments of a call that is as it should be, but for those that are told."""
    given = []
    for i, (text, kind) in enumerate(zip(params, kinds)):
        whole = {"number": "8" if i and kinds[i - 1] == "items" else "1", "handle": "&sender" if "sctpr_sender" in text else "&receiver"}
        given.append(changed.get(i, whole.get(kind, f"(void *)rooms[{i % 8}]")))
    return ", ".join(given)


def test_of(result, name, params):
    """The function that tests one call, or None where it takes no pointer."""
    params = [" ".join(it.split()) for it in params.split(",")]
    kinds = [kind_of(it, following) for it, following in zip(params, [*params[1:], ""])]
    lines = []
    for i, kind in enumerate(kinds):
        nulls = [] if kind == "number" else ["NULL"] if kind != "handle" else ["NULL", "&no_sender" if "sctpr_sender" in params[i] else "&no_receiver"]
        for null in nulls:
            call = f"{name}({arguments(params, kinds, {i: null})})"
            if result == "void":
                lines += [f"    {call};", "    CHECK(is_kept());"]
            else:
                lines.append(f"    CHECK({call} == {'SCTPR_INVALID' if result == 'sctpr_code' else '0'} && is_kept());")
        if kind == "items":
            call = f"{name}({arguments(params, kinds, {i: 'NULL', i + 1: '0'})})"
            lines += [f"    CHECK({call} != SCTPR_INVALID);", "    begin();"]
    if not lines:
        return None
    return f"\nstatic void of_{name}(void) {{\n    begin();\n" + "\n".join(lines) + "\n}\n"


def main():
    with open("include/sctpr.h", encoding="utf-8") as it:
        calls = CALL.findall(it.read())
    tests = {name: test_of(result, name, params) for result, name, params in calls}
    tested = {name: text for name, text in tests.items() if text}
    with open(sys.argv[1], "w", encoding="utf-8") as it:
        it.write(HEAD + "".join(tested.values()) + TAIL.format(calls="\n".join(f"    of_{name}();" for name in tested)))
    print(f"nulls.py: {len(tested)} of {len(tests)} calls take a pointer")


if __name__ == "__main__":
    main()
