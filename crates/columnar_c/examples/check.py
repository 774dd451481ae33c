"""check LIBRARY TYPE FILE [BOUNDS [INDEX]]: how many rows the store has, or the row with this index, or what is wrong. The status is
what the call answers, 9 where the file can't be read.

    cc -shared -o libcolumnar.so -Wl,--whole-archive libcolumnar_c.a -Wl,--no-whole-archive liblibc_c.a"""
import ctypes
import sys

NO_ROOM = 8


class Fault(ctypes.Structure):
    _fields_ = [
        ("rule", ctypes.c_uint32),
        ("mistake", ctypes.c_uint32),
        ("slice", ctypes.c_uint64),
        ("place", ctypes.c_uint64),
        ("wanted", ctypes.c_uint32),
    ]


def count_rows(library, type_text, bounds, data):
    """What the library answers, the rows, and what is wrong."""
    rows, fault = ctypes.c_uint64(), Fault()
    call = library.columnar_rows
    call.restype = ctypes.c_uint32
    call.argtypes = [ctypes.c_char_p, ctypes.c_size_t, ctypes.c_uint32, ctypes.c_char_p, ctypes.c_size_t, ctypes.c_void_p, ctypes.c_void_p]
    answer = call(type_text, len(type_text), bounds, data, len(data), ctypes.byref(rows), ctypes.byref(fault))
    return answer, rows.value, fault


def row_json(library, type_text, bounds, data, index):
    """What the library answers, the row as JSON, and what is wrong."""
    size, fault = ctypes.c_uint64(), Fault()
    call = library.columnar_row_json
    call.restype = ctypes.c_uint32
    call.argtypes = [ctypes.c_char_p, ctypes.c_size_t, ctypes.c_uint32, ctypes.c_char_p, ctypes.c_size_t, ctypes.c_uint64, ctypes.c_void_p, ctypes.c_size_t, ctypes.c_void_p, ctypes.c_void_p]
    answer, room = NO_ROOM, 16
    while answer == NO_ROOM:
        text = ctypes.create_string_buffer(room)
        answer = call(type_text, len(type_text), bounds, data, len(data), index, text, room, ctypes.byref(size), ctypes.byref(fault))
        room = size.value
    return answer, text.raw[: size.value].decode(), fault


def main(words):
    if not 3 <= len(words) <= 5:
        print("usage: check LIBRARY TYPE FILE [BOUNDS [INDEX]]", file=sys.stderr)
        return 9
    try:
        with open(words[2], "rb") as it:
            data = it.read()
    except OSError:
        print("failed: cannot read", file=sys.stderr)
        return 9
    bounds = int(words[3]) if len(words) > 3 else 0
    given = ctypes.CDLL(words[0]), words[1].encode(), bounds, data
    if len(words) == 5:
        answer, text, fault = row_json(*given, int(words[4]))
    else:
        answer, rows, fault = count_rows(*given)
        text = f"{rows} rows"
    if answer == 0:
        print(text)
    elif answer == 1:
        print(f"rule {fault.rule} in slice {fault.slice}")
    elif answer == 2:
        print(f"not a type: mistake {fault.mistake} at {fault.place}")
    else:
        print({3: "no memory", 4: "no bounds", 5: "no such row", 6: "a string has no text", 7: "an array has another length"}[answer])
    return answer


if __name__ == "__main__":
    sys.exit(main(sys.argv[1:]))
