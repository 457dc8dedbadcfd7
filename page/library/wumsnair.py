"""The proved player of flow scripts and the checker of records, called by ctypes: `play`, `draw`, `trace`, `explain` and `check` take the
bytes of a script or a record, JSON in UTF-8, and return a status and bytes. If memory is refused, the status is OUT_OF_MEMORY.

    import wumsnair
    status, lines = wumsnair.play(b'{"version": 1, ..}')

It needs libwumsnair.so beside it; after `rt ci`, `page/build` puts both into page/out."""
import ctypes
import pathlib

GIVEN, TOO_LONG, REFUSED, OUT_OF_MEMORY = 0, 1, 2, 4
LEGAL, GAVE_UP, ILLEGAL = 0, 3, 5
SVG, TEXT, EXPLAINED = range(3)

_library = ctypes.CDLL(str(pathlib.Path(__file__).resolve().with_name("libwumsnair.so")))
_bytes = [ctypes.c_char_p, ctypes.c_size_t, ctypes.c_char_p, ctypes.c_size_t, ctypes.POINTER(ctypes.c_size_t)]
for _name, _first in (("play", []), ("draw", [ctypes.c_uint32]), ("trace", [ctypes.c_uint32]), ("explain", []), ("check", [ctypes.c_uint32])):
    _call = getattr(_library, f"wumsnair_{_name}")
    _call.argtypes, _call.restype = _first + _bytes, ctypes.c_uint32


def _given(call, script, room=4096):
    needed = ctypes.c_size_t()
    while True:
        out = ctypes.create_string_buffer(room)
        status = call(script, len(script), out, room, ctypes.byref(needed))
        if status != TOO_LONG:
            return status, out.raw[: needed.value]
        room = needed.value


def play(script):
    """Returns the lines that a script writes, or the line by which it is refused."""
    return _given(_library.wumsnair_play, script)


def draw(script, form=SVG):
    """Returns the drawing of a script, or the line by which it is refused."""
    return _given(lambda *rest: _library.wumsnair_draw(form, *rest), script)


def trace(script, most_drawn=0):
    """Returns the trace of a script as JSON, with its picture if it has at most this many steps, or the line by which it is refused."""
    return _given(lambda *rest: _library.wumsnair_trace(most_drawn, *rest), script)


def explain(script):
    """Returns where and why a script is refused; nothing if it is not."""
    return _given(_library.wumsnair_explain, script)


def check(record, with_order=False):
    """Returns the verdict on recorded calls, LEGAL, ILLEGAL, GAVE_UP or REFUSED, and what flow_judge prints."""
    return _given(lambda *rest: _library.wumsnair_check(int(with_order), *rest), record)
