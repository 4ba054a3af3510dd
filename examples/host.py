"""Every entry of the library from Python, by cffi: the declarations are those of the header, which the C compiler's preprocessor makes plain.

    python3 host.py [HEADER [LIBRARY]]

HEADER is sagepliers.h and LIBRARY the shared library; by default pkg-config says where the header is, and the system where the library is.
"""

import subprocess
import sys

import cffi


def load(header, library):
    # c99: the standard headers of C11 declare types by words that cffi does not know.
    plain = subprocess.run(["cc", "-std=c99", "-E", "-P", header], check=True, capture_output=True, text=True).stdout
    ffi = cffi.FFI()
    ffi.cdef(plain)
    return ffi, ffi.dlopen(library)


def include_directory():
    return subprocess.run(["pkg-config", "--variable=includedir", "sagepliers"], check=True, capture_output=True, text=True).stdout.strip()


ROOM = 393  # SAGEPLIERS_ROOM, SAGEPLIERS_INFINITY and SAGEPLIERS_REFUSED: macros do not come through cffi
INFINITY = 1 << 56
REFUSED = 1 << 57


def answer(ffi, library, entry, *sheets):
    """What solve or kernel answers to a sheet, or compose to two: the words of the certificate."""
    room = ffi.new("uint32_t[]", ROOM)
    lent = [argument for words in sheets for argument in (ffi.new("uint32_t[]", words), len(words))]
    result = entry(*lent, room, ROOM)
    if result >= REFUSED:
        raise ValueError(ffi.string(library.sagepliers_meaning(result - REFUSED)).decode())
    return list(room[0:result])


def main(arguments):
    header = arguments[0] if arguments else include_directory() + "/sagepliers.h"
    ffi, library = load(header, arguments[1] if len(arguments) > 1 else "libsagepliers.so.0")
    certificate, second = (
        answer(ffi, library, library.sagepliers_solve, [(i + 1) << 28 | v for i, v in enumerate(values)] + [15 << 28])
        for values in ([1009, 1, 3, 265, 877, 3, 46], [1009, 265, 877, 81, 169, 3, 871])
    )
    print(f"solve: {len(certificate)} words, rational abscissas: {certificate[-2] & 0xfffffff}")
    kernel = [1 << 28 | 1009, 2 << 28 | 1, 3 << 28 | 3, 6 << 28 | 3, 8 << 28 | 986, 8 << 28 | 1, 15 << 28]
    print(f"kernel: {len(answer(ffi, library, library.sagepliers_kernel, kernel))} words")
    composed = answer(ffi, library, library.sagepliers_compose, certificate, second)
    print(f"compose: {len(composed)} words, degree {composed[5] & 0xfffffff}, rational abscissas: {composed[-2] & 0xfffffff}")
    sheet = b"".join(word.to_bytes(4, "little") for word in certificate)
    print(f"check: {library.sagepliers_check(sheet, len(sheet))}")
    image = library.sagepliers_push(sheet, len(sheet), 1008 | 1 << 28)
    print("push: infinity" if image == INFINITY else f"push: ({image & 0xfffffff}, {image >> 28})")
    print(f"name: {library.sagepliers_name(1009, 1, 3)}")
    print(f"meaning of 10: {ffi.string(library.sagepliers_meaning(10)).decode()}")


if __name__ == "__main__":
    main(sys.argv[1:])
