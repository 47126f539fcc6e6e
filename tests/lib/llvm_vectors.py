"""Functions of LLVM over vectors, and what each has to return, by what LLVM's reference says of its instructions."""
from typing import Callable, Iterator, Sequence

from llvm_functions import ARITHMETIC, COMPARED, Made, filled, room_of, signed

# The vectors that are tried: how many numbers each has, and of how many bits.
SHAPES = (2, 8), (4, 8), (8, 8), (16, 8), (8, 16), (2, 32), (4, 32), (2, 64)
ROOM = 144
# The numbers of two vectors, and what is made of them.
Lanes = Sequence[int]
Wanted = Callable[[Lanes, Lanes], Lanes]


def loaded(shape: tuple[int, int]) -> list[str]:
    """The lines that load the vectors %x and %y, from unaligned places."""
    kind = f"<{shape[0]} x i{shape[1]}>"
    return [*filled(ROOM), "%p = getelementptr inbounds nuw i8, ptr %m, i64 1",
            "%q = getelementptr inbounds nuw i8, ptr %m, i64 10",
            f"%x = load {kind}, ptr %p, align 1", f"%y = load {kind}, ptr %q, align 1"]


def read(room: bytes, at: int, shape: tuple[int, int]) -> list[int]:
    """The numbers of a vector that lies at a place."""
    size = shape[1] // 8
    return [int.from_bytes(room[at + lane * size:at + (lane + 1) * size], "little") for lane in range(shape[0])]


def folded(shape: tuple[int, int]) -> list[str]:
    """The lines that return a number that is made of all of the vector %z."""
    count, kind = shape[0], f"i{shape[1]}"
    lines = ["%o = alloca [64 x i8], align 16", f"store <{count} x {kind}> %z, ptr %o, align 2", "%f0 = xor i64 7, 0"]
    for lane in range(count):
        lines += [f"%l{lane} = getelementptr inbounds nuw i8, ptr %o, i64 {lane * shape[1] // 8}",
                  f"%v{lane} = load {kind}, ptr %l{lane}, align 1",
                  f"%w{lane} = add i64 %v{lane}, 0" if kind == "i64" else f"%w{lane} = zext {kind} %v{lane} to i64",
                  f"%g{lane} = mul i64 %f{lane}, 31", f"%f{lane + 1} = add i64 %g{lane}, %w{lane}"]
    return [*lines, f"ret i64 %f{count}"]


def fold(numbers: Lanes, bits: int) -> int:
    """What these lines return."""
    made = 7
    for number in numbers:
        made = made * 31 + number % (1 << bits)
    return made


def whole(shape: tuple[int, int], lines: list[str], result: tuple[int, int], wanted: Wanted) -> Made:
    """A function of two vectors, whose result is the vector %z of a shape."""
    return Made([*loaded(shape), *lines, *folded(result)], lambda a, b: fold(
        wanted(read(room_of(a, b, ROOM), 1, shape), read(room_of(a, b, ROOM), 10, shape)), result[1]))


def single(shape: tuple[int, int], lines: list[str], bits: int, wanted: Callable[[Lanes, Lanes], int]) -> Made:
    """A function of two vectors, whose result is the number %s of so many bits."""
    end = ["ret i64 %s"] if bits == 64 else [f"%r = zext i{bits} %s to i64", "ret i64 %r"]
    return Made([*loaded(shape), *lines, *end], lambda a, b: wanted(
        read(room_of(a, b, ROOM), 1, shape), read(room_of(a, b, ROOM), 10, shape)))


def each(wanted: Callable[[int, int], int]) -> Wanted:
    """The same of each two numbers."""
    return lambda first, second: [wanted(x, y) for x, y in zip(first, second)]


def packed(truths: Sequence[bool]) -> int:
    """Truths as the bits of a number."""
    return sum(truth << at for at, truth in enumerate(truths))


def compared(how: str, bits: int) -> Callable[[int, int], bool]:
    """A comparison of two numbers."""
    if how[0] != "s":
        return lambda x, y: COMPARED[how[-2:]](x, y)
    return lambda x, y: COMPARED[how[-2:]](signed(x, bits), signed(y, bits))


def truths_of(wanted: Callable[[int, int], bool]) -> Callable[[Lanes, Lanes], int]:
    """Of which numbers it holds, as bits."""
    return lambda first, second: packed([wanted(x, y) for x, y in zip(first, second)])


def masked(wanted: Callable[[int, int], bool], yes: int) -> Wanted:
    """For each two numbers one number where it holds, and else 0."""
    return lambda first, second: [yes if wanted(x, y) else 0 for x, y in zip(first, second)]


def of_shape(shape: tuple[int, int]) -> Iterator[tuple[str, Made]]:
    """Arithmetic, comparisons, and what is made of their truths."""
    count, bits = shape
    kind, truth = f"<{count} x i{bits}>", f"<{count} x i1>"
    for code, wanted in ARITHMETIC.items():
        yield code, whole(shape, [f"%z = {code} {kind} %x, %y"], shape, each(wanted))
    yield "splat", whole(shape, [f"%z = xor {kind} %x, splat (i{bits} 5)"], shape, each(lambda x, _: x ^ 5))
    yield "shl", whole(shape, [f"%z = shl {kind} %x, splat (i{bits} 3)"], shape, each(lambda x, _: x << 3))
    yield "lshr", whole(shape, [f"%z = lshr {kind} %x, splat (i{bits} 7)"], shape, each(lambda x, _: x >> 7))
    for how in "eq", "ne", "ult", "ule", "ugt", "uge", "slt", "sle", "sgt", "sge":
        holds = compared(how, bits)
        lines = [f"%c = icmp {how} {kind} %x, %y"]
        yield how, single(shape, [*lines, f"%s = bitcast {truth} %c to i{count}"], count, truths_of(holds))
        yield f"{how}_sext", whole(shape, [*lines, f"%z = sext {truth} %c to {kind}"], shape, masked(holds, -1))
        yield f"{how}_zext", whole(shape, [*lines, f"%z = zext {truth} %c to {kind}"], shape, masked(holds, 1))


def truths(shape: tuple[int, int]) -> Iterator[tuple[str, Made]]:
    """Truths of two comparisons together, of the lowest bits, and one by one."""
    count, bits = shape
    kind, truth = f"<{count} x i{bits}>", f"<{count} x i1>"
    both = [f"%c = icmp ult {kind} %x, %y", f"%d = trunc {kind} %x to {truth}"]
    shown = f"%s = bitcast {truth} %e to i{count}"
    yield "or", single(shape, [*both, f"%e = or {truth} %c, %d", shown], count,
                       truths_of(lambda x, y: x < y or x % 2 == 1))
    yield "and", single(shape, [*both, f"%e = and {truth} %c, %d", shown], count,
                        truths_of(lambda x, y: x < y and x % 2 == 1))
    yield "not", single(shape, [*both, f"%e = xor {truth} %c, splat (i1 true)", shown], count,
                        truths_of(lambda x, y: x >= y))
    yield "choice", single(
        shape, [*both, f"%e = select {truth} %c, {truth} %d, {truth} zeroinitializer", shown], count,
        truths_of(lambda x, y: x < y and x % 2 == 1))
    yield "taken", single(shape, [*both, f"%s = extractelement {truth} %c, i64 1"], 1, lambda x, y: int(x[1] < y[1]))
    yield "put", single(shape, [*both, f"%g = extractelement {truth} %d, i64 1",
                                f"%e = insertelement {truth} %c, i1 %g, i64 0", shown], count,
                        lambda x, y: packed([x[1] % 2 == 1, *(one < two for one, two in zip(x[1:], y[1:]))]))
    if shape in ((16, 8), (4, 32)):
        yield "first", single(
            shape, [*both, f"%s = call i64 @llvm.experimental.cttz.elts.i64.v{count}i1({truth} %c, i1 false)"], 64,
            lambda x, y: next((at for at in range(count) if x[at] < y[at]), count))


def moves(shape: tuple[int, int]) -> Iterator[tuple[str, Made]]:
    """Numbers taken out, put in and moved, and vectors that are chosen and go round in a loop."""
    count, bits = shape
    kind = f"<{count} x i{bits}>"
    number = f"%k0 = {'add i64 %a, 0' if bits == 64 else f'trunc i64 %a to i{bits}'}"
    turned = ", ".join(f"i32 {(5 * at + 1) % (2 * count)}" for at in range(count))
    yield "shuffled", whole(
        shape, [f"%z = shufflevector {kind} %x, {kind} %y, <{count} x i32> <{turned}>"], shape,
        lambda x, y: [([*x, *y])[(5 * at + 1) % (2 * count)] for at in range(count)])
    yield "spread", Made([*loaded(shape), number, f"%i = insertelement {kind} poison, i{bits} %k0, i64 0",
                          f"%j = shufflevector {kind} %i, {kind} poison, <{count} x i32> zeroinitializer",
                          f"%z = add {kind} %j, %x", *folded(shape)],
                         lambda a, b: fold([a + x for x in read(room_of(a, b, ROOM), 1, shape)], bits))
    yield "put_in", Made([*loaded(shape), number, f"%z = insertelement {kind} %x, i{bits} %k0, i64 {count - 1}",
                          *folded(shape)],
                         lambda a, b: fold([*read(room_of(a, b, ROOM), 1, shape)[:-1], a], bits))
    end = ["ret i64 %s"] if bits == 64 else [f"%r = zext i{bits} %s to i64", "ret i64 %r"]
    yield "taken_out", Made([*loaded(shape), f"%i = and i64 %b, {count - 1}", f"%s = extractelement {kind} %x, i64 %i",
                             *end], lambda a, b: read(room_of(a, b, ROOM), 1, shape)[b % count])
    yield "either", Made([*loaded(shape), "%c = icmp ult i64 %a, %b", f"%z = select i1 %c, {kind} %x, {kind} %y",
                          *folded(shape)],
                         lambda a, b: fold(read(room_of(a, b, ROOM), 1 if a < b else 10, shape), bits))
    if shape in ((8, 16), (2, 32), (4, 32), (2, 64)):
        yield "sum", single(shape, [f"%s = call i{bits} @llvm.vector.reduce.add.v{count}i{bits}({kind} %x)"], bits,
                            lambda x, _: sum(x) % (1 << bits))
    if shape in ((8, 16), (2, 32), (4, 32)):
        yield "bswap", whole(
            shape, [f"%z = call {kind} @llvm.bswap.v{count}i{bits}({kind} %x)"], shape,
            each(lambda x, _: int.from_bytes(x.to_bytes(bits // 8, "little"), "big")))


def widths() -> Iterator[tuple[str, Made]]:
    """Vectors with numbers of other widths."""
    for first, second in (((8, 8), (8, 16)), ((2, 8), (2, 32)), ((2, 8), (2, 64)), ((2, 32), (2, 64))):
        given, wanted = (f"<{count} x i{bits}>" for count, bits in (first, second))
        yield f"zext_{first[1]}_{second[1]}", whole(first, [f"%z = zext {given} %x to {wanted}"], second,
                                                    each(lambda x, _: x))
        yield f"sext_{first[1]}_{second[1]}", whole(first, [f"%z = sext {given} %x to {wanted}"], second,
                                                    each(signed_of(first[1])))
        yield f"trunc_{second[1]}_{first[1]}", whole(second, [f"%z = trunc {wanted} %x to {given}"], first,
                                                     each(lambda x, _: x))


def signed_of(bits: int) -> Callable[[int, int], int]:
    """The first number with its sign."""
    return lambda x, _: signed(x, bits)


def quarters() -> Iterator[tuple[str, Made]]:
    """The four quarters of what is compared of 64 bytes."""
    for quarter in range(4):
        numbers = ", ".join(f"i32 {quarter * 16 + at}" for at in range(16))
        yield f"quarter_{quarter}", single((64, 8), [
            "%d = icmp ne <64 x i8> %x, %y", "%e = sext <64 x i1> %d to <64 x i8>",
            f"%f = shufflevector <64 x i8> %e, <64 x i8> poison, <16 x i32> <{numbers}>",
            "%c = icmp slt <16 x i8> %f, zeroinitializer", "%s = bitcast <16 x i1> %c to i16"], 16,
            quarter_of(quarter))


def quarter_of(quarter: int) -> Callable[[Lanes, Lanes], int]:
    """Which of sixteen bytes differ, as bits."""
    return lambda x, y: packed([x[at] != y[at] for at in range(quarter * 16, quarter * 16 + 16)])


def vectors() -> Iterator[tuple[str, Made]]:
    """All functions over vectors."""
    for shape in SHAPES:
        for make in of_shape, truths, moves:
            for name, made in make(shape):
                yield f"{make.__name__}_{name}_{shape[0]}_of_{shape[1]}", made
    yield from widths()
    yield from quarters()
