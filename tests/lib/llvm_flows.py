"""Functions of LLVM with branches, loops, calls and places in memory, and what each has to return."""
from typing import Iterator

from llvm_functions import Made

# What the functions call and read. @text ends one string of C where "??/" would be a backslash.
SHARED = r'''
@text = private unnamed_addr constant [9 x i8] c"\22\\??/\00\FF9\0A", align 1
@table = private unnamed_addr constant [3 x i32] [i32 7, i32 -1, i32 9], align 4
@zeros = private unnamed_addr constant [40 x i8] zeroinitializer, align 8
@places = private unnamed_addr constant PLACES_AND_BYTES, align 8

define internal noundef i64 @bump(ptr noundef align 8 dereferenceable(8) %p) #0 {
start:
  %x = load i64, ptr %p, align 8, !range !0
  %y = add i64 %x, 3
  store i64 %y, ptr %p, align 8
  ret i64 %y
}

define internal void @set(ptr noundef %p, i64 %x) #0 {
start:
  %y = mul i64 %x, 3
  store i64 %y, ptr %p, align 8
  ret void
}

define internal fastcc { i64, ptr } @one(i64 %x) unnamed_addr {
start:
  %p = getelementptr inbounds nuw i8, ptr @text, i64 4
  %m = insertvalue { i64, ptr } poison, i64 %x, 0
  %n = insertvalue { i64, ptr } %m, ptr %p, 1
  ret { i64, ptr } %n
}

define internal fastcc { i64, ptr } @"two::<T, U>"(i64 %x) unnamed_addr {
start:
  %m = insertvalue { i64, ptr } poison, i64 3, 0
  %n = insertvalue { i64, ptr } %m, ptr getelementptr inbounds nuw (i8, ptr @table, i64 5), 1
  ret { i64, ptr } %n
}

define internal { i64, ptr } @"two::<V>"(i64 %x) {
  %m = insertvalue { i64, ptr } poison, i64 3, 0
  %n = insertvalue { i64, ptr } %m, ptr getelementptr inbounds nuw (i8, ptr @table, i64 5), 1
  ret { i64, ptr } %n
}

attributes #0 = { noinline nounwind "probe-stack"="inline-asm" }

!0 = !{i64 0, i64 -1}
!1 = !{!"branch_weights", i32 1, i32 9}
'''

# A constant with addresses in it stands in one line.
SHARED = SHARED.replace("PLACES_AND_BYTES", (
    r'<{ [4 x i8], [4 x i8], ptr, ptr }> <{ [4 x i8] c"\01\00\00\00", [4 x i8] zeroinitializer, '
    "ptr @text, ptr getelementptr inbounds nuw (i8, ptr @table, i64 4) }>"))


def swapped(a: int, b: int) -> int:
    """Two numbers swapped some times, subtracted."""
    for _ in range(1, b & 15):
        a, b = b, a
    return a - b


def swapped_twice(a: int, b: int) -> int:
    """The same with other numbers of times after each other."""
    x, y = (b, a) if max((b & 15) - 1, 0) % 2 else (a, b)
    x, y = (y, x) if max((a & 3) - 1, 0) % 2 else (x, y)
    return 5 * x - y


def turned(a: int, b: int) -> int:
    """Three numbers, turned round some times."""
    x, y, z = a, b, 7
    for _ in range(1, b & 15):
        x, y, z = y, z, x
    return x * 3 - z


def late(a: int, _: int) -> int:
    """The number of the last step but one, and that of the next."""
    last = a & 31
    return ((last - 1 if last else 9) << 8) + last + 1


def walked(a: int, b: int) -> int:
    """The sum of what a pointer that goes on passes, and where it ends."""
    count, data = b & 7, a.to_bytes(8, "little")
    return sum(data[:count + 1]) * 256 + count + 1


SWAP = """
  %n = and i64 %b, 15
  br label %loop
loop:                                             ; preds = %loop, %start
  %x = phi i64 [ %a, %start ], [ %y, %loop ]
  %y = phi i64 [ %b, %start ], [ %x, %loop ]
  %i = phi i64 [ 0, %start ], [ %j, %loop ]
  %j = add i64 %i, 1
  %c = icmp ult i64 %j, %n
  br i1 %c, label %loop, label %out, !prof !1
out:                                              ; preds = %loop
  %r = sub i64 %x, %y
  ret i64 %r"""
TWICE = SWAP.replace("""out:                                              ; preds = %loop
  %r = sub i64 %x, %y""", """out:                                              ; preds = %loop
  %m = and i64 %a, 3
  br label %again
again:
  %u = phi i64 [ %x, %out ], [ %v, %again ]
  %v = phi i64 [ %y, %out ], [ %u, %again ]
  %k = phi i64 [ 0, %out ], [ %l, %again ]
  %l = add i64 %k, 1
  %d = icmp ult i64 %l, %m
  br i1 %d, label %again, label %end
end:
  %w = mul i64 %u, 5
  %r = sub i64 %w, %v""")
TURN = """
  %n = and i64 %b, 15
  br label %loop
loop:
  %x = phi i64 [ %a, %start ], [ %y, %loop ]
  %y = phi i64 [ %b, %start ], [ %z, %loop ]
  %z = phi i64 [ 7, %start ], [ %x, %loop ]
  %i = phi i64 [ 0, %start ], [ %j, %loop ]
  %j = add i64 %i, 1
  %c = icmp ult i64 %j, %n
  br i1 %c, label %loop, label %out
out:
  %s = mul i64 %x, 3
  %r = sub i64 %s, %z
  ret i64 %r"""
LATE = """
  br label %loop
loop:
  %i = phi i64 [ 0, %start ], [ %j, %loop ]
  %k = phi i64 [ 9, %start ], [ %i, %loop ]
  %j = add i64 %i, 1
  %l = and i64 %a, 31
  %c = icmp ult i64 %i, %l
  br i1 %c, label %loop, label %out
out:
  %s = shl i64 %k, 8
  %r = add i64 %s, %j
  ret i64 %r"""
WALK = """
  %m = alloca i64, align 8
  store i64 %a, ptr %m, align 8
  %n = and i64 %b, 7
  %end = getelementptr inbounds i8, ptr %m, i64 %n
  br label %loop
loop:
  %p = phi ptr [ %m, %start ], [ %q, %loop ]
  %s = phi i64 [ 0, %start ], [ %t, %loop ]
  %q = getelementptr inbounds nuw i8, ptr %p, i64 1
  %x = load i8, ptr %p, align 1
  %w = zext i8 %x to i64
  %t = add i64 %s, %w
  %c = icmp eq ptr %p, %end
  br i1 %c, label %out, label %loop
out:
  %e = ptrtoint ptr %q to i64
  %f = ptrtoint ptr %m to i64
  %d = sub i64 %e, %f
  %u = mul i64 %t, 256
  %r = add i64 %u, %d
  ret i64 %r"""
CHOOSE = """
  %s = urem i64 %a, 5
  switch i64 %s, label %other [
    i64 0, label %zero
    i64 3, label %both
    i64 4, label %both
  ]
zero:
  br label %both
both:
  %r = phi i64 [ 1, %zero ], [ %b, %start ], [ %b, %start ]
  ret i64 %r
other:
  %q = add i64 %s, 70
  ret i64 %q"""
SMALL = """
  %s = trunc i64 %a to i8
  switch i8 %s, label %other [
    i8 -1, label %most
    i8 7, label %never
  ]
most:
  ret i64 77
never:
  ret i64 %b
other:
  %z = sext i8 %s to i64
  ret i64 %z"""


def jumps() -> Iterator[tuple[str, Made]]:
    """Loops, switches, and phis that get their values at once."""
    yield "swap", Made([SWAP], swapped)
    yield "swap_twice", Made([TWICE], swapped_twice)
    yield "turn", Made([TURN], turned)
    yield "late", Made([LATE], late)
    yield "walk", Made([WALK], walked)
    yield "choose", Made([CHOOSE], lambda a, b: {0: 1, 3: b, 4: b}.get(a % 5, a % 5 + 70))
    yield "small", Made([SMALL], lambda a, b: {255: 77, 7: b}.get(a % 256, a % 256 - (a % 256 >> 7 << 8)))


ORDER = """
  %m = alloca [16 x i8], align 8
  store i64 %a, ptr %m, align 8
  %x = load i64, ptr %m, align 8
  store i64 %b, ptr %m, align 8
  %y = load i64, ptr %m, align 8
  %z = call i64 @bump(ptr %m)
  %w = load i64, ptr %m, align 8
  call void @set(ptr %m, i64 %x)
  %s = sub i64 %x, %y
  %t = mul i64 %s, %z
  %r = add i64 %t, %w
  ret i64 %r"""
CHOSEN = """
  %m = alloca [16 x i8], align 8
  store i64 %a, ptr %m, align 8
  %z = call i64 @bump(ptr %m)
  %c = icmp ult i64 %a, %b
  %s = select i1 %c, i64 %z, i64 5
  %w = load i64, ptr %m, align 8
  %r = sub i64 %w, %s
  ret i64 %r"""
JUMPED = """
  %m = alloca [16 x i8], align 8
  store i64 %a, ptr %m, align 8
  %z = call i64 @bump(ptr %m)
  %c = icmp ult i64 %a, %b
  br i1 %c, label %less, label %out
less:
  br label %out
out:
  %s = phi i64 [ 5, %start ], [ %z, %less ]
  %w = load i64, ptr %m, align 8
  %r = sub i64 %w, %s
  ret i64 %r"""
POINTED = """
  %c = icmp ult i64 %a, %b
  %f = select i1 %c, ptr @one, ptr @"two::<T, U>"
  %p = call fastcc { i64, ptr } %f(i64 %a)
  %x = extractvalue { i64, ptr } %p, 0
  %q = extractvalue { i64, ptr } %p, 1
  %y = load i8, ptr %q, align 1
  %z = zext i8 %y to i64
  %r = add i64 %x, %z
  ret i64 %r"""
ALIKE = """
  %p = call { i64, ptr } @"two::<V>"(i64 %a)
  %x = extractvalue { i64, ptr } %p, 0
  %r = mul i64 %x, %b
  ret i64 %r"""


def calls() -> Iterator[tuple[str, Made]]:
    """Calls among loads and stores, in branches, and of functions that are chosen."""
    yield "order", Made([ORDER], lambda a, b: (a - b) * (b + 3) + b + 3)
    yield "chosen", Made([CHOSEN], lambda a, b: (a + 3 - (a + 3 if a < b else 5)))
    yield "jumped", Made([JUMPED], lambda a, b: (a + 3 - (a + 3 if a < b else 5)))
    # The fifth byte of the text is the slash, and the sixth of the table one of those of -1.
    yield "pointed", Made([POINTED], lambda a, b: a + ord("/") if a < b else 3 + 255)
    yield "alike", Made([ALIKE], lambda _, b: 3 * b)


OVERLAP = """
  %m = alloca [24 x i8], align 8
  store i64 %a, ptr %m, align 8
  %p = getelementptr inbounds nuw i8, ptr %m, i64 8
  store i64 %b, ptr %p, align 8
  %q = getelementptr inbounds nuw i8, ptr %m, i64 3
  call void @llvm.memmove.p0.p0.i64(ptr nonnull align 1 %q, ptr align 8 %m, i64 11, i1 false)
  %r = load i64, ptr %p, align 8
  ret i64 %r"""
FILLED = """
  %m = alloca [24 x i8], align 8
  call void @llvm.lifetime.start.p0(ptr nonnull %m)
  call void @llvm.memset.p0.i64(ptr %m, i8 7, i64 24, i1 false)
  %n = and i64 %b, 15
  %v = trunc i64 %a to i8
  call void @llvm.memset.p0.i64(ptr %m, i8 %v, i64 %n, i1 false)
  call void @llvm.memset.p0.i64(ptr null, i8 %v, i64 0, i1 false)
  %q = getelementptr i8, ptr %m, i64 5
  %x = load i64, ptr %q, align 1
  ret i64 %x"""
NOTHING = """
  %n = and i64 %b, 0
  %m = alloca [8 x i8], align 8
  store i64 %a, ptr %m, align 8
  call void @llvm.memcpy.p0.p0.i64(ptr %m, ptr null, i64 %n, i1 false)
  call void @llvm.memmove.p0.p0.i64(ptr null, ptr %m, i64 %n, i1 false)
  call void @llvm.memcpy.p0.p0.i64(ptr %m, ptr null, i64 0, i1 false)
  %r = load i64, ptr %m, align 8
  ret i64 %r"""
CONSTANTS = """
  %m = alloca [24 x i8], align 8
  call void @llvm.memcpy.p0.p0.i64(ptr align 8 %m, ptr align 8 @places, i64 24, i1 false)
  %p = getelementptr inbounds nuw i8, ptr %m, i64 8
  %q = load ptr, ptr %p, align 8
  %t = load i64, ptr %q, align 1
  %p2 = getelementptr inbounds nuw i8, ptr %m, i64 16
  %q2 = load ptr, ptr %p2, align 8
  %u = load i32, ptr %q2, align 4
  %w = zext i32 %u to i64
  %z = load i64, ptr getelementptr inbounds nuw (i8, ptr @zeros, i64 32), align 8
  %s = xor i64 %t, %w
  %r = add i64 %s, %z
  ret i64 %r"""
PAIRS = """
  %m = alloca { i64, i32 }, align 8
  %v = trunc i64 %b to i32
  %p = insertvalue { i64, i32 } { i64 5, i32 undef }, i32 %v, 1
  store { i64, i32 } %p, ptr %m, align 8
  %l = load { i64, i32 }, ptr %m, align 4
  %x = extractvalue { i64, i32 } %l, 0
  %q = getelementptr inbounds nuw i8, ptr %m, i64 8
  %y = load i32, ptr %q, align 8
  %w = zext i32 %y to i64
  %f = freeze i64 %w
  %r = sub i64 %f, %x
  ret i64 %r"""
PLACES = """
  %a0 = and i64 %a, 70368744177663
  %a1 = or i64 %a0, 70368744177664
  %b0 = and i64 %b, 1099511627775
  %b1 = sub i64 %b0, 549755813888
  %p = inttoptr i64 %a1 to ptr
  %q = getelementptr i8, ptr %p, i64 %b1
  %e = icmp ult ptr %q, %p
  %d = ptrtoint ptr %q to i64
  %n = icmp eq ptr %q, null
  %t = xor i1 %n, true
  %u = and i1 %t, %e
  %w = zext i1 %u to i64
  %o = or i1 %t, %e
  %v = select i1 %o, i64 %w, i64 9
  %r = xor i64 %d, %v
  ret i64 %r"""

NARROW = """
  %p = inttoptr i64 %a to ptr
  %q = ptrtoint ptr %p to i32
  %w = zext i32 %q to i64
  %d = sub i64 ptrtoint (ptr getelementptr inbounds nuw (i8, ptr @table, i64 4) to i64), ptrtoint (ptr @table to i64)
  %r = mul i64 %w, %d
  ret i64 %r"""


def text_and_table(_: int, __: int) -> int:
    """The first eight bytes of the text and the second number of the table."""
    return int.from_bytes(b'"\\??/\0\xff9', "little") ^ 0xFFFFFFFF


def moved(a: int, b: int) -> int:
    """Both numbers in memory, moved by three bytes, from the eighth on."""
    room = a.to_bytes(8, "little") + b.to_bytes(8, "little")
    return int.from_bytes((room[:3] + room[:11])[8:14] + room[14:], "little")


def set_to(a: int, b: int) -> int:
    """Bytes that are set to a number, before others."""
    room = bytes([a % 256]) * (b & 15) + bytes([7]) * 24
    return int.from_bytes(room[5:13], "little")


def of_places(a: int, b: int) -> int:
    """An address with a number added to it, and whether it is a lower one."""
    start = a % (1 << 46) | 1 << 46
    to = start + b % (1 << 40) - (1 << 39)
    return to ^ (to < start)


def memory() -> Iterator[tuple[str, Made]]:
    """Copies, also none and overlapping ones, constants, structs and addresses."""
    yield "overlap", Made([OVERLAP], moved)
    yield "filled", Made([FILLED], set_to)
    yield "nothing", Made([NOTHING], lambda a, _: a)
    yield "constants", Made([CONSTANTS], text_and_table)
    yield "pairs", Made([PAIRS], lambda _, b: b % (1 << 32) - 5)
    yield "addresses", Made([PLACES], of_places)
    yield "narrow_addresses", Made([NARROW], lambda a, _: a % (1 << 32) * 4)


# A program of several crates, as rattle begins it: it writes each word of its line, joined to the word before, and its
# status is the number of bytes of all words.
PROGRAM = """
@comma = private unnamed_addr constant [2 x i8] c", ", align 1

declare i64 @__sysv_signal(i32, i64)
declare i64 @rattle_arg_count()
declare i64 @rattle_arg(i64, ptr, i64)
declare i64 @write(i32, ptr, i64)
declare { i64, i64 } @rattle_alloc(i64, i64)

define i32 @main(i32 %0, ptr %1) {
start:
  %s = call i64 @__sysv_signal(i32 13, i64 1)
  %r = call i32 @"fontcut::main_start"()
  ret i32 %r
}

define internal i32 @"fontcut::main_start"() {
start:
  %n = call i64 @rattle_arg_count()
  %p = call { i64, i64 } @rattle_alloc(i64 100, i64 8)
  %o = extractvalue { i64, i64 } %p, 1
  %m = inttoptr i64 %o to ptr
  br label %loop
loop:
  %i = phi i64 [ 1, %start ], [ %j, %next ]
  %a = phi i64 [ 0, %start ], [ %b, %next ]
  %c = icmp ult i64 %i, %n
  br i1 %c, label %next, label %out
next:
  %l = call i64 @rattle_arg(i64 %i, ptr %m, i64 100)
  %k = call i64 @"clap::show::h1"(ptr %m, i64 %l)
  %b = call i64 @"font_join::sum"(i64 %a, i64 %k)
  %j = add i64 %i, 1
  br label %loop
out:
  %t = trunc i64 %a to i32
  ret i32 %t
}

define internal i64 @"clap::show::h1"(ptr %p, i64 %l) {
start:
  %w = call i64 @write(i32 1, ptr %p, i64 %l)
  %v = call i64 @write(i32 1, ptr @comma, i64 2)
  %r = call i64 @"font_join::sum"(i64 %w, i64 0)
  ret i64 %r
}

define internal i64 @"font_join::sum"(i64 %a, i64 %b) {
start:
  %s = add i64 %a, %b
  %z = load i8, ptr @comma, align 1
  %w = zext i8 %z to i64
  %d = sub i64 %s, %w
  %r = add i64 %d, 44
  ret i64 %r
}
"""
