# A state that is slow to test: 62 pages of pointers, of two types in turn, to over a hundred primitives each, at every distance into an object,
# so that nothing that the test remembers serves twice. It then waits. (For bench/costs; the workloads of bench/run are the others.)
#: accepted

struct two(r) {
    one: *[i8; 128] in r
    other: *[i8; 127] in r
}

fn main() -> i32 {
    region bytes: [i8; 256]
    region pairs: [two(bytes); 32]
    reg target: *[i8; 256] in bytes
    reg page: *[two(bytes); 32] in pairs
    reg pair: *two(bytes) in pairs
    reg at: **[i8; 128] in bytes in pairs
    reg beside: **[i8; 127] in bytes in pairs
    reg one: *[i8; 128] in bytes
    reg other: *[i8; 127] in bytes
    reg base, place, far, most, left, i, unit: i32

    target = new
    base = address target
    most = 129
    left = 62
    unit = 1
pages:
    page = new
    i = 32
pairs:
    i = i - unit
    pair = page[i]
    far = far % most
    place = base + far
    far = far + unit
    one = check place
    at = pair.one
    *at = one
    other = check place
    beside = pair.other
    *beside = other
    if i goto pairs
    left = left - unit
    if left goto pages
wait:
    goto wait
}
