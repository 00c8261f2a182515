# Stop 32: an address into a region that has closed. `make` may return it as a number; the check that
# would make a pointer of it fails, as no live region owns the page. (A pointer into the region cannot
# leave `make` at all: refusals/6-local-region-leaves.asm.)
#: accepted
#: stopped 32 5

fn main() -> i32 {
    region own: i32
    reg number, value: i32
    reg tie: *i32 in own

    number = make()
    tie = check number
    value = *tie
    return value
}

fn make() -> i32 {
    region scratch: i32
    reg number: i32
    reg object: *i32 in scratch

    object = new
    number = address object
    return number
}
