# Refusal 2: bytes 0 and 1 of a block are its place; here block 1 says that it is block 7.
#: refused 2 1

fn main() -> i32 {
    reg r: i32
    return r
}

file blocks = 2
file byte 512 = 7
