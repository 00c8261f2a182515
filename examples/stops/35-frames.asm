# Stop 35: a call with 16 frames. The function calls itself without end.
#: accepted
#: stopped 35 16

fn main() -> i32 {
    reg r: i32

    r = main()
    return r
}
