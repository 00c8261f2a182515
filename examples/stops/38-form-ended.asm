# Stop 38: a byte of the form beyond its end. The form has three bytes; the fourth read stops.
#: accepted
#: form 1 2 3
#: stopped 38 11
#: form
#: stopped 38 2

fn main() -> i32 {
    reg at, one: i32
    reg byte: i8

    one = 1
next:
    byte = form[at]
    at = at + one
    goto next
}
