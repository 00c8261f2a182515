# An integer loop: a linear congruential generator, its high bits summed, the odd ones counted.
# Ten million steps, nothing but arithmetic and branches.
#: accepted

fn main() -> i32 {
    reg state, factor, step, sum, high, shift, one, odd, left: i32

    state = 12345
    factor = 1103515245
    step = 12345
    shift = 16
    one = 1
    left = 1250000
next:
    state = state * factor
    state = state + step
    high = state >> shift
    sum = sum + high
    odd = high & one
    sum = sum ^ odd
    left = left - one
    if left goto next
    return sum
}
