# The short forms of the text (docs/ASSEMBLY.md), each of which makes several records: numbers where a
# register is read, all comparisons, and `if` with a comparison. The form is a list of scores that ends
# with a zero; the output has `+`, `=` or `-` for each score above, at or below 50, then a line end and
# how many there were.
#: accepted
#: form 70 50 20 90 0
#: ended 4 129
#: output '+' '=' '-' '+' 10 4

fn main() -> i32 {
    region totals: i32
    reg total: *i32 in totals
    reg at, count, limit: i32
    reg score, flag: i8

    total = new
    *total = -1
    limit = 2 * 2048
next:
    score = form[at]
    if score == 0 goto done
    if at >= 4_096 goto done
    at = at + 1
    if score <= 49 goto below
    flag = score != 50
    if flag > 0 goto above
    output '='
    goto next
above:
    output '+'
    if 1 goto next
below:
    output '-'
    goto next
done:
    output 10
    flag = form[3]
    if 90 != flag goto failed
    total = check 256
    count = *total
    if count >= signed 0 goto failed
    flag = at <= limit
    if flag < 1 goto failed
    flag = at > limit
    if flag goto failed
    flag = limit >= at
    if flag == 0 goto failed
    count = minimum(at, 100)
    flag = unsigned count
    output flag
    return count
failed:
    return -1
}

# The smaller of two numbers below zero or above.
fn minimum(left: i32, right: i32) -> i32 {
    if left < signed right goto first
    return right
first:
    return left
}
