# A pool of counts that is freed and refilled. Objects lie at the lowest free place of the region's
# pages: after the first of two is freed, the next new one takes its place again. It is all zeros, so
# the old count does not turn up in it. Until then the free object keeps its bytes: its address still
# passes `check`, and the old count can be read. The output has the count before and after.
#: accepted
#: ended 256 17
#: output 7 0

fn main() -> i32 {
    region pool: i32
    reg first, second, third: *i32 in pool
    reg count, place: i32
    reg shown: i8

    first = new                     # at 256, the first page that is granted
    second = new                    # at 260
    count = 7
    *first = count
    place = address first
    free first
    free first                      # freeing a free object changes nothing
    third = check place             # a pointer to the free object
    count = *third                  # which still holds 7
    shown = unsigned count
    output shown
    third = new                     # at 256 again, cleared
    count = *third
    shown = unsigned count
    output shown
    place = address third
    return place
}
