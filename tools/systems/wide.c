// Numbers of 128 bits, for machines that compiled code calls for them by name.
typedef unsigned long long half;
typedef unsigned __int128 wide;

union parts {
    wide whole;
    struct {
        half low, high;
    };
};

static wide joined(half low, half high) { return (union parts){.low = low, .high = high}.whole; }

wide __ashlti3(wide of, int by) {
    union parts it = {of};
    if (by >= 64) return joined(0, it.low << (by - 64));
    return by ? joined(it.low << by, it.high << by | it.low >> (64 - by)) : of;
}

wide __lshrti3(wide of, int by) {
    union parts it = {of};
    if (by >= 64) return joined(it.high >> (by - 64), 0);
    return by ? joined(it.low >> by | it.high << (64 - by), it.high >> by) : of;
}

// The product of halves, by their own halves.
static wide product(half a, half b) {
    half low = (unsigned)a * (half)(unsigned)b, high = (a >> 32) * (b >> 32);
    half one = (a >> 32) * (unsigned)b, other = (unsigned)a * (b >> 32);
    half middle = (low >> 32) + (unsigned)one + (unsigned)other;
    return joined(middle << 32 | (unsigned)low, high + (one >> 32) + (other >> 32) + (middle >> 32));
}

wide __multi3(wide a, wide b) {
    union parts one = {a}, other = {b}, made = {product(one.low, other.low)};
    made.high += one.high * other.low + one.low * other.high;
    return made.whole;
}
