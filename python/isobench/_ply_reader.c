// Reads the vertex and face lines of a mesh in the form in which isobench writes PLY, and refuses any other text.
// Plain C without Python's headers: ctypes loads it, so that one shared object serves every Python.
#include <stddef.h>
#include <stdint.h>

static int is_digit(uint8_t byte) { return (uint8_t)(byte - '0') < 10; }

// The number of line ends in a text. Sixteen sums of bytes, each of at most 255, are what compilers make vectors of.
ptrdiff_t isobench_count_lines(const uint8_t *text, ptrdiff_t length) {
    ptrdiff_t count = 0, at = 0;
    while (length - at >= 16) {
        ptrdiff_t rows = (length - at) / 16 < 255 ? (length - at) / 16 : 255;
        uint8_t sums[16] = {0};
        for (ptrdiff_t row = 0; row < rows; row++, at += 16) {
            for (int k = 0; k < 16; k++) sums[k] += text[at + k] == '\n';
        }
        for (int k = 0; k < 16; k++) count += sums[k];
    }
    for (; at < length; at++) count += text[at] == '\n';
    return count;
}

// Reads `count` lines of three decimals with three places each, at most seven digits before them and below 2^31 in thousandths,
// into `out`. Returns the number of bytes read, or -1.
ptrdiff_t isobench_read_vertices(const uint8_t *text, ptrdiff_t length, ptrdiff_t count, int32_t *out) {
    const uint8_t *at = text, *end = text + length;
    for (ptrdiff_t number = 0; number < 3 * count; number++) {
        int is_negative = at < end && *at == '-';
        at += is_negative;
        if (at >= end || !is_digit(*at)) return -1;
        int32_t value = *at++ - '0';
        for (int digits = 1; at < end && is_digit(*at); digits++) {
            if (digits == 7) return -1;
            value = 10 * value + (*at++ - '0');
        }
        if (end - at < 5) return -1;
        if (at[0] != '.' || !is_digit(at[1]) || !is_digit(at[2]) || !is_digit(at[3])) return -1;
        int64_t thousandths = 1000 * (int64_t)value + 100 * (at[1] - '0') + 10 * (at[2] - '0') + (at[3] - '0');
        if (at[4] != (number % 3 == 2 ? '\n' : ' ') || thousandths > INT32_MAX) return -1;
        at += 5;
        *out++ = (int32_t)(is_negative ? -thousandths : thousandths);
    }
    return at - text;
}

// Reads `count` lines `3 A B C`, each number of at most ten digits and below 2^31, into `out`.
// Returns the number of bytes read, or -1.
ptrdiff_t isobench_read_faces(const uint8_t *text, ptrdiff_t length, ptrdiff_t count, int32_t *out) {
    const uint8_t *at = text, *end = text + length;
    for (ptrdiff_t face = 0; face < count; face++) {
        if (end - at < 2 || at[0] != '3' || at[1] != ' ') return -1;
        at += 2;
        for (int corner = 0; corner < 3; corner++) {
            if (at >= end || !is_digit(*at)) return -1;
            int64_t value = *at++ - '0';
            for (int digits = 1; at < end && is_digit(*at); digits++) {
                if (digits == 10) return -1;
                value = 10 * value + (*at++ - '0');
            }
            if (at >= end || *at != (corner == 2 ? '\n' : ' ') || value > INT32_MAX) return -1;
            at++;
            *out++ = (int32_t)value;
        }
    }
    return at - text;
}
