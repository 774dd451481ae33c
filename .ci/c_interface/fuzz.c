/* fuzz SECONDS SEED [TYPE BOUNDS FILE]..: changes the stores of the files for so many seconds, validates each by the library and by
 * the validator below, which is written from docs/FORMAT.md alone, and compares the results. It writes a row of each, and changes the
 * texts of the types too. Bytes, texts and rows lie between two unreadable pages, once next to each page. It prints the numbers of
 * stores and texts. */
#include <ctype.h>
#include <inttypes.h>
#include <stdbool.h>
#include <stdio.h>
#include <stdlib.h>
#include <string.h>
#include <sys/mman.h>
#include <time.h>

#include "../../crates/columnar_c/columnar.h"

enum { ROOM = 8192, PAGE = 4096, MANY = 64 };

static uint64_t state;

static uint64_t number(uint64_t below) {
    state ^= state << 13;
    state ^= state >> 7;
    state ^= state << 17;
    return state % below;
}

/* What is wrong with a store: its first broken rule, or 0. */
struct found {
    uint32_t rule;
    uint64_t slice;
};

static const struct found none = {0, 0};

static struct found at(uint32_t rule, uint64_t slice) {
    struct found it = {rule, slice};
    return it;
}

/* A store with a legal structure: the start of each slice, and its bytes. */
struct store {
    const uint8_t *bytes;
    uint64_t begin[MANY], size[MANY];
};

static uint64_t word(const uint8_t *bytes, uint64_t index) {
    uint64_t it = 0;
    for (int i = 7; i >= 0; i--)
        it = it << 8 | bytes[8 * index + (uint64_t)i];
    return it;
}

static uint64_t of_slice(const struct store *store, uint64_t slice, uint64_t index) {
    return word(store->bytes + store->begin[slice], index);
}

static struct found structure(struct store *store, const uint8_t *bytes, uint64_t length, uint64_t count) {
    if (length % 8 != 0)
        return at(1, 0);
    if (length == 0)
        return at(2, 0);
    uint64_t first = word(bytes, 0);
    if (first < 8 || first % 8 != 0)
        return at(3, 0);
    if (first > length)
        return at(4, 0);
    if (first / 8 - 1 != count)
        return at(5, 0);
    uint64_t begin = first;
    store->bytes = bytes;
    for (uint64_t i = 0; i < count; i++) {
        uint64_t end = word(bytes, i + 1);
        if (end > length)
            return at(6, i);
        if (end < begin)
            return at(7, i);
        store->begin[i] = begin;
        store->size[i] = end - begin;
        begin = (end + 7) / 8 * 8;
    }
    return none;
}

/* A reader of a text that is a type without blanks but after `struct` and `enum`. Each function reads one part and adds its slices; if there is a
 * store, it tests the slices and returns the number of their rows. */
struct reading {
    const char *text;
    uint64_t slice;
    const struct store *store;
    uint32_t bounds;
};

static struct found read_type(struct reading *reading, uint64_t *rows);

static bool goes_on(struct reading *reading, const char *words) {
    size_t length = strlen(words);
    if (strncmp(reading->text, words, length) != 0)
        return false;
    reading->text += length;
    return true;
}

static struct found elements(struct reading *reading, uint64_t size, uint64_t *rows) {
    uint64_t slice = reading->slice++;
    *rows = 0;
    if (!reading->store)
        return none;
    *rows = reading->store->size[slice] / size;
    return reading->store->size[slice] % size ? at(8, slice) : none;
}

static struct found two_words(struct reading *reading) {
    uint64_t slice = reading->slice++;
    return reading->store && reading->store->size[slice] != 16 ? at(9, slice) : none;
}

static uint64_t ones_in(uint64_t it) {
    uint64_t count = 0;
    for (; it; it &= it - 1)
        count++;
    return count;
}

/* Bits; sets the number of set bits. */
static struct found read_bools(struct reading *reading, uint64_t *rows, uint64_t *ones) {
    uint64_t first = reading->slice;
    struct found it = elements(reading, 8, rows);
    struct found tail = two_words(reading);
    if (it.rule || tail.rule || !reading->store)
        return it.rule ? it : tail;
    uint64_t last = of_slice(reading->store, first + 1, 0), count = of_slice(reading->store, first + 1, 1);
    if (count >= 64 || (count == 0 ? last : last >> count) != 0)
        return at(13, first);
    *ones = ones_in(last);
    for (uint64_t i = 0; i < *rows; i++)
        *ones += ones_in(of_slice(reading->store, first, i));
    *rows = 64 * *rows + count;
    return none;
}

/* Bits with their counts. */
static struct found read_bits(struct reading *reading, uint64_t *rows, uint64_t *ones) {
    uint64_t first = reading->slice, counts = 0;
    struct found it = elements(reading, 8, &counts);
    struct found bits = read_bools(reading, rows, ones);
    if (it.rule || bits.rule || !reading->store)
        return it.rule ? it : bits;
    if (counts != *rows / 1024)
        return at(12, first);
    uint64_t sum = 0;
    for (uint64_t i = 0; i < counts; i++) {
        for (uint64_t j = 0; j < 16; j++)
            sum += ones_in(of_slice(reading->store, first + 1, 16 * i + j));
        if (of_slice(reading->store, first, i) != sum)
            return at(12, first);
    }
    return none;
}

static bool bit(const struct store *store, uint64_t slice, uint64_t index) {
    uint64_t words = store->size[slice] / 8;
    uint64_t it = index / 64 < words ? of_slice(store, slice, index / 64) : of_slice(store, slice + 1, 0);
    return it >> index % 64 & 1;
}

/* Bounds of a kind; sets `rise` to whether they never fall, and `end` to the last of them. */
static struct found read_bounds(struct reading *reading, uint32_t bounds, uint64_t *rows, bool *rise, uint64_t *end) {
    const struct store *store = reading->store;
    uint64_t first = reading->slice, ones = 0;
    *rise = true;
    *end = 0;
    if (bounds == COLUMNAR_WORDS) {
        struct found it = elements(reading, 8, rows);
        for (uint64_t i = 0; !it.rule && i < *rows; i++) {
            *rise &= *end <= of_slice(store, first, i);
            *end = of_slice(store, first, i);
        }
        return it;
    }
    if (bounds == COLUMNAR_UNARIES) {
        uint64_t bits = 0;
        struct found it = read_bits(reading, &bits, &ones);
        *rows = ones;
        *end = bits - ones;
        return it.rule || !store || bits == 0 || bit(store, first + 1, bits - 1) ? it : at(11, first);
    }
    uint64_t more = 0;
    struct found head = two_words(reading);
    struct found it = elements(reading, 8, &more);
    if (head.rule || it.rule || !store)
        return head.rule ? head : it;
    uint64_t stride = of_slice(store, first, 0), count = of_slice(store, first, 1);
    if (count != 0 && stride > UINT64_MAX / count)
        return at(16, first);
    if (count > UINT64_MAX - more)
        return at(19, first);
    *rows = count + more;
    *end = stride * count;
    for (uint64_t i = 0; i < more; i++) {
        *rise &= *end <= of_slice(store, first + 1, i);
        *end = of_slice(store, first + 1, i);
    }
    return none;
}

static struct found read_list(struct reading *reading, uint32_t bounds, bool is_text, uint64_t *rows) {
    uint64_t first = reading->slice, end = 0, values = 0;
    bool rise;
    struct found it = read_bounds(reading, bounds, rows, &rise, &end);
    struct found part = is_text ? elements(reading, 1, &values) : read_type(reading, &values);
    if (!is_text)
        goes_on(reading, ">");
    if (it.rule || part.rule || !reading->store)
        return it.rule ? it : part;
    return rise && end == values ? none : at(11, first);
}

static struct found read_option(struct reading *reading, bool is_result, uint64_t *rows) {
    uint64_t first = reading->slice, ones = 0, values = 0, errors = 0;
    struct found it = read_bits(reading, rows, &ones);
    struct found part = read_type(reading, &values);
    struct found other = none;
    if (is_result) {
        goes_on(reading, ",");
        other = read_type(reading, &errors);
    }
    goes_on(reading, ">");
    if (it.rule || part.rule || other.rule || !reading->store)
        return it.rule ? it : part.rule ? part : other;
    return values == ones && (!is_result || errors == *rows - ones) ? none : at(10, first);
}

static void pass_name(struct reading *reading) {
    while (isalnum((unsigned char)*reading->text) || *reading->text == '_')
        reading->text++;
}

static struct found read_field(struct reading *reading, bool has_name, uint64_t *rows) {
    if (has_name) {
        pass_name(reading);
        goes_on(reading, ":");
    }
    return read_type(reading, rows);
}

static struct found read_fields(struct reading *reading, bool have_names, const char *end, uint64_t *rows) {
    uint64_t first = reading->slice, count = 0;
    struct found it = read_field(reading, have_names, rows);
    bool same = true;
    while (goes_on(reading, ",") && *reading->text != *end) {
        struct found part = read_field(reading, have_names, &count);
        same &= count == *rows;
        it = it.rule ? it : part;
    }
    goes_on(reading, end);
    return it.rule || !reading->store || same ? it : at(10, first);
}

static struct found read_characters(struct reading *reading, uint64_t *rows) {
    uint64_t first = reading->slice;
    struct found it = elements(reading, 4, rows);
    for (uint64_t i = 0; !it.rule && i < *rows; i++) {
        const uint8_t *byte = reading->store->bytes + reading->store->begin[first] + 4 * i;
        uint32_t code = (uint32_t)byte[0] | (uint32_t)byte[1] << 8 | (uint32_t)byte[2] << 16 | (uint32_t)byte[3] << 24;
        if (code > 0x10FFFF || (code >= 0xD800 && code <= 0xDFFF))
            return at(14, first);
    }
    return it;
}

static struct found read_durations(struct reading *reading, uint64_t *rows) {
    uint64_t first = reading->slice, count = 0;
    struct found it = elements(reading, 8, rows);
    struct found part = elements(reading, 4, &count);
    if (it.rule || part.rule || !reading->store)
        return it.rule ? it : part;
    if (count != *rows)
        return at(10, first);
    for (uint64_t i = 0; i < count; i++) {
        const uint8_t *byte = reading->store->bytes + reading->store->begin[first + 1] + 4 * i;
        uint32_t nanoseconds = (uint32_t)byte[0] | (uint32_t)byte[1] << 8 | (uint32_t)byte[2] << 16 | (uint32_t)byte[3] << 24;
        if (nanoseconds >= 1000000000)
            return at(14, first);
    }
    return none;
}

static struct found read_units(struct reading *reading, uint64_t *rows) {
    uint64_t slice = reading->slice++;
    *rows = 0;
    if (!reading->store)
        return none;
    if (reading->store->size[slice] != 8)
        return at(9, slice);
    *rows = of_slice(reading->store, slice, 0);
    return none;
}

static struct found read_struct(struct reading *reading, uint64_t *rows) {
    pass_name(reading);
    if (goes_on(reading, ";"))
        return read_units(reading, rows);
    return goes_on(reading, "{") ? read_fields(reading, true, "}", rows) : (goes_on(reading, "("), read_fields(reading, false, ");", rows));
}

/* Options of which the first row is a value. */
static struct found read_repeats(struct reading *reading, uint64_t *rows) {
    uint64_t first = reading->slice;
    struct found it = read_option(reading, false, rows);
    return it.rule || !reading->store || *rows == 0 || bit(reading->store, first + 1, 0) ? it : at(15, first);
}

/* Values, and distances to values before them. */
static struct found read_lookbacks(struct reading *reading, uint64_t *rows) {
    const struct store *store = reading->store;
    uint64_t first = reading->slice, ones = 0, values = 0, distances = 0, before = 0;
    struct found it = read_bits(reading, rows, &ones);
    struct found part = read_type(reading, &values);
    if (goes_on(reading, ","))
        pass_name(reading);
    goes_on(reading, ">");
    uint64_t slice = reading->slice;
    struct found other = elements(reading, 1, &distances);
    if (it.rule || part.rule || other.rule || !store)
        return it.rule ? it : part.rule ? part : other;
    if (values != ones || distances != *rows - ones)
        return at(10, first);
    for (uint64_t i = 0; i < *rows; i++)
        if (bit(store, first + 1, i))
            before++;
        else if (store->bytes[store->begin[slice] + i - before] >= before)
            return at(15, first);
    return none;
}

/* A list whose type ends with its length. */
static struct found read_array(struct reading *reading, uint64_t *rows) {
    struct found it = read_list(reading, COLUMNAR_WORDS, false, rows);
    goes_on(reading, ";");
    pass_name(reading);
    goes_on(reading, "]");
    return it;
}

static struct found read_case(struct reading *reading, uint64_t *rows) {
    pass_name(reading);
    if (goes_on(reading, "{"))
        return read_fields(reading, true, "}", rows);
    return goes_on(reading, "(") ? read_fields(reading, false, ")", rows) : read_units(reading, rows);
}

/* The variants of rows; sets how many rows have each. */
static struct found read_variants(struct reading *reading, uint64_t *rows, uint64_t held[256]) {
    const struct store *store = reading->store;
    uint64_t first = reading->slice, offsets = 0;
    struct found it = elements(reading, 1, rows);
    struct found part = elements(reading, 8, &offsets);
    if (it.rule || part.rule || !store)
        return it.rule ? it : part;
    if (*rows == 0 && offsets == 2) {
        uint64_t tag = of_slice(store, first + 1, 0);
        *rows = of_slice(store, first + 1, 1);
        if (tag < 1 || tag > 256 || *rows < 1)
            return at(17, first);
        held[tag - 1] = *rows;
        return none;
    }
    bool right = offsets == *rows;
    uint64_t most = 0;
    for (uint64_t i = 0; right && i < *rows; i++) {
        uint64_t *count = &held[store->bytes[store->begin[first] + i]];
        right = of_slice(store, first + 1, i) == *count;
        *count += 1;
        most = *count > most ? *count : most;
    }
    return right && (*rows == 0 || most < *rows) ? none : at(17, first);
}

static struct found read_enum(struct reading *reading, uint64_t *rows) {
    uint64_t first = reading->slice, counts[MANY], held[256] = {0}, size = 0;
    struct found it = none;
    pass_name(reading);
    goes_on(reading, "{");
    do {
        struct found part = read_case(reading, &counts[size++]);
        it = it.rule ? it : part;
    } while (size < MANY && goes_on(reading, ",") && *reading->text != '}');
    goes_on(reading, "}");
    struct found part = read_variants(reading, rows, held);
    if (it.rule || part.rule || !reading->store)
        return it.rule ? it : part;
    for (uint64_t i = size; i < 256; i++)
        if (held[i] != 0)
            return at(17, first);
    for (uint64_t i = 0; i < size; i++)
        if (held[i] != counts[i])
            return at(10, first);
    return none;
}

static struct found read_type(struct reading *reading, uint64_t *rows) {
    static const struct {
        const char *name;
        uint64_t size;
    } sizes[] = {{"u8", 1},  {"i8", 1},    {"u16", 2},   {"i16", 2},   {"u32", 4},  {"i32", 4},
                 {"u64", 8}, {"i64", 8},    {"usize", 8}, {"isize", 8}, {"f32", 4},  {"f64", 8},
                 {"u128", 16}, {"i128", 16}};
    for (size_t i = 0; i < sizeof sizes / sizeof *sizes; i++)
        if (goes_on(reading, sizes[i].name))
            return elements(reading, sizes[i].size, rows);
    uint64_t ones = 0;
    if (goes_on(reading, "bool"))
        return read_bools(reading, rows, &ones);
    if (goes_on(reading, "char"))
        return read_characters(reading, rows);
    if (goes_on(reading, "Duration"))
        return read_durations(reading, rows);
    if (goes_on(reading, "Strings<Unaries>"))
        return read_list(reading, COLUMNAR_UNARIES, true, rows);
    if (goes_on(reading, "Strings<Strides>"))
        return read_list(reading, COLUMNAR_STRIDES, true, rows);
    if (goes_on(reading, "String"))
        return read_list(reading, COLUMNAR_WORDS, true, rows);
    if (goes_on(reading, "()"))
        return read_units(reading, rows);
    if (goes_on(reading, "Option<"))
        return read_option(reading, false, rows);
    if (goes_on(reading, "Result<"))
        return read_option(reading, true, rows);
    if (goes_on(reading, "Vec<"))
        return read_list(reading, reading->bounds, false, rows);
    if (goes_on(reading, "SmallVec<"))
        return read_list(reading, COLUMNAR_WORDS, false, rows);
    if (goes_on(reading, "["))
        return read_array(reading, rows);
    if (goes_on(reading, "Repeats<"))
        return read_repeats(reading, rows);
    if (goes_on(reading, "Lookbacks<"))
        return read_lookbacks(reading, rows);
    if (goes_on(reading, "Box<")) {
        struct found it = read_type(reading, rows);
        goes_on(reading, ">");
        return it;
    }
    if (goes_on(reading, "("))
        return read_fields(reading, false, ")", rows);
    if (goes_on(reading, "struct "))
        return read_struct(reading, rows);
    if (goes_on(reading, "enum "))
        return read_enum(reading, rows);
    fprintf(stderr, "not a type: %s\n", reading->text);
    exit(2);
}

static uint64_t slices_of(const char *type, uint32_t bounds) {
    struct reading reading = {type, 0, NULL, bounds};
    uint64_t rows;
    read_type(&reading, &rows);
    return reading.slice;
}

static struct found expected(const char *type, uint32_t bounds, const uint8_t *bytes, uint64_t length, uint64_t *rows) {
    struct store store;
    *rows = 0;
    struct found it = structure(&store, bytes, length, slices_of(type, bounds));
    if (it.rule)
        return it;
    struct reading reading = {type, 0, &store, bounds};
    return read_type(&reading, rows);
}

/* Memory for ROOM bytes, between unreadable pages. */
static uint8_t *between(void) {
    uint8_t *it = mmap(NULL, ROOM + 2 * PAGE, PROT_NONE, MAP_PRIVATE | MAP_ANONYMOUS, -1, 0);
    if (it == MAP_FAILED || mprotect(it + PAGE, ROOM, PROT_READ | PROT_WRITE) != 0) {
        fprintf(stderr, "no pages\n");
        exit(2);
    }
    return it + PAGE;
}

static uint8_t *placed(uint8_t *place, const uint8_t *bytes, size_t length) {
    place += number(2) ? ROOM - length : 0;
    memcpy(place, bytes, length);
    return place;
}

static void change(uint8_t *bytes, size_t *length) {
    static const uint64_t values[] = {0, 1, 2, 7, 8, 16, 63, 64, 1000000000, 0xD800, INT64_MAX, UINT64_MAX};
    size_t words = *length / 8;
    uint64_t index = words ? number(words) : 0;
    uint64_t value = words ? word(bytes, index) : 0;
    switch (number(8)) {
    case 0:
        if (*length)
            bytes[number(*length)] ^= (uint8_t)(1 << number(8));
        return;
    case 1:
        if (*length)
            bytes[number(*length)] = (uint8_t)number(256);
        return;
    case 2:
        *length = number(*length + 1);
        return;
    case 3:
        if (*length + 8 <= ROOM / 2) {
            memset(bytes + *length, (int)number(2) * 255, 8);
            *length += 8;
        }
        return;
    case 4:
        value = values[number(sizeof values / sizeof *values)];
        break;
    case 5:
        value += 8 * number(5) - 16;
        break;
    default:
        value += number(5) - 2;
    }
    if (words)
        for (int i = 0; i < 8; i++)
            bytes[8 * index + (uint64_t)i] = (uint8_t)(value >> 8 * i);
}

static bool same_fault(const struct columnar_fault *one, const struct columnar_fault *other) {
    return one->rule == other->rule && one->mistake == other->mistake && one->slice == other->slice && one->place == other->place && one->wanted == other->wanted;
}

static void complain(const char *what, const char *type, uint32_t bounds, const uint8_t *bytes, size_t length, uint32_t answer,
                     const struct columnar_fault *fault, uint64_t rows) {
    printf("%s: %s, bounds %u: answer %u, rule %u in slice %" PRIu64 ", mistake %u at %" PRIu64 ", %" PRIu64 " rows, of", what, type, bounds,
           answer, fault->rule, fault->slice, fault->mistake, fault->place, rows);
    for (size_t i = 0; i < length; i++)
        printf(" %u", bytes[i]);
    printf("\n");
    exit(1);
}

/* One row of a store for which `columnar_rows` returned this: whether there is such a row, and whether the call writes its text and
 * nothing else, in a buffer that is often too small. */
static void try_row(const char *type, uint32_t bounds, const uint8_t *store, size_t length, uint8_t *outs, uint32_t answer, uint64_t rows,
                    const struct columnar_fault *fault) {
    uint64_t index = number(rows < 8 ? rows + 2 : 8), capacity = number(48), size = 1;
    uint8_t *out = number(2) ? outs : outs + ROOM - capacity;
    memset(outs, 0xFF, 64);
    memset(outs + ROOM - 64, 0xFF, 64);
    struct columnar_fault again;
    memset(&again, 0xCD, sizeof again);
    uint32_t told = columnar_row_json((const uint8_t *)type, strlen(type), bounds, store, length, index, out, capacity, &size, &again);
    bool right = same_fault(fault, &again);
    if (answer != COLUMNAR_ACCEPTED)
        right &= told == answer && size == 0;
    else if (told == COLUMNAR_NO_ROOM)
        right &= index < rows && size > capacity;
    else if (told == COLUMNAR_ACCEPTED)
        right &= index < rows && size > 0 && size <= capacity;
    else
        right &= size == 0 && (told == COLUMNAR_NO_ROW ? index >= rows : told == COLUMNAR_NOT_TEXT || told == COLUMNAR_WRONG_LENGTH);
    for (uint64_t i = 0; i < 64; i++) {
        bool written = told == COLUMNAR_ACCEPTED && outs + i >= out && outs + i < out + size;
        bool last = told == COLUMNAR_ACCEPTED && outs + ROOM - 64 + i >= out && outs + ROOM - 64 + i < out + size;
        right &= (written ? outs[i] >= 32 && outs[i] != 0xFF : outs[i] == 0xFF);
        right &= (last ? outs[ROOM - 64 + i] >= 32 && outs[ROOM - 64 + i] != 0xFF : outs[ROOM - 64 + i] == 0xFF);
    }
    if (!right)
        complain("a row", type, bounds, store, length, told, &again, size);
}

/* One store, changed up to four times, and one text of a type. */
static void try_store(const char *type, uint32_t bounds, const uint8_t *whole, size_t length, uint8_t *texts, uint8_t *stores, uint8_t *outs,
                      uint64_t *accepted) {
    static uint8_t bytes[ROOM];
    memcpy(bytes, whole, length);
    for (uint64_t i = number(5); i > 0; i--)
        change(bytes, &length);
    const uint8_t *text = placed(texts, (const uint8_t *)type, strlen(type));
    const uint8_t *store = placed(stores, bytes, length);
    struct columnar_fault fault, again;
    uint64_t rows, wanted;
    memset(&fault, 0xAB, sizeof fault);
    memset(&again, 0xCD, sizeof again);
    uint32_t answer = columnar_rows(text, strlen(type), bounds, store, length, &rows, &fault);
    uint32_t checked = columnar_check(text, strlen(type), bounds, store, length, &again);
    struct found it = expected(type, bounds, bytes, length, &wanted);
    bool right = it.rule ? answer == COLUMNAR_BROKEN && fault.rule == it.rule && fault.slice == it.slice && rows == 0
                         : answer == COLUMNAR_ACCEPTED && fault.rule == 0 && fault.slice == 0 && rows == wanted;
    if (!right || checked != answer || !same_fault(&fault, &again) || fault.mistake || fault.place || fault.wanted)
        complain("a store", type, bounds, bytes, length, answer, &fault, rows);
    try_row(type, bounds, store, length, outs, answer, rows, &fault);
    *accepted += answer == COLUMNAR_ACCEPTED;
}

static void try_text(const char *type, uint32_t bounds, uint8_t *texts, uint8_t *stores) {
    static const char letters[] = "(),<> u8iBVSORTvecoxnm12{}:;_[]";
    uint8_t text[256];
    size_t length = strlen(type);
    memcpy(text, type, length);
    for (uint64_t i = 1 + number(3); i > 0; i--) {
        size_t index = number(length + 1);
        uint8_t letter = number(8) ? (uint8_t)letters[number(sizeof letters - 1)] : (uint8_t)number(256);
        if (number(2) && length < sizeof text) {
            memmove(text + index + 1, text + index, length - index);
            length++;
        }
        if (index < length)
            text[index] = letter;
        else
            length = number(length + 1);
    }
    struct columnar_fault fault;
    uint64_t rows;
    uint32_t answer = columnar_rows(placed(texts, text, length), length, bounds, placed(stores, text, 0), 0, &rows, &fault);
    /* (no bytes at all break rule 2, whatever the type) */
    bool right = answer == COLUMNAR_BROKEN    ? fault.rule == 2 && fault.slice == 0 && fault.mistake == 0
                 : answer == COLUMNAR_NO_TYPE ? fault.place <= length && fault.mistake >= 1 && fault.mistake <= 8 && (fault.wanted != 0) == (fault.mistake == COLUMNAR_WANTED)
                                              : answer == COLUMNAR_NO_BOUNDS && bounds > 2 && fault.mistake == 0;
    if (!right || rows != 0)
        complain("a text", type, bounds, text, length, answer, &fault, rows);
}

int main(int argc, char **argv) {
    static uint8_t whole[MANY][ROOM / 2];
    static size_t lengths[MANY];
    int count = (argc - 3) / 3;
    if (argc < 6 || argc % 3 != 0 || count > MANY)
        return 2;
    state = strtoull(argv[2], NULL, 10) * 2 + 1;
    for (int i = 0; i < count; i++) {
        FILE *file = fopen(argv[3 * i + 5], "rb");
        if (!file)
            return 2;
        lengths[i] = fread(whole[i], 1, sizeof whole[i], file);
        fclose(file);
    }
    uint8_t *texts = between(), *stores = between(), *outs = between();
    time_t end = time(NULL) + (time_t)strtoul(argv[1], NULL, 10);
    uint64_t tried = 0, accepted = 0;
    do {
        for (int i = 0; i < 1000; i++, tried++) {
            uint64_t which = number((uint64_t)count);
            const char *type = argv[3 * which + 3];
            uint32_t bounds = (uint32_t)strtoul(argv[3 * which + 4], NULL, 10);
            try_store(type, bounds, whole[which], lengths[which], texts, stores, outs, &accepted);
            try_text(type, (uint32_t)number(5), texts, stores);
        }
    } while (time(NULL) < end);
    printf("%" PRIu64 " stores, of which %" PRIu64 " accepted, and as many texts\n", tried, accepted);
    return 0;
}
