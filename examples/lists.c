/* Tries what include/tangents.h says of lists, with every call: a list of length 0 may be NULL, also where another length is
 * called for, a refused call writes nothing but its answer, and an answer gets as many numbers as it has places.
 * `sh examples/run.sh` builds and runs it. */
#include "tangents.h"
#include <stdio.h>
#include <stdlib.h>
#include <string.h>

#define MOST 14

struct list {
    void *at;
    size_t length;
};

/* A list of a call as it is lent, the size of an element, and the number of the refusal where NULL with 0 is lent in its place. */
struct lent {
    const void *content;
    size_t length, size, number;
};

/* A call that is accepted with these lists, and the number of the refusal where every list is NULL with 0, without halfedges and
 * points. */
struct call {
    const char *name;
    void (*run)(size_t n, size_t p, const struct list *l, struct list answer);
    size_t n, p, number;
    struct lent lists[MOST];
};

#define OF(list) (list).at, (list).length

static void linearize(size_t n, size_t p, const struct list *l, struct list answer)
{
    tangents_linearize_flat_tangents(n, p, OF(l[0]), OF(l[1]), OF(l[2]), OF(answer));
}

static void valid(size_t n, size_t p, const struct list *l, struct list answer)
{
    tangents_valid_tangents(n, p, OF(l[0]), OF(l[1]), OF(l[2]), OF(answer));
}

static void sharpen(size_t n, size_t p, const struct list *l, struct list answer)
{
    tangents_sharpen_edges(n, p, OF(l[0]), OF(l[1]), 30, 0, OF(l[2]), OF(l[3]), OF(answer));
}

static void sharpen_clean(size_t n, size_t p, const struct list *l, struct list answer)
{
    tangents_sharpen_edges_clean(n, p, OF(l[0]), OF(l[1]), 30, 0, OF(l[2]), OF(l[3]), OF(answer));
}

static void distribute(size_t n, size_t p, const struct list *l, struct list answer)
{
    tangents_distribute_tangents(n, p, OF(l[0]), OF(l[1]), OF(l[2]), OF(l[3]), OF(l[4]), OF(l[5]), OF(l[6]), OF(answer));
}

static void preview(size_t n, size_t p, const struct list *l, struct list answer)
{
    tangents_preview_tangents(n, p, OF(l[0]), OF(l[1]), OF(l[2]), OF(l[3]), OF(l[4]), OF(l[5]), OF(answer));
}

static void create(size_t n, size_t p, const struct list *l, struct list answer)
{
    tangents_create_tangents(n, p, OF(l[0]), OF(l[1]), OF(l[2]), OF(l[3]), OF(l[4]), OF(l[5]), OF(l[6]), 0, OF(l[7]), OF(l[8]),
                             OF(l[9]), OF(l[10]), OF(l[11]), OF(l[12]), OF(l[13]), OF(answer));
}

static void from_normals(size_t n, size_t p, const struct list *l, struct list answer)
{
    tangents_create_tangents_from_normals(n, p, OF(l[0]), OF(l[1]), OF(l[2]), OF(l[3]), OF(l[4]), OF(l[5]), 0, OF(l[6]), OF(l[7]),
                                          OF(l[8]), OF(l[9]), OF(l[10]), OF(l[11]), OF(answer));
}

static void read_stl(size_t n, size_t p, const struct list *l, struct list answer)
{
    (void)n, (void)p;
    tangents_read_stl(OF(l[0]), OF(l[1]), OF(l[2]), OF(l[3]), OF(answer));
}

static void curve_at(size_t n, size_t p, const struct list *l, struct list answer)
{
    (void)n, (void)p;
    tangents_curve_at(OF(l[0]), 0.5, OF(l[1]), OF(answer));
}

static void curve_points(size_t n, size_t p, const struct list *l, struct list answer)
{
    (void)n, (void)p;
    tangents_curve_points(OF(l[0]), 2, OF(l[1]), OF(answer));
}

/* The pillow: two triangles over the same three points. Written lists begin as zeros too. */
static const int32_t h[24] = {0, 1, 5, 0, 1, 2, 4, 1, 2, 0, 3, 2, 0, 2, 2, 3, 2, 1, 1, 4, 1, 0, 0, 5};
static const double pos[9] = {0, 0, 0, 3, 0, 0, 0, 6, 0};
static const double face_normals[6] = {0, 0, 1, 0, 0, -1};
static const int32_t refs[6] = {1, 0, 0, 1, 1, 1};
static const size_t entries[1] = {3};
static const double controls[16] = {0, 0, 0, 1, 1, 0, 0, 1, 2, 1, 0, 1, 3, 1, 0, 1};
static const unsigned char zeros[1000];

#define INTS(list) {list, sizeof list / 4, 4, 2}
#define FLOATS(list) {list, sizeof list / 8, 8, 2}
#define ZEROS(length, size) {zeros, length, size, 2}
#define NONE(size) {zeros, 0, size, 0}

static unsigned char file[184]; /* the pillow as binary STL */
static const unsigned char empty_file[84];

static const struct call calls[] = {
    {"linearize_flat_tangents", linearize, 6, 3, 0, {INTS(h), FLOATS(pos), ZEROS(24, 8)}},
    {"valid_tangents", valid, 6, 3, 0, {INTS(h), FLOATS(pos), {zeros, 24, 8, 0}}},
    {"sharpen_edges", sharpen, 6, 3, 0, {INTS(h), FLOATS(face_normals), ZEROS(6, sizeof(size_t)), ZEROS(6, 8)}},
    {"sharpen_edges_clean", sharpen_clean, 6, 3, 0, {INTS(h), FLOATS(face_normals), ZEROS(6, sizeof(size_t)), ZEROS(6, 8)}},
    {"distribute_tangents", distribute, 6, 3, 0,
     {INTS(h), FLOATS(pos), ZEROS(9, 8), ZEROS(6, 1), ZEROS(24, 8), ZEROS(6, 8), ZEROS(6, 8)}},
    {"preview_tangents", preview, 6, 3, 0, {INTS(h), FLOATS(pos), ZEROS(9, 8), ZEROS(6, 1), ZEROS(24, 8), ZEROS(6, 1)}},
    {"create_tangents", create, 6, 3, 0,
     {INTS(h), FLOATS(pos), ZEROS(9, 8), FLOATS(face_normals), INTS(refs), {entries, 1, sizeof(size_t), 2}, ZEROS(1, 8),
      ZEROS(24, 8), ZEROS(6, 1), ZEROS(6, 1), ZEROS(6, 8), ZEROS(6, 8), ZEROS(3, sizeof(size_t)), ZEROS(6, sizeof(size_t))}},
    {"create_tangents without sharp entries", create, 6, 3, 0,
     {INTS(h), FLOATS(pos), ZEROS(9, 8), FLOATS(face_normals), INTS(refs), NONE(sizeof(size_t)), NONE(8), ZEROS(24, 8),
      ZEROS(6, 1), ZEROS(6, 1), ZEROS(6, 8), ZEROS(6, 8), ZEROS(3, sizeof(size_t)), ZEROS(6, sizeof(size_t))}},
    {"create_tangents_from_normals", from_normals, 6, 3, 0,
     {INTS(h), FLOATS(pos), ZEROS(9, 8), FLOATS(face_normals), INTS(refs), {zeros, 18, 8, 12}, ZEROS(24, 8), ZEROS(6, 1),
      ZEROS(6, 1), ZEROS(6, 8), ZEROS(6, 8), ZEROS(3, sizeof(size_t))}},
    {"read_stl", read_stl, 0, 0, 30, {{file, 184, 1, 30}, ZEROS(18, 8), ZEROS(24, 4), ZEROS(6, 8)}},
    {"read_stl of no triangles", read_stl, 0, 0, 30, {{empty_file, 84, 1, 30}, NONE(8), NONE(4), NONE(8)}},
    {"curve_at", curve_at, 0, 0, 2, {FLOATS(controls), ZEROS(6, 8)}},
    {"curve_points", curve_points, 0, 0, 2, {FLOATS(controls), {zeros, 6, 8, 42}}},
};

static int failures;

static void expect(int holds, const char *name, const char *what, int list)
{
    if (!holds) {
        printf("%s: %s (list %d)\n", name, what, list);
        failures++;
    }
}

/* Copies of the lists, each in memory of its own of just that size, and NULL with 0 in place of list `without` (-1 for none). A
 * list of length 0 is NULL too. */
static void lend(const struct call *c, int without, struct list *l)
{
    for (int i = 0; i < MOST; i++) {
        size_t length = i == without ? 0 : c->lists[i].length;
        l[i].at = length ? malloc(length * c->lists[i].size) : NULL;
        l[i].length = length;
        if (length)
            memcpy(l[i].at, c->lists[i].content, length * c->lists[i].size);
    }
}

/* Frees the lists. Are they as they were lent? */
static int take_back(const struct call *c, struct list *l)
{
    int same = 1;
    for (int i = 0; i < MOST; i++) {
        if (l[i].length && memcmp(l[i].at, c->lists[i].content, l[i].length * c->lists[i].size) != 0)
            same = 0;
        free(l[i].at);
    }
    return same;
}

/* The call with NULL in place of list `without`: its number, and that a refusal writes no list. */
static void try_list(const struct call *c, int without, size_t number)
{
    struct list l[MOST];
    size_t numbers[4] = {7, 7, 7, 7};
    lend(c, without, l);
    c->run(c->n, c->p, l, (struct list){numbers, 4});
    expect(numbers[0] == number, c->name, "another number", without);
    expect(number == 0 || (numbers[1] == 0 && numbers[2] == 0 && numbers[3] == 0), c->name, "another refusal", without);
    expect(take_back(c, l) || number == 0, c->name, "a refused call wrote a list", without);
}

/* Every list NULL, with these counts. */
static void try_none(const struct call *c, size_t n, size_t p, size_t number)
{
    const struct list l[MOST] = {{NULL, 0}};
    size_t numbers[4] = {7, 7, 7, 7};
    c->run(n, p, l, (struct list){numbers, 4});
    expect(numbers[0] == number && numbers[1] == 0, c->name, "another number without lists", -1);
    c->run(n, p, l, (struct list){NULL, 0});
}

/* Answers of 0 to 6 places, the first of them NULL. */
static void try_answers(const struct call *c)
{
    size_t whole[6] = {7, 7, 7, 7, 7, 7};
    for (size_t length = 6; length <= 6; length--) {
        struct list l[MOST];
        size_t numbers[6] = {7, 7, 7, 7, 7, 7};
        size_t *own = length ? malloc(length * sizeof *own) : NULL;
        if (length)
            memcpy(own, numbers, length * sizeof *own);
        lend(c, -1, l);
        c->run(c->n, c->p, l, (struct list){own, length});
        take_back(c, l);
        if (length == 6)
            memcpy(whole, own, sizeof whole);
        expect(length == 0 || memcmp(own, whole, length * sizeof *own) == 0, c->name, "another short answer", (int)length);
        free(own);
    }
    expect(whole[0] == 0 && whole[4] == 7 && whole[5] == 7, c->name, "a longer answer was written past four numbers", -1);
}

/* The count of triangles, and what is not 0 of their corners: 3.0f is 0x40400000, 6.0f is 0x40c00000. */
static void fill_file(void)
{
    unsigned char *first = file + 84, *second = file + 134;
    file[80] = 2;
    /* (0, 0, 0), (3, 0, 0), (0, 6, 0) and (0, 0, 0), (0, 6, 0), (3, 0, 0) */
    memcpy(first + 24, "\0\0\x40\x40", 4);
    memcpy(first + 40, "\0\0\xc0\x40", 4);
    memcpy(second + 28, "\0\0\xc0\x40", 4);
    memcpy(second + 36, "\0\0\x40\x40", 4);
}

int main(void)
{
    size_t count = sizeof calls / sizeof *calls;
    fill_file();
    for (size_t i = 0; i < count; i++) {
        const struct call *c = calls + i;
        try_list(c, -1, 0);
        for (int without = 0; without < MOST && c->lists[without].content; without++)
            try_list(c, without, c->lists[without].number);
        try_none(c, 0, 0, c->number);
        if (c->n != 0)
            try_none(c, c->n, c->p, 2);
        try_answers(c);
    }
    printf("lists: %zu calls, %d faults\n", count, failures);
    return failures != 0;
}
