/* The unit's calls for C: `rt lib` in crates/tangents_c makes out/libtangents_c.a there. docs/CALLS.md says more of each, and has
 * the questions that a refusal names by number.
 *
 * n is the number of halfedges and p the number of points, at most 65,535 each. h has start, end, pair and row (the Rust's
 * prop_vert) of each halfedge (4 n); making from normals alone reads the row, in other calls it may be any number. pos has three
 * numbers for each point (3 p), t the tangents (4 n: x, y, z and the weight).
 *
 * A list is a pointer and its length in elements. Counts, lengths, numbers and contents may be any: a call that they do not fit is
 * refused. A list of length 0 may be NULL. Any other has as many elements as its length says, and is aligned as its element type.
 * A list that is written, answer among them, must not overlap any other list of the call; lists that are only read may.
 *
 * Every call answers through `answer`, four numbers: the number of the first question that the mesh, the file, or what is lent for
 * a curve does not meet (0 if it is accepted), its lowest place, and the two numbers of an accepted call, 0 where nothing is said
 * of them below. A refused call has 0 for both, and writes nothing else. A shorter list gets as many as it holds, NULL with 0 none;
 * places past the fourth stay as lent.
 *
 * The calls keep no pointer and nothing else, allocate nothing, and of other code call memset alone. They may run on several
 * threads at once if none writes a list that is lent to another. tangents_read_stl takes some 853,000 bytes of the stack, so that a
 * thread of 860,000 serves, and each other call less than 8,000. Where the stack ends earlier at a guard page, as that of a thread
 * does, the system ends the program there by a signal. The floating-point environment has to be the default one: rounding to
 * nearest, no traps, and subnormal numbers kept, which linking with gcc's -ffast-math changes. */
#ifndef TANGENTS_H
#define TANGENTS_H

#include <stddef.h>
#include <stdint.h>

#ifdef __cplusplus
extern "C" {
#endif

/* Straightening: writes t. */
void tangents_linearize_flat_tangents(size_t n, size_t p, const int32_t *h, size_t h_len, const double *pos, size_t pos_len,
                                      double *t, size_t t_len, size_t *answer, size_t answer_len);

/* The mark check: answer[2] is 1 for yes and 0 for no. Tangents of another length than 4 n answer yes. */
void tangents_valid_tangents(size_t n, size_t p, const int32_t *h, size_t h_len, const double *pos, size_t pos_len,
                             const double *t, size_t t_len, size_t *answer, size_t answer_len);

/* The crease listing: face_normals has three numbers for each triangle, angle is in degrees. Writes the halfedge and the
 * smoothness of each entry into entries and smoothness, n places each; answer[2] is the number of entries. answer[3] is the crease
 * tally: the number of edges that the clean listing below names, half of its entries. */
void tangents_sharpen_edges(size_t n, size_t p, const int32_t *h, size_t h_len, const double *face_normals,
                            size_t face_normals_len, double angle, double smooth, size_t *entries, size_t entries_len,
                            double *smoothness, size_t smoothness_len, size_t *answer, size_t answer_len);

/* The clean crease listing: the same, without the edges that touch a triangle whose three normal numbers are all zero, of either
 * sign. answer[2] is its own number of entries, answer[3] the same tally. */
void tangents_sharpen_edges_clean(size_t n, size_t p, const int32_t *h, size_t h_len, const double *face_normals,
                                  size_t face_normals_len, double angle, double smooth, size_t *entries, size_t entries_len,
                                  double *smoothness, size_t smoothness_len, size_t *answer, size_t answer_len);

/* Spreading: normals has three numbers for each point, fixed one of 0 and 1 for each halfedge, and the scratch lists current
 * and desired a place for each halfedge; they hold zeros afterwards. Writes t; answer[2] is looked and answer[3] turned. */
void tangents_distribute_tangents(size_t n, size_t p, const int32_t *h, size_t h_len, const double *pos, size_t pos_len,
                                  const double *normals, size_t normals_len, const uint8_t *fixed, size_t fixed_len, double *t,
                                  size_t t_len, double *current, size_t current_len, double *desired, size_t desired_len,
                                  size_t *answer, size_t answer_len);

/* The preview of spreading: normals and fixed as there, and bytes a place for each halfedge. Writes bytes: 1 if spreading would
 * write the halfedge's tangent, else 0; answer[2] is looked and answer[3] turned, as spreading would answer. */
void tangents_preview_tangents(size_t n, size_t p, const int32_t *h, size_t h_len, const double *pos, size_t pos_len,
                               const double *normals, size_t normals_len, const uint8_t *fixed, size_t fixed_len,
                               const double *t, size_t t_len, uint8_t *bytes, size_t bytes_len, size_t *answer,
                               size_t answer_len);

/* Making from sharp edges: normals has three numbers for each point, face_normals and refs three for each triangle, entries and
 * smoothness the halfedge and the smoothness of each sharp entry. old is 0 where t holds no old tangents; t has 4 n numbers all
 * the same. Of the scratch lists at has a place for each point, each other one for each halfedge; they hold zeros afterwards.
 * Writes t; answer[2] is how many circular tangents were computed on an edge without direction, those that were overwritten
 * included. */
void tangents_create_tangents(size_t n, size_t p, const int32_t *h, size_t h_len, const double *pos, size_t pos_len,
                              const double *normals, size_t normals_len, const double *face_normals, size_t face_normals_len,
                              const int32_t *refs, size_t refs_len, const size_t *entries, size_t entries_len,
                              const double *smoothness, size_t smoothness_len, size_t old, double *t, size_t t_len,
                              uint8_t *fixed, size_t fixed_len, uint8_t *flat, size_t flat_len, double *smooth,
                              size_t smooth_len, double *desired, size_t desired_len, size_t *at, size_t at_len,
                              size_t *link, size_t link_len, size_t *answer, size_t answer_len);

/* Making from normals: as above, with rows, three numbers for each row and any number of rows, for the entries: the normal of a
 * halfedge is that of its row. A length of rows that is no multiple of 3 is refused with 2; a row that is not in the list (no
 * negative one is) with 12 and the lowest such halfedge, asked after 7 and before 8. Of the scratch lists first has a place for
 * each point, each other one for each halfedge; they hold zeros afterwards. Writes t; answer[2] is the same count. */
void tangents_create_tangents_from_normals(size_t n, size_t p, const int32_t *h, size_t h_len, const double *pos,
                                           size_t pos_len, const double *normals, size_t normals_len,
                                           const double *face_normals, size_t face_normals_len, const int32_t *refs,
                                           size_t refs_len, const double *rows, size_t rows_len, size_t old, double *t,
                                           size_t t_len, uint8_t *fixed, size_t fixed_len, uint8_t *inside, size_t inside_len,
                                           double *current, size_t current_len, double *desired, size_t desired_len,
                                           size_t *first, size_t first_len, size_t *answer, size_t answer_len);

/* Taking a binary STL file: file has its bytes, pos takes three numbers for each point, h four for each halfedge, and
 * face_normals three for each triangle, the stored ones. The lists must have room for three points, three halfedges and one
 * normal for each triangle; spare places stay as lent. answer[2] is the number of halfedges and answer[3] the number of points.
 * Refused with 30 for the length or a count, 2 for the room, 31 with the lowest triangle that has a corner not finite or equal to
 * another, and 32 with the lowest halfedge whose directed edge occurs twice or has no reverse. Takes some 853,000 bytes of the
 * stack. */
void tangents_read_stl(const uint8_t *file, size_t file_len, double *pos, size_t pos_len, int32_t *h, size_t h_len,
                       double *face_normals, size_t face_normals_len, size_t *answer, size_t answer_len);

/* A point of the curve of an edge. controls has four control points, four numbers each (16): x, y and z already times the weight,
 * and the weight; x is the parameter, 0 to 1. Writes point, six numbers: the position, and the direction there, the difference of
 * the two points of the Rust's linear segment divided by its length. The direction is of length 1 up to rounding, but zero where
 * the difference is shorter than 1e-30, and also where it is finite and its squared length overflows, from some 1.34e154 on. Where
 * the difference is infinite or not a number, as for infinite control points, the direction has a not-a-number. Refused with 2 for
 * another length of controls or point, and with 40 for a parameter that is not a number, below 0 or above 1; the place is 0. */
void tangents_curve_at(const double *controls, size_t controls_len, double x, double *point, size_t point_len, size_t *answer,
                       size_t answer_len);

/* Points along the curve: controls as above. Writes points, three numbers for each of 2 to 256: point i at the parameter
 * i / (count - 1). Refused with 2 for another length of controls, with 41 for the count, and with 42 for points of other than
 * 3 count numbers; the place is 0. */
void tangents_curve_points(const double *controls, size_t controls_len, size_t count, double *points, size_t points_len,
                           size_t *answer, size_t answer_len);

#ifdef __cplusplus
}
#endif
#endif
