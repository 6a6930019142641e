/* A cheap column as a binary STL file in memory: what it needs, the file, and the mesh that is read from it.
 * The file also goes to the path that is given, if one is. */
#include "hosirekar.h"
#include <stdio.h>

enum { VERTICES = 12, INDICES = 48, BYTES = 84 + 50 * INDICES / 3 };

/* Buffers for the column, and for the mesh that is read, which has a vertex for each index. */
typedef struct Mesh {
    float vertices[3 * INDICES];
    float normals[3 * INDICES];
    float uvs[2 * INDICES];
    uint16_t indices[INDICES];
} Mesh;

/* The corners of a hexagon, x and z. */
static const float corners[12] = {2, 0, 1, 2, -1, 2, -2, 0, -1, -2, 1, -2};

static HosirekarFile write_file(const Mesh *mesh, uint8_t *bytes, size_t length) {
    HosirekarCounts counts = {VERTICES, INDICES};
    return hosirekar_stl_write(
        counts, mesh->vertices, 3 * VERTICES, mesh->normals, 3 * VERTICES,
        mesh->uvs, 2 * VERTICES, mesh->indices, INDICES, bytes, length);
}

static int save(const char *path, const uint8_t *bytes, size_t length) {
    FILE *to = fopen(path, "wb");
    if (to == NULL)
        return 1;
    int failed = fwrite(bytes, 1, length, to) != length;
    return fclose(to) != 0 || failed;
}

int main(int argc, char **argv) {
    static Mesh column, read;
    static uint8_t bytes[BYTES];
    HosirekarCheapColumn job = {{0, 0}, 3};
    HosirekarAnswer answer = hosirekar_cheap_column_build(
        job, corners, 12, column.vertices, 3 * VERTICES, column.normals, 3 * VERTICES,
        column.uvs, 2 * VERTICES, column.indices, INDICES);
    if (answer.number != HOSIREKAR_DONE)
        return 1;

    /* Without room the answer tells how many bytes the file has. */
    HosirekarFile file = write_file(&column, NULL, 0);
    if (file.answer.number == HOSIREKAR_BYTES)
        printf("answer %u: the file needs %zu bytes\n", file.answer.number, file.answer.need);
    file = write_file(&column, bytes, BYTES);
    printf("answer %u: %zu bytes\n", file.answer.number, file.bytes);
    if (argc > 1 && save(argv[1], bytes, file.bytes) != 0)
        return 1;

    /* Three vertices a triangle, in the order of the file. */
    answer = hosirekar_stl_read(
        bytes, file.bytes, read.vertices, 3 * INDICES, read.normals, 3 * INDICES,
        read.uvs, 2 * INDICES, read.indices, INDICES);
    printf("answer %u: %zu vertices, %zu indices\n", answer.number, answer.vertices, answer.indices);
    for (const float *at = read.vertices; at < read.vertices + 9; at += 3)
        printf("%g %g %g\n", at[0], at[1], at[2]);
    return 0;
}
