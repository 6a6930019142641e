/* Two cells beside each other, 2 and 1 high, with walls about them down to 0: the whole map, then what a short
 * buffer needs, and then the wall between the two alone, in other buffers. */
#include "hosirekar.h"
#include <stdio.h>
#include <string.h>

enum { CELLS = 2, VERTICES = 64, INDICES = 128 };

/* Buffers that are long enough; hosirekar_heightmap_plan tells the counts. */
typedef struct Mesh {
    float vertices[3 * VERTICES];
    float normals[3 * VERTICES];
    float uvs[2 * VERTICES];
    uint16_t indices[INDICES];
} Mesh;

/* The corners of a hexagon about its middle, x and z. Side k goes from corner k to corner k + 1. */
static const float corners[12] = {2, 0, 1, 2, -1, 2, -2, 0, -1, -2, 1, -2};

/* A cell in its list: its height, its position, and of each side the left end and the right. */
static void put_cell(float *cell, float height, float x, float z) {
    cell[0] = height;
    cell[1] = x;
    cell[2] = z;
    for (int end = 0; end < 12; end++) {
        const float *corner = &corners[(end + 1) / 2 % 6 * 2];
        cell[3 + 2 * end] = x + corner[0];
        cell[4 + 2 * end] = z + corner[1];
    }
}

/* Two cells, each beyond a side of the other: side 0 of cell 0 and side 3 of cell 1. */
static void put_cells(float *cells, uint32_t *neighbours) {
    put_cell(cells, 2, 0, 0);
    put_cell(cells + 27, 1, 3, 2);
    for (int side = 0; side < 6 * CELLS; side++)
        neighbours[side] = HOSIREKAR_NO_CELL;
    neighbours[0] = 1;
    neighbours[6 + 3] = 0;
}

int main(void) {
    static Mesh whole, wall;
    float cells[27 * CELLS], fringe[6 * CELLS] = {0};
    uint32_t neighbours[6 * CELLS];
    put_cells(cells, neighbours);

    HosirekarChoice plain = {true, HOSIREKAR_DEFAULT};
    HosirekarHeightMap job = {.caps = plain, .sides = plain, .fringe = HOSIREKAR_FRINGE_LISTED};
    HosirekarAnswer answer = hosirekar_heightmap_build(
        job, cells, 54, neighbours, 12, fringe, 12, NULL, 0, corners, 12, NULL, 0, NULL, 0,
        whole.vertices, 3 * VERTICES, whole.normals, 3 * VERTICES,
        whole.uvs, 2 * VERTICES, whole.indices, INDICES);
    printf("answer %u: %zu vertices, %zu indices\n", answer.number, answer.vertices, answer.indices);

    /* Of several short buffers the first is named, with the whole length that it needs. */
    answer = hosirekar_heightmap_build(
        job, cells, 54, neighbours, 12, fringe, 12, NULL, 0, corners, 12, NULL, 0, NULL, 0,
        wall.vertices, 3 * VERTICES, wall.normals, 3 * VERTICES, wall.uvs, 100, NULL, 0);
    if (answer.number == HOSIREKAR_ROOM_UVS)
        printf("answer %u: the uvs need %zu numbers\n", answer.number, answer.need);

    /* Face 0 is the cap of cell 0, with vertices 0 to 5; face 1 is its side 0, with the next four. */
    answer = hosirekar_heightmap_face(
        job, cells, 54, neighbours, 12, fringe, 12, NULL, 0, corners, 12, NULL, 0, NULL, 0, 1,
        wall.vertices, 3 * VERTICES, wall.normals, 3 * VERTICES,
        wall.uvs, 2 * VERTICES, wall.indices, INDICES);
    if (answer.number != HOSIREKAR_DONE)
        return 1;
    for (const float *at = wall.vertices + 3 * 6; at < wall.vertices + 3 * 10; at += 3)
        printf("%g %g %g\n", at[0], at[1], at[2]);
    int same = memcmp(wall.vertices + 3 * 6, whole.vertices + 3 * 6, 12 * sizeof(float));
    printf("%s in the whole map\n", same == 0 ? "as" : "not as");
    return 0;
}
