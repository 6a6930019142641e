/* Each way in which a struct goes over by value, called from C and from C++. All numbers are exact. */
#include "hosirekar.h"
#include <stdio.h>

static void print_answer(const char *what, HosirekarAnswer answer) {
    printf("%s: %u, %lu and %lu, need %lu\n", what, answer.number, (unsigned long)answer.vertices,
           (unsigned long)answer.indices, (unsigned long)answer.need);
}

static void print_floats(const char *what, const float *floats, int count) {
    printf("%s:", what);
    for (int k = 0; k < count; k++)
        printf(" %g", floats[k]);
    printf("\n");
}

static void print_window(HosirekarWindow window) {
    print_answer("window", window.answer);
    printf("it: %lu and %lu from %lu and %lu\n", (unsigned long)window.vertices, (unsigned long)window.indices,
           (unsigned long)window.first_vertex, (unsigned long)window.first_index);
}

static void call_numbers(void) {
    HosirekarUvOptions options = {{2, 3}, {0.25f, 0.5f}, {1, 2}, {3, 10}, {true, false}};
    HosirekarVec2 uv = {0.25f, 0.5f}, point = {0, -4};
    printf("root: %g\n", hosirekar_root(6.25f));
    printf("fused: %g\n", hosirekar_fused(3, 5, 7));
    uv = hosirekar_alter_uv(options, uv);
    printf("altered: %g %g\n", uv.x, uv.y);
    uv = hosirekar_wrap_uv(point);
    printf("wrapped: %g %g\n", uv.x, uv.y);
}

static const float corners[12] = {2, 0, 1, 2, -1, 2, -2, 0, -1, -2, 1, -2};

static void call_jobs(void) {
    static float pairs[24], vertices[36], normals[36], uvs[24];
    static uint16_t indices[48];
    HosirekarChoice given = {true, 255}, absent = {false, 9};
    HosirekarVec3 none = {0, 0, 0};
    HosirekarPlacement moved = {{false, none}, {false, none, none, none}, {true, {5, 6, 7}}};
    HosirekarCheapColumn cheap = {{0.5f, -0.25f}, 3};
    HosirekarPlane plane = {{10, 20}, 255, moved};
    HosirekarColumn column = {
        8, {true, 3}, {given, absent, given, absent, given, absent}, given, absent, {1, 2}, moved};
    HosirekarHeightMap map = {given, absent, false, 1, {true, 0, 1}, {true, {1, 2}}, moved};
    print_answer("column", hosirekar_column_plan(column, pairs, 24, corners, 12, NULL, 0, NULL, 0));
    HosirekarFaces faces = hosirekar_column_faces(column, pairs, 24, corners, 12, NULL, 0, NULL, 0);
    print_answer("faces", faces.answer);
    printf("they: %lu\n", (unsigned long)faces.faces);
    print_window(hosirekar_column_window(column, pairs, 24, corners, 12, NULL, 0, NULL, 0, 9));
    print_window(hosirekar_column_window(column, pairs, 24, corners, 12, NULL, 0, NULL, 0, 10));
    print_answer("cheap column", hosirekar_cheap_column_build(cheap, corners, 12, vertices, 36, normals, 36,
                                                              uvs, 24, indices, 48));
    print_floats("its top", vertices, 3);
    print_floats("its normal", normals, 3);
    print_answer("no room", hosirekar_plane_build(plane, corners, 12, NULL, 0, NULL, 0, vertices, 18, normals,
                                                  17, uvs, 11, indices, 48));
    print_answer("no face", hosirekar_plane_face(plane, corners, 12, NULL, 0, NULL, 0, 1, vertices, 36,
                                                 normals, 36, uvs, 24, indices, 48));
    print_answer("plane", hosirekar_plane_face(plane, corners, 12, NULL, 0, NULL, 0, 0, vertices, 36,
                                               normals, 36, uvs, 24, indices, 48));
    print_floats("its corner", vertices, 3);
    print_answer("map", hosirekar_heightmap_plan(map, NULL, 0, NULL, 0, NULL, 0, NULL, 0, corners, 12,
                                                 NULL, 0, NULL, 0));
    map.placement.offset.value.z = 1000001;
    print_answer("too far", hosirekar_heightmap_plan(map, NULL, 0, NULL, 0, NULL, 0, NULL, 0, corners, 12,
                                                     NULL, 0, NULL, 0));
}

static void call_stored(void) {
    float vertices[18] = {0, 0, 0, 3, 0, 0, 0, 6, 9}, normals[18] = {0}, uvs[12] = {0, 0, 3, 0, 0, 6};
    float from[9] = {1, 2, 1, 4, 5, 1, 5, 3, 2}, up[9] = {0}, flat[6] = {0};
    uint16_t indices[6] = {0, 1, 2}, order[3] = {2, 1, 0};
    HosirekarCounts one = {3, 3}, two = {2, 2};
    HosirekarVec3 times = {2, 3, 4}, plus = {1, 10, 100};
    HosirekarVec2 scale = {2, 0.5f};
    print_answer("scale", hosirekar_scale(one, times, vertices, 18, normals, 18, uvs, 12, indices, 6));
    print_answer("offset", hosirekar_offset(two, plus, vertices, 18, normals, 18, uvs, 12, indices, 6));
    print_floats("vertices", vertices, 9);
    print_answer("texture",
                 hosirekar_texture_scale(one, scale, vertices, 18, normals, 18, uvs, 12, indices, 6));
    HosirekarUvCentroid uv = hosirekar_uv_centroid(one, vertices, 18, normals, 18, uvs, 12, indices, 6);
    print_answer("uv centroid", uv.answer);
    printf("it: %g %g\n", uv.centroid.x, uv.centroid.y);
    print_answer("no room", hosirekar_merge(one, from, 9, up, 9, flat, 6, order, 3, one, vertices, 18, normals,
                                            18, uvs, 12, indices, 5));
    print_answer("merge", hosirekar_merge(one, from, 9, up, 9, flat, 6, order, 3, one, vertices, 18, normals,
                                          18, uvs, 12, indices, 6));
    printf("indices: %u %u %u\n", indices[3], indices[4], indices[5]);
    HosirekarCounts all = {6, 6};
    HosirekarCentroid middle = hosirekar_centroid(all, vertices, 18, normals, 18, uvs, 12, indices, 6);
    print_answer("centroid", middle.answer);
    printf("it: %g %g %g\n", middle.centroid.x, middle.centroid.y, middle.centroid.z);
}

static void call_load(void) {
    static HosirekarCell records[2];
    static float cells[55];
    static uint32_t neighbours[12];
    HosirekarCell second = {5, 6, 7, {8, 9, 10, 11}, {1, 2, 3, 4, 5, HOSIREKAR_NO_CELL}};
    records[1] = second;
    records[0].ends[23] = 4;
    cells[54] = -1;
    print_answer("load", hosirekar_heightmap_load(records, 2, cells, 55, neighbours, 12));
    print_floats("its cells", cells + 26, 8);
    print_floats("past them", cells + 54, 1);
    printf("its neighbours: %u %u %u\n", (unsigned)neighbours[5], (unsigned)neighbours[6],
           (unsigned)neighbours[11]);
    print_answer("too short", hosirekar_heightmap_load(records, 2, cells, 53, neighbours, 12));
}

static const char *reason_word(uint32_t reason) {
    switch (reason) {
    case HOSIREKAR_SIDES_OFF: return "sides off";
    case HOSIREKAR_NOTHING_BEYOND: return "nothing beyond";
    case HOSIREKAR_AS_HIGH: return "as high";
    case HOSIREKAR_PRESENT: return "present";
    }
    return "no reason";
}

static const char *kind_word(uint32_t kind) {
    switch (kind) {
    case HOSIREKAR_CAP: return "cap";
    case HOSIREKAR_SIDE: return "side";
    }
    return "no kind";
}

typedef struct Lists {
    float cells[54];
    uint32_t neighbours[12];
} Lists;

static void print_why(HosirekarHeightMap map, const Lists *of, size_t cell, size_t side) {
    HosirekarWhy why = hosirekar_heightmap_why(map, of->cells, 54, of->neighbours, 12, NULL, 0, NULL, 0, corners, 12,
                                               NULL, 0, NULL, 0, cell, side);
    print_answer("why", why.answer);
    printf("it: %s, %g, %lu\n", reason_word(why.reason), why.height, (unsigned long)why.face);
}

static void print_which(HosirekarHeightMap map, const Lists *of, size_t face) {
    HosirekarWhich which = hosirekar_heightmap_which(map, of->cells, 54, of->neighbours, 12, NULL, 0, NULL, 0, corners,
                                                     12, NULL, 0, NULL, 0, face);
    print_answer("which", which.answer);
    printf("it: %s %u of %lu\n", kind_word(which.kind), (unsigned)which.side, (unsigned long)which.cell);
}

/* Two cells, 1 and 2 high, each beyond a side of the other: side 0 of cell 0 and side 3 of cell 1. */
static void call_walls(void) {
    static Lists two;
    HosirekarChoice given = {true, 255};
    HosirekarVec3 none = {0, 0, 0};
    HosirekarPlacement still = {{false, none}, {false, none, none, none}, {false, none}};
    HosirekarHeightMap map = {given, given, false, HOSIREKAR_FRINGE_NONE, {false, 0, 0}, {false, {0, 0}}, still};
    two.cells[0] = 1;
    two.cells[27] = 2;
    for (int side = 0; side < 12; side++)
        two.neighbours[side] = HOSIREKAR_NO_CELL;
    two.neighbours[0] = 1;
    two.neighbours[9] = 0;
    print_why(map, &two, 0, 0);
    print_why(map, &two, 1, 3);
    print_why(map, &two, 0, 5);
    print_why(map, &two, 2, 3);
    print_why(map, &two, 0, 256);
    print_which(map, &two, 1);
    print_which(map, &two, 2);
    print_which(map, &two, 3);
    map.sides.given = false;
    print_why(map, &two, 0, 0);
}

static void print_bytes(const char *what, const uint8_t *bytes, int count) {
    printf("%s: ", what);
    for (int k = 0; k < count; k++)
        printf("%02x", bytes[k]);
    printf("\n");
}

static void call_files(void) {
    float vertices[9] = {1, 2, 3, 4, 5, 6, 7, 8, 9}, normals[9] = {10, 11, 12, 13, 14, 15, 16, 17, 18};
    float uvs[6] = {19, 20, 21, 22, 23, 24};
    uint16_t indices[3] = {2, 0, 1};
    uint8_t bytes[135];
    HosirekarCounts one = {3, 3}, none = {0, 0};
    for (int k = 0; k < 135; k++)
        bytes[k] = 0xee;
    HosirekarFile file = hosirekar_stl_write(one, vertices, 9, normals, 9, uvs, 6, indices, 3, bytes, 133);
    print_answer("no bytes", file.answer);
    printf("it: %lu\n", (unsigned long)file.bytes);
    print_bytes("as before", bytes + 83, 1);
    file = hosirekar_stl_write(one, vertices, 9, normals, 9, uvs, 6, indices, 3, bytes, 135);
    print_answer("write", file.answer);
    printf("it: %lu\n", (unsigned long)file.bytes);
    print_bytes("its head and normal", bytes + 79, 17);
    print_bytes("its end", bytes + 128, 7);
    bytes[0] = 's';
    print_answer("no file", hosirekar_stl_read(bytes, 135, vertices, 9, normals, 9, uvs, 6, indices, 3));
    print_answer("no room", hosirekar_stl_read(bytes, 134, vertices, 9, normals, 9, uvs, 5, indices, 2));
    print_answer("read", hosirekar_stl_read(bytes, 134, vertices, 9, normals, 9, uvs, 6, indices, 3));
    print_floats("vertices", vertices, 9);
    print_floats("normals", normals, 9);
    print_floats("uvs", uvs, 6);
    printf("indices: %u %u %u\n", indices[0], indices[1], indices[2]);
    file = hosirekar_stl_write(none, NULL, 0, NULL, 0, NULL, 0, NULL, 0, bytes, 84);
    print_answer("no triangles", file.answer);
    printf("it: %lu\n", (unsigned long)file.bytes);
    print_answer("read", hosirekar_stl_read(bytes, 84, NULL, 0, NULL, 0, NULL, 0, NULL, 0));
}

int main(void) {
    call_numbers();
    call_jobs();
    call_load();
    call_walls();
    call_stored();
    call_files();
    return 0;
}
