/* Meshes of hexagon panels, made by functions that are proved for every input.
 *
 * Link with libexports.a, which `tools/archive` makes for x86-64 Linux. A test holds this file to
 * the source of the archive.
 *
 * A mesh is four buffers: three numbers a vertex in the vertices and in the normals, two in the uvs, and
 * one number an index. A plan tells the counts; a buffer may be longer, and the rest is not written.
 *
 * A call answers with a number. It is 0 where the call was done, and else that of a refusal: then both
 * counts are 0 and every buffer is as it was. A refusal for room names the first buffer that is short and
 * tells its need.
 *
 * A height map tells why a wall is missing, and which cap or side a face's number stands for.
 *
 * A mesh is written as a binary STL file to bytes in memory, and read back from them.
 *
 * What is assumed, for no call tests it:
 * - Floats are rounded to nearest, and subnormal numbers are neither flushed to zero nor read as zero.
 *   A process starts so, unless it is linked with -ffast-math.
 * - A list is a pointer and then a length, and so many numbers lie there. An empty list may be NULL.
 * - Buffers that are written lie apart from each other and from every list.
 * - A bool is 0 or 1.
 */
#ifndef HOSIREKAR_H
#define HOSIREKAR_H

#include <stdbool.h>
#include <stddef.h>
#include <stdint.h>

#ifdef __cplusplus
extern "C" {
#endif

/* The number of an answer: done, or the first fault in the order 1, 2, 3, 4, 6, 51 to 54 (of what is told of a
 * wall or a face 1, 2, 3, 4, 6; of a merge 1, 7, 4, 51 to 54; of a stored mesh 1, 2, 4, 8; of a file written 1, 4, 7,
 * 10, 55, and of one read 11, 4, 51 to 54). */
enum HosirekarNumber {
    HOSIREKAR_DONE = 0,           /* The counts are those of the mesh. */
    HOSIREKAR_SHAPE = 1,          /* A list's length, a limit, an option's number or a mark is wrong. */
    HOSIREKAR_RANGE = 2,          /* A number is NaN, infinite or greater than 1,000,000 in magnitude. */
    HOSIREKAR_NEIGHBOUR = 3,      /* A neighbour is neither a cell nor none. */
    HOSIREKAR_LIMIT = 4,          /* More than 65,536 vertices. */
    HOSIREKAR_ROOM_VERTICES = 51, /* The vertices buffer is too short for the whole mesh. */
    HOSIREKAR_ROOM_NORMALS = 52,  /* The normals buffer is the first that is too short for the whole mesh. */
    HOSIREKAR_ROOM_UVS = 53,      /* The uvs buffer is the first that is too short for the whole mesh. */
    HOSIREKAR_ROOM_INDICES = 54,  /* The indices buffer is the first that is too short for the whole mesh. */
    HOSIREKAR_NO_FACE = 6,        /* There is no face of that number, or no such cell or side. */
    HOSIREKAR_INDEX = 7,          /* A mesh merged or written has an index that names none of its vertices. */
    HOSIREKAR_EMPTY = 8,          /* The middle of no vertices is asked for. */
    HOSIREKAR_SHEET = 9,          /* A sheet does not read; only the program `panel` answers so. */
    HOSIREKAR_TRIANGLES = 10,     /* Indices are not three a triangle, or there are 2^32 triangles or more. */
    HOSIREKAR_FILE = 11,          /* A file is shorter than 84 bytes, or not as long as its count says. */
    HOSIREKAR_BYTES = 55          /* The byte buffer is too short for the whole file. */
};

/* Why a side of a height map is there or missing, in the order in which it is tested. */
enum HosirekarReason {
    HOSIREKAR_SIDES_OFF = 1,      /* The job has no sides. */
    HOSIREKAR_NOTHING_BEYOND = 2, /* There is no neighbour and no fringe height. */
    HOSIREKAR_AS_HIGH = 3,        /* The neighbour, or else the fringe, is as high as the cell or higher. */
    HOSIREKAR_PRESENT = 4         /* The side is there. */
};

/* What a face of a height map is. */
enum HosirekarKind {
    HOSIREKAR_CAP = 1, /* The cap of a cell. */
    HOSIREKAR_SIDE = 2 /* A side of a cell. */
};

/* The option that names no entry of the table: a plain face, or among a map's customs the job's own. */
#define HOSIREKAR_DEFAULT 255

/* The neighbour of a cell's side that has no cell beyond it. */
#define HOSIREKAR_NO_CELL 4294967295u

/* What lies beyond the edge of a height map: nothing, or heights that are listed. 0 is reserved, and
 * refused with 1 like every other number. */
#define HOSIREKAR_FRINGE_NONE 1
#define HOSIREKAR_FRINGE_LISTED 2

/* ---- What goes over by value. What stands beside a `given` that is false is not read. */

/* A pair: a uv, or x and z of a point. */
typedef struct HosirekarVec2 {
    float x;
    float y; /* z of a point */
} HosirekarVec2;

/* Three components of a position, an offset or a scale; y is upwards. */
typedef struct HosirekarVec3 {
    float x;
    float y;
    float z;
} HosirekarVec3;

/* How many vertices and indices a stored mesh has; its lists may be longer. */
typedef struct HosirekarCounts {
    size_t vertices;
    size_t indices;
} HosirekarCounts;

/* A scale or an offset, if given. */
typedef struct HosirekarChoice3 {
    bool given;
    HosirekarVec3 value;
} HosirekarChoice3;

/* A turn by nine numbers, if given: the rows that give x, y and z. */
typedef struct HosirekarTurn {
    bool given;
    HosirekarVec3 first;
    HosirekarVec3 second;
    HosirekarVec3 third;
} HosirekarTurn;

/* Where a mesh stands: scaled, then turned, then moved. */
typedef struct HosirekarPlacement {
    HosirekarChoice3 scale; /* of positions alone */
    HosirekarTurn turn;     /* of positions and normals */
    HosirekarChoice3 offset;
} HosirekarPlacement;

/* What a call answers: a HosirekarNumber, the counts of the whole mesh, and the need of a buffer that is
 * short. */
typedef struct HosirekarAnswer {
    uint32_t number;
    uint32_t spare; /* 0 */
    size_t vertices;
    size_t indices;
    /* Beside 51 to 54, how many numbers the whole mesh needs in that buffer, and beside 55, how many bytes
     * the file has: the whole length, not what is missing. Else 0. */
    size_t need;
} HosirekarAnswer;

/* An answer, and the middle of the positions: +0 where the call was refused. */
typedef struct HosirekarCentroid {
    HosirekarAnswer answer;
    HosirekarVec3 centroid;
} HosirekarCentroid;

/* An answer, and the middle of the uvs: +0 where the call was refused. */
typedef struct HosirekarUvCentroid {
    HosirekarAnswer answer;
    HosirekarVec2 centroid;
} HosirekarUvCentroid;

/* An answer, whose counts are those handed over, and how many bytes the file has: 0 where the call was
 * refused. */
typedef struct HosirekarFile {
    HosirekarAnswer answer;
    size_t bytes;
} HosirekarFile;

/* An answer, and how many faces a job has: 0 where the call was refused. */
typedef struct HosirekarFaces {
    HosirekarAnswer answer;
    size_t faces;
} HosirekarFaces;

/* An answer, and which vertices and indices are one face's: the first of each, and how many there are. All
 * are 0 where the call was refused. */
typedef struct HosirekarWindow {
    HosirekarAnswer answer;
    size_t first_vertex;
    size_t first_index;
    size_t vertices;
    size_t indices;
} HosirekarWindow;

/* An answer, and why a side of a height map is there or missing. All else is 0 or +0 where the call was refused. */
typedef struct HosirekarWhy {
    HosirekarAnswer answer;
    uint32_t reason; /* a HosirekarReason */
    float height;    /* beside HOSIREKAR_AS_HIGH, that of the neighbour or the fringe; else +0 */
    size_t face;     /* beside HOSIREKAR_PRESENT, the number of the side's face; else 0 */
} HosirekarWhy;

/* An answer, and which face of a height map has a number. All else is 0 where the call was refused. */
typedef struct HosirekarWhich {
    HosirekarAnswer answer;
    uint32_t kind; /* a HosirekarKind */
    uint32_t side; /* which side of the cell; 0 of a cap */
    size_t cell;
} HosirekarWhich;

/* Which components of a uv are mirrored. */
typedef struct HosirekarFlip {
    bool u;
    bool v;
} HosirekarFlip;

/* What is done to a uv: flipped, scaled, moved and laid into the rectangle from min to max. */
typedef struct HosirekarUvOptions {
    HosirekarVec2 scale;
    HosirekarVec2 offset;
    HosirekarVec2 min;
    HosirekarVec2 max;
    HosirekarFlip flip;
} HosirekarUvOptions;

/* A face, if given: the number of its option, or HOSIREKAR_DEFAULT. */
typedef struct HosirekarChoice {
    bool given;
    uint8_t option;
} HosirekarChoice;

/* How many parts a side of a column has, if given; 0 is one part, as none given is. */
typedef struct HosirekarSubdivisions {
    bool given;
    uint32_t number;
} HosirekarSubdivisions;

/* A plane at a position, x and z. Its option is a number of the table, or HOSIREKAR_DEFAULT. */
typedef struct HosirekarPlane {
    HosirekarVec2 position;
    uint8_t option;
    HosirekarPlacement placement;
} HosirekarPlane;

/* A column from height 0 to its own, at a position, x and z. Its sides are in the order of their ends. */
typedef struct HosirekarColumn {
    float height;
    HosirekarSubdivisions subdivisions;
    HosirekarChoice sides[6];
    HosirekarChoice top;
    HosirekarChoice bottom;
    HosirekarVec2 position;
    HosirekarPlacement placement;
} HosirekarColumn;

/* A cheap column, and the middle of its hexagon, x and z. */
typedef struct HosirekarCheapColumn {
    HosirekarVec2 centre;
    float height;
} HosirekarCheapColumn;

/* The range by which the v of a map's sides goes, if given; else that of all heights. */
typedef struct HosirekarRange {
    bool given;
    float min;
    float max;
} HosirekarRange;

/* What is added to a map last, if given, x and z; a map without it is centred. */
typedef struct HosirekarOrigin {
    bool given;
    HosirekarVec2 at;
} HosirekarOrigin;

/* A height map. Its fringe must be set: a struct of zeros is refused. */
typedef struct HosirekarHeightMap {
    HosirekarChoice caps;
    HosirekarChoice sides;
    bool customs;   /* whether option numbers of single faces are listed */
    uint8_t fringe; /* HOSIREKAR_FRINGE_NONE or HOSIREKAR_FRINGE_LISTED */
    HosirekarRange range;
    HosirekarOrigin origin;
    HosirekarPlacement placement;
} HosirekarHeightMap;

/* A cell of a height map as a record, for hosirekar_heightmap_load. */
typedef struct HosirekarCell {
    float height;
    float x; /* the middle of its cap */
    float z;
    float ends[24];         /* of each side the left end and the right, x and z of each */
    uint32_t neighbours[6]; /* the number of the cell beyond each side, or HOSIREKAR_NO_CELL */
} HosirekarCell;

/* ---- Arithmetic and single uvs. */

/* The float nearest to the square root of x. */
float hosirekar_root(float x);

/* a * b + c, rounded once. */
float hosirekar_fused(float a, float b, float c);

/* One uv, flipped, scaled, moved and laid into the rectangle. */
HosirekarVec2 hosirekar_alter_uv(HosirekarUvOptions options, HosirekarVec2 uv);

/* The uv of a point: its direction, halved, about the middle of the texture. */
HosirekarVec2 hosirekar_wrap_uv(HosirekarVec2 point);

/* ---- Jobs. Each is planned, built whole, or built face by face, by the number of the face from 0 on. A
 * face call needs room for the whole mesh and writes the places of its face alone; its counts are the
 * whole mesh's. Faces in any order, each at least once, leave what one build leaves.
 *
 * Every job but the cheap column takes a table of at most 64 options, in two lists:
 * - numbers, nine an option: scale, offset, least and greatest corner of the rectangle of its uvs (u and v
 *   of each), and the scale of its inset;
 * - marks, four an option: flip u, flip v (0 or 1), the inset (0 none, 1 towards the middle, 2 along the
 *   edges), and whether its inner face is kept (0 or 1).
 *
 * corners are the six corners of a hexagon, x and z of each: in turn from x towards z, for a cap to face
 * upwards. They lie about the middle of the hexagon, and those of a cheap column where they stand. */

/* The counts of a plane, or why it is refused. */
HosirekarAnswer hosirekar_plane_plan(
    HosirekarPlane job,
    const float *corners, size_t corners_len,
    const float *numbers, size_t numbers_len,
    const uint8_t *marks, size_t marks_len);

/* A whole plane, written to four buffers, or nothing. */
HosirekarAnswer hosirekar_plane_build(
    HosirekarPlane job,
    const float *corners, size_t corners_len,
    const float *numbers, size_t numbers_len,
    const uint8_t *marks, size_t marks_len,
    float *vertices, size_t vertices_len,
    float *normals, size_t normals_len,
    float *uvs, size_t uvs_len,
    uint16_t *indices, size_t indices_len);

/* The face of a plane, which has one: that of number 0. */
HosirekarAnswer hosirekar_plane_face(
    HosirekarPlane job,
    const float *corners, size_t corners_len,
    const float *numbers, size_t numbers_len,
    const uint8_t *marks, size_t marks_len,
    size_t number,
    float *vertices, size_t vertices_len,
    float *normals, size_t normals_len,
    float *uvs, size_t uvs_len,
    uint16_t *indices, size_t indices_len);

/* How many faces a plane has, or why it is refused, as a plan is. */
HosirekarFaces hosirekar_plane_faces(
    HosirekarPlane job,
    const float *corners, size_t corners_len,
    const float *numbers, size_t numbers_len,
    const uint8_t *marks, size_t marks_len);

/* The places of one face of a plane, or why it is refused: as a plan is, and then with 6. */
HosirekarWindow hosirekar_plane_window(
    HosirekarPlane job,
    const float *corners, size_t corners_len,
    const float *numbers, size_t numbers_len,
    const uint8_t *marks, size_t marks_len,
    size_t number);

/* The counts of a column, or why it is refused. pairs are the left and the right end of each of its six
 * sides, x and z: 24 numbers, of absent sides too. */
HosirekarAnswer hosirekar_column_plan(
    HosirekarColumn job,
    const float *pairs, size_t pairs_len,
    const float *corners, size_t corners_len,
    const float *numbers, size_t numbers_len,
    const uint8_t *marks, size_t marks_len);

/* A whole column, written to four buffers, or nothing. */
HosirekarAnswer hosirekar_column_build(
    HosirekarColumn job,
    const float *pairs, size_t pairs_len,
    const float *corners, size_t corners_len,
    const float *numbers, size_t numbers_len,
    const uint8_t *marks, size_t marks_len,
    float *vertices, size_t vertices_len,
    float *normals, size_t normals_len,
    float *uvs, size_t uvs_len,
    uint16_t *indices, size_t indices_len);

/* One face of a column: the parts of each side from below, then the top, then the bottom. */
HosirekarAnswer hosirekar_column_face(
    HosirekarColumn job,
    const float *pairs, size_t pairs_len,
    const float *corners, size_t corners_len,
    const float *numbers, size_t numbers_len,
    const uint8_t *marks, size_t marks_len,
    size_t number,
    float *vertices, size_t vertices_len,
    float *normals, size_t normals_len,
    float *uvs, size_t uvs_len,
    uint16_t *indices, size_t indices_len);

/* How many faces a column has, or why it is refused, as a plan is. */
HosirekarFaces hosirekar_column_faces(
    HosirekarColumn job,
    const float *pairs, size_t pairs_len,
    const float *corners, size_t corners_len,
    const float *numbers, size_t numbers_len,
    const uint8_t *marks, size_t marks_len);

/* The places of one face of a column, or why it is refused: as a plan is, and then with 6. */
HosirekarWindow hosirekar_column_window(
    HosirekarColumn job,
    const float *pairs, size_t pairs_len,
    const float *corners, size_t corners_len,
    const float *numbers, size_t numbers_len,
    const uint8_t *marks, size_t marks_len,
    size_t number);

/* The counts of a cheap column, or why it is refused. */
HosirekarAnswer hosirekar_cheap_column_plan(
    HosirekarCheapColumn job,
    const float *corners, size_t corners_len);

/* A whole cheap column, written to four buffers, or nothing. */
HosirekarAnswer hosirekar_cheap_column_build(
    HosirekarCheapColumn job,
    const float *corners, size_t corners_len,
    float *vertices, size_t vertices_len,
    float *normals, size_t normals_len,
    float *uvs, size_t uvs_len,
    uint16_t *indices, size_t indices_len);

/* The face of a cheap column, which has one: that of number 0. */
HosirekarAnswer hosirekar_cheap_column_face(
    HosirekarCheapColumn job,
    const float *corners, size_t corners_len,
    size_t number,
    float *vertices, size_t vertices_len,
    float *normals, size_t normals_len,
    float *uvs, size_t uvs_len,
    uint16_t *indices, size_t indices_len);

/* How many faces a cheap column has, or why it is refused, as a plan is. */
HosirekarFaces hosirekar_cheap_column_faces(
    HosirekarCheapColumn job,
    const float *corners, size_t corners_len);

/* The places of one face of a cheap column, or why it is refused: as a plan is, and then with 6. */
HosirekarWindow hosirekar_cheap_column_window(
    HosirekarCheapColumn job,
    const float *corners, size_t corners_len,
    size_t number);

/* A height map takes at most 65,536 cells, in lists of so many numbers a cell:
 * - cells, 27: the height, the position, and of each side the left end and the right, all x and z;
 * - neighbours, 6: the number of the cell beyond each side, or HOSIREKAR_NO_CELL;
 * - fringe, 6, if it is listed: the height beyond each side that has no neighbour; else it is not read;
 * - customs, 7, if listed: the option of the cap and of each side, or HOSIREKAR_DEFAULT; else they
 *   are not read. */

/* The cells of records in the lists cells and neighbours, or nothing: 1 if there are more than 65,536 or a
 * list is too short. What the calls below then take is the first 27 and 6 numbers a cell of each. Both
 * counts are 0. */
HosirekarAnswer hosirekar_heightmap_load(
    const HosirekarCell *records, size_t records_len,
    float *cells, size_t cells_len,
    uint32_t *neighbours, size_t neighbours_len);

/* The counts of a height map, or why it is refused. */
HosirekarAnswer hosirekar_heightmap_plan(
    HosirekarHeightMap job,
    const float *cells, size_t cells_len,
    const uint32_t *neighbours, size_t neighbours_len,
    const float *fringe, size_t fringe_len,
    const uint8_t *customs, size_t customs_len,
    const float *corners, size_t corners_len,
    const float *numbers, size_t numbers_len,
    const uint8_t *marks, size_t marks_len);

/* A whole height map, written to four buffers, or nothing. */
HosirekarAnswer hosirekar_heightmap_build(
    HosirekarHeightMap job,
    const float *cells, size_t cells_len,
    const uint32_t *neighbours, size_t neighbours_len,
    const float *fringe, size_t fringe_len,
    const uint8_t *customs, size_t customs_len,
    const float *corners, size_t corners_len,
    const float *numbers, size_t numbers_len,
    const uint8_t *marks, size_t marks_len,
    float *vertices, size_t vertices_len,
    float *normals, size_t normals_len,
    float *uvs, size_t uvs_len,
    uint16_t *indices, size_t indices_len);

/* One face of a height map: of each cell the cap, then the sides that stand, above what is beyond them. */
HosirekarAnswer hosirekar_heightmap_face(
    HosirekarHeightMap job,
    const float *cells, size_t cells_len,
    const uint32_t *neighbours, size_t neighbours_len,
    const float *fringe, size_t fringe_len,
    const uint8_t *customs, size_t customs_len,
    const float *corners, size_t corners_len,
    const float *numbers, size_t numbers_len,
    const uint8_t *marks, size_t marks_len,
    size_t number,
    float *vertices, size_t vertices_len,
    float *normals, size_t normals_len,
    float *uvs, size_t uvs_len,
    uint16_t *indices, size_t indices_len);

/* How many faces a height map has, or why it is refused, as a plan is. */
HosirekarFaces hosirekar_heightmap_faces(
    HosirekarHeightMap job,
    const float *cells, size_t cells_len,
    const uint32_t *neighbours, size_t neighbours_len,
    const float *fringe, size_t fringe_len,
    const uint8_t *customs, size_t customs_len,
    const float *corners, size_t corners_len,
    const float *numbers, size_t numbers_len,
    const uint8_t *marks, size_t marks_len);

/* The places of one face of a height map, or why it is refused: as a plan is, and then with 6. */
HosirekarWindow hosirekar_heightmap_window(
    HosirekarHeightMap job,
    const float *cells, size_t cells_len,
    const uint32_t *neighbours, size_t neighbours_len,
    const float *fringe, size_t fringe_len,
    const uint8_t *customs, size_t customs_len,
    const float *corners, size_t corners_len,
    const float *numbers, size_t numbers_len,
    const uint8_t *marks, size_t marks_len,
    size_t number);

/* Why a side of a cell is there or missing, or why the call is refused: as a plan is, even where a reason could be
 * told, and then with 6 for a cell or a side that is not there. Of the reasons, the first in their order that holds. A
 * height that is equal to the cell's counts as high, and 0 and -0 are equal. */
HosirekarWhy hosirekar_heightmap_why(
    HosirekarHeightMap job,
    const float *cells, size_t cells_len,
    const uint32_t *neighbours, size_t neighbours_len,
    const float *fringe, size_t fringe_len,
    const uint8_t *customs, size_t customs_len,
    const float *corners, size_t corners_len,
    const float *numbers, size_t numbers_len,
    const uint8_t *marks, size_t marks_len,
    size_t cell,
    size_t side);

/* Which cap or side a face's number stands for, or why the call is refused: as a plan is, and then with 6. */
HosirekarWhich hosirekar_heightmap_which(
    HosirekarHeightMap job,
    const float *cells, size_t cells_len,
    const uint32_t *neighbours, size_t neighbours_len,
    const float *fringe, size_t fringe_len,
    const uint8_t *customs, size_t customs_len,
    const float *corners, size_t corners_len,
    const float *numbers, size_t numbers_len,
    const uint8_t *marks, size_t marks_len,
    size_t number);

/* ---- Stored meshes: counts, and lists that are at least as long. Their numbers may be anything. */

/* Appends a source mesh to a target, or writes nothing. A need is that of both together; a target that is
 * shorter than its own counts gives 1. */
HosirekarAnswer hosirekar_merge(
    HosirekarCounts source,
    const float *svertices, size_t svertices_len,
    const float *snormals, size_t snormals_len,
    const float *suvs, size_t suvs_len,
    const uint16_t *sindices, size_t sindices_len,
    HosirekarCounts target,
    float *vertices, size_t vertices_len,
    float *normals, size_t normals_len,
    float *uvs, size_t uvs_len,
    uint16_t *indices, size_t indices_len);

/* Multiplies each position, component by component, or writes nothing. */
HosirekarAnswer hosirekar_scale(
    HosirekarCounts counts,
    HosirekarVec3 by,
    float *vertices, size_t vertices_len,
    const float *normals, size_t normals_len,
    const float *uvs, size_t uvs_len,
    const uint16_t *indices, size_t indices_len);

/* Adds to each position, or writes nothing. */
HosirekarAnswer hosirekar_offset(
    HosirekarCounts counts,
    HosirekarVec3 by,
    float *vertices, size_t vertices_len,
    const float *normals, size_t normals_len,
    const float *uvs, size_t uvs_len,
    const uint16_t *indices, size_t indices_len);

/* Multiplies each uv, component by component, or writes nothing. */
HosirekarAnswer hosirekar_texture_scale(
    HosirekarCounts counts,
    HosirekarVec2 by,
    const float *vertices, size_t vertices_len,
    const float *normals, size_t normals_len,
    float *uvs, size_t uvs_len,
    const uint16_t *indices, size_t indices_len);

/* The middle of the positions. */
HosirekarCentroid hosirekar_centroid(
    HosirekarCounts counts,
    const float *vertices, size_t vertices_len,
    const float *normals, size_t normals_len,
    const float *uvs, size_t uvs_len,
    const uint16_t *indices, size_t indices_len);

/* The middle of the uvs. */
HosirekarUvCentroid hosirekar_uv_centroid(
    HosirekarCounts counts,
    const float *vertices, size_t vertices_len,
    const float *normals, size_t normals_len,
    const float *uvs, size_t uvs_len,
    const uint16_t *indices, size_t indices_len);

/* ---- Binary STL: 80 bytes of header, how many triangles there are in 32 bits, and 50 bytes a triangle: its
 * normal, its three corners and two attribute bytes. All numbers are little-endian. */

/* The file of a stored mesh at the start of the bytes, or nothing; bytes past it stay. Header and attributes are
 * zero, the normal of a triangle is that of its first vertex, and every NaN is 7fc00000. The uvs are asked for,
 * though none is written. Coordinates go over as they are, y up if the mesh has it so. The normals of a map's walls
 * are not outward: the winding tells the outside. */
HosirekarFile hosirekar_stl_write(
    HosirekarCounts counts,
    const float *vertices, size_t vertices_len,
    const float *normals, size_t normals_len,
    const float *uvs, size_t uvs_len,
    const uint16_t *indices, size_t indices_len,
    uint8_t *bytes, size_t bytes_len);

/* The mesh of a file, written to four buffers, or nothing. Each triangle has three vertices of its own, with
 * its normal and uvs of 0. Header and attributes are not looked at. 4 if there are more than 21,845
 * triangles. */
HosirekarAnswer hosirekar_stl_read(
    const uint8_t *bytes, size_t bytes_len,
    float *vertices, size_t vertices_len,
    float *normals, size_t normals_len,
    float *uvs, size_t uvs_len,
    uint16_t *indices, size_t indices_len);

#ifdef __cplusplus
}
#endif

#endif
