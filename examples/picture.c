/* A grey picture to a .dds file of BC4 blocks, and back to a picture; `usage` says how it is called. Input that is refused, here or
   by the library, gets one line on standard error that says what is wrong, and no file is written for it. */
#include <ctype.h>
#include <stdio.h>
#include <string.h>
#include "bc4.h"

static const char usage[] =
    "usage: picture IN.pgm OUT.dds [signed]\n"
    "       picture IN.dds OUT.pgm\n"
    "Encodes a binary PGM (P5; sides are multiples of 4 up to 1024) as a DDS file of BC4 blocks, of signed ones where\n"
    "'signed' is said; or decodes such a file to a PGM of 8 bits. What IN is, its content says, not its name.\n"
    "Exit status: 0 OUT is written; 1 IN is refused, or a file could not be read or written; 2 bad usage.\n";

/* The library takes no larger side. So these arrays are large enough for every picture, and no memory is asked for. */
#define MOST_SIDE 1024
static float samples[MOST_SIDE * MOST_SIDE];
static uint8_t tile[MOST_SIDE * MOST_SIDE / 2];
static uint8_t dds[148 + sizeof tile + 1]; /* the longest file, with DX10, and a byte by which the library sees a longer one */
static uint8_t pgm[sizeof "P5\n1024 1024\n255\n" + MOST_SIDE * MOST_SIDE];

/* What a refusal says: the field, where it names one, and else the number. */
static const char *words_of(uint32_t refused, size_t field)
{
    switch (field) {
    case BC4_FIELD_HEADER: return "the file is shorter than its header of 128 bytes";
    case BC4_FIELD_EXTENSION: return "the file is shorter than its header with DX10, 148 bytes";
    case BC4_FIELD_MAGIC: return "the file begins neither with P5, as a PGM, nor with DDS and a blank";
    case BC4_FIELD_HEADER_SIZE: return "the header size is not 124";
    case BC4_FIELD_FOUR_CHARACTERS: return "the four characters are none of BC4U, BC4S, DX10";
    case BC4_FIELD_EXTENSION_FORMAT: return "the format after DX10 is neither 80 nor 81";
    case BC4_FIELD_MIP_COUNT: return "the mip count is over 1";
    case BC4_FIELD_DEPTH: return "the depth is over 1";
    case BC4_FIELD_CUBE_FACES: return "the file has faces of a cube";
    case BC4_FIELD_ARRAY_SIZE: return "the array size is not 1";
    }
    if (refused == BC4_DDS_BODY) return "the bytes after the header are not exactly width * height / 2";
    return "bc4.h says what this number means"; /* this program's calls leave no other way to be refused */
}

/* Where a side is wrong, the line has its value. */
static int refuse(const char *name, uint32_t refused, const bc4_detail *detail, size_t width, size_t height)
{
    const char *side = detail->what == BC4_WIDTH ? "width" : "height";
    size_t value = detail->what == BC4_WIDTH ? width : height;
    fprintf(stderr, "picture: %s: refused %u: ", name, (unsigned)refused);
    switch (refused) {
    case BC4_SIDE_IS_ZERO: fprintf(stderr, "%s is 0\n", side); break;
    case BC4_SIDE_TOO_LARGE: fprintf(stderr, "%s %zu is over %d\n", side, value, MOST_SIDE); break;
    case BC4_SIDE_NOT_MULTIPLE_OF_4: fprintf(stderr, "%s %zu is not a multiple of 4\n", side, value); break;
    default: fprintf(stderr, "%s\n", words_of(refused, detail->what));
    }
    return 1;
}

static int complain(const char *name, const char *words)
{
    fprintf(stderr, "picture: %s: %s\n", name, words);
    return 1;
}

/* Writes OUT and says so. It is opened no earlier than here, when nothing is left to be refused. */
static int save(const char *name, const uint8_t *bytes, size_t length, size_t width, size_t height, const char *kind)
{
    FILE *out = fopen(name, "wb");
    if (out == NULL) return complain(name, "cannot be opened for writing");
    bool written = fwrite(bytes, 1, length, out) == length;
    /* The last bytes leave their buffer only now: a full disk may show here alone. */
    if (fclose(out) != 0 || !written) return complain(name, "cannot be written in full");
    printf("%s: %zu by %zu, %s, %zu bytes\n", name, width, height, kind, length);
    return 0;
}

/* The next character of a PGM header. A comment, from # to the end of its line, counts as that end. */
static int header_character(FILE *in)
{
    int c = getc(in);
    if (c == '#')
        while (c != '\n' && c != '\r' && c != EOF) c = getc(in);
    return c;
}

/* The next number of a PGM header, and the one white space after it: after the last number, samples begin right there. A number
   that no size_t holds counts as the largest one, which is too large for all three. */
static bool header_number(FILE *in, size_t *number)
{
    int c = header_character(in);
    while (isspace(c)) c = header_character(in);
    if (!isdigit(c)) return false;
    for (*number = 0; isdigit(c); c = header_character(in)) {
        size_t digit = (size_t)(c - '0');
        *number = *number <= (SIZE_MAX - digit) / 10 ? *number * 10 + digit : SIZE_MAX;
    }
    return isspace(c);
}

/* Reads what comes after P5: the size, and `count` samples. Returns what is wrong, or NULL. A file may hold further pictures; only
   the first one is read. */
static const char *read_pgm(FILE *in, size_t *width, size_t *height, size_t *count)
{
    size_t largest;
    if (!header_number(in, width) || !header_number(in, height) || !header_number(in, &largest))
        return "the PGM header is not width, height and largest value";
    if (largest == 0 || largest > 65535) return "the largest value of the PGM header is 0 or over 65535";
    /* Samples that have no room are not read: the library looks at the size first, and refuses it. */
    *count = *width <= MOST_SIDE && *height <= MOST_SIDE ? *width * *height : 0;
    for (size_t i = 0; i < *count; i++) {
        int high = largest > 255 ? getc(in) : 0; /* then a sample has two bytes */
        int low = getc(in);
        if (high == EOF || low == EOF) return "the PGM ends before its last sample";
        size_t value = (size_t)high * 256 + (size_t)low;
        if (value > largest) return "a sample is over the largest value of the PGM header";
        samples[i] = (float)value / (float)largest;
    }
    return NULL;
}

static int encode(FILE *in, const char *in_name, const char *out_name, bool snorm)
{
    size_t width, height, count, tile_length, length;
    const char *wrong = read_pgm(in, &width, &height, &count);
    if (ferror(in)) wrong = "cannot be read";
    if (wrong != NULL) return complain(in_name, wrong);

    uint32_t options = BC4_USE_INTER4 | BC4_MAX_REFINE_ITER(10) | BC4_HIGH_QUALITY | (snorm ? BC4_SNORM : 0);
    bc4_detail detail = {0, 0, 0, 0}; /* a call that has nothing to add leaves it so */
    uint32_t refused = bc4_encode_tile(samples, count, width, height, options, tile, sizeof tile, &tile_length, &detail);
    if (refused == BC4_OK)
        refused = bc4_write_dds(tile, tile_length, width, height, snorm, dds, sizeof dds, &length, &detail);
    if (refused != BC4_OK) return refuse(in_name, refused, &detail, width, height);
    return save(out_name, dds, length, width, height, snorm ? "signed" : "unsigned");
}

/* A number of the DDS header, its lowest byte first. */
static size_t dds_number(size_t at)
{
    return dds[at] | (size_t)dds[at + 1] << 8 | (size_t)dds[at + 2] << 16 | (size_t)dds[at + 3] << 24;
}

/* `length` bytes of IN are read already, to the front of `dds`. */
static int decode(FILE *in, size_t length, const char *in_name, const char *out_name)
{
    length += fread(dds + length, 1, sizeof dds - length, in);
    if (ferror(in)) return complain(in_name, "cannot be read");

    size_t width = dds_number(16), height = dds_number(12), offset; /* a size that is refused stays as the file has it */
    uint8_t snorm;
    bc4_detail detail = {0, 0, 0, 0};
    uint32_t refused = bc4_read_dds(dds, length, &width, &height, &snorm, &offset, &detail);
    if (refused != BC4_OK) return refuse(in_name, refused, &detail, width, height);

    size_t header = (size_t)snprintf((char *)pgm, sizeof pgm, "P5\n%zu %zu\n255\n", width, height);
    for (size_t row = 0; row < height / 4; row++)
        for (size_t column = 0; column < width / 4; column++) {
            size_t at;
            float block[16];
            refused = bc4_block_view(dds + offset, length - offset, width, height, column, row, &at, &detail);
            if (refused == BC4_OK) refused = bc4_decode_block(dds + offset + at, 8, snorm, block, &detail);
            if (refused != BC4_OK) return refuse(in_name, refused, &detail, width, height);
            for (size_t i = 0; i < 16; i++) /* samples are in 0 to 1, so that the half and the cast round to the nearest */
                pgm[header + (row * 4 + i / 4) * width + column * 4 + i % 4] = (uint8_t)(block[i] * 255.0 + 0.5);
        }
    return save(out_name, pgm, header + width * height, width, height, snorm ? "from signed blocks" : "from unsigned blocks");
}

int main(int count, char **words)
{
    if (count > 1 && (strcmp(words[1], "-h") == 0 || strcmp(words[1], "--help") == 0)) {
        printf("%s", usage);
        return 0;
    }
    bool snorm = count == 4 && strcmp(words[3], "signed") == 0;
    if (count != 3 && !snorm) {
        fprintf(stderr, "%s", usage);
        return 2;
    }
    FILE *in = fopen(words[1], "rb");
    if (in == NULL) return complain(words[1], "cannot be opened");
    int status;
    size_t length = fread(dds, 1, 2, in); /* these tell a PGM; else they are the first two of a DDS file */
    if (length == 2 && memcmp(dds, "P5", 2) == 0)
        status = encode(in, words[1], words[2], snorm);
    else if (length == 2 && dds[0] == 'P' && isdigit(dds[1]))
        status = complain(words[1], "the picture is of another kind than P5, the binary PGM");
    else if (snorm)
        status = complain(words[1], "'signed' is for a binary PGM (P5), which this is not");
    else
        status = decode(in, length, words[1], words[2]);
    fclose(in);
    return status;
}
