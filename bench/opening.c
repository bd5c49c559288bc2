// Opens an index as the program does, with the same reads and tests of root and tables: opening FILE reads the counting root, the journal's
// half, and head and tables of each level, keeps a span for each term with its text spelled out and the place of its list, the rows of the
// documents, and these rows by their names in a table of hashes, and prints how many documents and terms there are. It ends with 6 where a
// rule is broken. Deletion lists and records of the journal are not read: the index is one behind a merge.
#include <fcntl.h>
#include <stdint.h>
#include <stdio.h>
#include <stdlib.h>
#include <string.h>
#include <sys/stat.h>
#include <unistd.h>

enum { SLOT = 4096, HALVES = 8192, HALF = 1048576, LEVELS = 2105344, MOST_LEVELS = 16 };
static const uint64_t LIMIT = 1ull << 62;

typedef struct { uint64_t number, first, cells; char *name; } Row;
typedef struct { uint64_t text, length, count, place, stream, summary; } Span;
typedef struct { const uint8_t *at, *end; } Part;

static int file;
static const Row **names;
static uint64_t room, held;

static void broken(void) { exit(6); }

static uint64_t wide(const uint8_t *bytes) {
    uint64_t number = 0;
    for (int i = 0; i < 8; i++) number = number << 8 | bytes[i];
    return number;
}

static uint8_t *read_at(uint64_t place, uint64_t length) {
    uint8_t *bytes = malloc(length + 1);
    if (!bytes || pread(file, bytes, length, place) != (ssize_t)length) exit(2);
    return bytes;
}

// A number in its shortest spelling.
static inline uint64_t number(Part *part) {
    uint64_t value = 0;
    for (unsigned shift = 0; shift < 64; shift += 7) {
        if (part->at == part->end) broken();
        uint8_t byte = *part->at++;
        if (shift == 63 && byte > 1) broken();
        value |= (uint64_t)(byte & 127) << shift;
        if (byte < 128) {
            if (byte == 0 && shift > 0) broken();
            return value;
        }
    }
    broken();
    return 0;
}

static const uint8_t *taken(Part *part, uint64_t length) {
    if (length > (uint64_t)(part->end - part->at)) broken();
    const uint8_t *bytes = part->at;
    part->at += length;
    return bytes;
}

static uint64_t hash(const char *name) {
    uint64_t sum = 0xcbf29ce484222325;
    for (; *name; name++) sum = (sum ^ (uint8_t)*name) * 0x100000001b3;
    return sum;
}

// Puts a row into the table, which has room, by its name, and is broken where the name is there.
static void note(const Row *row) {
    uint64_t at = hash(row->name) & (room - 1);
    while (names[at]) {
        if (!strcmp(names[at]->name, row->name)) broken();
        at = (at + 1) & (room - 1);
    }
    names[at] = row;
    held++;
}

static void make_room(uint64_t count) {
    if (room && (held + count) * 8 <= room * 7) return;
    const Row **old = names;
    uint64_t before = room;
    for (room = 16; room * 7 < (held + count) * 8;) room *= 2;
    names = calloc(room, sizeof *names);
    if (!names) exit(5);
    held = 0;
    for (uint64_t i = 0; i < before; i++)
        if (old[i]) note(old[i]);
    free(old);
}

static Row *documents(Part part, uint64_t count) {
    Row *rows = malloc((count + 1) * sizeof *rows);
    if (!rows) exit(5);
    uint64_t last = 0, end = 0;
    for (uint64_t i = 0; i < count; i++) {
        uint64_t more = number(&part), gap = number(&part), cells = number(&part);
        if (more == 0 || more >= LIMIT - last || gap == 0 || gap >= LIMIT - end || cells < 3 || cells > 262146 || cells - 1 >= LIMIT - end - gap) broken();
        uint64_t length = *taken(&part, 1);
        if (length < 1 || length > 64) broken();
        const uint8_t *bytes = taken(&part, length);
        for (uint64_t k = 0; k < length; k++)
            if (bytes[k] < 0x21 || bytes[k] > 0x7e) broken();
        char *name = malloc(length + 1);
        if (!name) exit(5);
        memcpy(name, bytes, length);
        name[length] = 0;
        rows[i] = (Row){last + more, end + gap, cells, name};
        last += more;
        end += gap + cells - 1;
    }
    if (part.at != part.end) broken();
    return rows;
}

// The terms of a level, spelled out one behind the other, with the places of their lists behind the first, and where the lists of all end.
static uint64_t terms(Part part, uint64_t count) {
    uint64_t most = 4096, used = 0, lists = 0, has_end = 0;
    uint8_t *text = malloc(most);
    Span *spans = malloc((count + 1) * sizeof *spans);
    if (!text || !spans) exit(5);
    for (uint64_t i = 0; i < count; i++) {
        uint64_t shared = number(&part), rest = number(&part);
        uint64_t before = i ? spans[i - 1].length : 0;
        if (shared > before || rest == 0 || shared + rest > 129) broken();
        const uint8_t *bytes = taken(&part, rest);
        if (used + 129 > most) {
            most *= 2;
            if (!(text = realloc(text, most))) exit(5);
        }
        uint8_t *term = text + used;
        if (i) {
            const uint8_t *other = text + spans[i - 1].text;
            memmove(term, other, shared);
            if (shared < before && bytes[0] <= other[shared]) broken();
        }
        memcpy(term + shared, bytes, rest);
        if (!strchr("WXNSTD", term[0]) || !term[0]) broken();
        has_end |= shared + rest == 1 && term[0] == 'D';
        Span span = {used, shared + rest, number(&part), lists, number(&part), number(&part)};
        if (span.count == 0 || span.stream >= LIMIT || span.summary >= LIMIT) broken();
        used += span.length;
        lists += span.stream + span.summary;
        spans[i] = span;
    }
    if (part.at != part.end || !has_end) broken();
    return lists;
}

int main(int count, char **words) {
    struct stat stat;
    if (count != 2 || (file = open(words[1], O_RDONLY)) < 0 || fstat(file, &stat)) return 2;
    const uint8_t *slots = read_at(0, 2 * SLOT);
    int a = slots[0] == 0xa5, b = slots[SLOT] == 0xa5;
    if (!a && !b) return 7;
    int second = b && (!a || slots[SLOT + 2] == (uint8_t)(slots[2] + 1));
    const uint8_t *root = slots + second * SLOT;
    read_at(HALVES + second * HALF, HALF);
    uint64_t all_documents = 0, all_terms = 0;
    if (root[3] > MOST_LEVELS) broken();
    for (int i = 0; i < root[3]; i++) {
        uint64_t place = wide(root + 40 + 16 * i), bytes = wide(root + 48 + 16 * i);
        if (place < LEVELS || bytes < 32 || place > (uint64_t)stat.st_size || bytes > (uint64_t)stat.st_size - place) broken();
        const uint8_t *head = read_at(place, 32);
        uint64_t rows = wide(head), spans = wide(head + 8), documents_length = wide(head + 16), terms_length = wide(head + 24);
        if (documents_length > bytes - 32 || terms_length > bytes - 32 - documents_length || rows == 0 || rows > documents_length || spans > terms_length) broken();
        const uint8_t *tables = read_at(place + 32, documents_length + terms_length);
        Row *found = documents((Part){tables, tables + documents_length}, rows);
        uint64_t lists = terms((Part){tables + documents_length, tables + documents_length + terms_length}, spans);
        if (lists != bytes - 32 - documents_length - terms_length) broken();
        make_room(rows);
        for (uint64_t k = 0; k < rows; k++) note(&found[k]);
        all_documents += rows;
        all_terms += spans;
    }
    printf("%llu %llu\n", (unsigned long long)all_documents, (unsigned long long)all_terms);
    return 0;
}
