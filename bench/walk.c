// Finds documents by plain merges of LEB128 lists: walk FORM ROUNDS FOLDER DOCUMENTS CELLS LIST.. decodes the lists, files of the
// folder, as it goes, beside the list D of the documents' ends, and prints how many documents all rounds found.
#include <stdint.h>
#include <stdio.h>
#include <stdlib.h>
#include <string.h>

enum { MOST = 1024 };
static const uint64_t TOP = 1ull << 62;

typedef struct {
    uint8_t *bytes, *end, *at;
    uint64_t location, previous;
} Reader;

static Reader load(const char *folder, const char *name) {
    char path[4096];
    snprintf(path, sizeof path, "%s/%s", folder, name);
    FILE *file = fopen(path, "rb");
    if (!file) exit(4);
    fseek(file, 0, SEEK_END);
    size_t length = ftell(file);
    rewind(file);
    Reader reader = {.bytes = malloc(length + 1)};
    if (fread(reader.bytes, 1, length, file) != length) exit(5);
    fclose(file);
    reader.end = reader.bytes + length;
    return reader;
}

static inline void next(Reader *reader) {
    reader->previous = reader->location;
    if (reader->at >= reader->end) {
        reader->location = TOP;
        return;
    }
    uint64_t gap = 0;
    unsigned shift = 0;
    uint8_t byte;
    do {
        byte = *reader->at++;
        gap |= (uint64_t)(byte & 127) << shift;
        shift += 7;
    } while (byte & 128 && reader->at < reader->end);
    reader->location += gap;
}

static inline void start(Reader *reader) {
    reader->at = reader->bytes;
    reader->location = reader->previous = 0;
    next(reader);
}

static inline void seek(Reader *reader, uint64_t to) {
    while (reader->location < to) next(reader);
}

static inline uint64_t less(uint64_t a, uint64_t b) { return a < b ? a : b; }
static inline uint64_t more(uint64_t a, uint64_t b) { return a < b ? b : a; }

// Each document that has the word.
static size_t one(Reader *end, Reader *word, uint64_t *found) {
    size_t count = 0;
    while (word->location < TOP) {
        seek(end, word->location);
        found[count++] = end->location;
        seek(word, end->location + 1);
    }
    return count;
}

// Each document that has both words.
static size_t both(Reader *end, Reader *a, Reader *b, uint64_t *found) {
    size_t count = 0;
    while (a->location < TOP && b->location < TOP) {
        seek(end, more(a->location, b->location));
        seek(a, end->previous + 1);
        seek(b, end->previous + 1);
        if (a->location <= end->location && b->location <= end->location) {
            found[count++] = end->location;
            seek(a, end->location + 1);
            seek(b, end->location + 1);
        }
    }
    return count;
}

// Each document in which the second word stands right behind the first.
static size_t phrase(Reader *end, Reader *a, Reader *b, uint64_t *found) {
    size_t count = 0;
    while (a->location < TOP && b->location < TOP) {
        if (a->location + 1 < b->location) {
            seek(a, b->location - 1);
        } else if (a->location + 1 > b->location) {
            seek(b, a->location + 1);
        } else {
            seek(end, b->location);
            if (end->previous < a->location) {
                found[count++] = end->location;
                seek(a, end->location + 1);
                seek(b, end->location + 1);
            } else {
                next(a);
            }
        }
    }
    return count;
}

// Each document in which the two words are five places apart at most.
static size_t near(Reader *end, Reader *a, Reader *b, uint64_t *found) {
    size_t count = 0;
    while (a->location < TOP && b->location < TOP) {
        if (a->location + 5 < b->location) {
            seek(a, b->location - 5);
        } else if (b->location + 5 < a->location) {
            seek(b, a->location - 5);
        } else {
            seek(end, more(a->location, b->location));
            if (end->previous < less(a->location, b->location)) {
                found[count++] = end->location;
                seek(a, end->location + 1);
                seek(b, end->location + 1);
            } else {
                seek(a, end->previous + 1);
                seek(b, end->previous + 1);
            }
        }
    }
    return count;
}

// Each document that has one of two words.
static size_t either(Reader *end, Reader *a, Reader *b, uint64_t *found) {
    size_t count = 0;
    while (a->location < TOP || b->location < TOP) {
        seek(end, less(a->location, b->location));
        found[count++] = end->location;
        seek(a, end->location + 1);
        seek(b, end->location + 1);
    }
    return count;
}

// Each document that has not the word.
static size_t without(Reader *end, Reader *word, uint64_t *found) {
    size_t count = 0;
    while (end->location < TOP) {
        seek(word, end->previous + 1);
        if (word->location > end->location) found[count++] = end->location;
        next(end);
    }
    return count;
}

// Each document that has one of many words, by a mark for each document.
static size_t many(Reader *end, Reader *words, int lists, uint64_t cells, uint8_t *seen, uint64_t *found) {
    size_t count = 0;
    for (int k = 0; k < lists; k++) {
        while (words[k].location < TOP) {
            seen[(words[k].location - 1) / cells] = 1;
            next(&words[k]);
        }
    }
    while (end->location < TOP) {
        if (seen[(end->location - 1) / cells]) found[count++] = end->location;
        next(end);
    }
    return count;
}

int main(int count, char **words) {
    if (count < 7 || count > 6 + MOST) return 2;
    const char *form = words[1], *folder = words[3];
    long rounds = atol(words[2]);
    size_t documents = atol(words[4]);
    uint64_t cells = atol(words[5]);
    int lists = count - 6;
    static Reader readers[MOST];
    for (int k = 0; k < lists; k++) readers[k] = load(folder, words[6 + k]);
    Reader end = load(folder, "D");
    uint64_t *found = malloc(8 * documents), all = 0;
    uint8_t *seen = malloc(documents);
    for (long round = 0; round < rounds; round++) {
        for (int k = 0; k < lists; k++) start(&readers[k]);
        start(&end);
        if (!strcmp(form, "one")) {
            all += one(&end, readers, found);
        } else if (!strcmp(form, "both") && lists == 2) {
            all += both(&end, readers, readers + 1, found);
        } else if (!strcmp(form, "phrase") && lists == 2) {
            all += phrase(&end, readers, readers + 1, found);
        } else if (!strcmp(form, "near") && lists == 2) {
            all += near(&end, readers, readers + 1, found);
        } else if (!strcmp(form, "either") && lists == 2) {
            all += either(&end, readers, readers + 1, found);
        } else if (!strcmp(form, "without")) {
            all += without(&end, readers, found);
        } else if (!strcmp(form, "many")) {
            memset(seen, 0, documents);
            all += many(&end, readers, lists, cells, seen, found);
        } else {
            return 2;
        }
        __asm__ volatile("" : "+r"(all) : "r"(found) : "memory");
    }
    printf("%lu\n", all);
    return 0;
}
