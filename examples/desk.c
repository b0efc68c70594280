/* Asks the search desk about the build paper's examples 1 to 3, and about loan lines of six places: which of two
 * records to keep, and where its variables go. From the repository's root:
 * cc -Iinclude examples/desk.c "$(rust/archive)" -o desk && ./desk */
#include <rauntiko.h>
#include <stdio.h>

static void print_term(uint8_t term) { printf("%c%d", term < 128 ? 'v' : 'c', term % 128); }

/* Prints where each variable goes. */
static void print_map(const uint8_t *map, size_t length) {
    for (size_t variable = 0; variable < length; variable++) {
        if (map[variable] == 255) continue;
        print_term((uint8_t)variable);
        printf(" to ");
        print_term(map[variable]);
        printf("\n");
    }
}

/* The length of a record without an answer record, its atoms with room for so many places. */
static size_t length(const uint8_t *record, size_t width) { return 1 + (1 + width) * record[0]; }

/* Asks whether each covers the other, without the maps, and which to keep, with its map. */
static void ask(const char *about, const uint8_t *first, const uint8_t *second, size_t width) {
    uint8_t map[RAUNTIKO_MAP];
    size_t a = length(first, width), b = length(second, width);
    uint8_t kept = rauntiko_kept(first, a, second, b, width, map, sizeof map);
    printf("%s: covers %d, converse %d, keep %d\n", about, rauntiko_covers(first, a, second, b, width, NULL, 0),
           rauntiko_covers(second, b, first, a, width, NULL, 0), kept);
    print_map(map, sizeof map);
}

int main(void) {
    const uint8_t any[] = {1, 0, 0, 1, 255, 255}, same[] = {1, 0, 0, 0, 255, 255}; /* p(v0,v1) and p(v0,v0) */
    const uint8_t some[] = {1, 1, 7, 255, 255, 255}, named[] = {1, 1, 128, 255, 255, 255}; /* q(v7) and q(c0) */
    const uint8_t ring[] = {2, 0, 0, 1, 255, 255, 0, 1, 0, 255, 255}; /* p(v0,v1) p(v1,v0) */
    const uint8_t point[] = {1, 0, 128, 128, 255, 255};               /* p(c0,c0) */
    const uint8_t loan[] = {1, 2, 0, 1, 2, 3, 4, 65}, line[] = {1, 2, 128, 0, 129, 1, 2, 2}; /* six places */
    uint8_t map[RAUNTIKO_MAP];
    ask("p(v0,v1) and p(v0,v0)", any, same, 4);
    ask("q(c0) and q(v7)", named, some, 4);
    ask("p(v0,v1) p(v1,v0) and p(c0,c0)", ring, point, 4);
    ask("p(v0,v1) and itself", any, any, 4);
    ask("p(v0,v1) and q(v7)", any, some, 4);
    ask("loan(v0,..,v4,v65) and loan(c0,v0,c1,v1,v2,v2)", loan, line, 6);
    printf("another width: covers %d, keep %d\n", rauntiko_covers(any, 6, same, 6, 5, NULL, 0),
           rauntiko_kept(any, 6, same, 6, 5, NULL, 0));
    printf("a record cut short: covers %d, turned round %d, keep %d\n",
           rauntiko_covers(any, 5, same, 6, 4, map, sizeof map), rauntiko_covers(same, 6, any, 5, 4, NULL, 0),
           rauntiko_kept(any, 5, same, 6, 4, NULL, 0));
    print_map(map, sizeof map);
    map[1] = 77; /* one byte is lent: the next one stays */
    uint8_t covers = rauntiko_covers(any, 6, same, 6, 4, map, 1);
    printf("room for one byte: covers %d, then %d\n", covers, map[1]);
    print_map(map, 1);
    return 0;
}
