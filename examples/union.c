/* Prints the union of the book on standard input, or the refusal, as the printing program does. From the root:
 * cc -Iinclude examples/union.c "$(rust/archive)" -o union && ./union <books/printed.book */
#include <rauntiko.h>
#include <stdio.h>

static uint8_t book[65536], out[RAUNTIKO_OUTPUT_ROOM];

/* Prints an atom or an answer record: five bytes, or seven. */
static void print_atom(const uint8_t *atom, size_t bytes) {
    atom[0] == 255 ? printf("a") : printf("r%d", atom[0]);
    for (size_t i = 1; i < bytes && atom[i] != 255; i++)
        printf("%c%c%d", i == 1 ? '(' : ',', atom[i] < 128 ? 'v' : 'c', atom[i] % 128);
    printf(")");
}

int main(void) {
    size_t length = fread(book, 1, sizeof book, stdin), place = 0;
    size_t bytes = book[10] == 20 && book[11] == 0 ? 7 : 5; /* of an atom: a book with relations at 20 is a new one */
    uint8_t number = rauntiko_run(book, length, out, sizeof out, &place);
    if (number != 0) return printf("refused %d at %zu\n", number, place) < 0;
    printf("members %d explored %d\n", out[0] + 256 * out[1], out[2] + 256 * out[3]);
    for (size_t at = 8; at < place; printf("\n")) {
        int atoms = out[at++], answered = at < place && out[at] == 255;
        for (int i = 0; i < atoms + answered; i++, at += bytes) {
            if (i > 0) printf(" ");
            print_atom(out + at, bytes);
        }
        if (atoms == 0) printf(answered ? " always" : "always");
    }
    return 0;
}
