/* Writes the book on standard input in the new form, or with the word `old` in the old one; or why it has none. From the
 * root: cc -Iinclude examples/copy.c "$(rust/archive)" -o copy && ./copy <books/printed.book >new.book */
#include <rauntiko.h>
#include <stdio.h>
#include <string.h>

static uint8_t book[65536], out[RAUNTIKO_BOOK_ROOM];

int main(int count, char **words) {
    int old = count > 1 && strcmp(words[1], "old") == 0;
    size_t length = fread(book, 1, sizeof book, stdin), place = 0;
    uint8_t number = old ? rauntiko_to_old(book, length, out, sizeof out, &place)
                         : rauntiko_to_new(book, length, out, sizeof out, &place);
    if (number != 0) return printf("refused %d at %zu\n", number, place) < 0;
    return fwrite(out, 1, place, stdout) != place;
}
