/* Prepares a book, loads three words, cuts a sentence, then for search too, and prints the words; then cuts one for a browser
 * and prints where its words stand there. tools/library compiles and runs it. */
#include <stdio.h>
#include <string.h>
#include "tongsvale.h"

/* The book: 1 root entry, so that every character takes a slot; slots for 2 + 2 + 1 characters, since 客厅灯 shares two with 客厅;
 * 4 records, one more than there are words. */
TONGSVALE_STATIC_BOOK(book, 1, TONGSVALE_SLOTS(5), 4);

/* For sentences of up to 31 characters. At one place at most two words start, 客厅 and 客厅灯. Search takes more tokens than the
 * plain cut. */
TONGSVALE_STATIC_WORK(work, 31, TONGSVALE_EDGES(31, 2), TONGSVALE_SEARCH_PLACES(31));

/* Cuts by a mode and prints the words in a line. With marks each word has its start and its end in UTF-16 code units beside it,
 * by which a browser finds it in the sentence. */
static int print_words(const char *sentence, uint32_t mode, int marks) {
    struct tongsvale_cut_result cut = tongsvale_book_tokenize(&book, sentence, strlen(sentence), mode, &work);
    if (cut.number != TONGSVALE_DONE) {
        fprintf(stderr, "not cut: %s\n", tongsvale_outcome_text(cut.number));
        return 1;
    }
    for (size_t i = 0; i < cut.count; i++) {
        struct tongsvale_token token = tongsvale_token_at(&work, i);
        printf("%s%.*s", i == 0 ? "" : " ", (int)(token.byte_end - token.byte_start), sentence + token.byte_start);
        if (marks)
            printf(" %u-%u", (unsigned)token.utf16_start, (unsigned)token.utf16_end);
    }
    printf("\n");
    return 0;
}

int main(void) {
    static const char text[] = "打开 256\n客厅 128\n客厅灯 64\n";
    static const char sentence[] = "打开客厅灯!";
    if (tongsvale_book_prepare(&book) != TONGSVALE_DONE)
        return 1;
    struct tongsvale_load_result loaded = tongsvale_book_load(&book, text, strlen(text));
    if (loaded.number != TONGSVALE_DONE) {
        fprintf(stderr, "line %zu: %s\n", loaded.line, tongsvale_outcome_text(loaded.number));
        return 1;
    }
    /* 😀 is one character of four bytes, and two units. */
    return print_words(sentence, TONGSVALE_DEFAULT, 0) || print_words(sentence, TONGSVALE_SEARCH, 0)
        || print_words("😀打开客厅灯", TONGSVALE_DEFAULT, 1);
}
