/* Calls the static library's entries and writes each whole outcome as a line of JSON, in the shape of `bookexact --tables`; where an image is
 * written, with its length and its bytes in hexadecimal. Standard input: cases of call.h. Tables hold garbage first, and bytes beside each slice and
 * past each length are watched. */
#include "call.h"

static void text(const uint8_t *s, size_t n)
{
    putchar('"');
    for (size_t i = 0; i < n; i++) {
        if (s[i] == '\n') fputs("\\n", stdout);
        else if (s[i] == '"' || s[i] == '\\') printf("\\%c", s[i]);
        else if (s[i] < 32 || s[i] > 126) printf("\\u%04x", s[i]);
        else putchar(s[i]);
    }
    putchar('"');
}

static void table(const uint32_t *w, size_t n)
{
    while (n && w[n - 1] == 0) n--;
    putchar('[');
    for (size_t i = 0; i < n; i++) printf("%s%u", i ? ", " : "", (unsigned)w[i]);
    putchar(']');
}

int main(void)
{
    struct call c;
    while (call_read(&c)) {
        call_lend(&c);
        call_enter(&c);
        const char *strayed = call_strayed(&c);
        if (strayed) call_fail(strayed);
        printf("{\"number\": %u, \"line\": %u, \"out_len\": %zu, \"output\": ", (unsigned)c.r.number, (unsigned)c.r.line, c.r.length);
        text(c.output, c.r.length);
        fputs(", \"tables\": {", stdout);
        for (int k = 0; k < 7; k++) {
            printf("%s\"%s\": ", k ? ", " : "", table_names[k]);
            table(c.table[k], c.len[k]);
        }
        putchar('}');
        if (call_writes(&c)) {
            printf(", \"image_len\": %zu, \"image\": \"", c.r.image_length);
            for (size_t i = 0; i < c.r.image_length; i++) printf("%02x", c.next[i]);
            putchar('"');
        }
        puts("}");
        fflush(stdout);
        call_free(&c);
        free((void *)c.book);
        free((void *)c.image);
    }
    return 0;
}
