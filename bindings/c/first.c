/* Prints what is in a certificate: first FILE
   The exit status is that of wd_show_certificate, or 4 if the file can't be read or has 65,536
   bytes or more: wd_show_certificate never returns 4. */
#include <stdio.h>
#include <wurstdrape.h>

int main(int count, char **words) {
    static uint8_t der[65536], text[65536];
    if (count != 2) {
        fputs("usage: first FILE\n", stderr);
        return WD_ARGUMENTS;
    }
    FILE *file = fopen(words[1], "rb");
    size_t length, der_len = file ? fread(der, 1, sizeof der, file) : 0;
    if (!file || ferror(file)) {
        perror(words[1]);
        return WD_ARGUMENTS;
    }
    if (der_len == sizeof der) {
        fputs("the file has 65,536 bytes or more\n", stderr);
        return WD_ARGUMENTS;
    }
    uint32_t status = wd_show_certificate(der, der_len, text, sizeof text, &length);
    if (status == WD_DONE) fwrite(text, 1, length, stdout);
    return (int)status;
}
